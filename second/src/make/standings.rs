//! Sheets with about as many pairs of a left and a right standing as there are bits
//! in a small room: just as many, a few less and a few more.

use super::said::said_sheet;
use super::Dice;
use crate::pattern::MOST_LEAVES;
use crate::sheet::MOST_SIDE;
use crate::write::{self, choice, many, tokens};
use crate::SITUATION_BYTES;

/// The bits of a room for one situation.
const BITS: usize = 8 * SITUATION_BYTES;
/// A side's end, its hidden field's two and the start of its own field.
const BESIDE: usize = 4;
/// The field and the two characters behind it.
const FRONT: usize = 3;
/// The fewest and the most standings of a side that is made here.
const FEWEST: usize = BESIDE + 1 + FRONT - 1;
const MOST: usize = BESIDE + MOST_LEAVES + MOST_SIDE - 1;

/// One sheet: x and y any number of digits, `AB` behind the one, and behind the
/// other `BA`, so that there is no label, or `AB`, so that there is one.
pub(super) fn sheet(dice: &mut Dice) -> Vec<u8> {
    let [left, right] = numbers(dice);
    let other = dice.pick(&["eBA", "eBA", "eBA", "eAB"]);
    let (a, left) = side(dice, "aAB", left);
    let (b, right) = side(dice, other, right);
    let written = write::sheet(&[(0, digits(a)), (4, digits(b))], &left, &right);
    said_sheet(dice, &written)
}

/// The standings of the two sides.
fn numbers(dice: &mut Dice) -> [usize; 2] {
    let bits = dice.between(1, 3) * BITS;
    let mut both: Vec<[usize; 2]> = Vec::new();
    // One more or less on the right and it is too far off.
    for left in FEWEST..=MOST {
        both.extend([bits / left, bits.div_ceil(left), bits / left + 1].map(|right| [left, right]));
    }
    both.retain(|[_, right]| (FEWEST..=MOST).contains(right));
    // Those that fit exactly are few.
    let exact: Vec<[usize; 2]> = both.iter().copied().filter(|of| of[0] * of[1] == bits).collect();
    if dice.one_in(3) && !exact.is_empty() {
        dice.pick(&exact)
    } else {
        dice.pick(&both)
    }
}

/// A side of so many standings that begins so, and the leaves of its field.
fn side(dice: &mut Dice, front: &str, standings: usize) -> (usize, Vec<u8>) {
    let mut side = tokens(front);
    let fewest = (standings - BESIDE).saturating_sub(MOST_LEAVES).max(FRONT - 1);
    let most = (standings - BESIDE - 1).min(MOST_SIDE - 1);
    let characters = dice.between(fewest, most);
    // Behind the front stands what both sides have, so that letters don't differ
    // more often than they have to.
    side.extend((FRONT - 1..characters).map(|_| write::values("B")[0]));
    (standings - BESIDE - characters, side)
}

/// Any number of digits, by a choice of so many leaves.
fn digits(leaves: usize) -> Vec<u8> {
    many(choice((0..leaves).map(|leaf| vec![leaf as u8 % 10]).collect()))
}
