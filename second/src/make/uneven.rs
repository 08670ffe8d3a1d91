//! Sheets whose letters just come out even, or just don't: fields of few weights or
//! of a step, fields without a pattern and fields that stand in both sides.

use super::said::said_sheet;
use super::{Dice, SPACE};
use crate::write::{self, choice, many, row, text, values};

/// The signs that are fixed, and that fields hold.
const SIGNS: &str = "AB4";

/// One sheet.
pub(super) fn sheet(dice: &mut Dice) -> Vec<u8> {
    let fields = dice.between(1, 4);
    let mut sides = [side(dice, fields), side(dice, fields)];
    // One more on either side, so that the one or the other weighs more.
    for side in &mut sides {
        for _ in 0..dice.pick(&[0, 0, 1, 2, 3]) {
            let at = dice.below(side.len() + 1);
            side.insert(at, sign(dice));
        }
    }
    let stands = |number: u8| sides.iter().any(|side| side.contains(&write::field(number)));
    let numbers: Vec<u8> = (0..fields as u8).filter(|&number| stands(number)).collect();
    let held = numbers.into_iter().filter_map(|number| Some((number, pattern(dice)?)));
    let patterns: Vec<(u8, Vec<u8>)> = held.collect();
    let written = write::sheet(&patterns, &sides[0], &sides[1]);
    said_sheet(dice, &written)
}

/// Fields, each often more than once, and signs between.
fn side(dice: &mut Dice, fields: usize) -> Vec<u8> {
    let mut side = Vec::new();
    for _ in 0..dice.below(7) {
        side.push(match dice.below(3) {
            0 => sign(dice),
            _ => write::field(dice.below(fields) as u8),
        });
    }
    side
}

/// A sign, now and then a space: that one never counts.
fn sign(dice: &mut Dice) -> u8 {
    if dice.one_in(8) {
        SPACE
    } else {
        dice.pick(&values(SIGNS))
    }
}

/// What a field holds; none where it has no pattern.
fn pattern(dice: &mut Dice) -> Option<Vec<u8>> {
    let one = vec![sign(dice)];
    let other = vec![sign(dice)];
    let of = match dice.below(12) {
        // one weight
        0 => one,
        1 => text("A4A"),
        // least and most
        2 => choice(vec![vec![64], one]),
        3 => choice(vec![row(vec![one.clone(), one]), other]),
        4 => vec![65, 4, 10],
        5 => vec![65, 10, 11],
        6 => vec![65, 36, SPACE],
        // a step
        7 => many(row(vec![one, other])),
        8 => many(row(vec![one.clone(), one.clone(), one])),
        9 => row(vec![one.clone(), many(row(vec![one, other.clone(), other]))]),
        10 => choice(vec![text("A"), text("AAAA")]),
        _ => return None,
    };
    Some(of)
}
