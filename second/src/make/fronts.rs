//! Pairs of sides to be told apart by what is fixed in them: those that are made
//! one by one, and others from a seed. No side has more than 64 bytes.

use super::{pairs, Dice};
use crate::edition::{Edition, FIRST, SECOND};
use crate::fronts::Case;
use crate::sheet::{read, Token, FIELDS};

/// Numbers around those of the editions, and such that no byte holds.
const NUMBERS: [u64; 14] =
    [0, 1, 2, 3, 4, 254, 255, 256, 258, 1 << 32, (1 << 32) + 2, 1 << 63, (1 << 63) + 2, u64::MAX];

fn case(edition: Edition, left: &[u8], right: &[u8]) -> Case {
    Case { edition: edition.number(), left: left.to_vec(), right: right.to_vec() }
}

/// Those that are made one by one.
pub fn each() -> Vec<Case> {
    let mut cases = Vec::new();
    for edition in [FIRST, SECOND] {
        short(&mut cases, edition);
        each_byte(&mut cases, edition);
        long(&mut cases, edition);
    }
    // Sides that differ in both editions, in one, and in none.
    let sides: [[&[u8]; 2]; 4] =
        [[&[1], &[2]], [&[1, 64], &[1, 65]], [&[1, 192], &[2]], [&[], &[]]];
    for edition in NUMBERS {
        let of =
            |[left, right]: [&[u8]; 2]| Case { edition, left: left.into(), right: right.into() };
        cases.extend(sides.map(of));
    }
    cases
}

/// Every pair of sides of at most two tokens: two characters, the space, the first
/// and the last field, and the token of a hidden field, which is none.
fn short(cases: &mut Vec<Case>, edition: Edition) {
    let last = edition.codes + FIELDS as u8 - 1;
    let tokens = [1, 2, edition.space, edition.codes, last, last + 1];
    let mut sides = vec![vec![]];
    for one in tokens {
        sides.push(vec![one]);
        sides.extend(tokens.map(|two| vec![one, two]));
    }
    for left in &sides {
        cases.extend(sides.iter().map(|right| case(edition, left, right)));
    }
}

/// Each byte at each place of a side that differs from the other in front and at
/// its end; in the other side too.
fn each_byte(cases: &mut Vec<Case>, edition: Edition) {
    let (side, other) = ([1, edition.codes, 2, 3], [4, edition.codes, 5]);
    for byte in 0..=u8::MAX {
        for at in 0..side.len() {
            let mut changed = side;
            changed[at] = byte;
            cases.push(case(edition, &changed, &other));
            cases.push(case(edition, &other, &changed));
        }
    }
}

/// Sides of more tokens than a sheet's may have, which differ at their last place,
/// at their first, or nowhere.
fn long(cases: &mut Vec<Case>, edition: Edition) {
    for length in [24, 25, 48, 49, 64] {
        let same = vec![1; length];
        for (at, byte) in [(length - 1, 2), (0, 2), (0, 1), (length / 2, edition.codes)] {
            let mut side = same.clone();
            side[at] = byte;
            cases.push(case(edition, &side, &same));
            cases.push(case(edition, &same[1..], &side));
        }
    }
}

/// One case from a seed.
pub fn made(dice: &mut Dice) -> Case {
    let edition = dice.edition;
    let [mut left, mut right] = if dice.one_in(2) { paired(dice) } else { alike(dice) };
    if dice.one_in(6) {
        let side = if dice.one_in(2) { &mut left } else { &mut right };
        side.insert(dice.below(side.len() + 1), dice.byte());
    }
    let number = if dice.one_in(20) { dice.pick(&NUMBERS) } else { edition.number() };
    Case { edition: number, left, right }
}

/// The sides of a pair of rules as storerooms write them.
fn paired(dice: &mut Dice) -> [Vec<u8>; 2] {
    let question = read(&pairs::case(dice, false, 0).sheet).expect("a pair is a good sheet");
    [question.left, question.right].map(|side| {
        // without its hidden field
        let tokens = &side[..side.len() - 1];
        tokens.iter().map(|token: &Token| token.byte(question.edition)).collect()
    })
}

/// Sides with the same front and the same end, and something between them or
/// behind them.
fn alike(dice: &mut Dice) -> [Vec<u8>; 2] {
    let (front, end) = (part(dice, false), part(dice, false));
    [(); 2].map(|()| {
        let middle = part(dice, true);
        let behind = if dice.one_in(3) { part(dice, true) } else { vec![] };
        [&front[..], &middle, &end, &behind].concat()
    })
}

/// A few characters, the space often among them, and fields where they may stand.
fn part(dice: &mut Dice, fields: bool) -> Vec<u8> {
    let Edition { space, codes, characters, .. } = dice.edition;
    let token = |dice: &mut Dice| match dice.below(if fields { 6 } else { 4 }) {
        0 | 1 => dice.pick(&[1, 2]),
        2 => space,
        3 => dice.below(characters.into()) as u8,
        _ => codes + dice.below(FIELDS) as u8,
    };
    (0..dice.pick(&[0, 1, 1, 2, 3, 6])).map(|_| token(dice)).collect()
}
