//! Sheets with fields that stand twice and hold texts of a few lengths: none, three
//! and more or less, 24 and one more or less, and none of at most 24.

use super::said::said_sheet;
use super::Dice;
use crate::write::{self, choice, many, row};

/// One sheet. Often the fields of the right side are 4 to 7, as in a pair of rules.
pub(super) fn sheet(dice: &mut Dice) -> Vec<u8> {
    let fields: &[u8] = dice.pick(&[&[0, 0][..], &[0, 0, 1]]);
    let mut patterns: Vec<(u8, Vec<u8>)> = (0..2).map(|field| (field, pattern(dice))).collect();
    let left = side(dice, fields);
    let right = match dice.below(4) {
        0 => written_out(dice, &left),
        1 => side(dice, &fields[1..]),
        2 => side(dice, &[4, 5]),
        _ => {
            patterns.push((4, pattern(dice)));
            side(dice, &[4, 4])
        }
    };
    patterns.retain(|(field, _)| [&left, &right].iter().any(|side| side.contains(&(64 + field))));
    let written = write::sheet(&patterns, &left, &right);
    said_sheet(dice, &written)
}

/// The label of the side, each field with the same digit a few times.
fn written_out(dice: &mut Dice, side: &[u8]) -> Vec<u8> {
    let digit = dice.below(2) as u8;
    let text = vec![digit; dice.below(7)];
    let of = |&token: &u8| if token < write::field(0) { vec![token] } else { text.clone() };
    side.iter().flat_map(of).collect()
}

/// These fields, in any order, and a few signs between.
fn side(dice: &mut Dice, fields: &[u8]) -> Vec<u8> {
    let mut side: Vec<u8> = fields.iter().map(|&field| write::field(field)).collect();
    for _ in 0..dice.below(3) {
        side.push(dice.pick(&[0, 1, 36]));
    }
    dice.shuffle(&mut side);
    side
}

/// A pattern of one length, of a few or of any.
fn pattern(dice: &mut Dice) -> Vec<u8> {
    match dice.below(8) {
        // any length, or any from one on
        0 => many(of_length(dice, 1)),
        1 => {
            let least = dice.between(1, 4);
            row(vec![of_length(dice, least), many(of_length(dice, 1))])
        }
        // each multiple
        2 => {
            let step = dice.between(2, 5);
            many(of_length(dice, step))
        }
        // none of at most 24, or just one
        3 => {
            let length = dice.pick(&[23, 24, 25, 26]);
            of_length(dice, length)
        }
        4 => {
            let (short, long) = (dice.below(4), dice.pick(&[22, 24, 25, 28]));
            choice(vec![of_length(dice, short), of_length(dice, long)])
        }
        _ => {
            let number = dice.between(1, 3);
            let lengths: Vec<usize> = (0..number).map(|_| dice.below(7)).collect();
            choice(lengths.into_iter().map(|length| of_length(dice, length)).collect())
        }
    }
}

/// Texts of so many characters.
fn of_length(dice: &mut Dice, length: usize) -> Vec<u8> {
    let leaf = dice.pick(&[&[0][..], &[1], &[65, 0, 1], &[65, 0, 9]]);
    row(vec![leaf.to_vec(); length])
}
