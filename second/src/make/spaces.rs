//! The ends of labels: spaces, fields, and patterns that take spaces or just do
//! not.

use super::{exactly, Dice, MOST_SIDE, SPACE};
use crate::write::{choice, many, row};

/// Drops the spaces at the end.
pub(super) fn drop(tokens: &mut Vec<u8>) {
    while tokens.last() == Some(&SPACE) {
        tokens.pop();
    }
}

/// Puts spaces or a field at the end of a side. Where the texts of a clash are
/// known it stays one.
pub(super) fn end(dice: &mut Dice, side: &mut Vec<u8>, texts: &[(u8, Vec<u8>)]) {
    match dice.below(12) {
        0..=2 => side.extend(vec![SPACE; dice.between(1, 3)]),
        3 => side.resize(side.len().max(dice.between(20, MOST_SIDE)), SPACE),
        4 => drop(side),
        5 => {
            let blank = |text: &[u8]| text.iter().all(|&value| value == SPACE);
            side.extend(texts.iter().find(|(_, text)| blank(text)).map(|(field, _)| 64 + field));
            side.extend(vec![SPACE; dice.below(2)]);
        }
        6 | 7 if texts.is_empty() => {
            if let Some(at) = side.iter().rposition(|&token| token >= 64) {
                let last = side.len() - 1;
                side.swap(at, last);
                side.extend(vec![SPACE; dice.pick(&[0, 0, 1, 2])]);
            }
        }
        _ => {}
    }
    side.truncate(MOST_SIDE);
}

/// A pattern that has to do with spaces: of them alone, of the characters next
/// to them, or one with spaces at its end.
pub(super) fn pattern(dice: &mut Dice, alphabet: &[u8], text: Option<&[u8]>) -> Vec<u8> {
    let space = || vec![SPACE];
    let some = match dice.below(10) {
        0..=2 => return many(space()),
        3 => return row(vec![vec![SPACE]; dice.between(1, 3)]),
        4 => return next_to_spaces(dice),
        5 => return many(next_to_spaces(dice)),
        6 | 7 => many(space()),
        8 => space(),
        _ => choice(vec![vec![64], space()]),
    };
    let mut front = match text {
        Some(text) => text.to_vec(),
        None => vec![dice.pick(alphabet)],
    };
    if dice.one_in(2) {
        drop(&mut front);
    }
    row(vec![exactly(&front), some])
}

/// A range that ends or begins at the space, or right beside it.
fn next_to_spaces(dice: &mut Dice) -> Vec<u8> {
    let (lo, hi) =
        dice.pick(&[(36, 38), (36, 37), (38, 38), (38, 39), (39, 42), (0, 38), (10, 37)]);
    vec![65, lo, hi]
}
