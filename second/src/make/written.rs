//! What is handed to the writer of sheets, from a seed: good sides and patterns,
//! each fault of them at every place, lengths that no byte holds, fields from 8
//! on, patterns cut short, bytes behind them, and buffers around the length that
//! is needed.

use super::damages::{more_patterns, wrong_pattern, wrong_tokens};
use super::said::said_parts;
use super::{alphabet, good, parts, spelt, Dice, Record, MOST_SIDE};
use crate::edition::FIRST;
use crate::pattern::MOST_LEAVES;
use crate::sheet::{Reading, FIELDS, LEFT, MOST_PATTERN, RIGHT};
use crate::writer::{self, Case, MOST_SHEET};

/// What `write` is handed, taken apart: a field's number, its length and its
/// bytes.
struct Made {
    patterns: Vec<(usize, u64, Vec<u8>)>,
    sides: [Vec<u8>; 2],
}

/// One case. It has at most 255 lengths, 2,048 bytes of patterns, 320 tokens of a
/// side and 2,048 bytes of output.
pub fn case(dice: &mut Dice) -> Case {
    let mut made = if dice.one_in(30) { longest(dice) } else { any(dice) };
    for _ in 0..dice.pick(&[0, 0, 0, 1, 1, 1, 1, 2]) {
        damage(dice, &mut made);
    }
    let mut case = put_together(dice, made);
    match dice.below(12) {
        // Cut short at every place, or bytes behind that are not looked at.
        0 => case.patterns.truncate(dice.below(case.patterns.len().max(1))),
        1 => case.patterns.extend((0..dice.between(1, 9)).map(|_| dice.byte())),
        _ => {}
    }
    case.output = output(dice, &case);
    case
}

/// A good sheet's parts, often with more patterns; now and then one of them is
/// too big.
fn any(dice: &mut Dice) -> Made {
    let mut records = match dice.below(3) {
        0 => good(dice),
        _ => spelt::records(dice, FIELDS, &[LEFT, RIGHT]),
    };
    if dice.one_in(2) {
        more_patterns(dice, 2, &mut records);
    }
    of_records(records)
}

fn of_records(mut records: Vec<Record>) -> Made {
    let right = records.pop().expect("a sheet has two sides").body;
    let left = records.pop().expect("a sheet has two sides").body;
    let patterns = records.into_iter().map(|Record { field, body, .. }| {
        let field = field.expect("before the sides stand patterns");
        (field.into(), body.len() as u64, body)
    });
    Made { patterns: patterns.collect(), sides: [left, right] }
}

/// All fields have patterns of 192 bytes, or nearly, and the sides 24 tokens.
fn longest(dice: &mut Dice) -> Made {
    let patterns = (0..FIELDS).map(|field| {
        let less = usize::from(dice.one_in(12));
        let body = full(dice, MOST_PATTERN - less);
        (field, body.len() as u64, body)
    });
    let patterns = patterns.collect();
    let sides = [0, 1].map(|_| (0..MOST_SIDE).map(|_| dice.pick(&[0, 42, 64, 67, 71])).collect());
    Made { patterns, sides }
}

/// A pattern of just so many bytes.
pub(super) fn full(dice: &mut Dice, length: usize) -> Vec<u8> {
    let leaves = dice.pick(&[1, 2, 30, MOST_LEAVES]);
    let alphabet = alphabet(dice);
    let parts = parts(dice, &alphabet, leaves, length.min(MOST_PATTERN));
    let body = super::joined(dice, parts);
    [vec![68; length - body.len()], body].concat()
}

// ---------------------------------------------------------------- damages

fn damage(dice: &mut Dice, made: &mut Made) {
    if made.patterns.is_empty() && dice.one_in(2) {
        made.patterns.push((dice.below(FIELDS), 1, vec![64]));
    }
    let patterns = made.patterns.len();
    match dice.below(12) {
        0..=3 if patterns > 0 => {
            let body = wrong_pattern(dice);
            let pattern = &mut made.patterns[dice.below(patterns)];
            *pattern = (pattern.0, body.len() as u64, body);
        }
        4 | 5 if patterns > 0 => {
            let at = dice.below(patterns);
            wrong_length(dice, &mut made.patterns[at]);
        }
        6 | 7 => field_above_7(dice, made),
        8 | 9 => {
            let side = &mut made.sides[dice.below(2)];
            let length = dice.pick(&[25, 25, 26, 48, 192, 255, 256, 257, 280, 281, 320]);
            side.resize_with(length, || dice.pick(&[64, 65, 5, 5, 5, 43]));
        }
        _ => {
            let side = &mut made.sides[dice.below(2)];
            let mut record = Record::side(LEFT, side.clone());
            wrong_tokens(dice, &mut record);
            *side = record.body;
        }
    }
}

/// A length at or over its bound, or one whose low byte is the right one, and the
/// bytes as they are; or as many bytes as it says.
fn wrong_length(dice: &mut Dice, (_, length, body): &mut (usize, u64, Vec<u8>)) {
    match dice.below(4) {
        // The patterns behind it begin elsewhere, or their last byte is missing.
        0 => *length = length.wrapping_add(dice.pick(&[1, u64::MAX])),
        1 => {
            let bytes = dice.pick(&[191, 192, 193, 193, 194, 255, 256, 257]);
            *body = full(dice, bytes);
            *length = body.len() as u64;
        }
        2 => *length = dice.pick(&[192, 193, 255, 256, 1 << 16, 1 << 32, 1 << 63, u64::MAX]),
        _ => {
            let more = dice.pick(&[192, 256, 1 << 16, 1 << 32, 1 << 63, u64::MAX - 192]);
            *length = length.wrapping_add(more);
        }
    }
}

/// A length of a field from 8 on, with its pattern, with another one or with no
/// bytes; now and then two of them.
fn field_above_7(dice: &mut Dice, made: &mut Made) {
    for _ in 0..dice.pick(&[1, 1, 1, 2]) {
        let field = match dice.below(10) {
            0 => dice.between(FIELDS, 254),
            1 => dice.pick(&[64, 72, 73, 128, 254]),
            _ => dice.pick(&[8, 8, 8, 9, 10, 15, 16]),
        };
        let body = match dice.below(4) {
            0 => Vec::new(),
            1 => wrong_pattern(dice),
            _ => vec![64],
        };
        let own = (body.len() as u64).max(1);
        let length = dice.pick(&[own, own, own, 1, 193, 256, 1 << 32, 1 << 63]);
        made.patterns.retain(|(of, ..)| *of != field);
        made.patterns.push((field, length, body));
    }
    made.patterns.sort_by_key(|(field, ..)| *field);
}

// ----------------------------------------------------------------- the case

/// The lengths reach to the last pattern's field, or there are zeros behind.
fn put_together(dice: &mut Dice, made: Made) -> Case {
    let Made { mut patterns, mut sides } = made;
    let mut bodies: Vec<&mut Vec<u8>> = patterns.iter_mut().map(|(_, _, body)| body).collect();
    said_parts(dice, &mut bodies, &mut sides);
    let [left, right] = sides;
    let edition = edition(dice);
    let needed = patterns.iter().map(|(field, ..)| field + 1).max().unwrap_or(0);
    let number = match dice.below(48) {
        0..=17 => needed,
        18..=20 => dice.pick(&[9, 10, 16]).max(needed),
        21 => dice.between(FIELDS + 1, 255).max(needed),
        22..=27 => dice.between(0, FIELDS).max(needed),
        _ => FIELDS.max(needed),
    };
    let mut lengths = vec![0; number];
    for (field, length, _) in &patterns {
        lengths[*field] = *length;
    }
    let patterns = patterns.into_iter().flat_map(|(_, _, body)| body).collect();
    Case { edition, lengths, patterns, left, right, output: 0 }
}

/// That of the dice. In the second one now and then another: none, or a number
/// that is none, among them such whose low byte is 2.
fn edition(dice: &mut Dice) -> u64 {
    let own = dice.edition.number();
    if dice.edition == FIRST || !dice.one_in(8) {
        return own;
    }
    match dice.below(3) {
        0 => FIRST.number(),
        1 => dice.pick(&[1, 3, 4, 255]),
        _ => own + dice.pick(&[1 << 8, 1 << 16, 1 << 32, 1 << 63]),
    }
}

/// A length of the output buffer: just what is needed, or a few bytes less or
/// more, none, plenty.
fn output(dice: &mut Dice, case: &Case) -> u16 {
    let Case { edition, patterns, lengths, left, right, .. } = case;
    let sheet = writer::sheet_by(Reading::Old, *edition, patterns, lengths, left, right);
    let needed = sheet.map_or(0, |sheet| sheet.len());
    let most = dice.edition.record.len() + MOST_SHEET;
    let length = match dice.below(16) {
        0..=4 => needed,
        5..=7 => needed.saturating_sub(1),
        8 => needed.saturating_sub(dice.between(2, 8)),
        9 => needed + 1,
        10 | 11 => needed + dice.between(2, 40),
        12 => dice.below(needed + 1),
        13 => 0,
        14 => dice.below(200),
        _ => dice.pick(&[most - 1, most, most + 1, 2_048]),
    };
    length as u16
}
