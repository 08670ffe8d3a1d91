//! Sheets and rules with faults: each kind of wrong byte, at every place, in
//! the first record and in later ones.

use super::{alphabet, joined, parts, pattern, said, write_out};
use super::{Dice, Record, CHARACTERS, MOST_PATTERN, MOST_SIDE};
use crate::edition::FIRST;
use crate::pattern::MOST_LEAVES;
use crate::sheet::FIELDS;

/// Bytes that are no sheet, some of them beginning like one.
pub(super) fn random_bytes(dice: &mut Dice) -> Vec<u8> {
    let bytes = any_bytes(dice);
    if dice.edition == FIRST {
        return bytes;
    }
    let record = dice.edition.record;
    let front = dice.pick(&[record, record, record, &record[..2], &record[..1], b""]);
    [front, &bytes].concat()
}

fn any_bytes(dice: &mut Dice) -> Vec<u8> {
    match dice.below(4) {
        0 => (0..dice.below(4)).map(|_| dice.byte()).collect(),
        1 => (0..dice.below(30)).map(|_| dice.byte()).collect(),
        2 => (0..dice.below(12)).map(|_| dice.pick(b"PALERI\0\x01")).collect(),
        _ => {
            let mut sheet = dice.pick(&[b"PA", b"LE", b"RI"]).to_vec();
            sheet.extend((0..dice.below(12)).map(|_| dice.pick(&[0, 1, 2, 3, 64, 65, 66, 68])));
            sheet
        }
    }
}

/// Records behind a front, the last of them sides, with one damage, now and
/// then with two or three.
pub(super) fn damaged(
    dice: &mut Dice,
    front: &[u8],
    sides: usize,
    mut records: Vec<Record>,
) -> Vec<u8> {
    // A damage to a pattern needs one, and one in a later record several.
    if !dice.one_in(3) {
        more_patterns(dice, sides, &mut records);
    }
    let at_records = dice.pick(&[0, 1, 1, 1, 1, 1, 1, 2]);
    for _ in 0..at_records {
        damage(dice, &mut records);
    }
    // What has a front is a rule, and that has no edition.
    let mut bytes = match front {
        [] => with_edition(dice, &records),
        _ => [front, &write_out(&records)].concat(),
    };
    match dice.below(if at_records == 0 { 2 } else { 8 }) {
        // "sheet cut short", at every place
        0 => bytes.truncate(dice.below(bytes.len().max(1))),
        // bytes left over after the last side
        1 => bytes.extend((0..dice.between(1, 3)).map(|_| dice.pick(b"PALERI\0"))),
        _ => {}
    }
    bytes
}

/// The records in the dice's edition, now and then with another edition byte, with
/// the record of the edition twice, behind the first record or not at all, or with
/// records of the first edition behind it.
fn with_edition(dice: &mut Dice, records: &[Record]) -> Vec<u8> {
    let mut bytes = said(dice, records);
    let record = dice.edition.record;
    if dice.edition == FIRST || !dice.one_in(4) {
        return bytes;
    }
    let behind = bytes.split_off(record.len());
    match dice.below(5) {
        0 => bytes[record.len() - 1] = dice.pick(&[0, 1, 3, 4, 130, 254, 255]),
        1 => bytes.extend_from_slice(record),
        2 => bytes.clear(),
        3 => return [record, &write_out(records)].concat(),
        _ => {
            let (first, rest) = records.split_at(records.len().min(1));
            return [&write_out(first)[..], record, &write_out(rest)].concat();
        }
    }
    [bytes, behind].concat()
}

/// One to three patterns for fields that have none, before the sides.
pub(super) fn more_patterns(dice: &mut Dice, sides: usize, records: &mut Vec<Record>) {
    for _ in 0..dice.between(1, 3) {
        let field = dice.below(FIELDS) as u8;
        let patterns = &records[..records.len() - sides];
        if patterns.iter().all(|record| record.field != Some(field)) {
            let at = patterns.iter().filter(|record| record.field < Some(field)).count();
            let body = pattern(dice, &[10, 11], 2);
            records.insert(at, Record::pattern(field, body));
        }
    }
}

fn damage(dice: &mut Dice, records: &mut Vec<Record>) {
    // The damage before this one may have taken the only record.
    if records.is_empty() {
        return;
    }
    let at = dice.below(records.len());
    let is_pattern = records[at].field.is_some();
    match dice.below(22) {
        0 | 1 => wrong_mark(dice, &mut records[at]),
        2..=4 => wrong_order(dice, records, at),
        5..=7 if is_pattern => wrong_field(dice, records, at),
        5..=10 => wrong_length(dice, &mut records[at]),
        _ if is_pattern => records[at].set(wrong_pattern(dice)),
        _ => wrong_tokens(dice, &mut records[at]),
    }
}

/// One byte of a mark, or the whole mark.
fn wrong_mark(dice: &mut Dice, record: &mut Record) {
    if dice.one_in(2) {
        record.mark[dice.below(2)] = dice.byte();
    } else {
        record.mark = *dice.pick(&[b"PA", b"LE", b"RI", b"VA", b"AP", b"pa"]);
    }
}

/// Records in another order, twice, or not at all.
fn wrong_order(dice: &mut Dice, records: &mut Vec<Record>, at: usize) {
    match dice.below(3) {
        0 => {
            let other = dice.below(records.len());
            records.swap(at, other);
        }
        1 => records.insert(at, records[at].clone()),
        _ => {
            records.remove(at);
        }
    }
}

/// Fields above 7 or not rising.
fn wrong_field(dice: &mut Dice, records: &mut Vec<Record>, at: usize) {
    if dice.one_in(3) {
        let again = Record::pattern(dice.below(FIELDS) as u8, vec![64]);
        records.insert(at + 1, again);
    } else {
        records[at].field = Some(dice.pick(&[8, 9, 64, 255, 7, 0]));
    }
}

/// Lengths at and over their bounds, with the body as it is or with one that is
/// as long, and lengths next to the right one.
fn wrong_length(dice: &mut Dice, record: &mut Record) {
    match dice.below(6) {
        0 => {
            let by = dice.pick(&[1, 255]);
            record.length = record.length.wrapping_add(by);
        }
        1 if record.field.is_some() => {
            record.set([vec![68; MOST_PATTERN - dice.below(2)], vec![0]].concat());
        }
        1 => {
            let length = MOST_SIDE + dice.below(2);
            record.set((0..length).map(|_| dice.pick(&[64, 65, 5])).collect());
        }
        _ => record.length = dice.pick(&[0, 24, 25, 26, 97, 192, 193, 255]),
    }
}

/// A token that is none, now and then two, in the side or in one of any length.
pub(super) fn wrong_tokens(dice: &mut Dice, record: &mut Record) {
    let mut side = record.body.clone();
    side.truncate(MOST_SIDE);
    if dice.one_in(4) || side.is_empty() {
        let length = dice.between(1, MOST_SIDE);
        side.resize_with(length, || dice.pick(&[64, 65, 5]));
    }
    for _ in 0..dice.pick(&[1, 1, 2]) {
        let at = dice.below(side.len());
        side[at] = dice.pick(&[43, 44, 50, 63, 72, 73, 100, 254, 255]);
    }
    record.set(side);
}

// --------------------------------------------------------- wrong patterns

/// One with too many leaves, or bytes that are not one pattern.
pub(super) fn wrong_pattern(dice: &mut Dice) -> Vec<u8> {
    let alphabet = alphabet(dice);
    match dice.below(10) {
        0 | 1 => {
            let leaves = dice.pick(&[64, 64, 65, 66, 80, 96]);
            let parts = parts(dice, &alphabet, leaves, MOST_PATTERN);
            joined(dice, parts)
        }
        // Codes as they come, few of them one pattern.
        2 => (0..dice.between(1, 12)).map(|_| any_code(dice)).collect(),
        _ => not_one_pattern(dice, &alphabet),
    }
}

/// A code, now and then none.
fn any_code(dice: &mut Dice) -> u8 {
    match dice.below(12) {
        0 | 1 => no_code(dice),
        2..=6 => dice.between(64, 68) as u8,
        _ => dice.below(CHARACTERS.into()) as u8,
    }
}

/// A pattern with a wrong part, now and then with two, with bytes left over or
/// running out. Some have more than 63 leaves as well, before the wrong byte or
/// behind it.
fn not_one_pattern(dice: &mut Dice, alphabet: &[u8]) -> Vec<u8> {
    let leaves = match dice.below(8) {
        0 | 1 => 1,
        2..=4 => dice.between(2, 6),
        5 => dice.between(7, MOST_LEAVES),
        _ => dice.between(MOST_LEAVES + 1, MOST_LEAVES + 5),
    };
    // What is wrong adds four bytes at most.
    let most = MOST_PATTERN - 4;
    let most = if dice.one_in(4) { most } else { most.min(3 * leaves + 3) };
    let mut parts = parts(dice, alphabet, leaves, most);
    let last = parts.len() - 1;
    match dice.below(12) {
        0..=5 => {
            for _ in 0..dice.pick(&[1, 1, 1, 2]) {
                let at = if dice.one_in(3) { last } else { dice.below(last + 1) };
                parts[at] = wrong_part(dice);
            }
            joined(dice, parts)
        }
        // lo above 42 where hi is missing
        6 | 7 => {
            parts[last] = vec![65, above_42(dice)];
            joined(dice, parts)
        }
        // left over, the first of them a code or none
        8 | 9 => {
            let mut body = joined(dice, parts);
            body.extend((0..dice.between(1, 4)).map(|_| any_code(dice)));
            body
        }
        // The operator in front misses its second part, whatever is cut off.
        _ => {
            let mut body = joined(dice, parts);
            body.insert(0, dice.pick(&[66, 67]));
            body.truncate(dice.between(1, body.len()));
            body
        }
    }
}

/// A byte that is no code, or a range that is none.
fn wrong_part(dice: &mut Dice) -> Vec<u8> {
    let character = dice.below(CHARACTERS.into()) as u8;
    match dice.below(4) {
        0 => vec![no_code(dice)],
        // lo above 42, hi above 42, hi below lo
        1 => vec![65, above_42(dice), dice.byte()],
        2 => vec![65, character, above_42(dice)],
        _ => {
            let lo = character.max(1);
            vec![65, lo, dice.below(lo.into()) as u8]
        }
    }
}

fn no_code(dice: &mut Dice) -> u8 {
    let any = if dice.one_in(2) { dice.between(43, 63) } else { dice.between(69, 255) };
    dice.pick(&[43, 63, 69, 255, any, any]) as u8
}

fn above_42(dice: &mut Dice) -> u8 {
    let any = dice.between(43, 255);
    dice.pick(&[43, 64, 65, 255, any, any]) as u8
}
