//! Makes sheets and rules to carry over from a seed: standing fields with and
//! without patterns, patterns of fields that do not stand, damaged ones, and
//! buffers around the length that is needed.

use super::said::Said;
use super::{alphabet, any_answer_length, damaged, field_pattern, random_bytes, sides};
use super::{said, work_length, Dice, Record, MOST_SIDE};
use crate::cases::Case;
use crate::catalogue::{RULE, RULE_FIELDS};
use crate::edition::FIRST;
use crate::sheet::{Reading, FIELDS, LEFT, RIGHT};
use crate::{spell_open, write};

/// One case; its bytes are a rule's where they begin with `RU`.
pub fn case(dice: &mut Dice) -> Case {
    let bytes = if dice.one_in(2) { sheet(dice) } else { rule(dice) };
    // Nothing is searched, so the work is never used.
    let room = dice.below(3);
    Case { work: work_length(dice, room), answer: length(dice, &bytes), sheet: bytes }
}

fn length(dice: &mut Dice, bytes: &[u8]) -> u32 {
    let spelt = if bytes.starts_with(RULE) { spell_open::rule_by } else { spell_open::sheet_by };
    let needed = spelt(Reading::Old, bytes).map_or(bytes.len(), |spelt| spelt.len());
    around(dice, needed, bytes)
}

/// A length of the output buffer: just what is needed, a byte or a record less
/// or more, none, or plenty.
pub(super) fn around(dice: &mut Dice, needed: usize, bytes: &[u8]) -> u32 {
    let length = match dice.below(16) {
        0..=3 => needed,
        4 | 5 => needed.saturating_sub(1),
        6 | 7 => needed + 1,
        8 => 0,
        // as long as it was
        9 => bytes.len(),
        10 => needed.saturating_sub(8),
        11..=14 => needed + dice.between(2, 40),
        _ => return any_answer_length(dice),
    };
    length as u32
}

fn sheet(dice: &mut Dice) -> Vec<u8> {
    if dice.one_in(40) {
        return random_bytes(dice);
    }
    let records = records(dice, FIELDS, &[LEFT, RIGHT]);
    if dice.one_in(4) {
        return damaged(dice, &[], 2, records);
    }
    said(dice, &records)
}

fn rule(dice: &mut Dice) -> Vec<u8> {
    if dice.one_in(40) {
        return [RULE, &random_bytes(dice)[..]].concat();
    }
    let sides: &[&[u8; 2]] = if dice.one_in(40) { &[LEFT, RIGHT] } else { &[LEFT] };
    let mut records = records(dice, RULE_FIELDS, sides);
    if dice.one_in(8) {
        field_above_3(dice, &mut records);
    }
    if dice.one_in(4) {
        // Without its mark it is a sheet.
        let mark = match dice.below(20) {
            0 => *dice.pick(&[b"UR", b"RI", b"ru", b"RV", b"SU"]),
            _ => *RULE,
        };
        return damaged(dice, &mark, sides.len(), records);
    }
    // A rule never has an edition's record.
    let edition = if dice.edition != FIRST && dice.one_in(4) { dice.edition } else { FIRST };
    [RULE, &Said::by_sign(edition).records(&records)[..]].concat()
}

/// Fields below this one, in one or two sides, each with a pattern or without.
pub(super) fn records(dice: &mut Dice, below: usize, marks: &[&[u8; 2]]) -> Vec<Record> {
    let alphabet = alphabet(dice);
    let mut fields: Vec<u8> = (0..below as u8).collect();
    dice.shuffle(&mut fields);
    fields.truncate(if dice.one_in(2) { dice.below(below + 1) } else { dice.between(1, 3) });
    let (left, right, texts) = sides(dice, &alphabet, &fields);
    let mut bodies = [left, right];
    // Each of the fields stands, now and then.
    if dice.one_in(3) {
        for &field in &fields {
            let side = &mut bodies[dice.below(marks.len())];
            side.insert(dice.below(side.len() + 1), write::field(field));
            side.truncate(MOST_SIDE);
        }
    }
    let standing = bodies[..marks.len()].concat();
    // One in so many has a pattern, of the fields that stand and of the others.
    let (stands, stray) = (dice.pick(&[1, 2, 2, 3, 8]), dice.pick(&[3, 12, 12]));
    let mut records = Vec::new();
    for field in 0..below as u8 {
        let one_in = if standing.contains(&write::field(field)) { stands } else { stray };
        if dice.one_in(one_in) {
            let text = texts.iter().find(|(of, _)| *of == field).map(|(_, text)| &text[..]);
            records.push(Record::pattern(field, field_pattern(dice, &alphabet, text)));
        }
    }
    records.extend(marks.iter().zip(bodies).map(|(mark, body)| Record::side(mark, body)));
    records
}

/// A field above 3, in a pattern behind the others or in the side.
pub(super) fn field_above_3(dice: &mut Dice, records: &mut Vec<Record>) {
    let field = dice.between(RULE_FIELDS, FIELDS - 1) as u8;
    let at = records.iter().position(|record| record.field.is_none()).unwrap_or(0);
    if dice.one_in(2) {
        records.insert(at, Record::pattern(field, vec![68, 65, 0, 9]));
    } else {
        let mut side = records[at].body.clone();
        side.truncate(MOST_SIDE - 1);
        side.insert(dice.below(side.len() + 1), write::field(field));
        records[at].set(side);
    }
}
