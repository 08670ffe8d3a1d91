//! Takes stray patterns out of old sheets, rules and catalogues.
//!
//! "Please make a program that reads by the old rule and writes the sheet without
//! them, by K8's writer; every answer about it stays as it was. Catalogue rules are
//! rewritten likewise."

use crate::catalogue::{self, Rule, DONE, NOT_OF_THIS_FORM, RULE};
use crate::edition::{Edition, FIRST};
use crate::fault::Fault;
use crate::sheet::{Patterns, Reading, Sheet, Token, FIELDS, LEFT, PATTERN_HEAD};
use crate::spell_open::{into, Spelt};
use crate::writer;

/// The sheet without its stray patterns: the old rule's own refusals.
pub fn sheet(bytes: &[u8]) -> Result<Vec<u8>, Fault> {
    let sheet = Sheet::read(bytes)?;
    let Sheet { edition, ref patterns, ref left, ref right } = sheet;
    let (lengths, bodies) = standing(patterns, &sheet.sides(), bytes);
    let (left, right) = (tokens(edition, left), tokens(edition, right));
    writer::sheet(edition.number(), &bodies, &lengths, &left, &right)
}

/// The rule without its stray patterns: the old rule's own refusals, then 31, also
/// for a stray pattern's field.
pub fn rule(bytes: &[u8]) -> Result<Vec<u8>, Fault> {
    written(bytes, &Rule::read_own_by(Reading::Old, bytes)?)
}

/// Each rule of a catalogue in turn, in its own buffer: "rules keep their numbers and
/// their order, the freed bytes at the end are zero". 34 for a buffer that was no
/// catalogue by the old rule, which leaves it unchanged.
pub fn catalogue(catalogue: &mut [u8]) -> u8 {
    let Some(present) = catalogue::read_by(Reading::Old, catalogue) else {
        return NOT_OF_THIS_FORM;
    };
    let rewritten = present.iter().map(|rule| written(&catalogue[rule.bytes.clone()], &rule.rule));
    let records: Vec<Vec<u8>> = rewritten.collect::<Result<_, Fault>>().expect("rules stand there");
    // No rule becomes longer.
    let records = records.concat();
    let (front, freed) = catalogue.split_at_mut(records.len());
    front.copy_from_slice(&records);
    freed.fill(0);
    DONE
}

/// A rule that is read already, by the parts of the writer.
fn written(bytes: &[u8], rule: &Rule) -> Result<Vec<u8>, Fault> {
    let (lengths, bodies) = standing(rule.patterns(), &[rule.side()], bytes);
    let mut written = RULE.to_vec();
    let mut rest = &bodies[..];
    for (field, &length) in lengths.iter().enumerate().filter(|(_, &length)| length > 0) {
        rest = writer::put_pattern(FIRST, &mut written, field, length, rest)?;
    }
    writer::put_side(FIRST, &mut written, LEFT, &tokens(FIRST, rule.side()))?;
    Ok(written)
}

/// What the writer is handed of the fields that stand: the lengths of their patterns,
/// by field, and the bytes of these.
fn standing(patterns: &Patterns, sides: &[&[Token]], bytes: &[u8]) -> ([u64; FIELDS], Vec<u8>) {
    let mut lengths = [0; FIELDS];
    let mut bodies = Vec::new();
    for (field, record) in patterns.records.iter().enumerate() {
        let stands = sides.iter().any(|side| side.contains(&Token::Field(field as u8)));
        if let Some(record) = record.clone().filter(|_| stands) {
            let body = &bytes[record][PATTERN_HEAD..];
            lengths[field] = body.len() as u64;
            bodies.extend_from_slice(body);
        }
    }
    (lengths, bodies)
}

fn tokens(edition: Edition, side: &[Token]) -> Vec<u8> {
    side.iter().map(|token| token.byte(edition)).collect()
}

/// The sheet without its stray patterns, in a lent buffer: the old rule's refusals,
/// then 41. A refusal leaves the buffer unchanged.
pub fn sheet_into(sheet: &[u8], output: &mut [u8]) -> Spelt {
    into(self::sheet(sheet), output)
}

/// The same of a rule: the old rule's refusals, then 31, then 41.
pub fn rule_into(rule: &[u8], output: &mut [u8]) -> Spelt {
    into(self::rule(rule), output)
}
