//! Carries old sheets, rules and catalogues over to the present meaning of a
//! field without a pattern.
//!
//! "Sheets and catalogue rules that relied on the old meaning must carry 68 65 0
//! 42 written out; please make a small program that adds it for an old sheet's
//! standing fields without a pattern."

use crate::catalogue::{self, Rule, DOES_NOT_FIT, DONE, NOT_OF_THIS_FORM};
use crate::edition::{Edition, FIRST};
use crate::fault::Fault;
use crate::pattern::{MANY, RANGE};
use crate::sheet::{Reading, Token, FIELDS, PATTERN, PATTERN_HEAD};

/// "68 65 0 42": any characters, any number of them, none included. Behind `ED` it
/// is 196 193 0 127.
pub const fn old_meaning(edition: Edition) -> [u8; 4] {
    let Edition { codes, characters, .. } = edition;
    [codes + MANY, codes + RANGE, 0, characters - 1]
}
/// The output buffer is too short.
pub const TOO_SHORT: u8 = 41;

/// The sheet with the old meaning written out.
pub fn sheet(sheet: &[u8]) -> Result<Vec<u8>, Fault> {
    sheet_by(Reading::New, sheet)
}

/// The same for a sheet that is read by this rule; by the old one its stray
/// patterns stay.
pub fn sheet_by(reading: Reading, sheet: &[u8]) -> Result<Vec<u8>, Fault> {
    let question = reading.sheet(sheet)?;
    let (front, records) = sheet.split_at(question.edition.record.len());
    let spelt = spelt(question.edition, records, &[&question.left, &question.right]);
    Ok([front, &spelt].concat())
}

/// The rule with the old meaning written out: the rule's own refusals, then 31.
pub fn rule(rule: &[u8]) -> Result<Vec<u8>, Fault> {
    rule_by(Reading::New, rule)
}

/// The same for a rule that is read by this one.
pub fn rule_by(reading: Reading, rule: &[u8]) -> Result<Vec<u8>, Fault> {
    Ok(spelt_rule(rule, &Rule::read_own_by(reading, rule)?))
}

/// Each rule of a catalogue in turn: 34, then 32 if the records no longer fit
/// the buffer. A refusal leaves it unchanged.
pub fn catalogue(catalogue: &mut [u8]) -> u8 {
    catalogue_by(Reading::New, catalogue)
}

/// The same for a catalogue whose rules are read by this one.
pub fn catalogue_by(reading: Reading, catalogue: &mut [u8]) -> u8 {
    let Some(present) = catalogue::read_by(reading, catalogue) else {
        return NOT_OF_THIS_FORM;
    };
    let records = present.iter().map(|rule| spelt_rule(&catalogue[rule.bytes.clone()], &rule.rule));
    let records = records.collect::<Vec<Vec<u8>>>().concat();
    match catalogue.get_mut(..records.len()) {
        None => DOES_NOT_FIT,
        // Nothing becomes shorter, so all behind it is zero already.
        Some(front) => {
            front.copy_from_slice(&records);
            DONE
        }
    }
}

/// A rule that is read already. The fields of its side are its own, 0 to 3.
fn spelt_rule(bytes: &[u8], rule: &Rule) -> Vec<u8> {
    let (mark, records) = bytes.split_at(catalogue::RULE.len());
    [mark, &spelt(FIRST, records, &[rule.side()])].concat()
}

/// Records that passed the checks, those of patterns first, and the sides among
/// them: a record more for each field that stands and has none, where the field
/// numbers are still rising. Everything else stays as it is.
fn spelt(edition: Edition, records: &[u8], sides: &[&[Token]]) -> Vec<u8> {
    let old_meaning = old_meaning(edition);
    let mut spelt = Vec::new();
    let mut rest = records;
    for field in 0..FIELDS as u8 {
        if let Some(length) = pattern_of(field, rest) {
            let (record, behind) = rest.split_at(length);
            spelt.extend_from_slice(record);
            rest = behind;
        } else if sides.iter().any(|side| side.contains(&Token::Field(field))) {
            spelt.extend_from_slice(PATTERN);
            spelt.extend([field, old_meaning.len() as u8]);
            spelt.extend(old_meaning);
        }
    }
    spelt.extend_from_slice(rest);
    spelt
}

/// The length of the record in front, if it is this field's pattern.
fn pattern_of(field: u8, records: &[u8]) -> Option<usize> {
    match records {
        [a, b, of, length, ..] if [*a, *b] == *PATTERN && *of == field => {
            Some(PATTERN_HEAD + usize::from(*length))
        }
        _ => None,
    }
}

/// What `sheet_into` and `rule_into` tell beside the output buffer.
#[derive(Clone, Copy, Debug, PartialEq, Eq)]
pub struct Spelt {
    pub number: u8,
    /// With 11 to 17, 22 and 44, the fault's place.
    pub place: usize,
    /// The bytes written; 0 for a refusal.
    pub written: usize,
}

/// The sheet with the old meaning written out, in a lent buffer: the sheet's own
/// refusals, then 41. A refusal leaves the buffer unchanged.
pub fn sheet_into(sheet: &[u8], output: &mut [u8]) -> Spelt {
    into(self::sheet(sheet), output)
}

/// The same of a rule: its own refusals, then 31, then 41.
pub fn rule_into(rule: &[u8], output: &mut [u8]) -> Spelt {
    into(self::rule(rule), output)
}

/// What is written, or refused, in a lent buffer.
pub fn into(spelt: Result<Vec<u8>, Fault>, output: &mut [u8]) -> Spelt {
    let spelt = match spelt {
        Ok(spelt) => spelt,
        Err(Fault { number, place }) => return Spelt { number, place, written: 0 },
    };
    match output.get_mut(..spelt.len()) {
        None => Spelt { number: TOO_SHORT, place: 0, written: 0 },
        Some(front) => {
            front.copy_from_slice(&spelt);
            Spelt { number: DONE, place: 0, written: spelt.len() }
        }
    }
}
