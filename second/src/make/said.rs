//! What is made in the bytes of the first edition, said in another: each token,
//! pattern code and range end becomes its counterpart there, and a byte that is
//! none of them becomes one that is none there.

use super::{write_out, Dice, Record, CHARACTERS};
use crate::edition::{Edition, FIRST};
use crate::pattern::RANGE;
use crate::sheet::{LEFT, PATTERN, RIGHT};
use crate::{sheet, CODE_39};

/// Characters of the second edition at which something changes: the first, the
/// last, the bytes that are codes or tokens or none in the first edition, the
/// signs with a meaning in a script, and those beside the space.
const AT_LIMITS: [u8; 30] = [
    0, 1, 31, 33, 34, 38, 42, 43, 44, 48, 57, 62, 63, 64, 65, 66, 67, 68, 69, 71, 72, 73, 91, 92,
    93, 117, 123, 125, 126, 127,
];

/// An edition, and the character there for each of the first edition.
pub(super) struct Said {
    pub edition: Edition,
    characters: [u8; CHARACTERS as usize],
}

impl Said {
    /// The same signs.
    pub fn by_sign(edition: Edition) -> Said {
        let same = |character: usize| match edition {
            FIRST => character as u8,
            _ => CODE_39[character],
        };
        Said { edition, characters: std::array::from_fn(same) }
    }

    /// The dice's edition. In the second one the characters are the same signs,
    /// or any, or mostly such at which something changes; the space stays one.
    pub fn by_chance(dice: &mut Dice) -> Said {
        let mut said = Said::by_sign(dice.edition);
        if dice.edition == FIRST || dice.one_in(3) {
            return said;
        }
        let mut some: Vec<u8> = AT_LIMITS.to_vec();
        let mut others: Vec<u8> = (0..dice.edition.characters).collect();
        others.retain(|character| !some.contains(character) && *character != dice.edition.space);
        dice.shuffle(&mut others);
        some.extend(others);
        if dice.one_in(2) {
            dice.shuffle(&mut some);
        } else {
            dice.shuffle(&mut some[..usize::from(CHARACTERS)]);
        }
        said.characters.copy_from_slice(&some[..usize::from(CHARACTERS)]);
        said.characters[usize::from(FIRST.space)] = dice.edition.space;
        said
    }

    pub fn character(&self, character: u8) -> u8 {
        self.characters[usize::from(character)]
    }

    /// A token, a pattern code, or a byte that is neither.
    fn byte(&self, byte: u8) -> u8 {
        match byte.checked_sub(FIRST.codes) {
            _ if self.edition == FIRST => byte,
            None if FIRST.has(byte) => self.character(byte),
            // The first and the last of those between characters and codes.
            None if byte + 1 == FIRST.codes => self.edition.codes - 1,
            None => self.edition.characters + (byte - FIRST.characters),
            Some(code) => code.saturating_add(self.edition.codes),
        }
    }

    pub fn side(&self, tokens: &[u8]) -> Vec<u8> {
        tokens.iter().map(|&token| self.byte(token)).collect()
    }

    /// A pattern, or bytes that are none. Behind the code of a range stand its
    /// ends.
    pub fn pattern(&self, bytes: &[u8]) -> Vec<u8> {
        let mut said = Vec::new();
        let mut rest = bytes;
        while let Some((&code, behind)) = rest.split_first() {
            said.push(self.byte(code));
            let ends = if code == FIRST.codes + RANGE { behind.len().min(2) } else { 0 };
            let (ends, behind) = behind.split_at(ends);
            said.extend(self.ends(ends));
            rest = behind;
        }
        said
    }

    /// The ends of a range: all characters stay all, and lo stays below hi, or
    /// above it.
    fn ends(&self, ends: &[u8]) -> Vec<u8> {
        let said = self.side(ends);
        match (ends, &said[..]) {
            ([0, hi], _) if *hi == CHARACTERS - 1 => vec![0, self.edition.characters - 1],
            ([lo, hi], &[a, b]) if FIRST.has(*lo) && FIRST.has(*hi) && (lo < hi) != (a < b) => {
                vec![b, a]
            }
            _ => said,
        }
    }

    /// A record: the bytes of a pattern, or the tokens of a side.
    fn record(&self, record: &Record) -> Record {
        let body = match record.field {
            Some(_) => self.pattern(&record.body),
            None => self.side(&record.body),
        };
        Record { body, ..record.clone() }
    }

    /// Records behind the edition's own.
    pub fn records(&self, records: &[Record]) -> Vec<u8> {
        let records: Vec<Record> = records.iter().map(|record| self.record(record)).collect();
        [self.edition.record, &write_out(&records)].concat()
    }

    /// A good sheet of the first edition.
    pub fn sheet(&self, sheet: &[u8]) -> Vec<u8> {
        self.records(&records_of(sheet))
    }
}

/// Records in the dice's edition.
pub(super) fn said(dice: &mut Dice, records: &[Record]) -> Vec<u8> {
    Said::by_chance(dice).records(records)
}

/// A good sheet of the first edition in the dice's.
pub(super) fn said_sheet(dice: &mut Dice, sheet: &[u8]) -> Vec<u8> {
    Said::by_chance(dice).sheet(sheet)
}

/// Patterns and sides in the dice's edition.
pub(super) fn said_parts(dice: &mut Dice, patterns: &mut [&mut Vec<u8>], sides: &mut [Vec<u8>]) {
    let said = Said::by_chance(dice);
    patterns.iter_mut().for_each(|body| **body = said.pattern(body));
    sides.iter_mut().for_each(|tokens| *tokens = said.side(tokens));
}

/// The records of a good sheet of the first edition.
fn records_of(sheet: &[u8]) -> Vec<Record> {
    let mut records = Vec::new();
    let mut rest = sheet;
    while rest.starts_with(PATTERN) {
        let (record, behind) = rest.split_at(sheet::PATTERN_HEAD + usize::from(rest[3]));
        let (head, body) = record.split_at(sheet::PATTERN_HEAD);
        records.push(Record::pattern(head[sheet::FIELD_BYTE], body.to_vec()));
        rest = behind;
    }
    for mark in [LEFT, RIGHT] {
        let (record, behind) = rest.split_at(sheet::SIDE_HEAD + usize::from(rest[2]));
        records.push(Record::side(mark, record[sheet::SIDE_HEAD..].to_vec()));
        rest = behind;
    }
    records
}
