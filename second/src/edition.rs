//! The two editions of a sheet: "A sheet may begin with a record `ED` and the byte
//! 2. Characters are then 0 to 127, field tokens 192 to 199, hidden ones 200 and
//! 201, and pattern codes 192 to 196 stand for 64 to 68; a range's ends go to 127,
//! and the hidden space is 32."
//!
//! What reads, searches, writes or prints takes the edition as a value. The
//! records are the same in both, and so are situations, places and answers.

use crate::fault::{Fault, WRONG_EDITION};
use crate::pattern::CharacterSet;
use crate::{full_ascii, CODE_39};

/// The mark of the record in front.
pub const MARK: &[u8; 2] = b"ED";
/// The edition byte's offset: it stands behind the mark, and that stands first.
pub const EDITION_BYTE: usize = MARK.len();
/// The only edition byte.
pub const SECOND_BYTE: u8 = 2;
/// The writer's number for a sheet without the record.
pub const NONE: u64 = 0;

/// No edition has more characters.
pub const MOST_CHARACTERS: u8 = 128;

/// What an edition settles.
#[derive(Clone, Copy, Debug, PartialEq, Eq)]
pub struct Edition {
    /// The record in front of a sheet.
    pub record: &'static [u8],
    /// Characters are the values below this number.
    pub characters: u8,
    /// "the hidden space"
    pub space: u8,
    /// The first of the pattern codes and, in a side, the token of field 0.
    pub codes: u8,
}

/// Code 39: that of a sheet without `ED`, and of every rule.
pub const FIRST: Edition = Edition { record: b"", characters: 43, space: 38, codes: 64 };
/// Full ASCII: that of a sheet with `ED`.
pub const SECOND: Edition =
    Edition { record: b"ED\x02", characters: MOST_CHARACTERS, space: 32, codes: 192 };

impl Edition {
    /// The edition that the writer is asked for: none, or one that stands behind
    /// `ED`. "44 for an edition byte other than 2, its place that byte"
    pub fn asked_for(number: u64) -> Result<Edition, Fault> {
        match number {
            NONE => Ok(FIRST),
            number if number == SECOND_BYTE.into() => Ok(SECOND),
            _ => Err(Fault { number: WRONG_EDITION, place: EDITION_BYTE }),
        }
    }

    /// The writer's number for this edition.
    pub fn number(self) -> u64 {
        self.record.last().map_or(NONE, |&byte| byte.into())
    }

    pub fn has(self, character: u8) -> bool {
        character < self.characters
    }

    /// All characters.
    pub fn all(self) -> CharacterSet {
        (0..self.characters).fold(0, |set, character| set | 1 << character)
    }

    /// The token of a field.
    pub fn field(self, field: u8) -> u8 {
        self.codes + field
    }

    /// The ASCII code of a character: of the second edition it is the character.
    pub fn ascii(self, character: u8) -> u8 {
        match self.record {
            [] => CODE_39[usize::from(character)],
            _ => character,
        }
    }

    /// The character with this ASCII code.
    pub fn of_ascii(self, code: u8) -> Option<u8> {
        (0..self.characters).find(|&character| self.ascii(character) == code)
    }

    /// The Code 39 values of a text, as the programs print it: a text of the
    /// second edition is spelt.
    pub fn values(self, text: &[u8]) -> Vec<u8> {
        match self.record {
            [] => text.to_vec(),
            _ => full_ascii::spelt(text).expect("the characters are 0 to 127"),
        }
    }

    /// A text as Code 39 signs.
    pub fn printed(self, text: &[u8]) -> String {
        let sign = |&value: &u8| char::from(CODE_39[usize::from(value)]);
        self.values(text).iter().map(sign).collect()
    }
}
