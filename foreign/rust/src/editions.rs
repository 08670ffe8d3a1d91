//! The editions of a sheet.

use crate::{sign, value, SIGNS};

/// No edition has more characters.
pub const MOST_CHARACTERS: u8 = 128;

/// Which characters the rules of a sheet have.
///
/// All else is the same in both: records, answers, steps and buffers. A rule of a catalogue has
/// no edition; its characters are those of Code 39.
#[derive(Clone, Copy, Debug, Default, PartialEq, Eq, Hash)]
pub enum Edition {
    /// The 43 characters of Code 39, by value. It is that of a sheet without `ED`.
    #[default]
    Code39,
    /// The 128 characters of Full ASCII, by their ASCII code. It is that of a sheet that begins with
    /// `ED` and the byte 2.
    FullAscii,
}

impl Edition {
    /// The edition of a sheet, by how it begins.
    pub fn of(sheet: &[u8]) -> Edition {
        if sheet.starts_with(Edition::FullAscii.record()) {
            Edition::FullAscii
        } else {
            Edition::Code39
        }
    }

    /// The record in front of a sheet; no byte in Code 39.
    pub const fn record(self) -> &'static [u8] {
        match self {
            Edition::Code39 => b"",
            Edition::FullAscii => b"ED\x02",
        }
    }

    /// Its number: 0, or the byte behind `ED`.
    pub const fn number(self) -> usize {
        match self {
            Edition::Code39 => 0,
            Edition::FullAscii => 2,
        }
    }

    /// How many characters it has. They are the values below this.
    pub const fn characters(self) -> u8 {
        match self {
            Edition::Code39 => SIGNS.len() as u8,
            Edition::FullAscii => MOST_CHARACTERS,
        }
    }

    /// The value of the space. Spaces at the end of a label are dropped.
    pub const fn space(self) -> u8 {
        match self {
            Edition::Code39 => 38,
            Edition::FullAscii => 32,
        }
    }

    /// The first byte that is no character but a code: the token of field 0 and, in a pattern, the
    /// empty text. The others follow it.
    pub const fn codes(self) -> u8 {
        match self {
            Edition::Code39 => 64,
            Edition::FullAscii => 192,
        }
    }

    /// The sign of a value, if it has one. That of a control character is the character itself.
    pub fn sign(self, of: u8) -> Option<char> {
        match self {
            Edition::Code39 => sign(of),
            Edition::FullAscii => of.is_ascii().then(|| of.into()),
        }
    }

    /// The value of a sign, if it is a character of this edition.
    pub fn value(self, of: char) -> Option<u8> {
        match self {
            Edition::Code39 => value(of),
            Edition::FullAscii => u8::try_from(of).ok().filter(u8::is_ascii),
        }
    }

    /// The signs of a text; of a byte that is no character U+FFFD.
    pub fn text(self, values: &[u8]) -> String {
        let sign = |&of| self.sign(of).unwrap_or(char::REPLACEMENT_CHARACTER);
        values.iter().map(sign).collect()
    }
}
