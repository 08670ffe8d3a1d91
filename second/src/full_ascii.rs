//! Full ASCII spelt in Code 39: "spell a text into plain Code 39 .. and read it
//! back, from the table of 128 characters and their one or two Code 39 values in
//! the standard; of the spellings of DEL only `%T` is used".
//!
//! The table is not typed here: `signs` goes by the standard's rows.
//!
//! And streams of cases. A case is the letter `S` of a text to be spelt or `R` of
//! a spelt text to be read back, the bytes, with their number in two bytes before
//! them, and the length of the output buffer in two bytes; all numbers low byte
//! first.

use std::collections::HashMap;

use crate::cases::{push_answer, ANSWER_FILL};
use crate::catalogue::DONE;
use crate::{Outcome, CODE_39};

/// The characters of Full ASCII: 0 to 127.
pub const ASCII: u8 = 128;
/// "45 for a byte above 127 to be spelt, or a spelt text the table doesn't give"
pub const NOT_IN_TABLE: u8 = 45;
/// "46, after it, for a short buffer"
pub const TOO_SHORT: u8 = 46;

/// The shift sign of a character, if it has one, and the sign behind it.
fn signs(character: u8) -> Option<(Option<u8>, u8)> {
    // So many places behind the first of a row stands the sign so many behind
    // the row's first.
    let row = |first: u8, sign: u8| sign + (character - first);
    let found = match character {
        b'0'..=b'9' | b'A'..=b'Z' | b'-' | b'.' | b' ' => (None, character),
        1..=26 => (Some(b'$'), row(1, b'A')),
        b'a'..=b'z' => (Some(b'+'), row(b'a', b'A')),
        // Of the rest before `;` each stands as far from `!` as its letter from
        // `A`: `/M` and `/N` would be the hyphen and the period, `/P` to `/Y` the
        // digits.
        b'!'..=b':' => (Some(b'/'), row(b'!', b'A')),
        // The rest are `%`: four rows of five, then three that stand alone.
        27..=31 => (Some(b'%'), row(27, b'A')),
        b';'..=b'?' => (Some(b'%'), row(b';', b'F')),
        b'['..=b'_' => (Some(b'%'), row(b'[', b'K')),
        b'{'..=127 => (Some(b'%'), row(b'{', b'P')),
        0 => (Some(b'%'), b'U'),
        b'@' => (Some(b'%'), b'V'),
        b'`' => (Some(b'%'), b'W'),
        _ => return None,
    };
    Some(found)
}

fn value(sign: u8) -> u8 {
    CODE_39.iter().position(|&of| of == sign).expect("the sign is one of the 43") as u8
}

/// The one or two values of a character; none of a byte above 127.
pub fn spelling(character: u8) -> Option<Vec<u8>> {
    let (shift, sign) = signs(character)?;
    Some(shift.into_iter().chain([sign]).map(value).collect())
}

/// The values of a text.
pub fn spelt(text: &[u8]) -> Option<Vec<u8>> {
    let spellings: Option<Vec<_>> = text.iter().map(|&character| spelling(character)).collect();
    Some(spellings?.concat())
}

/// The text that is spelt as these values: at each place the character that is
/// spelt as the value there, or as it and the next.
pub fn read_back(values: &[u8]) -> Option<Vec<u8>> {
    let characters = (0..ASCII).map(|character| (spelling(character), character));
    let table: HashMap<_, _> =
        characters.filter_map(|(spelling, character)| Some((spelling?, character))).collect();
    let mut text = Vec::new();
    let mut rest = values;
    while !rest.is_empty() {
        let found = [1, 2].into_iter().find_map(|n| {
            let (front, behind) = rest.split_at_checked(n)?;
            Some((table.get(front)?, behind))
        });
        let (&character, behind) = found?;
        text.push(character);
        rest = behind;
    }
    Some(text)
}

/// What is done with the bytes of a case.
#[derive(Clone, Copy, Debug, PartialEq, Eq)]
pub enum Done {
    Spell,
    Read,
}

/// Spells the bytes, or reads them back, into the buffer. "A refusal changes no
/// buffer; a success only the bytes it writes."
pub fn into(done: Done, bytes: &[u8], output: &mut [u8]) -> Outcome {
    let told = |number, written| Outcome { number, count: 0, place: 0, written };
    let made = match done {
        Done::Spell => spelt(bytes),
        Done::Read => read_back(bytes),
    };
    let Some(made) = made else {
        return told(NOT_IN_TABLE, 0);
    };
    match output.get_mut(..made.len()) {
        None => told(TOO_SHORT, 0),
        Some(front) => {
            front.copy_from_slice(&made);
            told(DONE, made.len())
        }
    }
}

/// Bytes to be spelt or read back, and the length of the output buffer.
#[derive(Clone, Debug, PartialEq, Eq)]
pub struct Case {
    pub done: Done,
    pub bytes: Vec<u8>,
    pub output: u16,
}

impl Case {
    /// Number, count, place and written length, then every byte of the buffer.
    pub fn line(&self) -> String {
        let mut output = vec![ANSWER_FILL; self.output.into()];
        let Outcome { number, count, place, written } = into(self.done, &self.bytes, &mut output);
        let mut line = format!("{number} {count} {place} {written}");
        push_answer(&mut line, &output, written);
        line
    }

    /// Writes the case behind the stream. It has at most 65,535 bytes.
    pub fn write(&self, stream: &mut Vec<u8>) {
        stream.push(match self.done {
            Done::Spell => b'S',
            Done::Read => b'R',
        });
        stream.extend_from_slice(&(self.bytes.len() as u16).to_le_bytes());
        stream.extend_from_slice(&self.bytes);
        stream.extend_from_slice(&self.output.to_le_bytes());
    }

    /// Reads a case from the front of a stream and hands back the rest; none
    /// where the stream stops inside the case.
    pub fn read(stream: &[u8]) -> Option<(Case, &[u8])> {
        let (&letter, rest) = stream.split_first()?;
        let done = if letter == b'S' { Done::Spell } else { Done::Read };
        let (&length, rest) = rest.split_first_chunk()?;
        let (bytes, rest) = rest.split_at_checked(u16::from_le_bytes(length).into())?;
        let (&output, rest) = rest.split_first_chunk()?;
        Some((Case { done, bytes: bytes.to_vec(), output: u16::from_le_bytes(output) }, rest))
    }
}
