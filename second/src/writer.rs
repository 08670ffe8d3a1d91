//! Sheets written by the program: "Given the two sides and the patterns by
//! field, please write the one sheet that says them."
//!
//! And streams of cases for it. A case is the number of lengths in one byte, each
//! length in eight bytes, then the patterns, the left side and the right side,
//! each with its length in two bytes before it, then the length of the output
//! buffer in two bytes; all numbers low byte first. Where the edition belongs to a
//! case it stands in front, in eight bytes.

use crate::cases::{push_answer, ANSWER_FILL};
use crate::catalogue::DONE;
use crate::edition::{Edition, NONE, SECOND};
use crate::fault::{Fault, CUT_SHORT, STRAY_PATTERN};
use crate::fault::{WRONG_FIELD, WRONG_LENGTH, WRONG_TOKEN};
use crate::pattern::Pattern;
use crate::sheet::{Reading, Token, FIELDS, FIELD_BYTE, LEFT, MOST_PATTERN, MOST_SIDE, PATTERN};
use crate::sheet::{PATTERN_HEAD, RIGHT, SIDE_HEAD};
use crate::spell_open::TOO_SHORT;
use crate::Outcome;

/// The longest sheet without `ED`: 1,622 bytes.
pub const MOST_SHEET: usize = FIELDS * (PATTERN_HEAD + MOST_PATTERN) + 2 * (SIDE_HEAD + MOST_SIDE);
/// "1,625 bytes are always enough"
pub const ALWAYS_ENOUGH: usize = SECOND.record.len() + MOST_SHEET;

/// Writes the sheet of this edition, 0 for one without `ED`, with these sides and
/// these patterns, which stand one behind the other. `lengths` says by field number how many bytes a field's pattern
/// has; with 0, and behind the last length, a field has none. Bytes behind the
/// last pattern are not looked at.
///
/// "Refusals: those of reading, by what is wrong, in the order the written sheet
/// would meet them, then 41 if the buffer is too short." A refusal changes no
/// byte.
pub fn write(
    edition: u64,
    patterns: &[u8],
    lengths: &[u64],
    left: &[u8],
    right: &[u8],
    output: &mut [u8],
) -> Outcome {
    let sheet = match sheet(edition, patterns, lengths, left, right) {
        Ok(sheet) => sheet,
        Err(Fault { number, place }) => return Outcome { number, count: 0, place, written: 0 },
    };
    match output.get_mut(..sheet.len()) {
        None => Outcome { number: TOO_SHORT, count: 0, place: 0, written: 0 },
        Some(front) => {
            front.copy_from_slice(&sheet);
            Outcome { number: DONE, count: 0, place: 0, written: sheet.len() }
        }
    }
}

/// The sheet: the edition's record, then "a `PA` record for each field that has a
/// pattern, fields rising, then `LE`, then `RI`". A pattern of a field that stands
/// in neither side is the last fault, "22 where reading would say it, before 41".
pub fn sheet(
    edition: u64,
    patterns: &[u8],
    lengths: &[u64],
    left: &[u8],
    right: &[u8],
) -> Result<Vec<u8>, Fault> {
    sheet_by(Reading::New, edition, patterns, lengths, left, right)
}

/// The same for a sheet that would be read by this rule.
pub fn sheet_by(
    reading: Reading,
    edition: u64,
    patterns: &[u8],
    lengths: &[u64],
    left: &[u8],
    right: &[u8],
) -> Result<Vec<u8>, Fault> {
    let edition = Edition::asked_for(edition)?;
    let mut sheet = edition.record.to_vec();
    let mut rest = patterns;
    let mut first_stray = None;
    for (field, &length) in lengths.iter().enumerate() {
        if length > 0 {
            let mark = sheet.len();
            rest = put_pattern(edition, &mut sheet, field, length, rest)?;
            let token = edition.field(field as u8);
            if first_stray.is_none() && !left.contains(&token) && !right.contains(&token) {
                first_stray = Some(mark);
            }
        }
    }
    put_side(edition, &mut sheet, LEFT, left)?;
    put_side(edition, &mut sheet, RIGHT, right)?;
    match first_stray {
        Some(place) if reading == Reading::New => Err(Fault { number: STRAY_PATTERN, place }),
        _ => Ok(sheet),
    }
}

/// A record with the first so many of these bytes; what is left of them.
pub fn put_pattern<'a>(
    edition: Edition,
    sheet: &mut Vec<u8>,
    field: usize,
    length: u64,
    bytes: &'a [u8],
) -> Result<&'a [u8], Fault> {
    let mark = sheet.len();
    if field >= FIELDS {
        return Err(Fault { number: WRONG_FIELD, place: mark + FIELD_BYTE });
    }
    // "length out of its range 14", also one that no byte holds
    if length > MOST_PATTERN as u64 {
        return Err(Fault { number: WRONG_LENGTH, place: mark + PATTERN_HEAD - 1 });
    }
    // "missing body 11": the sheet would end behind the bytes that there are.
    let length = length as usize;
    let body = mark + PATTERN_HEAD;
    let (pattern, rest) = bytes
        .split_at_checked(length)
        .ok_or(Fault { number: CUT_SHORT, place: body + bytes.len() })?;
    // "then for a pattern 15, then 16"
    Pattern::read(edition, pattern).map_err(|fault| fault.passed_on(body))?;
    sheet.extend_from_slice(PATTERN);
    sheet.extend([field as u8, length as u8]);
    sheet.extend_from_slice(pattern);
    Ok(rest)
}

/// A side's record: "length out of its range 14", "for a side 17".
pub fn put_side(
    edition: Edition,
    sheet: &mut Vec<u8>,
    mark: &[u8; 2],
    tokens: &[u8],
) -> Result<(), Fault> {
    let place = sheet.len();
    if tokens.len() > MOST_SIDE {
        return Err(Fault { number: WRONG_LENGTH, place: place + SIDE_HEAD - 1 });
    }
    if let Some(at) = tokens.iter().position(|&byte| Token::of_byte(edition, byte).is_none()) {
        return Err(Fault { number: WRONG_TOKEN, place: place + SIDE_HEAD + at });
    }
    sheet.extend_from_slice(mark);
    sheet.push(tokens.len() as u8);
    sheet.extend_from_slice(tokens);
    Ok(())
}

/// What is handed to `write`, and the length of its output buffer.
#[derive(Clone, Debug, Default, PartialEq, Eq)]
pub struct Case {
    pub edition: u64,
    pub lengths: Vec<u64>,
    pub patterns: Vec<u8>,
    pub left: Vec<u8>,
    pub right: Vec<u8>,
    pub output: u16,
}

impl Case {
    /// Writes into a freshly filled buffer: what is told, and the buffer.
    pub fn run(&self) -> (Outcome, Vec<u8>) {
        let mut output = vec![ANSWER_FILL; self.output.into()];
        let Case { edition, patterns, lengths, left, right, .. } = self;
        let told = write(*edition, patterns, lengths, left, right, &mut output);
        (told, output)
    }

    /// Number, count, place and written length, then every byte of the buffer.
    pub fn line(&self) -> String {
        let (Outcome { number, count, place, written }, output) = self.run();
        let mut line = format!("{number} {count} {place} {written}");
        push_answer(&mut line, &output, written);
        line
    }

    /// Writes the case behind the stream, without its edition. There are at most 255 lengths, and at
    /// most 65,535 bytes of each kind.
    pub fn write(&self, stream: &mut Vec<u8>) {
        stream.push(self.lengths.len() as u8);
        stream.extend(self.lengths.iter().flat_map(|length| length.to_le_bytes()));
        for bytes in [&self.patterns, &self.left, &self.right] {
            stream.extend_from_slice(&(bytes.len() as u16).to_le_bytes());
            stream.extend_from_slice(bytes);
        }
        stream.extend_from_slice(&self.output.to_le_bytes());
    }

    /// The same with the edition in front, in eight bytes.
    pub fn write_edition(&self, stream: &mut Vec<u8>) {
        stream.extend(self.edition.to_le_bytes());
        self.write(stream);
    }

    /// Reads a case with its edition in front.
    pub fn read_edition(stream: &[u8]) -> Option<(Case, &[u8])> {
        let (&edition, rest) = stream.split_first_chunk()?;
        let (case, rest) = Case::read(rest)?;
        Some((Case { edition: u64::from_le_bytes(edition), ..case }, rest))
    }

    /// Reads a case from the front of a stream and hands back the rest; none
    /// where the stream stops inside the case.
    pub fn read(stream: &[u8]) -> Option<(Case, &[u8])> {
        let (&number, rest) = stream.split_first()?;
        let (lengths, rest) = rest.split_at_checked(8 * usize::from(number))?;
        let (lengths, _) = lengths.as_chunks::<8>();
        let lengths = lengths.iter().map(|&length| u64::from_le_bytes(length)).collect();
        let (patterns, rest) = bytes(rest)?;
        let (left, rest) = bytes(rest)?;
        let (right, rest) = bytes(rest)?;
        let (output, rest) = two_bytes(rest)?;
        Some((Case { edition: NONE, lengths, patterns, left, right, output }, rest))
    }
}

fn two_bytes(stream: &[u8]) -> Option<(u16, &[u8])> {
    let (&number, rest) = stream.split_first_chunk()?;
    Some((u16::from_le_bytes(number), rest))
}

/// Bytes with their number in two before them, and what stands behind them.
pub(crate) fn bytes(stream: &[u8]) -> Option<(Vec<u8>, &[u8])> {
    let (length, rest) = two_bytes(stream)?;
    let (bytes, rest) = rest.split_at_checked(length.into())?;
    Some((bytes.to_vec(), rest))
}
