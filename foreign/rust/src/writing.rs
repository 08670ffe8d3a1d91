//! The sheet that says given sides and patterns.

use std::fmt;

use crate::{Edition, Fault};

/// The answer to sides and patterns of which a sheet is to be written.
#[derive(Clone, Copy, Debug, PartialEq, Eq)]
pub enum Written {
    /// 0: the sheet is the first `bytes` bytes of the buffer.
    Sheet { bytes: usize },
    /// 11, 13 to 17, 22: a pattern or a side is at fault. `place` is the offset of the byte at fault in
    /// the sheet that would be written, as [`Fault`] says. [`Fault::WrongMark`] and
    /// [`Fault::WrongEdition`] never come.
    Refused { fault: Fault, place: usize },
    /// 41: the output buffer is too short. Not a byte of it is written.
    TooShort,
}

impl Written {
    /// Its number, as in the table of the rules.
    pub fn number(self) -> u32 {
        match self {
            Written::Sheet { .. } => 0,
            Written::Refused { fault, .. } => fault.number(),
            Written::TooShort => 41,
        }
    }

    /// The offset of the byte at fault; 0 for all but [`Written::Refused`].
    pub fn place(self) -> usize {
        if let Written::Refused { place, .. } = self {
            place
        } else {
            0
        }
    }

    /// The bytes written; 0 for all but [`Written::Sheet`].
    pub fn written(self) -> usize {
        if let Written::Sheet { bytes } = self {
            bytes
        } else {
            0
        }
    }
}

/// In words; of a pattern or a side at fault with the place.
impl fmt::Display for Written {
    fn fmt(&self, to: &mut fmt::Formatter<'_>) -> fmt::Result {
        to.write_str(match self {
            Written::Sheet { .. } => "done",
            Written::Refused { fault, place } => {
                return write!(to, "{fault}, at offset {place}");
            }
            Written::TooShort => "the output buffer is too short for the sheet or the rule",
        })
    }
}

/// Writes the one sheet of an edition that says these sides and patterns.
///
/// `left` and `right` are the tokens of the two sides. `patterns` are the bytes of all patterns one
/// behind the other, by rising field, and `lengths` says how many of them each field has, by field
/// number. A field has no pattern where its length is 0, and where no length is there for it. Bytes
/// behind the last pattern are not looked at.
///
/// It is proved that reading the sheet gives the same edition, the same sides and the same patterns,
/// byte for byte.
///
/// [`Written::Refused`] is the first fault that reading the sheet would meet: those of the patterns
/// come first, by rising field, then those of the left side, then those of the right one, then
/// [`Fault::StrayPattern`], for a pattern whose field stands in neither side.
/// [`Fault::WrongField`] is told of a length that is not 0 for a field above 7, and
/// [`Fault::CutShort`] where a pattern has fewer bytes than its length says.
///
/// Only [`Written::Sheet`] changes the buffer, and only the bytes of the sheet.
/// [`SHEET_BYTES`](crate::SHEET_BYTES) are always enough.
pub fn write_edition(
    edition: Edition,
    patterns: &[u8],
    lengths: &[u64],
    left: &[u8],
    right: &[u8],
    out: &mut [u8],
) -> Written {
    let mut told = [0; 3];
    // SAFETY: each pointer and length are those of one slice. The two slices that are written
    // overlap no other, since they are borrowed mutably. The function keeps no pointer.
    let number = unsafe {
        bradovusc_write_edition(
            edition.number() as u64,
            patterns.as_ptr(),
            patterns.len() as u64,
            lengths.as_ptr(),
            lengths.len() as u64,
            left.as_ptr(),
            left.len() as u64,
            right.as_ptr(),
            right.len() as u64,
            out.as_mut_ptr(),
            out.len() as u64,
            told.as_mut_ptr(),
            told.len() as u64,
        )
    };
    // These are lengths and offsets of a sheet.
    let [_, place, bytes] = told.map(|number| number as usize);
    match number {
        0 => Written::Sheet { bytes },
        41 => Written::TooShort,
        _ => Written::Refused { fault: Fault::numbered(number), place },
    }
}

/// Writes the one sheet without `ED` that says these sides and patterns: [`write_edition`] of
/// [`Edition::Code39`].
pub fn write(
    patterns: &[u8],
    lengths: &[u64],
    left: &[u8],
    right: &[u8],
    out: &mut [u8],
) -> Written {
    write_edition(Edition::Code39, patterns, lengths, left, right, out)
}

extern "C" {
    fn bradovusc_write_edition(
        edition: u64,
        patterns: *const u8,
        patterns_length: u64,
        lengths: *const u64,
        lengths_length: u64,
        left: *const u8,
        left_length: u64,
        right: *const u8,
        right_length: u64,
        out: *mut u8,
        out_length: u64,
        told: *mut u64,
        told_length: u64,
    ) -> u32;
}
