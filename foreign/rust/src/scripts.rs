//! A sheet written out as a script for string solvers.

use std::fmt;

use crate::Fault;

/// An output buffer of so many bytes is long enough for the script of every sheet; that is proved.
pub const SCRIPT_BYTES: usize = 280_000;

/// The answer to a sheet that is to be written out.
#[derive(Clone, Copy, Debug, PartialEq, Eq)]
pub enum Scripted {
    /// 0: the script is the first `bytes` bytes of the buffer.
    Written { bytes: usize },
    /// 11 to 17, 22, 44: the sheet is at fault. `place` is the offset of the byte at fault, as
    /// [`Fault`] says.
    Refused { fault: Fault, place: usize },
    /// 40: the output buffer is too short for the script. Not a byte of it is written.
    TooShort,
}

impl Scripted {
    /// Its number, as in the table of the rules.
    pub fn number(self) -> u32 {
        match self {
            Scripted::Written { .. } => 0,
            Scripted::Refused { fault, .. } => fault.number(),
            Scripted::TooShort => 40,
        }
    }

    /// The offset of the byte at fault; 0 for all but [`Scripted::Refused`].
    pub fn place(self) -> usize {
        if let Scripted::Refused { place, .. } = self {
            place
        } else {
            0
        }
    }

    /// The bytes written; 0 for all but [`Scripted::Written`].
    pub fn written(self) -> usize {
        if let Scripted::Written { bytes } = self {
            bytes
        } else {
            0
        }
    }
}

/// In words; of a sheet at fault with the place.
impl fmt::Display for Scripted {
    fn fmt(&self, to: &mut fmt::Formatter<'_>) -> fmt::Result {
        match self {
            Scripted::Written { .. } => to.write_str("done"),
            Scripted::Refused { fault, place } => write!(to, "{fault}, at offset {place}"),
            Scripted::TooShort => to.write_str("the output buffer is too short for the script"),
        }
    }
}

/// Writes the sheet out as a script for string solvers, such as z3 and cvc5.
///
/// The script is text in SMT-LIB 2.6, in the theory of Unicode strings. It has a string constant
/// for each field that stands in a side, `f0` to `f7`, and `f8` and `f9` for the spaces at the end
/// of the left and the right label; for each of them one membership in a regular expression, which
/// has the texts that the field may hold; the equation of both sides; and the check command. It
/// means the sheet's question: `sat` says that the rules clash, `unsat` that they don't.
///
/// Only [`Scripted::Written`] changes the buffer, and only the bytes of the script. [`SCRIPT_BYTES`]
/// are always enough.
pub fn script(sheet: &[u8], script: &mut [u8]) -> Scripted {
    let mut told = [0; 3];
    // SAFETY: each pointer and length are those of one slice. No two of the slices overlap, since
    // two are borrowed mutably. The function keeps no pointer.
    let number = unsafe {
        bradovusc_script(
            sheet.as_ptr(),
            sheet.len() as u64,
            script.as_mut_ptr(),
            script.len() as u64,
            told.as_mut_ptr(),
            told.len() as u64,
        )
    };
    // These are lengths and offsets of slices.
    let [_, place, bytes] = told.map(|number| number as usize);
    match number {
        0 => Scripted::Written { bytes },
        40 => Scripted::TooShort,
        _ => Scripted::Refused { fault: Fault::numbered(number), place },
    }
}

extern "C" {
    fn bradovusc_script(
        sheet: *const u8,
        sheet_length: u64,
        script: *mut u8,
        script_length: u64,
        told: *mut u64,
        told_length: u64,
    ) -> u32;
}
