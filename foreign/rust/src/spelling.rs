//! Texts of Full ASCII spelt in Code 39, and read back.

use std::fmt;

/// The answer to a text that is to be spelt, or a spelt text that is to be read back.
#[derive(Clone, Copy, Debug, PartialEq, Eq)]
pub enum Spelt {
    /// 0: the values, or the characters, are the first `bytes` bytes of the buffer.
    Written { bytes: usize },
    /// 45: a byte that is to be spelt is above 127, or a spelt text is none that the table gives.
    NotInTable,
    /// 46: the output buffer is too short. Not a byte of it is written.
    TooShort,
}

impl Spelt {
    /// Its number, as in the table of the rules.
    pub fn number(self) -> u32 {
        match self {
            Spelt::Written { .. } => 0,
            Spelt::NotInTable => 45,
            Spelt::TooShort => 46,
        }
    }

    /// The bytes written; 0 for all but [`Spelt::Written`].
    pub fn written(self) -> usize {
        if let Spelt::Written { bytes } = self {
            bytes
        } else {
            0
        }
    }

    fn told(number: u32, [_, _, bytes]: [u64; 3]) -> Spelt {
        match number {
            0 => Spelt::Written { bytes: bytes as usize },
            45 => Spelt::NotInTable,
            _ => Spelt::TooShort,
        }
    }
}

/// In words.
impl fmt::Display for Spelt {
    fn fmt(&self, to: &mut fmt::Formatter<'_>) -> fmt::Result {
        to.write_str(match self {
            Spelt::Written { .. } => "done",
            Spelt::NotInTable => "not in the table of Full ASCII",
            Spelt::TooShort => "the output buffer is too short for the text",
        })
    }
}

/// So many bytes are always enough for the spelling of a text of so many characters.
pub const fn spelt_bytes(characters: usize) -> usize {
    2 * characters
}

/// Spells a text of Full ASCII, bytes 0 to 127, in values of Code 39, one or two for each character.
///
/// It is proved that no two different texts are spelt alike, and that [`read_spelt`] of what was
/// spelt gives the text.
///
/// [`Spelt::NotInTable`] comes before [`Spelt::TooShort`]. Only [`Spelt::Written`] changes the buffer,
/// and only the bytes of the values. [`spelt_bytes`] are always enough.
pub fn spell(text: &[u8], out: &mut [u8]) -> Spelt {
    called(bradovusc_spell, text, out)
}

/// Reads a spelt text back, from the front: a value alone, or a shift sign and the value behind it.
///
/// [`Spelt::NotInTable`] where a value is above 42, a shift sign (39 to 42, the signs `$/+%`) is the
/// last, or has a value behind it that it doesn't take, as in `%X`. It is proved that [`spell`] of what
/// is read back gives the same values.
///
/// [`Spelt::NotInTable`] comes before [`Spelt::TooShort`]. Only [`Spelt::Written`] changes the buffer,
/// and only the bytes of the characters. As many bytes as the spelt text has are always enough.
pub fn read_spelt(spelt: &[u8], out: &mut [u8]) -> Spelt {
    called(bradovusc_read_spelt, spelt, out)
}

type Speller = unsafe extern "C" fn(*const u8, u64, *mut u8, u64, *mut u64, u64) -> u32;

fn called(speller: Speller, given: &[u8], out: &mut [u8]) -> Spelt {
    let mut told = [0; 3];
    // SAFETY: each pointer and length are those of one slice. The two slices that are written
    // overlap no other, since they are borrowed mutably. The function keeps no pointer.
    let number = unsafe {
        speller(
            given.as_ptr(),
            given.len() as u64,
            out.as_mut_ptr(),
            out.len() as u64,
            told.as_mut_ptr(),
            told.len() as u64,
        )
    };
    Spelt::told(number, told)
}

extern "C" {
    fn bradovusc_spell(
        text: *const u8,
        text_length: u64,
        out: *mut u8,
        out_length: u64,
        told: *mut u64,
        told_length: u64,
    ) -> u32;
    fn bradovusc_read_spelt(
        spelt: *const u8,
        spelt_length: u64,
        out: *mut u8,
        out_length: u64,
        told: *mut u64,
        told_length: u64,
    ) -> u32;
}
