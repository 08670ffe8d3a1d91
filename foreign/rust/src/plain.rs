//! The small engine for plain rules: those in which no field stands more than once.

use std::fmt;

use crate::Fault;

/// A bit buffer of so many bytes is long enough for every plain sheet; that is proved. Four fields
/// of 63 leaves and 20 characters a side make 279 standings each.
pub const PLAIN_BYTES: usize = 9_731;

/// What the small engine answers.
#[derive(Clone, Copy, Debug, PartialEq, Eq)]
pub enum Plain {
    /// 0: a label can be made by both rules.
    Clash,
    /// 1: no label, however long, and with whatever spaces at its end, can be made by both rules.
    NoClash,
    /// 11 to 17, 22, 44: the sheet is at fault. `place` is the offset of the byte at fault, as
    /// [`Fault`] says.
    Refused { fault: Fault, place: usize },
    /// 42: a field stands more than once in the two sides together. Ask by
    /// [`clash`](crate::clash) or [`decide`](crate::decide).
    NotPlain,
    /// 43: the bit buffer is too short. [`plain_bytes`] says how many bytes will do.
    BitsTooShort,
}

impl Plain {
    /// Its number, as in the table of the rules.
    pub fn number(self) -> u32 {
        match self {
            Plain::Clash => 0,
            Plain::NoClash => 1,
            Plain::Refused { fault, .. } => fault.number(),
            Plain::NotPlain => 42,
            Plain::BitsTooShort => 43,
        }
    }

    /// The offset of the byte at fault; 0 for all but [`Plain::Refused`].
    pub fn place(self) -> usize {
        if let Plain::Refused { place, .. } = self {
            place
        } else {
            0
        }
    }

    /// Whether the rules clash; none where the engine does not say it.
    pub fn clashes(self) -> Option<bool> {
        match self {
            Plain::Clash => Some(true),
            Plain::NoClash => Some(false),
            Plain::Refused { .. } | Plain::NotPlain | Plain::BitsTooShort => None,
        }
    }
}

/// In words; of a sheet at fault with the place.
impl fmt::Display for Plain {
    fn fmt(&self, to: &mut fmt::Formatter<'_>) -> fmt::Result {
        match self {
            Plain::Clash => to.write_str("clash"),
            Plain::NoClash => to.write_str("no clash"),
            Plain::Refused { fault, place } => write!(to, "{fault}, at offset {place}"),
            Plain::NotPlain => to.write_str(NOT_PLAIN),
            Plain::BitsTooShort => to.write_str("the bit buffer is too short"),
        }
    }
}

const NOT_PLAIN: &str = "a field stands more than once";

/// How long a bit buffer a sheet needs.
#[derive(Clone, Copy, Debug, PartialEq, Eq)]
pub enum PlainBytes {
    /// 0: the shortest bit buffer that will do has so many bytes.
    Needed { bytes: usize },
    /// 11 to 17, 22, 44: the sheet is at fault. `place` is the offset of the byte at fault, as
    /// [`Fault`] says.
    Refused { fault: Fault, place: usize },
    /// 42: a field stands more than once in the two sides together.
    NotPlain,
}

impl PlainBytes {
    /// Its number, as in the table of the rules.
    pub fn number(self) -> u32 {
        match self {
            PlainBytes::Needed { .. } => 0,
            PlainBytes::Refused { fault, .. } => fault.number(),
            PlainBytes::NotPlain => 42,
        }
    }

    /// The offset of the byte at fault; 0 for all but [`PlainBytes::Refused`].
    pub fn place(self) -> usize {
        if let PlainBytes::Refused { place, .. } = self {
            place
        } else {
            0
        }
    }

    /// The bytes needed; 0 for all but [`PlainBytes::Needed`].
    pub fn bytes(self) -> usize {
        if let PlainBytes::Needed { bytes } = self {
            bytes
        } else {
            0
        }
    }
}

/// In words; of a sheet at fault with the place.
impl fmt::Display for PlainBytes {
    fn fmt(&self, to: &mut fmt::Formatter<'_>) -> fmt::Result {
        match self {
            PlainBytes::Needed { .. } => to.write_str("done"),
            PlainBytes::Refused { fault, place } => write!(to, "{fault}, at offset {place}"),
            PlainBytes::NotPlain => to.write_str(NOT_PLAIN),
        }
    }
}

/// Can the two rules of the sheet make the same label, where no field stands more than once?
///
/// The engine is lent one bit for each pair of a left and a right standing, and no situations. A
/// standing is how far a side is read, with one place of the field in front. [`PLAIN_BYTES`] are
/// always enough. It is proved that it answers [`Plain::Clash`] exactly if some texts solve the
/// question, and [`Plain::NoClash`] exactly if none do, of any length; so it agrees with
/// [`clash`](crate::clash) wherever that decides, and answers too where that has no room. It tells no
/// texts.
///
/// The bit buffer is all zero afterwards, but a sheet at fault leaves it unchanged. The sheet's own
/// faults come first, then [`Plain::NotPlain`], then [`Plain::BitsTooShort`].
pub fn plain(sheet: &[u8], bits: &mut [u8]) -> Plain {
    let mut told = [0; 2];
    // SAFETY: each pointer and length are those of one slice. No two of the slices overlap, since
    // two are borrowed mutably. The function keeps no pointer.
    let number = unsafe {
        bradovusc_plain(
            sheet.as_ptr(),
            sheet.len() as u64,
            bits.as_mut_ptr(),
            bits.len() as u64,
            told.as_mut_ptr(),
            told.len() as u64,
        )
    };
    // The place is an offset of the sheet.
    let [_, place] = told.map(|number| number as usize);
    match number {
        0 => Plain::Clash,
        1 => Plain::NoClash,
        42 => Plain::NotPlain,
        43 => Plain::BitsTooShort,
        _ => Plain::Refused { fault: Fault::numbered(number), place },
    }
}

/// How long a bit buffer [`plain`] needs for the sheet: with fewer bytes it answers
/// [`Plain::BitsTooShort`], with so many it says whether the rules clash.
pub fn plain_bytes(sheet: &[u8]) -> PlainBytes {
    let mut told = [0; 3];
    // SAFETY: each pointer and length are those of one slice. The two slices do not overlap, since
    // one is borrowed mutably. The function keeps no pointer.
    let number = unsafe {
        bradovusc_plain_bytes(
            sheet.as_ptr(),
            sheet.len() as u64,
            told.as_mut_ptr(),
            told.len() as u64,
        )
    };
    // These are an offset of the sheet and the length of a buffer, at most `PLAIN_BYTES`.
    let [_, place, bytes] = told.map(|number| number as usize);
    match number {
        0 => PlainBytes::Needed { bytes },
        42 => PlainBytes::NotPlain,
        _ => PlainBytes::Refused { fault: Fault::numbered(number), place },
    }
}

extern "C" {
    fn bradovusc_plain(
        sheet: *const u8,
        sheet_length: u64,
        bits: *mut u8,
        bits_length: u64,
        told: *mut u64,
        told_length: u64,
    ) -> u32;

    fn bradovusc_plain_bytes(
        sheet: *const u8,
        sheet_length: u64,
        told: *mut u64,
        told_length: u64,
    ) -> u32;
}
