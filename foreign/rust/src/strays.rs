//! Sheets, rules and catalogues without their stray patterns.

use std::fmt;

use crate::Fault;

/// The answer to a sheet or a rule whose strays are to be dropped.
#[derive(Clone, Copy, Debug, PartialEq, Eq)]
pub enum Mended {
    /// 0: the new sheet, or the new rule, is the first `bytes` bytes of the buffer.
    Written { bytes: usize },
    /// 11 to 17, 44: the sheet or the rule is at fault. `place` is the offset of the byte at fault, as
    /// [`Fault`] says. [`Fault::StrayPattern`] never comes.
    Refused { fault: Fault, place: usize },
    /// 31: the rule names a field above 3, in a stray pattern or elsewhere. No place is told. A sheet
    /// never gets this.
    ForeignField,
    /// 41: the output buffer is too short. Not a byte of it is written.
    TooShort,
}

impl Mended {
    /// The answer with these numbers.
    fn numbered(number: u32, place: usize, bytes: usize) -> Mended {
        match number {
            0 => Mended::Written { bytes },
            31 => Mended::ForeignField,
            41 => Mended::TooShort,
            _ => Mended::Refused { fault: Fault::numbered(number), place },
        }
    }

    /// Its number, as in the table of the rules.
    pub fn number(self) -> u32 {
        match self {
            Mended::Written { .. } => 0,
            Mended::Refused { fault, .. } => fault.number(),
            Mended::ForeignField => 31,
            Mended::TooShort => 41,
        }
    }

    /// The offset of the byte at fault; 0 for all but [`Mended::Refused`].
    pub fn place(self) -> usize {
        if let Mended::Refused { place, .. } = self {
            place
        } else {
            0
        }
    }

    /// The bytes written; 0 for all but [`Mended::Written`].
    pub fn written(self) -> usize {
        if let Mended::Written { bytes } = self {
            bytes
        } else {
            0
        }
    }
}

/// In words; of a sheet or a rule at fault with the place.
impl fmt::Display for Mended {
    fn fmt(&self, to: &mut fmt::Formatter<'_>) -> fmt::Result {
        to.write_str(match self {
            Mended::Written { .. } => "done",
            Mended::Refused { fault, place } => {
                return write!(to, "{fault}, at offset {place}");
            }
            Mended::ForeignField => "a field above 3",
            Mended::TooShort => "the output buffer is too short for the sheet or the rule",
        })
    }
}

/// The answer to a catalogue whose strays are to be dropped.
#[derive(Clone, Copy, Debug, PartialEq, Eq)]
pub enum MendedCatalogue {
    /// 0: no rule has a stray pattern.
    Done,
    /// 34: the buffer is no catalogue, not even with strays.
    NoCatalogue,
}

impl MendedCatalogue {
    /// Its number, as in the table of the rules.
    pub fn number(self) -> u32 {
        match self {
            MendedCatalogue::Done => 0,
            MendedCatalogue::NoCatalogue => 34,
        }
    }
}

/// In words.
impl fmt::Display for MendedCatalogue {
    fn fmt(&self, to: &mut fmt::Formatter<'_>) -> fmt::Result {
        to.write_str(match self {
            MendedCatalogue::Done => "done",
            MendedCatalogue::NoCatalogue => "the buffer is no catalogue",
        })
    }
}

/// Drops the stray patterns of a sheet: those of fields that stand in neither side.
///
/// Up to version 0.8 a sheet could have such patterns, and nothing depended on them. Now it is
/// refused, as [`Fault::StrayPattern`]. This reads it as it was read before and writes it without
/// them. All else, `ED` included, stays byte for byte as it was, so a sheet without strays comes out
/// unchanged, and it may be done again. It is proved that every answer about the new sheet is the one
/// that was given about the old one, in every number and byte, by [`clash`](crate::clash),
/// [`decide`](crate::decide) and [`plain`](crate::plain()).
///
/// A sheet from before 0.6 loses its strays first, and is then carried over by
/// [`spell_open`](crate::spell_open).
///
/// Only [`Mended::Written`] changes the buffer, and only the bytes of the new sheet.
/// [`SHEET_BYTES`](crate::SHEET_BYTES) are always enough, and so are as many as the sheet has.
pub fn drop_strays(sheet: &[u8], out: &mut [u8]) -> Mended {
    let mut told = [0; 3];
    // SAFETY: each pointer and length are those of one slice. No two of the slices overlap, since
    // two are borrowed mutably. The function keeps no pointer.
    let number = unsafe {
        bradovusc_drop_strays(
            sheet.as_ptr(),
            sheet.len() as u64,
            out.as_mut_ptr(),
            out.len() as u64,
            told.as_mut_ptr(),
            told.len() as u64,
        )
    };
    // These are lengths and offsets of slices.
    let [_, place, bytes] = told.map(|number| number as usize);
    Mended::numbered(number, place, bytes)
}

/// Drops the stray patterns of a rule of a catalogue, as [`drop_strays`] does those of a sheet.
///
/// It is proved that the new rule makes exactly the labels that the old one made.
/// [`Mended::ForeignField`] comes after [`Mended::Refused`] and before [`Mended::TooShort`].
/// [`RULE_BYTES`](crate::RULE_BYTES) are always enough.
pub fn drop_strays_rule(rule: &[u8], out: &mut [u8]) -> Mended {
    let mut told = [0; 3];
    // SAFETY: each pointer and length are those of one slice. No two of the slices overlap, since
    // two are borrowed mutably. The function keeps no pointer.
    let number = unsafe {
        bradovusc_drop_strays_rule(
            rule.as_ptr(),
            rule.len() as u64,
            out.as_mut_ptr(),
            out.len() as u64,
            told.as_mut_ptr(),
            told.len() as u64,
        )
    };
    // These are lengths and offsets of slices.
    let [_, place, bytes] = told.map(|number| number as usize);
    Mended::numbered(number, place, bytes)
}

/// Drops the stray patterns of every rule of a catalogue, in its own buffer.
///
/// Each rule keeps its number, and it is proved that it makes exactly the labels that it made before,
/// and that each pair keeps its answer and its count. So no pair has to be checked again after it.
/// The bytes freed at the end are zero. A catalogue with strays is refused by every other call, as
/// `NoCatalogue`; so one from before 0.6 loses them first, and is then carried over by
/// [`spell_open_catalogue`](crate::spell_open_catalogue).
///
/// Only [`MendedCatalogue::Done`] changes the catalogue.
pub fn drop_strays_catalogue(catalogue: &mut [u8]) -> MendedCatalogue {
    // SAFETY: pointer and length are those of one slice. The function keeps no pointer.
    match unsafe { bradovusc_drop_strays_catalogue(catalogue.as_mut_ptr(), catalogue.len() as u64) }
    {
        0 => MendedCatalogue::Done,
        34 => MendedCatalogue::NoCatalogue,
        _ => unreachable!("the library promises its numbers"),
    }
}

extern "C" {
    fn bradovusc_drop_strays(
        sheet: *const u8,
        sheet_length: u64,
        out: *mut u8,
        out_length: u64,
        told: *mut u64,
        told_length: u64,
    ) -> u32;

    fn bradovusc_drop_strays_rule(
        rule: *const u8,
        rule_length: u64,
        out: *mut u8,
        out_length: u64,
        told: *mut u64,
        told_length: u64,
    ) -> u32;

    fn bradovusc_drop_strays_catalogue(catalogue: *mut u8, catalogue_length: u64) -> u32;
}
