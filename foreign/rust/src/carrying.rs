//! Sheets, rules and catalogues from before version 0.6 carried over.

use std::fmt;

use crate::Fault;

/// A good sheet has at most so many bytes, three fewer without `ED`; an output buffer of so many is
/// long enough for every sheet that is written or carried over, which is proved.
pub const SHEET_BYTES: usize = 1625;

/// The answer to a sheet or a rule that is to be carried over.
#[derive(Clone, Copy, Debug, PartialEq, Eq)]
pub enum SpeltOpen {
    /// 0: the new sheet, or the new rule, is the first `bytes` bytes of the buffer.
    Written { bytes: usize },
    /// 11 to 17, 22, 44: the sheet or the rule is at fault. `place` is the offset of the byte at fault,
    /// as [`Fault`] says.
    Refused { fault: Fault, place: usize },
    /// 31: the rule names a field above 3. No place is told. A sheet never gets this.
    ForeignField,
    /// 41: the output buffer is too short. Not a byte of it is written.
    TooShort,
}

impl SpeltOpen {
    /// The answer with these numbers.
    fn numbered(number: u32, place: usize, bytes: usize) -> SpeltOpen {
        match number {
            0 => SpeltOpen::Written { bytes },
            31 => SpeltOpen::ForeignField,
            41 => SpeltOpen::TooShort,
            _ => SpeltOpen::Refused { fault: Fault::numbered(number), place },
        }
    }

    /// Its number, as in the table of the rules.
    pub fn number(self) -> u32 {
        match self {
            SpeltOpen::Written { .. } => 0,
            SpeltOpen::Refused { fault, .. } => fault.number(),
            SpeltOpen::ForeignField => 31,
            SpeltOpen::TooShort => 41,
        }
    }

    /// The offset of the byte at fault; 0 for all but [`SpeltOpen::Refused`].
    pub fn place(self) -> usize {
        if let SpeltOpen::Refused { place, .. } = self {
            place
        } else {
            0
        }
    }

    /// The bytes written; 0 for all but [`SpeltOpen::Written`].
    pub fn written(self) -> usize {
        if let SpeltOpen::Written { bytes } = self {
            bytes
        } else {
            0
        }
    }
}

/// In words; of a sheet or a rule at fault with the place.
impl fmt::Display for SpeltOpen {
    fn fmt(&self, to: &mut fmt::Formatter<'_>) -> fmt::Result {
        to.write_str(match self {
            SpeltOpen::Written { .. } => "done",
            SpeltOpen::Refused { fault, place } => {
                return write!(to, "{fault}, at offset {place}");
            }
            SpeltOpen::ForeignField => "a field above 3",
            SpeltOpen::TooShort => "the output buffer is too short for the sheet or the rule",
        })
    }
}

/// The answer to a catalogue that is to be carried over.
#[derive(Clone, Copy, Debug, PartialEq, Eq)]
pub enum CarriedOver {
    /// 0: every rule is carried over.
    Done,
    /// 32: the new rules are longer than the buffer.
    Full,
    /// 34: the buffer is no catalogue.
    NoCatalogue,
}

impl CarriedOver {
    /// Its number, as in the table of the rules.
    pub fn number(self) -> u32 {
        match self {
            CarriedOver::Done => 0,
            CarriedOver::Full => 32,
            CarriedOver::NoCatalogue => 34,
        }
    }
}

/// In words.
impl fmt::Display for CarriedOver {
    fn fmt(&self, to: &mut fmt::Formatter<'_>) -> fmt::Result {
        to.write_str(match self {
            CarriedOver::Done => "done",
            CarriedOver::Full => "no room in the catalogue",
            CarriedOver::NoCatalogue => "the buffer is no catalogue",
        })
    }
}

/// Carries a sheet from before version 0.6 over.
///
/// Up to version 0.5 a field without a pattern held any text, the empty one included; since 0.6 it
/// holds one character or more. This writes the sheet with the pattern 68 65 0 42, behind `ED` 196 193 0 127, for each field
/// that stands in a side and has none. All else stays byte for byte as it was, so a sheet with
/// nothing to add comes out unchanged. It is proved that the new sheet's question has exactly the
/// solutions that the old meaning gave the old sheet.
///
/// Carry a sheet over once, and only one from before 0.6: nothing in its bytes says for which
/// version it was written, and a sheet for 0.6 would get another meaning. One with stray patterns is
/// refused: [`drop_strays`](crate::drop_strays) comes first.
///
/// Only [`SpeltOpen::Written`] changes the buffer, and only the bytes of the new sheet.
/// [`SHEET_BYTES`] are always enough.
pub fn spell_open(sheet: &[u8], out: &mut [u8]) -> SpeltOpen {
    let mut told = [0; 3];
    // SAFETY: each pointer and length are those of one slice. No two of the slices overlap, since
    // two are borrowed mutably. The function keeps no pointer.
    let number = unsafe {
        bradovusc_spell_open(
            sheet.as_ptr(),
            sheet.len() as u64,
            out.as_mut_ptr(),
            out.len() as u64,
            told.as_mut_ptr(),
            told.len() as u64,
        )
    };
    // These are lengths and offsets of slices.
    let [_, place, bytes] = told.map(|number| number as usize);
    SpeltOpen::numbered(number, place, bytes)
}

/// Carries a rule of a catalogue from before version 0.6 over, as [`spell_open`] does a sheet.
///
/// It is proved that the new rule makes exactly the labels that the old one made.
/// [`SpeltOpen::ForeignField`] comes after [`SpeltOpen::Refused`] and before
/// [`SpeltOpen::TooShort`]. [`RULE_BYTES`](crate::RULE_BYTES) are always enough.
pub fn spell_open_rule(rule: &[u8], out: &mut [u8]) -> SpeltOpen {
    let mut told = [0; 3];
    // SAFETY: each pointer and length are those of one slice. No two of the slices overlap, since
    // two are borrowed mutably. The function keeps no pointer.
    let number = unsafe {
        bradovusc_spell_open_rule(
            rule.as_ptr(),
            rule.len() as u64,
            out.as_mut_ptr(),
            out.len() as u64,
            told.as_mut_ptr(),
            told.len() as u64,
        )
    };
    // These are lengths and offsets of slices.
    let [_, place, bytes] = told.map(|number| number as usize);
    SpeltOpen::numbered(number, place, bytes)
}

/// Carries every rule of a catalogue from before version 0.6 over, in its own buffer.
///
/// Each rule keeps its number, and it is proved that it makes exactly the labels that it made
/// before. So no pair has to be checked again after it. Carry it over once, before any rule is added
/// to it: a rule written for 0.6 would get another meaning. If it is not carried over, its rules make
/// fewer labels than before, and a new rule could make one that is in use.
///
/// A catalogue from before 0.4, and one to which a rule was added by 0.6 first, should be checked
/// again after it, by [`recheck`](crate::recheck). One with stray patterns is refused:
/// [`drop_strays_catalogue`](crate::drop_strays_catalogue) comes first.
///
/// A rule grows by eight bytes for each field that stands in it without a pattern. After
/// [`CarriedOver::Full`] put the catalogue into a longer buffer, with zeros behind it:
/// [`catalogue_bytes`](crate::catalogue_bytes) of [`MOST_RULES`](crate::MOST_RULES), 26,016, are
/// always enough. Only [`CarriedOver::Done`] changes the catalogue.
pub fn spell_open_catalogue(catalogue: &mut [u8]) -> CarriedOver {
    // SAFETY: pointer and length are those of one slice. The function keeps no pointer.
    match unsafe { bradovusc_spell_open_catalogue(catalogue.as_mut_ptr(), catalogue.len() as u64) }
    {
        0 => CarriedOver::Done,
        32 => CarriedOver::Full,
        34 => CarriedOver::NoCatalogue,
        _ => unreachable!("the library promises its numbers"),
    }
}

extern "C" {
    fn bradovusc_spell_open(
        sheet: *const u8,
        sheet_length: u64,
        out: *mut u8,
        out_length: u64,
        told: *mut u64,
        told_length: u64,
    ) -> u32;

    fn bradovusc_spell_open_rule(
        rule: *const u8,
        rule_length: u64,
        out: *mut u8,
        out_length: u64,
        told: *mut u64,
        told_length: u64,
    ) -> u32;

    fn bradovusc_spell_open_catalogue(catalogue: *mut u8, catalogue_length: u64) -> u32;
}
