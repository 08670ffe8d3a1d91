//! The faults of a sheet or a rule, and their places: "The place should be the
//! byte itself".

/// "for 11 the sheet's length"
pub const CUT_SHORT: u8 = 11;
/// "for 12 the first byte of the mark, or the first byte after `RI`"
pub const WRONG_MARK: u8 = 12;
/// "for 13 the field byte"
pub const WRONG_FIELD: u8 = 13;
/// "for 14 the length byte"
pub const WRONG_LENGTH: u8 = 14;
/// "For 15, read left to right, it is the first byte that is no code, or the lo
/// byte if lo is above 42, else the hi byte if that is above 42 or below lo;
/// where bytes are left over, the first of them; where the code runs out, the
/// offset after the pattern's last byte." In the second edition 42 is 127.
pub const NOT_ONE_PATTERN: u8 = 15;
/// "16 now points at the 64th leaf", at its first byte.
pub const TOO_MANY_LEAVES: u8 = 16;
/// "for 17 the token"
pub const WRONG_TOKEN: u8 = 17;
/// "22, with the place of the first stray record's mark, after all other checks on
/// the sheet"
pub const STRAY_PATTERN: u8 = 22;
/// "44 for an edition byte other than 2, its place that byte"
pub const WRONG_EDITION: u8 = 44;

/// "The first fault met decides." Its place is counted from the first of the
/// bytes that are read: a sheet's, a rule's from `RU` on, or a pattern's.
#[derive(Clone, Copy, Debug, PartialEq, Eq)]
pub struct Fault {
    pub number: u8,
    pub place: usize,
}

impl Fault {
    /// The same fault for a reader of more bytes, so many of which stand before
    /// those that it was met in: "The pattern reader must promise this; sheet
    /// reader and catalogue pass it on."
    pub fn passed_on(self, before: usize) -> Fault {
        Fault { place: before + self.place, ..self }
    }
}
