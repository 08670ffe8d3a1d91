//! Two sides told apart by what is fixed in them.

use crate::Edition;

/// Whether the fixed fronts or ends of two sides show that they never make the same label.
///
/// `left` and `right` are the tokens of the two sides, as [`write_edition`](crate::write_edition)
/// takes them. Fixed are the characters before a side's first field and those behind its last one.
/// The fronts differ if both sides have a character at some place, and the two are different. The
/// ends are compared only where both sides end with a character that is not the space.
///
/// It is proved that `true` comes only if no texts at all, whatever the fields may hold, make both
/// sides the same label. So [`clash`](crate::clash) would never find one, and a pair of rules needs
/// no further asking. `false` says nothing, also of bytes that are no tokens of the edition. A side
/// may have any length.
pub fn fronts_differ(edition: Edition, left: &[u8], right: &[u8]) -> bool {
    // SAFETY: each pointer and length are those of one slice. The function writes nothing, and keeps
    // no pointer.
    let number = unsafe {
        bradovusc_fronts_differ(
            edition.number() as u64,
            left.as_ptr(),
            left.len() as u64,
            right.as_ptr(),
            right.len() as u64,
        )
    };
    number == 1
}

extern "C" {
    fn bradovusc_fronts_differ(
        edition: u64,
        left: *const u8,
        left_length: u64,
        right: *const u8,
        right_length: u64,
    ) -> u32;
}
