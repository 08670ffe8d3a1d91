//! A sheet answered by up to seven attempts, one after the other.

use std::fmt;

use crate::Answer;

/// The answer to a sheet, and which attempt gave it.
#[derive(Clone, Copy, Debug, PartialEq, Eq)]
pub struct Decision {
    /// As [`clash`](crate::clash) gives it; its count is that of all the searches made.
    pub answer: Answer,
    /// The attempt that decided, 1 to 7; 0 where none did, or where the sheet is at fault.
    pub search: u8,
}

impl Decision {
    /// Whether the rules clash; none where that is not decided, or the sheet is at fault.
    pub fn clashes(self) -> Option<bool> {
        self.answer.clashes()
    }
}

/// In words, those of the answer.
impl fmt::Display for Decision {
    fn fmt(&self, to: &mut fmt::Formatter<'_>) -> fmt::Result {
        self.answer.fmt(to)
    }
}

/// Can the two rules of the sheet make the same label? As [`clash`](crate::clash), but up to seven
/// attempts are made in the same working buffer, one after the other, until one decides:
///
/// 1. the search of `clash`;
/// 2. letters: where some character but the space can't stand as often on both sides, there is no
///    clash; no search is made;
/// 3. every standing of a field apart, by the engine of [`plain`](crate::plain), whose "no clash" is
///    one, and whose clash says nothing; no search is made;
/// 4. the search with the shortest text in each field that stands twice, whose clash is one, and
///    whose end says nothing;
/// 5. the same with texts of three characters or more;
/// 6. the search over one character of each kind that the sheet tells apart;
/// 7. the search over a few characters, whose clash is one, and whose end says nothing.
///
/// Where `clash` decides, or refuses the sheet, this gives the same in every number and byte. Where
/// no attempt decides, the answer is [`Answer::NoRoom`] or [`Answer::SideTooLong`], as the first
/// one had it: neither yes nor no. After [`Answer::AnswerTooShort`] the attempt is told that found
/// the texts.
///
/// The working buffer is all zero afterwards, but a sheet at fault leaves it unchanged. Only a clash
/// changes the answer buffer, and only the bytes written. [`answer_bytes`](crate::answer_bytes) are
/// always enough.
pub fn decide(sheet: &[u8], work: &mut [u8], answer: &mut [u8]) -> Decision {
    let mut told = [0; 4];
    // SAFETY: each pointer and length are those of one slice. No two of the slices overlap, since
    // three are borrowed mutably. The function keeps no pointer.
    let number = unsafe {
        bradovusc_decide(
            sheet.as_ptr(),
            sheet.len() as u64,
            work.as_mut_ptr(),
            work.len() as u64,
            answer.as_mut_ptr(),
            answer.len() as u64,
            told.as_mut_ptr(),
            told.len() as u64,
        )
    };
    // These are lengths and offsets of slices, the number of situations that the searches entered,
    // and a number up to 7.
    let [count, place, written, search] = told.map(|number| number as usize);
    Decision { answer: Answer::numbered(number, count, place, written), search: search as u8 }
}

extern "C" {
    fn bradovusc_decide(
        sheet: *const u8,
        sheet_length: u64,
        work: *mut u8,
        work_length: u64,
        answer: *mut u8,
        answer_length: u64,
        told: *mut u64,
        told_length: u64,
    ) -> u32;
}
