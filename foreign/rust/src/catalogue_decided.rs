//! A catalogue whose pairs are decided, each by up to seven attempts.
//!
//! The answers stand beside those of one search, as [`Decision`](crate::Decision) stands beside
//! [`Answer`], so that what matches on [`Added`] and [`Pair`](crate::Pair) stays as it is.

use std::fmt;
use std::iter::FusedIterator;
use std::slice::ChunksExact;

use crate::{Added, Answer};

/// A pair that was decided takes so many bytes of the list buffer.
pub const DECIDED_PAIR_BYTES: usize = 7;

/// A list buffer of so many bytes is always long enough for the decided pairs of this number of
/// rules.
pub const fn decided_list_bytes(rules: usize) -> usize {
    DECIDED_PAIR_BYTES * (rules * rules.saturating_sub(1) / 2)
}

/// The answer to a rule that is to be added, and the attempt that gave it.
#[derive(Clone, Copy, Debug, PartialEq, Eq)]
pub struct AddedDecided {
    /// As [`add`](crate::add) gives it; the count of a pair is that of all the searches made for it.
    pub added: Added,
    /// After [`Added::NotApart`] the attempt that found the clash, 1 or 4 to 7 (2 and 3 find none),
    /// or 0 where none decided the pair; otherwise 0.
    pub search: u8,
}

impl AddedDecided {
    /// Its number, as in the table of the rules.
    pub fn number(self) -> u32 {
        self.added.number()
    }
}

/// In words, those of the answer.
impl fmt::Display for AddedDecided {
    fn fmt(&self, to: &mut fmt::Formatter<'_>) -> fmt::Result {
        self.added.fmt(to)
    }
}

/// What checking a catalogue again answers, its pairs decided. They stand in the list buffer.
#[derive(Clone, Debug)]
pub enum RecheckedDecided<'a> {
    /// 0: these pairs are not answered 1. Where there are none, no two rules of the catalogue make
    /// the same label.
    Listed(DecidedPairs<'a>),
    /// 34: the buffer is no catalogue.
    NoCatalogue,
    /// 35: the list buffer is too short for all the pairs. None is listed.
    ListTooShort,
}

impl RecheckedDecided<'_> {
    /// Its number, as in the table of the rules.
    pub fn number(&self) -> u32 {
        match self {
            RecheckedDecided::Listed(_) => 0,
            RecheckedDecided::NoCatalogue => 34,
            RecheckedDecided::ListTooShort => 35,
        }
    }
}

/// In words.
impl fmt::Display for RecheckedDecided<'_> {
    fn fmt(&self, to: &mut fmt::Formatter<'_>) -> fmt::Result {
        to.write_str(match self {
            RecheckedDecided::Listed(_) => "done",
            RecheckedDecided::NoCatalogue => "the buffer is no catalogue",
            RecheckedDecided::ListTooShort => "the list buffer is too short for the pairs",
        })
    }
}

/// Two rules of a catalogue that can make the same label, or of which no attempt decides that.
#[derive(Clone, Copy, Debug, PartialEq, Eq)]
pub struct DecidedPair {
    /// The lower number of the two; this rule was the left side.
    pub lower: usize,
    /// The higher number.
    pub higher: usize,
    /// [`Answer::Clash`], of which no texts are written, or where none decided what the first
    /// attempt gave, [`Answer::NoRoom`] or [`Answer::SideTooLong`]. The count is that of all the
    /// searches made.
    pub answer: Answer,
    /// The attempt that found the clash, 1 or 4 to 7 (2 and 3 find none), or 0 where none decided.
    pub search: u8,
}

/// In words.
impl fmt::Display for DecidedPair {
    fn fmt(&self, to: &mut fmt::Formatter<'_>) -> fmt::Result {
        write!(to, "rule {} and rule {}: {}", self.lower, self.higher, self.answer)
    }
}

/// The pairs that [`recheck_decided`] has listed, by the lower number, then the higher one.
#[derive(Clone, Debug)]
pub struct DecidedPairs<'a> {
    rest: ChunksExact<'a, u8>,
}

impl Iterator for DecidedPairs<'_> {
    type Item = DecidedPair;

    fn next(&mut self) -> Option<DecidedPair> {
        let (lower, higher, answer, count, search) = match *self.rest.next()? {
            [lower, higher, answer, low, middle, high, search] => {
                (lower, higher, answer, u32::from_le_bytes([low, middle, high, 0]) as usize, search)
            }
            _ => unreachable!("a decided pair has seven bytes"),
        };
        let answer = Answer::numbered(u32::from(answer), count, 0, 0);
        let (lower, higher) = (usize::from(lower), usize::from(higher));
        Some(DecidedPair { lower, higher, answer, search })
    }

    fn size_hint(&self) -> (usize, Option<usize>) {
        self.rest.size_hint()
    }
}

impl ExactSizeIterator for DecidedPairs<'_> {}

impl FusedIterator for DecidedPairs<'_> {}

/// Adds a rule behind the last one, if it clashes with none that is there. As [`add`](crate::add),
/// but each pair is asked as [`decide`](crate::decide) asks: by up to seven attempts in the same
/// working buffer, until one decides.
///
/// So each rule that `add` enters is entered, with the same bytes, and some that it leaves open. A
/// pair that no attempt decides is told as the first one gave it, [`Answer::NoRoom`] or
/// [`Answer::SideTooLong`]. All else is as for `add`.
pub fn add_decided(catalogue: &mut [u8], rule: &[u8], work: &mut [u8]) -> AddedDecided {
    let mut told = [0; 5];
    // SAFETY: each pointer and length are those of one slice. No two of the slices overlap, since
    // three are borrowed mutably. The function keeps no pointer.
    let number = unsafe {
        bradovusc_add_decided(
            catalogue.as_mut_ptr(),
            catalogue.len() as u64,
            rule.as_ptr(),
            rule.len() as u64,
            work.as_mut_ptr(),
            work.len() as u64,
            told.as_mut_ptr(),
            told.len() as u64,
        )
    };
    // These are an offset in a slice, the number of situations that the searches entered, and small
    // numbers.
    let [count, place, rule, pair, search] = told.map(|number| number as usize);
    AddedDecided {
        added: Added::numbered(number, [count, place, rule, pair]),
        search: search as u8,
    }
}

/// Checks every pair of the catalogue's rules again. As [`recheck`](crate::recheck), but each pair
/// is asked as [`decide`](crate::decide) asks.
///
/// So no pair is listed that `recheck` doesn't list, and fewer that are not decided. A pair takes
/// seven bytes of the list buffer; [`decided_list_bytes`] are always enough, 3,472 for
/// [`MOST_RULES`](crate::MOST_RULES). All else is as for `recheck`.
pub fn recheck_decided<'a>(
    catalogue: &[u8],
    work: &mut [u8],
    list: &'a mut [u8],
) -> RecheckedDecided<'a> {
    let mut told = [0; 2];
    // SAFETY: each pointer and length are those of one slice. No two of the slices overlap, since
    // three are borrowed mutably. The function keeps no pointer.
    let number = unsafe {
        bradovusc_recheck_decided(
            catalogue.as_ptr(),
            catalogue.len() as u64,
            work.as_mut_ptr(),
            work.len() as u64,
            list.as_mut_ptr(),
            list.len() as u64,
            told.as_mut_ptr(),
            told.len() as u64,
        )
    };
    match number {
        0 => {
            // This is the length of a part of the list.
            let written = &list[..told[1] as usize];
            RecheckedDecided::Listed(DecidedPairs {
                rest: written.chunks_exact(DECIDED_PAIR_BYTES),
            })
        }
        34 => RecheckedDecided::NoCatalogue,
        35 => RecheckedDecided::ListTooShort,
        _ => unreachable!("the library promises its numbers"),
    }
}

extern "C" {
    fn bradovusc_add_decided(
        catalogue: *mut u8,
        catalogue_length: u64,
        rule: *const u8,
        rule_length: u64,
        work: *mut u8,
        work_length: u64,
        told: *mut u64,
        told_length: u64,
    ) -> u32;

    fn bradovusc_recheck_decided(
        catalogue: *const u8,
        catalogue_length: u64,
        work: *mut u8,
        work_length: u64,
        list: *mut u8,
        list_length: u64,
        told: *mut u64,
        told_length: u64,
    ) -> u32;
}
