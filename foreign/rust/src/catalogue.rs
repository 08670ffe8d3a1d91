//! A catalogue of rules in a lent buffer.

use std::fmt;
use std::iter::FusedIterator;
use std::slice::ChunksExact;

use crate::{Answer, Fault};

/// A catalogue has at most so many rules.
pub const MOST_RULES: usize = 32;

/// A rule has fields of its own, 0 to 3.
pub const RULE_FIELDS: usize = 4;

/// A rule has at most so many bytes.
pub const RULE_BYTES: usize = 813;

/// A buffer of so many bytes is always long enough for this number of rules.
pub const fn catalogue_bytes(rules: usize) -> usize {
    RULE_BYTES * rules
}

/// A listed pair takes so many bytes of the list buffer.
pub const PAIR_BYTES: usize = 5;

/// A list buffer of so many bytes is always long enough for the pairs of this number of rules.
pub const fn list_bytes(rules: usize) -> usize {
    PAIR_BYTES * (rules * rules.saturating_sub(1) / 2)
}

/// The answer to a rule that is to be added.
#[derive(Clone, Copy, Debug, PartialEq, Eq)]
pub enum Added {
    /// 0: its bytes stand behind the last rule.
    Entered,
    /// 11 to 17, 22: the rule is at fault. `place` is the offset of the byte at fault, from its `RU`,
    /// as [`Fault`] says.
    Refused { fault: Fault, place: usize },
    /// 30: it clashes with a rule that is there, or that is not decided. `rule` is the number of
    /// the first such rule. `pair` is the answer of the two: [`Answer::Clash`], of which no texts
    /// are written, [`Answer::NoRoom`] or [`Answer::SideTooLong`].
    NotApart { rule: usize, pair: Answer },
    /// 31: it names a field above 3. No place is told.
    ForeignField,
    /// 32: [`MOST_RULES`] are there, or its bytes don't fit behind them.
    Full,
    /// 34: the buffer is no catalogue.
    NoCatalogue,
}

impl Added {
    /// The answer with this number, and what is told beside it.
    pub(crate) fn numbered(number: u32, [count, place, rule, pair]: [usize; 4]) -> Added {
        match number {
            0 => Added::Entered,
            30 => Added::NotApart { rule, pair: Answer::numbered(pair as u32, count, 0, 0) },
            31 => Added::ForeignField,
            32 => Added::Full,
            34 => Added::NoCatalogue,
            _ => Added::Refused { fault: Fault::numbered(number), place },
        }
    }

    /// Its number, as in the table of the rules.
    pub fn number(self) -> u32 {
        match self {
            Added::Entered => 0,
            Added::Refused { fault, .. } => fault.number(),
            Added::NotApart { .. } => 30,
            Added::ForeignField => 31,
            Added::Full => 32,
            Added::NoCatalogue => 34,
        }
    }
}

/// In words; with the place of a fault, with the rule and the pair's answer where it is not apart.
impl fmt::Display for Added {
    fn fmt(&self, to: &mut fmt::Formatter<'_>) -> fmt::Result {
        match self {
            Added::Entered => to.write_str("done"),
            Added::Refused { fault, place } => {
                write!(to, "{fault}, at offset {place}")
            }
            Added::NotApart { rule, pair } => {
                write!(to, "not apart from a rule of the catalogue: rule {rule}, {pair}")
            }
            Added::ForeignField => to.write_str("a field above 3"),
            Added::Full => to.write_str("no room in the catalogue"),
            Added::NoCatalogue => to.write_str("the buffer is no catalogue"),
        }
    }
}

/// The answer to a rule's number that is to be withdrawn.
#[derive(Clone, Copy, Debug, PartialEq, Eq)]
pub enum Withdrawn {
    /// 0: the rule's bytes are gone, and the gap is closed.
    Gone,
    /// 33: no rule has that number.
    NoRule,
    /// 34: the buffer is no catalogue.
    NoCatalogue,
}

impl Withdrawn {
    /// Its number, as in the table of the rules.
    pub fn number(self) -> u32 {
        match self {
            Withdrawn::Gone => 0,
            Withdrawn::NoRule => 33,
            Withdrawn::NoCatalogue => 34,
        }
    }
}

/// In words.
impl fmt::Display for Withdrawn {
    fn fmt(&self, to: &mut fmt::Formatter<'_>) -> fmt::Result {
        to.write_str(match self {
            Withdrawn::Gone => "done",
            Withdrawn::NoRule => "no rule has that number",
            Withdrawn::NoCatalogue => "the buffer is no catalogue",
        })
    }
}

/// What checking a catalogue again answers. The pairs stand in the list buffer.
#[derive(Clone, Debug)]
pub enum Rechecked<'a> {
    /// 0: these pairs are not answered 1. Where there are none, no two rules of the catalogue make
    /// the same label.
    Listed(Pairs<'a>),
    /// 34: the buffer is no catalogue.
    NoCatalogue,
    /// 35: the list buffer is too short for all the pairs. None is listed.
    ListTooShort,
}

impl Rechecked<'_> {
    /// Its number, as in the table of the rules.
    pub fn number(&self) -> u32 {
        match self {
            Rechecked::Listed(_) => 0,
            Rechecked::NoCatalogue => 34,
            Rechecked::ListTooShort => 35,
        }
    }
}

/// In words.
impl fmt::Display for Rechecked<'_> {
    fn fmt(&self, to: &mut fmt::Formatter<'_>) -> fmt::Result {
        to.write_str(match self {
            Rechecked::Listed(_) => "done",
            Rechecked::NoCatalogue => "the buffer is no catalogue",
            Rechecked::ListTooShort => "the list buffer is too short for the pairs",
        })
    }
}

/// Two rules of a catalogue that can make the same label, or of which that is not decided.
#[derive(Clone, Copy, Debug, PartialEq, Eq)]
pub struct Pair {
    /// The lower number of the two; this rule was the left side.
    pub lower: usize,
    /// The higher number.
    pub higher: usize,
    /// [`Answer::Clash`], of which no texts are written, [`Answer::NoRoom`] or
    /// [`Answer::SideTooLong`].
    pub answer: Answer,
}

/// In words.
impl fmt::Display for Pair {
    fn fmt(&self, to: &mut fmt::Formatter<'_>) -> fmt::Result {
        write!(to, "rule {} and rule {}: {}", self.lower, self.higher, self.answer)
    }
}

/// The pairs that [`recheck`] has listed, by the lower number, then the higher one.
#[derive(Clone, Debug)]
pub struct Pairs<'a> {
    rest: ChunksExact<'a, u8>,
}

impl Iterator for Pairs<'_> {
    type Item = Pair;

    fn next(&mut self) -> Option<Pair> {
        let (lower, higher, answer, count) = match *self.rest.next()? {
            [lower, higher, answer, low, high] => {
                (lower, higher, answer, usize::from(u16::from_le_bytes([low, high])))
            }
            _ => unreachable!("a pair has five bytes"),
        };
        let answer = Answer::numbered(u32::from(answer), count, 0, 0);
        Some(Pair { lower: usize::from(lower), higher: usize::from(higher), answer })
    }

    fn size_hint(&self) -> (usize, Option<usize>) {
        self.rest.size_hint()
    }
}

impl ExactSizeIterator for Pairs<'_> {}

impl FusedIterator for Pairs<'_> {}

/// Adds a rule behind the last one, if it clashes with none that is there.
///
/// The rules that are there are tried by rising number, each pair in the whole working buffer, by
/// one search; where one is not decided, the rule is not added. Only [`Added::Entered`] changes the catalogue,
/// and only the bytes where the rule then stands. The working buffer is all zero after
/// [`Added::NotApart`], and after [`Added::Entered`] unless the catalogue was empty; otherwise it
/// is unchanged.
///
/// A catalogue is rules one behind the other from the first byte on, and zeros behind them. One
/// that began as zeros and was changed by [`add`], [`add_decided`](crate::add_decided), [`withdraw`]
/// and [`drop_strays_catalogue`](crate::drop_strays_catalogue) alone has no two rules that make the
/// same label. Of one that was filled otherwise, or kept since a version before 0.4, for which a
/// space at the end made another label, [`recheck`] says which rules do. One that was kept since a
/// version before 0.6, for which a field without a pattern could be empty, should first be carried
/// over by [`spell_open_catalogue`](crate::spell_open_catalogue). One in which a rule has a stray
/// pattern, as versions up to 0.8 took it, is [`Added::NoCatalogue`]:
/// [`drop_strays_catalogue`](crate::drop_strays_catalogue) mends it, before all else.
pub fn add(catalogue: &mut [u8], rule: &[u8], work: &mut [u8]) -> Added {
    let mut told = [0; 4];
    // SAFETY: each pointer and length are those of one slice. No two of the slices overlap, since
    // three are borrowed mutably. The function keeps no pointer.
    let number = unsafe {
        bradovusc_add(
            catalogue.as_mut_ptr(),
            catalogue.len() as u64,
            rule.as_ptr(),
            rule.len() as u64,
            work.as_mut_ptr(),
            work.len() as u64,
            told.as_mut_ptr(),
            told.len() as u64,
        )
    };
    // These are an offset in a slice, the number of situations that one holds, and small numbers.
    Added::numbered(number, told.map(|number| number as usize))
}

/// Withdraws the rule with this number.
///
/// Its bytes go, those behind it move up, and the bytes freed at the end are zero; so each rule
/// behind it then has the number before its own. Only [`Withdrawn::Gone`] changes the catalogue.
pub fn withdraw(catalogue: &mut [u8], number: usize) -> Withdrawn {
    // SAFETY: pointer and length are those of one slice. The function keeps no pointer.
    match unsafe {
        bradovusc_withdraw(catalogue.as_mut_ptr(), catalogue.len() as u64, number as u64)
    } {
        0 => Withdrawn::Gone,
        33 => Withdrawn::NoRule,
        34 => Withdrawn::NoCatalogue,
        _ => unreachable!("the library promises its numbers"),
    }
}

/// Checks every pair of the catalogue's rules again.
///
/// Each pair is tried in the whole working buffer, by one search, the rule with the lower number as
/// the left side. Those that clash and those that are not decided are listed, in five bytes of the list buffer
/// each; [`list_bytes`] are always enough, 2,480 for [`MOST_RULES`]. Only [`Rechecked::Listed`]
/// changes the list buffer, and only the bytes of the pairs. The working buffer is all zero
/// afterwards, but a buffer that is no catalogue, or has fewer than two rules, leaves it unchanged.
pub fn recheck<'a>(catalogue: &[u8], work: &mut [u8], list: &'a mut [u8]) -> Rechecked<'a> {
    let mut told = [0; 2];
    // SAFETY: each pointer and length are those of one slice. No two of the slices overlap, since
    // three are borrowed mutably. The function keeps no pointer.
    let number = unsafe {
        bradovusc_recheck(
            catalogue.as_ptr(),
            catalogue.len() as u64,
            work.as_mut_ptr(),
            work.len() as u64,
            list.as_mut_ptr(),
            list.len() as u64,
            told.as_mut_ptr(),
            told.len() as u64,
        )
    };
    match number {
        0 => {
            // This is the length of a part of the list.
            let written = &list[..told[1] as usize];
            Rechecked::Listed(Pairs { rest: written.chunks_exact(PAIR_BYTES) })
        }
        34 => Rechecked::NoCatalogue,
        35 => Rechecked::ListTooShort,
        _ => unreachable!("the library promises its numbers"),
    }
}

extern "C" {
    fn bradovusc_add(
        catalogue: *mut u8,
        catalogue_length: u64,
        rule: *const u8,
        rule_length: u64,
        work: *mut u8,
        work_length: u64,
        told: *mut u64,
        told_length: u64,
    ) -> u32;

    fn bradovusc_withdraw(catalogue: *mut u8, catalogue_length: u64, number: u64) -> u32;

    fn bradovusc_recheck(
        catalogue: *const u8,
        catalogue_length: u64,
        work: *mut u8,
        work_length: u64,
        list: *mut u8,
        list_length: u64,
        told: *mut u64,
        told_length: u64,
    ) -> u32;
}
