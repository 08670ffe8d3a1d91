//! Patterns and their places.

use crate::edition::{Edition, MOST_CHARACTERS};
use crate::fault::{Fault, NOT_ONE_PATTERN, TOO_MANY_LEAVES};

/// "Allow 63 leaves, which with the start make 64 places".
pub const MOST_LEAVES: usize = 63;
/// The leaves and the start.
const PLACES: usize = MOST_LEAVES + 1;

/// A set of characters: bit c is the character c.
pub type CharacterSet = u128;

/// The characters of a set, rising.
pub fn characters(set: CharacterSet) -> impl Iterator<Item = u8> {
    (0..MOST_CHARACTERS).filter(move |&character| set & (1 << character) != 0)
}

/// The pattern codes, from an edition's first on: "192 to 196 stand for 64 to 68".
pub const EMPTY: u8 = 0;
pub const RANGE: u8 = 1;
pub const THEN: u8 = 2;
pub const OR: u8 = 3;
pub const MANY: u8 = 4;

/// A set of places: bit 0 is the start, bit k the k-th leaf of the pattern. A
/// field without a pattern has one place beside the start: bit 1, after a
/// character.
pub type PlaceSet = u64;

/// The place set that "at first ... holds only the start".
pub const ONLY_START: PlaceSet = 1;
/// The other of the "two reachable place sets" of a field without a pattern.
pub const AFTER_A_CHARACTER: PlaceSet = 2;

/// A pattern as a tree, with the codes of the first edition in its comments: "192
/// to 196 stand for 64 to 68; a range's ends go to 127".
#[derive(Clone, Debug, PartialEq, Eq)]
pub enum Pattern {
    /// "64: the empty text"
    Empty,
    /// "0 to 42: that character (a leaf)" and "65 lo hi: one character with
    /// lo ≤ value ≤ hi ≤ 42 (a leaf)"
    Leaf { lo: u8, hi: u8 },
    /// "66 A B: A then B"
    Then(Box<Pattern>, Box<Pattern>),
    /// "67 A B: A or B, each again a pattern"
    Or(Box<Pattern>, Box<Pattern>),
    /// "68 A: A any number of times, none included"
    AnyTimes(Box<Pattern>),
}

impl Pattern {
    /// "The n bytes after the length byte are judged by themselves, as exactly
    /// one pattern that uses them all." A fault's place is counted from the
    /// first of them.
    pub fn read(edition: Edition, bytes: &[u8]) -> Result<Pattern, Fault> {
        let mut reader = Reader { edition, bytes, offset: 0, leaves: Vec::new() };
        let pattern = reader.pattern()?;
        // "where bytes are left over, the first of them"
        if reader.offset < bytes.len() {
            return Err(reader.not_one_pattern());
        }
        // "then for a pattern 15, then 16": "16 now points at the
        // 64th leaf", at its first byte
        match reader.leaves.get(MOST_LEAVES) {
            Some(&place) => Err(Fault { number: TOO_MANY_LEAVES, place }),
            None => Ok(pattern),
        }
    }
}

/// The bytes of a pattern and how far they are read. Where they turn out not to
/// be one pattern, the offset is the fault's place.
struct Reader<'a> {
    edition: Edition,
    bytes: &'a [u8],
    offset: usize,
    /// The first byte of each leaf read so far.
    leaves: Vec<usize>,
}

impl Reader<'_> {
    /// One pattern, "written operator first".
    fn pattern(&mut self) -> Result<Pattern, Fault> {
        let (edition, first) = (self.edition, self.offset);
        let operator = |code: u8| code.checked_sub(edition.codes).filter(|&of| of <= MANY);
        // "the first byte that is no code"
        let code = self.byte(|code| edition.has(code) || operator(code).is_some())?;
        match operator(code) {
            None => Ok(self.leaf(first, code, code)),
            Some(EMPTY) => Ok(Pattern::Empty),
            Some(RANGE) => {
                // "the lo byte if lo is above 42, else the hi byte if that is
                // above 42 or below lo"
                let lo = self.byte(|lo| edition.has(lo))?;
                let hi = self.byte(|hi| lo <= hi && edition.has(hi))?;
                Ok(self.leaf(first, lo, hi))
            }
            Some(THEN) => Ok(Pattern::Then(self.part()?, self.part()?)),
            Some(OR) => Ok(Pattern::Or(self.part()?, self.part()?)),
            Some(_) => Ok(Pattern::AnyTimes(self.part()?)),
        }
    }

    /// "each again a pattern"
    fn part(&mut self) -> Result<Box<Pattern>, Fault> {
        self.pattern().map(Box::new)
    }

    /// The next byte, if it is allowed here; "where the code runs out, the
    /// offset after the pattern's last byte".
    fn byte(&mut self, allowed: impl Fn(u8) -> bool) -> Result<u8, Fault> {
        match self.bytes.get(self.offset) {
            Some(&byte) if allowed(byte) => {
                self.offset += 1;
                Ok(byte)
            }
            _ => Err(self.not_one_pattern()),
        }
    }

    fn leaf(&mut self, first: usize, lo: u8, hi: u8) -> Pattern {
        self.leaves.push(first);
        Pattern::Leaf { lo, hi }
    }

    fn not_one_pattern(&self) -> Fault {
        Fault { number: NOT_ONE_PATTERN, place: self.offset }
    }
}

/// "For every field and every place, the set of places that may follow is
/// worked out once from the pattern."
#[derive(Clone, Debug)]
pub struct Places {
    /// The pattern itself.
    pub pattern: Pattern,
    /// For each place, the places that may follow it.
    follow: [PlaceSet; PLACES],
    /// For each character, the leaves that take it.
    takes: [PlaceSet; MOST_CHARACTERS as usize],
    /// The places that "may be the last one of a text (the start may, if the
    /// pattern takes the empty text)".
    last: PlaceSet,
}

/// What is known of a part of a pattern.
struct Part {
    /// The part takes the empty text.
    empty: bool,
    /// The leaves that may be read first in the part.
    first: PlaceSet,
    /// The leaves that may be read last in the part.
    last: PlaceSet,
}

impl Places {
    /// The places of a pattern with at most 63 leaves.
    pub fn of(pattern: &Pattern) -> Places {
        let takes = [0; MOST_CHARACTERS as usize];
        let follow = [0; PLACES];
        let mut places = Places { pattern: pattern.clone(), follow, takes, last: 0 };
        let mut leaves = 0;
        let whole = places.part(pattern, &mut leaves);
        places.follow[0] = whole.first;
        places.last = whole.last | if whole.empty { ONLY_START } else { 0 };
        places
    }

    /// Goes down the pattern; `leaves` is the number of leaves met so far.
    fn part(&mut self, pattern: &Pattern, leaves: &mut usize) -> Part {
        match pattern {
            Pattern::Empty => Part { empty: true, first: 0, last: 0 },
            Pattern::Leaf { lo, hi } => {
                *leaves += 1;
                let place = 1 << *leaves;
                for character in *lo..=*hi {
                    self.takes[usize::from(character)] |= place;
                }
                Part { empty: false, first: place, last: place }
            }
            Pattern::Then(a, b) => {
                let a = self.part(a, leaves);
                let b = self.part(b, leaves);
                self.may_follow(a.last, b.first);
                Part {
                    empty: a.empty && b.empty,
                    first: a.first | if a.empty { b.first } else { 0 },
                    last: b.last | if b.empty { a.last } else { 0 },
                }
            }
            Pattern::Or(a, b) => {
                let a = self.part(a, leaves);
                let b = self.part(b, leaves);
                Part { empty: a.empty || b.empty, first: a.first | b.first, last: a.last | b.last }
            }
            Pattern::AnyTimes(a) => {
                let a = self.part(a, leaves);
                self.may_follow(a.last, a.first);
                Part { empty: true, first: a.first, last: a.last }
            }
        }
    }

    /// Each place of `first` may follow each place of `last`.
    fn may_follow(&mut self, last: PlaceSet, first: PlaceSet) {
        for place in members(last) {
            self.follow[place] |= first;
        }
    }
}

/// The places of a set, rising.
pub fn members(set: PlaceSet) -> impl Iterator<Item = usize> {
    let mut rest = set;
    std::iter::from_fn(move || {
        if rest == 0 {
            return None;
        }
        let place = rest.trailing_zeros() as usize;
        rest &= rest - 1;
        Some(place)
    })
}

/// What a field may stand for.
#[derive(Clone, Debug)]
pub enum Allowed {
    /// "A field without a pattern shall now hold one character or more. It then
    /// has two reachable place sets": the start, at which it may not end, and
    /// after a character, where it may. It takes these characters, those of its
    /// edition.
    Open(CharacterSet),
    /// A field with a pattern.
    Pattern(Box<Places>),
}

impl Allowed {
    /// "After a character c it holds each leaf that may follow some place of
    /// the set and that takes c." A field without a pattern takes every character
    /// of its edition from both its sets.
    pub fn after(&self, set: PlaceSet, character: u8) -> PlaceSet {
        match self {
            Allowed::Open(_) if set == 0 => 0,
            Allowed::Open(_) => self.leaves_taking(character),
            Allowed::Pattern(places) => {
                let following = members(set).fold(0, |all, place| all | places.follow[place]);
                following & places.takes[usize::from(character)]
            }
        }
    }

    /// The leaves that take the character. A field without a pattern has one
    /// leaf, which takes every character of its edition.
    pub fn leaves_taking(&self, character: u8) -> PlaceSet {
        match self {
            Allowed::Open(characters) if characters & (1 << character) == 0 => 0,
            Allowed::Open(_) => AFTER_A_CHARACTER,
            Allowed::Pattern(places) => places.takes[usize::from(character)],
        }
    }

    /// The characters that each leaf takes, the leaves in their order.
    pub fn leaves(&self) -> Vec<CharacterSet> {
        let characters = 0..MOST_CHARACTERS;
        let all = characters.clone().fold(0, |all, one| all | self.leaves_taking(one));
        let taken = |leaf: usize| {
            let takes = |character: &u8| self.leaves_taking(*character) & (1 << leaf) != 0;
            characters.clone().filter(takes).fold(0, |set, character| set | 1 << character)
        };
        members(all).map(taken).collect()
    }

    /// "The set may end if some place in it may be the last one of a text".
    pub fn may_end(&self, set: PlaceSet) -> bool {
        set & self.last() != 0
    }

    /// The places that may be the last one of a text.
    fn last(&self) -> PlaceSet {
        match self {
            Allowed::Open(_) => AFTER_A_CHARACTER,
            Allowed::Pattern(places) => places.last,
        }
    }

    /// The places that may follow this one.
    fn following(&self, place: usize) -> PlaceSet {
        match self {
            Allowed::Open(_) => AFTER_A_CHARACTER,
            Allowed::Pattern(places) => places.follow[place],
        }
    }

    /// This text alone.
    pub fn only(text: &[u8]) -> Allowed {
        let leaf = |&character: &u8| Pattern::Leaf { lo: character, hi: character };
        let before = |behind, first| Pattern::Then(Box::new(first), Box::new(behind));
        let pattern = text.iter().map(leaf).rev().reduce(before).unwrap_or(Pattern::Empty);
        Allowed::Pattern(Box::new(Places::of(&pattern)))
    }

    /// The least text of just so many characters: "the smallest first character
    /// with which there is one, then the smallest second one, and so on".
    pub fn least_text(&self, length: usize) -> Option<Vec<u8>> {
        // The places from which so many characters lead to an end, from none on.
        let mut leading: Vec<PlaceSet> = vec![self.last()];
        for fewer in 0..length {
            let leads = |&place: &usize| self.following(place) & leading[fewer] != 0;
            let places = (0..PLACES).filter(leads).fold(0, |set, place| set | 1 << place);
            leading.push(places);
        }
        let (mut set, mut text) = (leading[length] & ONLY_START, Vec::new());
        for left in (0..length).rev() {
            let leads = |&one: &u8| self.after(set, one) & leading[left] != 0;
            let one = (0..MOST_CHARACTERS).find(leads)?;
            set = self.after(set, one);
            text.push(one);
        }
        (set != 0).then_some(text)
    }
}
