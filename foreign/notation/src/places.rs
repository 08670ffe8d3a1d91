//! The places of a pattern, from its bytes: which leaves may have been the last one read.
//!
//! A place set is a mask. Place 0 is the start, the others are the leaves in their order.

use bradovusc::Edition;

use crate::compile::{EMPTY, MANY, OR, RANGE, THEN};

/// Only the start.
pub const START: u64 = 1;

/// A leaf: from the first character to the second one, by value.
type Leaf = (u8, u8);

/// What may be read, and when a text may end.
#[derive(Clone, Debug)]
pub struct Places {
    leaves: Vec<Leaf>,
    /// By place: those that may follow it.
    follow: Vec<u64>,
    /// Those that may be the last one of a text.
    last: u64,
}

/// A part of a pattern that is read.
#[derive(Clone, Copy)]
struct Part {
    first: u64,
    last: u64,
    /// Whether it takes the empty text.
    empty: bool,
}

impl Places {
    /// Those of a field: of its pattern's bytes, or of one without a pattern, which holds one character
    /// or more. None where the bytes are not one pattern.
    pub fn of(edition: Edition, pattern: Option<&[u8]>) -> Option<Places> {
        let (codes, most) = (edition.codes(), edition.characters() - 1);
        let open = [codes + THEN, codes + RANGE, 0, most, codes + MANY, codes + RANGE, 0, most];
        let mut bytes = pattern.unwrap_or(&open).iter().copied();
        let mut places = Places { leaves: Vec::new(), follow: vec![0], last: 0 };
        let whole = places.part(codes, &mut bytes)?;
        places.follow[0] = whole.first;
        places.last = whole.last | if whole.empty { START } else { 0 };
        bytes.next().is_none().then_some(places)
    }

    fn part(&mut self, codes: u8, bytes: &mut impl Iterator<Item = u8>) -> Option<Part> {
        let code = bytes.next()?;
        let operator = match code.checked_sub(codes) {
            Some(operator) => operator,
            None => return self.leaf((code, code)),
        };
        match operator {
            EMPTY => Some(Part { first: 0, last: 0, empty: true }),
            RANGE => {
                let leaf = (bytes.next()?, bytes.next()?);
                self.leaf(leaf)
            }
            THEN => {
                let (one, two) = (self.part(codes, bytes)?, self.part(codes, bytes)?);
                self.follows(one.last, two.first);
                let first = one.first | if one.empty { two.first } else { 0 };
                let last = two.last | if two.empty { one.last } else { 0 };
                Some(Part { first, last, empty: one.empty && two.empty })
            }
            OR => {
                let (one, two) = (self.part(codes, bytes)?, self.part(codes, bytes)?);
                let (first, last) = (one.first | two.first, one.last | two.last);
                Some(Part { first, last, empty: one.empty || two.empty })
            }
            MANY => {
                let one = self.part(codes, bytes)?;
                self.follows(one.last, one.first);
                Some(Part { empty: true, ..one })
            }
            _ => None,
        }
    }

    fn leaf(&mut self, leaf: Leaf) -> Option<Part> {
        self.leaves.push(leaf);
        self.follow.push(0);
        let mask = 1_u64.checked_shl(self.leaves.len() as u32)?;
        Some(Part { first: mask, last: mask, empty: false })
    }

    fn follows(&mut self, before: u64, behind: u64) {
        for place in members(before) {
            self.follow[place] |= behind;
        }
    }

    /// The place set after a character.
    pub fn after(&self, set: u64, character: u8) -> u64 {
        let next = members(set).fold(0, |next, place| next | self.follow[place]);
        let takes = |place: &usize| {
            let (low, high) = self.leaves[place - 1];
            (low..=high).contains(&character)
        };
        members(next).filter(takes).fold(0, |set, place| set | 1 << place)
    }

    /// Whether a text may end with this place set.
    pub fn may_end(&self, set: u64) -> bool {
        set & self.last != 0
    }

    /// How many there are, with the start. If more repetitions of one character can end a text, then
    /// fewer than so many can too.
    pub fn count(&self) -> usize {
        self.follow.len()
    }
}

/// The places of a set, rising.
fn members(mut set: u64) -> impl Iterator<Item = usize> {
    std::iter::from_fn(move || {
        let place = (set != 0).then(|| set.trailing_zeros() as usize)?;
        set &= set - 1;
        Some(place)
    })
}

#[cfg(test)]
mod tests {
    use super::*;
    use Edition::{Code39, FullAscii};

    fn takes(places: &Places, text: &[u8]) -> bool {
        let set = text.iter().fold(START, |set, &character| places.after(set, character));
        places.may_end(set)
    }

    #[test]
    fn patterns_take_their_texts() {
        // 4 then (A or BR) any number of times
        let places = Places::of(Code39, Some(&[66, 4, 68, 67, 10, 66, 11, 27])).unwrap();
        for (text, taken) in [
            (&[4][..], true),
            (&[4, 10], true),
            (&[4, 11, 27, 10], true),
            (&[], false),
            (&[4, 11], false),
            (&[10], false),
            (&[4, 4], false),
        ] {
            assert_eq!(takes(&places, text), taken, "{text:?}");
        }
        let empty = Places::of(FullAscii, Some(&[192])).unwrap();
        assert!(takes(&empty, b"") && !takes(&empty, b"a"));
        let small = Places::of(FullAscii, Some(&[196, 193, b'a', b'z'])).unwrap();
        assert!(takes(&small, b"") && takes(&small, b"az") && !takes(&small, b"aZ"));
    }

    #[test]
    fn without_a_pattern() {
        for edition in [Code39, FullAscii] {
            let open = Places::of(edition, None).unwrap();
            let last = edition.characters() - 1;
            assert!(!takes(&open, &[]) && takes(&open, &[0]) && takes(&open, &[last, 0, last]));
        }
    }

    #[test]
    fn the_most_leaves() {
        let row = |leaves: usize| [vec![66; leaves - 1], vec![4; leaves]].concat();
        let places = Places::of(Code39, Some(&row(63))).unwrap();
        assert!(takes(&places, &[4; 63]) && !takes(&places, &[4; 62]) && !takes(&places, &[4; 64]));
        assert_eq!(places.count(), 64);
        assert!(Places::of(Code39, Some(&row(64))).is_none());
    }

    #[test]
    fn bytes_that_are_no_pattern() {
        for wrong in [&[][..], &[66, 4], &[4, 4], &[69], &[65, 4], &[68]] {
            assert!(Places::of(Code39, Some(wrong)).is_none(), "{wrong:?}");
        }
    }
}
