//! Have a membership and a field the same texts?
//!
//! Both are read side by side, text by text, the shortest first: the membership
//! by the machine of its regular expression, the field by its place sets. After
//! each text either both may end or neither.

use std::collections::BTreeSet;
use std::ops::Range;

use super::literal::{Sign, LAST_SIGN};
use super::regular::{Machine, Regular, Set};
use crate::edition::Edition;
use crate::pattern::{Allowed, PlaceSet, ONLY_START};

/// A shortest text that only one of the two takes.
#[derive(Clone, Debug, PartialEq, Eq)]
pub struct Difference {
    pub text: Vec<Sign>,
    /// The membership takes it and the field may not hold it; else the other
    /// way round.
    pub too_many: bool,
}

/// Where the two stand after a text: the states that the machine may be in, and
/// the field's place set.
#[derive(Clone, Debug, PartialEq, Eq)]
struct Standing {
    states: Set,
    places: PlaceSet,
}

impl Standing {
    fn size(&self) -> u32 {
        self.states.size() + self.places.count_ones()
    }
}

/// A standing and the text that led to it: another one's and a character more.
struct Reached {
    standing: Standing,
    behind: Option<(usize, Sign)>,
}

/// A character, and what it does on both sides.
struct Letter {
    sign: Sign,
    reading: Set,
    value: Option<u8>,
}

/// The first difference, if there is any.
pub fn difference(edition: Edition, membership: &Regular, allowed: &Allowed) -> Option<Difference> {
    let machine = Machine::of(membership);
    let letters = letters(edition, &machine, allowed);
    let start = Standing { states: machine.start(), places: ONLY_START };
    let reached = vec![Reached { standing: start, behind: None }];
    let mut walk = Walk { machine, allowed, letters, reached, equal: Vec::new() };
    let mut length = 0..1;
    while !length.is_empty() {
        if let Some(at) = length.clone().find(|&at| walk.differs(at)) {
            return Some(walk.difference(at));
        }
        length = walk.longer(length);
    }
    None
}

/// The standings reached so far, by the length of their texts.
struct Walk<'a> {
    machine: Machine,
    allowed: &'a Allowed,
    letters: Vec<Letter>,
    reached: Vec<Reached>,
    /// Those whose two sides take the same texts if all that is still to come
    /// is equal.
    equal: Vec<Standing>,
}

impl Walk<'_> {
    fn differs(&self, at: usize) -> bool {
        let Standing { states, places } = &self.reached[at].standing;
        self.machine.may_end(states) != self.allowed.may_end(*places)
    }

    /// The text that led there, and who takes it.
    fn difference(&self, at: usize) -> Difference {
        let too_many = self.machine.may_end(&self.reached[at].standing.states);
        let mut text = Vec::new();
        let mut behind = self.reached[at].behind;
        while let Some((before, sign)) = behind {
            text.push(sign);
            behind = self.reached[before].behind;
        }
        text.reverse();
        Difference { text, too_many }
    }

    /// From the standings after texts of one length to those after texts that
    /// are one character longer. Small sets come first, since large ones often
    /// follow from them.
    fn longer(&mut self, length: Range<usize>) -> Range<usize> {
        let mut by_size: Vec<usize> = length.collect();
        by_size.sort_by_key(|&at| self.reached[at].standing.size());
        let first = self.reached.len();
        for at in by_size {
            let standing = self.reached[at].standing.clone();
            if !follows(&self.machine, &self.equal, &standing) {
                self.reached.extend(self.letters.iter().map(|letter| Reached {
                    standing: after(&self.machine, self.allowed, &standing, letter),
                    behind: Some((at, letter.sign)),
                }));
                self.equal.push(standing);
            }
        }
        first..self.reached.len()
    }
}

/// Nothing outside the edition's characters stands in a field.
fn place_set(allowed: &Allowed, places: PlaceSet, value: Option<u8>) -> PlaceSet {
    value.map_or(0, |value| allowed.after(places, value))
}

fn after(machine: &Machine, allowed: &Allowed, standing: &Standing, letter: &Letter) -> Standing {
    Standing {
        states: machine.after(&standing.states, &letter.reading),
        places: place_set(allowed, standing.places, letter.value),
    }
}

/// Does this standing's equality follow from that of earlier ones? Of two sets
/// that take the same texts each may be joined to any set in which the other
/// is. If the states and the places so become the same set, they take the same
/// texts. A text that tells a standing apart which follows from others tells
/// apart one of these too, and it was reached by a text that is no longer: so
/// the first difference is still a shortest.
fn follows(machine: &Machine, equal: &[Standing], standing: &Standing) -> bool {
    let states = Standing { states: standing.states.clone(), places: 0 };
    let places = Standing { states: machine.nowhere(), places: standing.places };
    joined(equal, states) == joined(equal, places)
}

/// A set with all that may be joined to it.
fn joined(equal: &[Standing], mut set: Standing) -> Standing {
    loop {
        let before = set.clone();
        for pair in equal {
            if pair.states.within(&set.states) || pair.places & !set.places == 0 {
                set.states.add(&pair.states);
                set.places |= pair.places;
            }
        }
        if set == before {
            return set;
        }
    }
}

/// A character of each kind. Two are of one kind if the same states read them
/// and they lead from all places to the same: then no text tells them apart.
/// Between two borders all characters are of one kind: the borders are those of
/// each set that the machine reads, and of each of the edition's.
fn letters(edition: Edition, machine: &Machine, allowed: &Allowed) -> Vec<Letter> {
    let mut kinds = BTreeSet::new();
    let mut letters = Vec::new();
    for sign in signs(edition, machine) {
        let value = u8::try_from(sign).ok().and_then(|sign| edition.of_ascii(sign));
        let reading = machine.reading(sign);
        if kinds.insert((reading.clone(), place_set(allowed, PlaceSet::MAX, value))) {
            letters.push(Letter { sign, reading, value });
        }
    }
    letters
}

/// A character from each stretch between two borders, printable where there is
/// such a one; the printable ones first.
fn signs(edition: Edition, machine: &Machine) -> Vec<Sign> {
    let signs = (0..edition.characters).map(|character| Sign::from(edition.ascii(character)));
    let characters = signs.map(|sign| sign..=sign);
    let ranges = machine.signs().flatten().cloned().chain(characters);
    let borders: BTreeSet<Sign> = ranges
        .flat_map(|range| [*range.start(), range.end() + 1])
        .chain([0, LAST_SIGN + 1])
        .collect();
    let borders: Vec<Sign> = borders.into_iter().collect();
    let printable = |&sign: &Sign| (33..127).contains(&sign);
    let mut signs: Vec<Sign> = borders
        .windows(2)
        .map(|stretch| (stretch[0]..stretch[1]).take(127).find(printable).unwrap_or(stretch[0]))
        .collect();
    signs.sort_by_key(|sign| (!printable(sign), *sign));
    signs
}
