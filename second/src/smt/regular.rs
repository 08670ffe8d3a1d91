//! Regular expressions of the theory, and the machines that read their texts.

use std::ops::RangeInclusive;

use super::literal::{Sign, LAST_SIGN};

/// A set of characters.
pub type Signs = Vec<RangeInclusive<Sign>>;

/// A regular expression.
#[derive(Clone, Debug, PartialEq, Eq)]
pub enum Regular {
    /// One character of these; no text at all where there are none.
    One(Signs),
    /// One after the other; the empty text where there are none.
    Row(Vec<Regular>),
    /// One of them.
    Choice(Vec<Regular>),
    /// Any number of times, none included.
    AnyTimes(Box<Regular>),
    /// Once or more.
    Repeated(Box<Regular>),
}

impl Regular {
    /// `re.none`
    pub fn none() -> Regular {
        Regular::One(Vec::new())
    }

    /// `re.allchar`
    pub fn any_sign() -> Regular {
        Regular::One(vec![0..=LAST_SIGN])
    }

    /// `re.all`
    pub fn all() -> Regular {
        Regular::AnyTimes(Box::new(Regular::any_sign()))
    }

    /// `str.to_re`: just this text.
    pub fn text(text: &[Sign]) -> Regular {
        Regular::Row(text.iter().map(|&sign| Regular::One(vec![sign..=sign])).collect())
    }

    /// `re.range`: the characters between two, by code point. It has no text
    /// where the two are not one character each, or the first is the greater.
    pub fn range(lo: &[Sign], hi: &[Sign]) -> Regular {
        match (lo, hi) {
            (&[lo], &[hi]) if lo <= hi => Regular::One(vec![lo..=hi]),
            _ => Regular::none(),
        }
    }

    /// `re.opt`
    pub fn optional(self) -> Regular {
        Regular::choice(vec![self, Regular::Row(Vec::new())])
    }

    /// `re.union`. The parts that are one character each become one part, which
    /// keeps the machine small.
    pub fn choice(parts: Vec<Regular>) -> Regular {
        let mut signs = Signs::new();
        let mut others = Vec::new();
        for part in parts {
            match part.single() {
                Some(one) => signs.extend(one.iter().cloned()),
                None => others.push(part),
            }
        }
        if !others.is_empty() {
            others.push(Regular::One(signs));
            return Regular::Choice(others);
        }
        Regular::One(signs)
    }

    /// The characters, where it is one character.
    fn single(&self) -> Option<&Signs> {
        match self {
            Regular::One(signs) => Some(signs),
            Regular::Row(parts) => match &parts[..] {
                [part] => part.single(),
                _ => None,
            },
            _ => None,
        }
    }
}

/// A set of states, a bit for each.
#[derive(Clone, Debug, PartialEq, Eq, PartialOrd, Ord)]
pub struct Set(Vec<u64>);

impl Set {
    fn empty(states: usize) -> Set {
        Set(vec![0; states.div_ceil(64)])
    }

    pub fn has(&self, state: usize) -> bool {
        self.0[state / 64] >> (state % 64) & 1 == 1
    }

    fn put(&mut self, state: usize) {
        self.0[state / 64] |= 1 << (state % 64);
    }

    pub fn size(&self) -> u32 {
        self.0.iter().map(|word| word.count_ones()).sum()
    }

    pub fn add(&mut self, other: &Set) {
        for (word, more) in self.0.iter_mut().zip(&other.0) {
            *word |= more;
        }
    }

    pub fn within(&self, other: &Set) -> bool {
        self.0.iter().zip(&other.0).all(|(word, all)| word & !all == 0)
    }
}

/// What a machine does in a state.
#[derive(Debug)]
enum State {
    /// The text may end.
    End,
    /// It reads one of these characters and goes on there.
    Read(Signs, usize),
    /// It goes on in any of these without reading.
    Fork(Vec<usize>),
}

/// A machine that reads the texts of a regular expression and may be in several
/// states at a time.
#[derive(Debug)]
pub struct Machine {
    states: Vec<State>,
    /// For each state, those that it leads to without reading, itself included.
    reached: Vec<Set>,
    start: usize,
}

impl Machine {
    pub fn of(regular: &Regular) -> Machine {
        let mut states = vec![State::End];
        let start = before(&mut states, regular, 0);
        let reached = (0..states.len()).map(|state| reached(&states, state)).collect();
        Machine { states, reached, start }
    }

    pub fn start(&self) -> Set {
        self.reached[self.start].clone()
    }

    pub fn nowhere(&self) -> Set {
        Set::empty(self.states.len())
    }

    /// The sets of characters that it reads.
    pub fn signs(&self) -> impl Iterator<Item = &Signs> {
        self.states.iter().filter_map(|state| match state {
            State::Read(signs, _) => Some(signs),
            _ => None,
        })
    }

    /// The states that read this character. Two characters that the same states
    /// read are the same to the machine.
    pub fn reading(&self, sign: Sign) -> Set {
        let mut set = self.nowhere();
        for (number, state) in self.states.iter().enumerate() {
            if matches!(state, State::Read(signs, _) if signs.iter().any(|some| some.contains(&sign)))
            {
                set.put(number);
            }
        }
        set
    }

    /// Where it may be after a character, given the states that read it.
    pub fn after(&self, set: &Set, reading: &Set) -> Set {
        let mut after = self.nowhere();
        for (number, state) in self.states.iter().enumerate() {
            match state {
                State::Read(_, next) if set.has(number) && reading.has(number) => {
                    after.add(&self.reached[*next]);
                }
                _ => {}
            }
        }
        after
    }

    pub fn may_end(&self, set: &Set) -> bool {
        self.states
            .iter()
            .enumerate()
            .any(|(number, state)| matches!(state, State::End) && set.has(number))
    }
}

/// Adds states that read a text of the regular expression and go on in `next`;
/// gives the first of them.
fn before(states: &mut Vec<State>, regular: &Regular, next: usize) -> usize {
    match regular {
        Regular::One(signs) => add(states, State::Read(signs.clone(), next)),
        Regular::Row(parts) => {
            parts.iter().rev().fold(next, |next, part| before(states, part, next))
        }
        Regular::Choice(parts) => {
            let ways = parts.iter().map(|part| before(states, part, next)).collect();
            add(states, State::Fork(ways))
        }
        Regular::AnyTimes(part) => looped(states, part, next).1,
        Regular::Repeated(part) => looped(states, part, next).0,
    }
}

/// A part that may be read again and again: where it begins, and the fork
/// behind it.
fn looped(states: &mut Vec<State>, part: &Regular, next: usize) -> (usize, usize) {
    let fork = add(states, State::Fork(Vec::new()));
    let first = before(states, part, fork);
    states[fork] = State::Fork(vec![first, next]);
    (first, fork)
}

fn add(states: &mut Vec<State>, state: State) -> usize {
    states.push(state);
    states.len() - 1
}

fn reached(states: &[State], from: usize) -> Set {
    let mut set = Set::empty(states.len());
    let mut new = vec![from];
    while let Some(state) = new.pop() {
        if set.has(state) {
            continue;
        }
        set.put(state);
        if let State::Fork(ways) = &states[state] {
            new.extend(ways);
        }
    }
    set
}
