//! The search, with the situations in storage of its own.

use std::collections::HashSet;
use std::rc::Rc;

use crate::sheet::{Question, FIELDS};
use crate::situation::{Situation, State, Step};
use crate::{CLASH, MOST_TOKENS, NO_CLASH, NO_ROOM, SIDE_TOO_LONG};

/// How a search ended; a clash with what is known of its way.
#[derive(Clone, Debug, PartialEq, Eq)]
pub enum Ending<W> {
    Clash(W),
    NoClash,
    NoRoom,
    SideTooLong,
}

impl<W> Ending<W> {
    /// The answer where no text is written.
    pub fn number(&self) -> u8 {
        match self {
            Ending::Clash(_) => CLASH,
            Ending::NoClash => NO_CLASH,
            Ending::NoRoom => NO_ROOM,
            Ending::SideTooLong => SIDE_TOO_LONG,
        }
    }
}

/// Each field that stands in the sides, by rising number, and its text; none
/// of the hidden ones.
pub type Texts = Vec<(u8, Vec<u8>)>;

/// The way to the finish: its steps, the first one first, and the texts.
#[derive(Clone, Debug, PartialEq, Eq)]
pub struct Way {
    pub steps: Vec<Step>,
    pub texts: Texts,
}

/// The ending and the number of situations entered.
#[derive(Clone, Debug, PartialEq, Eq)]
pub struct Found {
    pub ending: Ending<Way>,
    pub count: usize,
}

/// A situation that was entered and "the one [way] by which it was first
/// entered": the number of its parent and the step from there. The start has
/// none.
struct Entered {
    situation: Rc<Situation>,
    way: Option<(usize, Step)>,
}

/// Searches with room for so many situations.
pub fn search(question: &Question, room: usize) -> Found {
    let mut entered: Vec<Entered> = Vec::new();
    let mut known: HashSet<Rc<Situation>> = HashSet::new();

    // "A start that finds no room gives 18."
    if room == 0 {
        return Found { ending: Ending::NoRoom, count: 0 };
    }
    // "The trimmed question is entered first, dead or not."
    let start = Rc::new(Situation::of(question).trimmed());
    known.insert(start.clone());
    entered.push(Entered { situation: start, way: None });

    // "Situations are taken in the order of entry."
    let mut taken = 0;
    while taken < entered.len() {
        let situation = entered[taken].situation.clone();
        let children = match situation.state() {
            // "A finished one ends the search with a clash; a dead one has no
            // children."
            State::Finished => return clash(question, &entered, taken),
            State::Dead => Vec::new(),
            State::Open => situation.children(question),
        };
        for (child, step) in children {
            // "Each child is trimmed, then: dead is dropped;"
            let child = child.trimmed();
            let state = child.state();
            if state == State::Dead {
                continue;
            }
            // "a side above 48 tokens gives 19;"
            if child.left.len() > MOST_TOKENS || child.right.len() > MOST_TOKENS {
                return Found { ending: Ending::SideTooLong, count: entered.len() };
            }
            // "one already entered is dropped;"
            if known.contains(&child) {
                continue;
            }
            // "no room gives 18;"
            if entered.len() == room {
                return Found { ending: Ending::NoRoom, count: entered.len() };
            }
            // "otherwise it is entered, and a finished one ends the search at
            // once."
            let child = Rc::new(child);
            known.insert(child.clone());
            entered.push(Entered { situation: child, way: Some((taken, step)) });
            if state == State::Finished {
                return clash(question, &entered, entered.len() - 1);
            }
        }
        taken += 1;
    }
    // "When all are used up the answer is 1."
    Found { ending: Ending::NoClash, count: entered.len() }
}

/// The way from the start to the finish.
fn clash(question: &Question, entered: &[Entered], finish: usize) -> Found {
    let mut steps = Vec::new();
    let mut at = finish;
    while let Some((parent, step)) = &entered[at].way {
        steps.push(step.clone());
        at = *parent;
    }
    steps.reverse();
    let texts = texts(question, &steps);
    Found { ending: Ending::Clash(Way { steps, texts }), count: entered.len() }
}

/// "A field's text is the characters put before it on the way from the start
/// to the finish". The hidden fields "get no answer record".
pub fn texts(question: &Question, steps: &[Step]) -> Texts {
    let text = |field: u8| {
        let put = steps.iter().filter_map(|step| match step {
            Step::Put { character, fields } if fields.contains(&field) => Some(*character),
            _ => None,
        });
        (field, put.collect())
    };
    (0..FIELDS as u8).filter(|&field| question.stands(field)).map(text).collect()
}
