//! Decides more than one search does: up to seven attempts, one after the other,
//! in the same working buffer, up to the first that decides.
//!
//! 1. The search of `answer`. Where it says clash or no clash, that is the
//!    answer.
//! 2. Letters, a test: if they differ there is no clash.
//! 3. "Each standing apart by K9's engine", a test: its no clash decides.
//! 4. The shortest texts: each field that stands twice holds one text alone. A
//!    clash decides.
//! 5. Longer texts: the same with those of three characters or more.
//! 6. Characters alike: "Two characters are alike on a sheet if neither is a
//!    fixed character of a side and every leaf of every standing field takes
//!    both or neither." Of those alike the least one alone is put. Clash and no
//!    clash both decide.
//! 7. Few characters: one for each leaf, and fewer where one serves several. A
//!    clash decides.
//!
//! The hidden fields stand and have their leaf; "fixed characters are those of
//! the sheet's (untrimmed) sides"; the room is the same for every search.

use crate::catalogue::{Asked, Searcher};
use crate::edition::Edition;
use crate::pattern::{characters, Allowed, CharacterSet};
use crate::plain;
use crate::sheet::{Question, Reading, Token, ALL_FIELDS, FIELDS};
use crate::{letters, room, scan, Outcome, NO_CLASH, NO_ROOM, SIDE_TOO_LONG, SITUATION_BYTES};

/// The character 0 alone.
const LEAST_OF_ALL: CharacterSet = 1;
/// No longer text is tried for a field that stands twice.
const MOST_TRIED: usize = 24;

/// An attempt to decide.
#[derive(Clone, Copy, Debug, PartialEq, Eq)]
pub enum Attempt {
    First,
    Letters,
    Apart,
    /// With the texts of so many characters or more.
    Texts(usize),
    Alike,
    Few,
}

/// The attempts in their order, numbered from 1.
pub const ATTEMPTS: [Attempt; 7] = [
    Attempt::First,
    Attempt::Letters,
    Attempt::Apart,
    Attempt::Texts(0),
    Attempt::Texts(3),
    Attempt::Alike,
    Attempt::Few,
];

/// What an attempt asks.
pub enum Asks {
    /// The search of this question, in the whole room.
    Search(Question),
    /// A test, which enters no situation: does it say no clash? Else it says
    /// nothing.
    Test(bool),
}

impl Attempt {
    /// What it asks where there is room for so many situations.
    pub fn asks(self, question: &Question, room: usize) -> Asks {
        match self {
            Attempt::First => Asks::Search(question.clone()),
            Attempt::Letters => Asks::Test(letters::differ(question)),
            Attempt::Apart => {
                // "It is asked only if its bits are at most 8 × 184 × the room."
                let fits = plain::pairs(question) <= 8 * SITUATION_BYTES * room;
                Asks::Test(fits && !plain::clashes(question))
            }
            Attempt::Texts(length) => Asks::Search(with_texts(question, length)),
            Attempt::Alike => Asks::Search(over(question, least_alike(question))),
            Attempt::Few => Asks::Search(over(question, few(question, least_alike(question)))),
        }
    }

    /// Whether what its search says is said of the sheet's own question. With other
    /// texts or other characters there may be a label where these have none.
    pub fn decides(self, number: u8) -> bool {
        match number {
            NO_ROOM | SIDE_TOO_LONG => false,
            NO_CLASH => matches!(self, Attempt::First | Attempt::Alike),
            _ => true,
        }
    }
}

/// What is handed back beside the two buffers.
#[derive(Clone, Copy, Debug, PartialEq, Eq)]
pub struct Decided {
    /// The count is that of the situations entered in all searches made.
    pub outcome: Outcome,
    /// Which attempt decided, 1 to 7; 0 where none did, and for a refused sheet.
    /// Where the texts don't fit, the attempt that found them.
    pub search: u8,
    /// The situations entered in each attempt; 0 for one that was not made.
    pub spent: [usize; ATTEMPTS.len()],
}

/// A module's search that writes the texts.
pub type By = fn(&Question, &mut [u8], &mut [u8]) -> Outcome;

/// With situations in storage of its own.
pub const HASHING: By = crate::asked;
/// With situations in the lent working buffer.
pub const SCANNING: By = scan::asked;

/// Judges the sheet, searches, and writes the answer.
pub fn decide(sheet: &[u8], work: &mut [u8], answer: &mut [u8], by: By) -> Decided {
    decide_by(Reading::New, sheet, work, answer, by)
}

/// The same for a sheet that is read by this rule.
pub fn decide_by(
    reading: Reading,
    sheet: &[u8],
    work: &mut [u8],
    answer: &mut [u8],
    by: By,
) -> Decided {
    match reading.sheet(sheet) {
        Ok(question) => attempted(&question, room(work.len()), |asked| by(asked, work, answer)),
        Err(fault) => {
            Decided { outcome: Outcome::of_fault(fault), search: 0, spent: Default::default() }
        }
    }
}

/// Decides a pair's question. "A pair's texts are not written", so a clash is 0
/// whatever its texts, and never 20.
pub fn pair(question: &Question, work: &mut [u8], search: Searcher) -> Asked {
    let decided = attempted(question, room(work.len()), |asked| {
        let (answer, entered) = search(asked, work);
        Outcome::of_search(answer, entered, 0)
    });
    let Outcome { number, count, .. } = decided.outcome;
    Asked { answer: number, count, search: decided.search }
}

/// Makes the attempts in turn, in room for so many situations, up to the first
/// that decides.
fn attempted(
    question: &Question,
    room: usize,
    mut search: impl FnMut(&Question) -> Outcome,
) -> Decided {
    let mut spent = [0; ATTEMPTS.len()];
    // "18/19 as the first search said it"
    let mut given_up = None;
    for (at, attempt) in ATTEMPTS.into_iter().enumerate() {
        let decided = match attempt.asks(question, room) {
            Asks::Search(asked) => {
                let outcome = search(&asked);
                spent[at] = outcome.count;
                given_up.get_or_insert(outcome.number);
                attempt.decides(outcome.number).then_some(outcome)
            }
            Asks::Test(no_clash) => no_clash.then(|| Outcome::of_search(NO_CLASH, 0, 0)),
        };
        if let Some(outcome) = decided {
            let outcome = Outcome { count: spent.iter().sum(), ..outcome };
            return Decided { outcome, search: at as u8 + 1, spent };
        }
    }
    let number = given_up.unwrap_or(NO_ROOM);
    Decided { outcome: Outcome::of_search(number, spent.iter().sum(), 0), search: 0, spent }
}

/// The question where each field that stands twice holds one text alone: that of
/// so many characters or more.
pub fn with_texts(question: &Question, length: usize) -> Question {
    let mut asked = question.clone();
    for (field, allowed) in (0..).zip(&mut asked.allowed[..FIELDS]) {
        let text = one_text(allowed, length).filter(|_| question.times(Token::Field(field)) > 1);
        if let Some(text) = text {
            *allowed = Allowed::only(&text);
        }
    }
    asked
}

/// The least text of the least length from this one on, or where there is none of
/// the greatest below it; none where no text has at most 24 characters.
pub fn one_text(allowed: &Allowed, length: usize) -> Option<Vec<u8>> {
    let mut lengths = (length..=MOST_TRIED).chain((0..length).rev());
    lengths.find_map(|length| allowed.least_text(length))
}

/// The question where no place takes another character.
fn over(question: &Question, characters: CharacterSet) -> Question {
    Question { characters, ..question.clone() }
}

/// The fields that stand, the hidden ones too, rising.
fn standing(question: &Question) -> Vec<&Allowed> {
    let stands = |&field: &usize| question.stands(field as u8);
    (0..ALL_FIELDS).filter(stands).map(|field| &question.allowed[field]).collect()
}

/// The least ones alike: "a character no smaller one is alike to".
pub fn least_alike(question: &Question) -> CharacterSet {
    let (standing, fixed) = (standing(question), question.fixed());
    let is_fixed = |character: u8| fixed & (1 << character) != 0;
    let alike = |a: u8, b: u8| {
        !is_fixed(a)
            && !is_fixed(b)
            && standing.iter().all(|field| field.leaves_taking(a) == field.leaves_taking(b))
    };
    let least = |&character: &u8| !(0..character).any(|smaller| alike(smaller, character));
    (0..question.edition.characters).filter(least).fold(0, |set, character| set | 1 << character)
}

/// Some of the least ones: "for each leaf (fields rising, leaves in their order)
/// that takes none chosen so far, the least of the least ones that it takes and
/// that stands fixed in no side, or where there is none the least that it takes;
/// where nothing is chosen, the least of all".
pub fn few(question: &Question, least: CharacterSet) -> CharacterSet {
    let fixed = question.fixed();
    let mut chosen = 0;
    for field in standing(question) {
        for leaf in field.leaves() {
            if leaf & chosen == 0 {
                let taken = leaf & least;
                let one = characters(taken & !fixed).next().or(characters(taken).next());
                chosen |= one.map_or(0, |one| 1 << one);
            }
        }
    }
    // The hidden fields always have a leaf, but the rule doesn't rest on them.
    if chosen == 0 {
        LEAST_OF_ALL
    } else {
        chosen
    }
}

/// What the program `decide` prints: what `clash` prints, "the attempt's number at
/// the end of the first line".
pub fn lines(edition: Edition, decided: &Decided, answer: &[u8]) -> String {
    let lines = crate::lines(edition, &decided.outcome, answer);
    let end = lines.find('\n').unwrap_or(lines.len());
    format!("{} {}{}", &lines[..end], decided.search, &lines[end..])
}
