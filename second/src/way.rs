//! "Texts of a clash may come from anywhere: from deciding, from another solver,
//! from a clerk." The way by which such texts are read, step by step.
//!
//! Sentences in quotation marks here are those of docs/RULES.md, section 19, "The
//! way of given texts".

use std::collections::VecDeque;

use crate::search::Texts;
use crate::sheet::{Question, Reading, Token, ALL_FIELDS, FIELDS, HIDDEN_LEFT, HIDDEN_RIGHT};
use crate::situation::{Situation, State, Step};
use crate::steps::{stepped, written, written_by, Record};
use crate::steps::{MOST_STEPS, NOT_ALLOWED, NO_RECORD, STEPS_TOO_SHORT, TOO_MANY_STEPS};
use crate::{writer, Outcome, TEXT};

/// "Handed over are a sheet, the texts as records and a steps buffer." "Count and
/// place are 0, but a fault of the sheet has its place".
pub fn way(sheet: &[u8], texts: &[u8], steps: &mut [u8]) -> Outcome {
    way_by(Reading::New, sheet, texts, steps)
}

/// The same for a sheet that is read by this rule.
pub fn way_by(reading: Reading, sheet: &[u8], texts: &[u8], steps: &mut [u8]) -> Outcome {
    // "at the finish: the way is longer than the steps buffer"
    written_by(reading, sheet, steps, STEPS_TOO_SHORT, |question| {
        let texts = texts_of(question, texts).ok_or(NO_RECORD)?;
        made(question, texts).map(|steps| written(&steps))
    })
}

/// The texts of these records: "one for each field that stands, by rising number,
/// each directly behind the one before, and nothing behind the last". None where
/// "one is cut short, has another mark or another field, is missing or too many, or
/// has a value that is no character".
pub fn texts_of(question: &Question, bytes: &[u8]) -> Option<Texts> {
    let mut texts = Vec::new();
    let mut rest = bytes;
    for field in (0..FIELDS as u8).filter(|&field| question.stands(field)) {
        let behind = rest.strip_prefix(TEXT)?.strip_prefix(&[field])?;
        let (text, behind) = writer::bytes(behind)?;
        if !text.iter().all(|&value| question.edition.has(value)) {
            return None;
        }
        texts.push((field, text));
        rest = behind;
    }
    rest.is_empty().then_some(texts)
}

/// What is left of the text of each field.
type Rests = [VecDeque<u8>; ALL_FIELDS];

/// The steps from "the start of section 7, trimmed" to the finish, or the number of
/// what is wrong: "50, 48 and 19 are looked for in this order for the first step,
/// then for the next one".
fn made(question: &Question, texts: Texts) -> Result<Vec<Step>, u8> {
    let mut walk = Walk::start(question, texts);
    let mut made = Vec::new();
    while walk.situation.state() != State::Finished {
        // "it is past the 65,534th, and the situation is not finished"
        if made.len() == MOST_STEPS {
            return Err(TOO_MANY_STEPS);
        }
        made.push(walk.step()?);
    }
    Ok(made)
}

/// Where the way is, and what is left of the texts there.
pub struct Walk<'a> {
    question: &'a Question,
    pub situation: Situation,
    rests: Rests,
}

impl Walk<'_> {
    /// "the start of section 7, trimmed"
    pub fn start(question: &Question, texts: Texts) -> Walk<'_> {
        let rests = with_hidden(question, texts);
        Walk { question, situation: Situation::of(question).trimmed(), rests }
    }

    /// Goes on by one step, or tells the number of what is wrong with it.
    pub fn step(&mut self) -> Result<Step, u8> {
        // "the two sides don't go on with the same character"
        let record = self.wanted().ok_or(NOT_ALLOWED)?;
        // "A step is made as the player makes it."
        let (child, step) = stepped(self.question, &self.situation, record)?;
        take(&mut self.rests, &step);
        self.situation = child;
        Ok(step)
    }

    /// The next step; none where no character is "the next one of both sides".
    pub fn wanted(&self) -> Option<Record> {
        let Walk { situation, rests, .. } = self;
        let (left, right) = (situation.left.first(), situation.right.first());
        let used_up = |front: Option<&Token>| match front {
            Some(Token::Field(field)) => rests[usize::from(*field)].is_empty(),
            _ => false,
        };
        // "the left front is a field whose text is used up: it is struck"
        if used_up(left) {
            return Some(Record::LeftStruck);
        }
        // "else the right front is a field whose text is used up: it is struck"
        if used_up(right) {
            return Some(Record::RightStruck);
        }
        // "of a front that is a character that one, of a front field the first of its
        // text that is left"
        let character = |front: Option<&Token>| match front? {
            Token::Character(character) => Some(*character),
            Token::Field(field) => rests[usize::from(*field)].front().copied(),
        };
        let (left, right) = (character(left)?, character(right)?);
        (left == right).then_some(Record::Character(left))
    }
}

/// The texts by field, and those of the hidden ones: "where the left label has n
/// characters fewer, the left hidden field holds n spaces and the right one none,
/// and the other way round".
fn with_hidden(question: &Question, texts: Texts) -> Rests {
    let mut rests = Rests::default();
    for (field, text) in texts {
        rests[usize::from(field)] = text.into();
    }
    // As long as the hidden fields hold nothing, these are the labels' lengths.
    let [left, right] = [&question.left, &question.right].map(|side| {
        let length = |token: &Token| match token {
            Token::Character(_) => 1,
            Token::Field(field) => rests[usize::from(*field)].len(),
        };
        side.iter().map(length).sum::<usize>()
    });
    let space = question.edition.space;
    rests[usize::from(HIDDEN_LEFT)].resize(right.saturating_sub(left), space);
    rests[usize::from(HIDDEN_RIGHT)].resize(left.saturating_sub(right), space);
    rests
}

/// "it is taken from the text of each front field"
fn take(rests: &mut Rests, step: &Step) {
    if let Step::Put { fields, .. } = step {
        for field in fields {
            rests[usize::from(*field)].pop_front();
        }
    }
}
