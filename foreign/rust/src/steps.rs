//! The steps on paper: the way to a clash, written down, that of given texts, and the player, which
//! goes any such way.

use std::fmt;
use std::iter::FusedIterator;

use crate::{Answer, Fault, MOST_CHARACTERS};

/// A way has at most so many steps, and so many records are played.
pub const MOST_STEPS: usize = 65_534;

/// The mark with which each record of a step begins.
const MARK: &[u8; 2] = b"ST";

/// The longest record, that of a character.
const LONGEST: usize = 4;

/// A steps buffer of so many bytes is always long enough, where the working buffer has room for
/// these situations; that is proved. A way has fewer steps than the search has situations.
pub const fn steps_bytes(situations: usize) -> usize {
    LONGEST * situations.saturating_sub(1)
}

/// A step: how a child is made of a situation.
#[derive(Clone, Copy, Debug, PartialEq, Eq, Hash)]
pub enum Step {
    /// 0: the left front, a field, is struck everywhere.
    StrikeLeft,
    /// 1: the right front, a field, is struck everywhere.
    StrikeRight,
    /// 2: this character, by its value, is put before each front field wherever that stands. A front
    /// that is a character is this one.
    Put(u8),
}

impl Step {
    /// Its record, behind what is there already: `ST`, the kind, and of a character its value.
    pub fn write(self, records: &mut Vec<u8>) {
        records.extend(MARK);
        match self {
            Step::StrikeLeft => records.push(0),
            Step::StrikeRight => records.push(1),
            Step::Put(value) => records.extend([2, value]),
        }
    }
}

/// The steps of these records, the first one first. It ends where bytes are no record.
pub fn way(records: &[u8]) -> Way<'_> {
    Way { rest: records }
}

/// What [`way`] gives.
#[derive(Clone, Debug)]
pub struct Way<'a> {
    rest: &'a [u8],
}

impl Way<'_> {
    /// The bytes that are still to be read: none at the end of records that are all good.
    pub fn rest(&self) -> &[u8] {
        self.rest
    }
}

impl Iterator for Way<'_> {
    type Item = Step;

    fn next(&mut self) -> Option<Step> {
        let (step, rest) = match self.rest.strip_prefix(MARK)? {
            [0, rest @ ..] => (Step::StrikeLeft, rest),
            [1, rest @ ..] => (Step::StrikeRight, rest),
            [2, value, rest @ ..] if *value < MOST_CHARACTERS => (Step::Put(*value), rest),
            _ => return None,
        };
        self.rest = rest;
        Some(step)
    }
}

impl FusedIterator for Way<'_> {}

/// The answer to a sheet whose way is written too.
#[derive(Clone, Copy, Debug, PartialEq, Eq)]
pub enum Stepped {
    /// What [`clash`](crate::clash) answers with the same sheet and buffers. After
    /// [`Answer::Clash`] the first `steps` bytes of the steps buffer hold the way; otherwise it is
    /// 0.
    Answered { answer: Answer, steps: usize },
    /// 51: the rules clash, and the texts would fit, but the steps buffer is too short for the way.
    /// Neither is written.
    StepsTooShort { count: usize },
}

impl Stepped {
    /// Its number, as in the table of the rules.
    pub fn number(self) -> u32 {
        match self {
            Stepped::Answered { answer, .. } => answer.number(),
            Stepped::StepsTooShort { .. } => 51,
        }
    }

    /// The situations entered; 0 where the sheet is at fault.
    pub fn count(self) -> usize {
        match self {
            Stepped::Answered { answer, .. } => answer.count(),
            Stepped::StepsTooShort { count } => count,
        }
    }

    /// The bytes written to the answer buffer; 0 for all but a clash that is written.
    pub fn written(self) -> usize {
        match self {
            Stepped::Answered { answer, .. } => answer.written(),
            Stepped::StepsTooShort { .. } => 0,
        }
    }

    /// The bytes written to the steps buffer; 0 for all but a clash that is written.
    pub fn steps(self) -> usize {
        match self {
            Stepped::Answered { steps, .. } => steps,
            Stepped::StepsTooShort { .. } => 0,
        }
    }

    /// Whether the rules clash; none where that is not decided, or the sheet is at fault.
    pub fn clashes(self) -> Option<bool> {
        match self {
            Stepped::Answered { answer, .. } => answer.clashes(),
            Stepped::StepsTooShort { .. } => Some(true),
        }
    }
}

/// In words; of a sheet at fault with the place.
impl fmt::Display for Stepped {
    fn fmt(&self, to: &mut fmt::Formatter<'_>) -> fmt::Result {
        match self {
            Stepped::Answered { answer, .. } => answer.fmt(to),
            Stepped::StepsTooShort { .. } => {
                to.write_str("clash, but the steps buffer is too short for the way")
            }
        }
    }
}

/// What the player answers.
#[derive(Clone, Copy, Debug, PartialEq, Eq)]
pub enum Played {
    /// 0: the steps lead to the finish. The first `written` bytes of the answer buffer hold the
    /// [`texts`](crate::texts()) of the fields.
    Finished { written: usize },
    /// 11 to 17, 22, 44: the sheet is at fault. `place` is the offset of the byte at fault, as
    /// [`Fault`] says.
    Refused { fault: Fault, place: usize },
    /// 19: a side grew above 48 tokens, the hidden field of spaces at its end counted.
    SideTooLong,
    /// 20: the steps lead to the finish, but the answer buffer is too short for the texts.
    AnswerTooShort,
    /// 47: a record is cut short, has another mark, a kind above 2 or a value that is no character.
    WrongStep,
    /// 48: a step is not allowed where it stands, or stands behind the finish.
    StepNotAllowed,
    /// 49: the records end before the finish, or there are none.
    NotFinished,
    /// 50: there are more than [`MOST_STEPS`] records.
    TooManySteps,
}

impl Played {
    /// Its number, as in the table of the rules.
    pub fn number(self) -> u32 {
        match self {
            Played::Finished { .. } => 0,
            Played::Refused { fault, .. } => fault.number(),
            Played::SideTooLong => 19,
            Played::AnswerTooShort => 20,
            Played::WrongStep => 47,
            Played::StepNotAllowed => 48,
            Played::NotFinished => 49,
            Played::TooManySteps => 50,
        }
    }

    /// The offset of the byte of the sheet at fault; 0 for all but [`Played::Refused`].
    pub fn place(self) -> usize {
        if let Played::Refused { place, .. } = self {
            place
        } else {
            0
        }
    }

    /// The bytes written to the answer buffer; 0 for all but [`Played::Finished`].
    pub fn written(self) -> usize {
        if let Played::Finished { written } = self {
            written
        } else {
            0
        }
    }

    /// Whether the steps show that the rules clash. Steps that don't say nothing of that.
    pub fn clashes(self) -> Option<bool> {
        matches!(self, Played::Finished { .. } | Played::AnswerTooShort).then_some(true)
    }
}

/// In words; of a sheet at fault with the place.
impl fmt::Display for Played {
    fn fmt(&self, to: &mut fmt::Formatter<'_>) -> fmt::Result {
        to.write_str(match self {
            Played::Finished { .. } => "clash",
            Played::Refused { fault, place } => return write!(to, "{fault}, at offset {place}"),
            Played::SideTooLong => "not decided: a side grew too long",
            Played::AnswerTooShort => "clash, but the answer buffer is too short for the texts",
            Played::WrongStep => "a wrong record of a step",
            Played::StepNotAllowed => "a step that is not allowed",
            Played::NotFinished => "the steps end before the finish",
            Played::TooManySteps => "too many steps",
        })
    }
}

/// Answers the sheet as [`clash`](crate::clash) does, and writes the way of a clash into a third
/// lent buffer: a record for each step, the first one first. [`way`] reads them.
///
/// [`steps_bytes`] are always enough. Where they don't fit, nothing is written, the texts
/// neither: [`Stepped::StepsTooShort`], after [`Answer::AnswerTooShort`]. The steps buffer is
/// unchanged after every answer but a clash, and behind the way then. What the other two hold
/// afterwards is as [`clash`](crate::clash) says.
pub fn steps(sheet: &[u8], work: &mut [u8], answer: &mut [u8], steps: &mut [u8]) -> Stepped {
    let mut told = [0; 4];
    // SAFETY: each pointer and length are those of one slice. No two of the slices overlap, since
    // all but the sheet are borrowed mutably. The function keeps no pointer.
    let number = unsafe {
        bradovusc_steps(
            sheet.as_ptr(),
            sheet.len() as u64,
            work.as_mut_ptr(),
            work.len() as u64,
            answer.as_mut_ptr(),
            answer.len() as u64,
            steps.as_mut_ptr(),
            steps.len() as u64,
            told.as_mut_ptr(),
            told.len() as u64,
        )
    };
    // These are at most 65,535, an offset of the sheet, and lengths within the buffers.
    let [count, place, written, steps] = told.map(|number| number as usize);
    match number {
        51 => Stepped::StepsTooShort { count },
        _ => Stepped::Answered { answer: Answer::numbered(number, count, place, written), steps },
    }
}

/// Plays a way, from anywhere: makes each step as the search makes the children of a situation, and
/// writes the texts at the end.
///
/// It is proved that the answer is [`Played::Finished`] or [`Played::AnswerTooShort`] exactly if the
/// records are a way to the finish; that the texts then solve the question; and that every way that
/// [`steps`] writes is accepted, and gives the same texts. The 48-token limit holds, but neither
/// room nor what a search would have entered before counts. No working buffer is needed. The answer
/// buffer is unchanged after every other answer.
///
/// The sheet's own faults come first. Then, record by record, [`Played::TooManySteps`],
/// [`Played::WrongStep`], [`Played::StepNotAllowed`] and [`Played::SideTooLong`] are looked for in
/// this order; then come [`Played::NotFinished`] and [`Played::AnswerTooShort`].
pub fn play(sheet: &[u8], steps: &[u8], answer: &mut [u8]) -> Played {
    let mut told = [0; 3];
    // SAFETY: each pointer and length are those of one slice. No slice that is written overlaps
    // another, since two are borrowed mutably; the sheet and the steps are only read. The function
    // keeps no pointer.
    let number = unsafe {
        bradovusc_play(
            sheet.as_ptr(),
            sheet.len() as u64,
            steps.as_ptr(),
            steps.len() as u64,
            answer.as_mut_ptr(),
            answer.len() as u64,
            told.as_mut_ptr(),
            told.len() as u64,
        )
    };
    // These are an offset of the sheet and a length within the answer buffer.
    let [_, place, written] = told.map(|number| number as usize);
    match number {
        0 => Played::Finished { written },
        19 => Played::SideTooLong,
        20 => Played::AnswerTooShort,
        47 => Played::WrongStep,
        48 => Played::StepNotAllowed,
        49 => Played::NotFinished,
        50 => Played::TooManySteps,
        _ => Played::Refused { fault: Fault::numbered(number), place },
    }
}

/// What is answered about the way of given texts.
#[derive(Clone, Copy, Debug, PartialEq, Eq)]
pub enum WayFound {
    /// 0: the texts solve the question. The first `written` bytes of the steps buffer hold the steps
    /// of their [`way`].
    Steps { written: usize },
    /// 11 to 17, 22, 44: the sheet is at fault. `place` is the offset of the byte at fault, as
    /// [`Fault`] says.
    Refused { fault: Fault, place: usize },
    /// 19: a side grew above 48 tokens, the hidden field of spaces at its end counted.
    SideTooLong,
    /// 47: the texts are no records, one for each field that stands, by rising number, or a value is
    /// no character.
    WrongTexts,
    /// 48: the texts don't make both sides the same label, or one is none that its field may hold.
    NoSolution,
    /// 50: the way has more than [`MOST_STEPS`] steps.
    TooManySteps,
    /// 51: the texts solve the question, but the steps buffer is too short for their way.
    StepsTooShort,
}

impl WayFound {
    /// Its number, as in the table of the rules.
    pub fn number(self) -> u32 {
        match self {
            WayFound::Steps { .. } => 0,
            WayFound::Refused { fault, .. } => fault.number(),
            WayFound::SideTooLong => 19,
            WayFound::WrongTexts => 47,
            WayFound::NoSolution => 48,
            WayFound::TooManySteps => 50,
            WayFound::StepsTooShort => 51,
        }
    }

    /// The offset of the byte of the sheet at fault; 0 for all but [`WayFound::Refused`].
    pub fn place(self) -> usize {
        if let WayFound::Refused { place, .. } = self {
            place
        } else {
            0
        }
    }

    /// The bytes written to the steps buffer; 0 for all but [`WayFound::Steps`].
    pub fn written(self) -> usize {
        if let WayFound::Steps { written } = self {
            written
        } else {
            0
        }
    }

    /// Whether the texts show that the rules clash. Texts that don't say nothing of that.
    pub fn clashes(self) -> Option<bool> {
        matches!(self, WayFound::Steps { .. } | WayFound::StepsTooShort).then_some(true)
    }
}

/// In words; of a sheet at fault with the place.
impl fmt::Display for WayFound {
    fn fmt(&self, to: &mut fmt::Formatter<'_>) -> fmt::Result {
        to.write_str(match self {
            WayFound::Steps { .. } => "clash",
            WayFound::Refused { fault, place } => return write!(to, "{fault}, at offset {place}"),
            WayFound::SideTooLong => "not decided: a side grew too long",
            WayFound::WrongTexts => "no records of the texts",
            WayFound::NoSolution => "the texts solve nothing",
            WayFound::TooManySteps => "too many steps",
            WayFound::StepsTooShort => "clash, but the steps buffer is too short for the way",
        })
    }
}

/// Writes the steps that spell given texts: a front field whose text is used up is struck, the left
/// one first; otherwise the next character is put. The texts are records as an answer buffer has
/// them after a clash, from anywhere, so those of [`decide`](crate::decide) too.
///
/// It is proved that the answer is [`WayFound::Steps`] or [`WayFound::StepsTooShort`] exactly if the
/// texts solve the question, no side passes 48 tokens on the way and the way has at most
/// [`MOST_STEPS`] steps; and that [`play`] accepts what is written and gives the texts back, byte for
/// byte. The steps buffer is unchanged after every other answer, and behind the steps.
///
/// The sheet's own faults come first, then [`WayFound::WrongTexts`]. Then, step by step,
/// [`WayFound::TooManySteps`], [`WayFound::NoSolution`] and [`WayFound::SideTooLong`] are looked for
/// in this order; then comes [`WayFound::StepsTooShort`].
pub fn find_way(sheet: &[u8], texts: &[u8], steps: &mut [u8]) -> WayFound {
    let mut told = [0; 3];
    // SAFETY: each pointer and length are those of one slice. No slice that is written overlaps
    // another, since two are borrowed mutably; the sheet and the texts are only read. The function
    // keeps no pointer.
    let number = unsafe {
        bradovusc_way(
            sheet.as_ptr(),
            sheet.len() as u64,
            texts.as_ptr(),
            texts.len() as u64,
            steps.as_mut_ptr(),
            steps.len() as u64,
            told.as_mut_ptr(),
            told.len() as u64,
        )
    };
    // These are an offset of the sheet and a length within the steps buffer.
    let [_, place, written] = told.map(|number| number as usize);
    match number {
        0 => WayFound::Steps { written },
        19 => WayFound::SideTooLong,
        47 => WayFound::WrongTexts,
        48 => WayFound::NoSolution,
        50 => WayFound::TooManySteps,
        51 => WayFound::StepsTooShort,
        _ => WayFound::Refused { fault: Fault::numbered(number), place },
    }
}

extern "C" {
    fn bradovusc_steps(
        sheet: *const u8,
        sheet_length: u64,
        work: *mut u8,
        work_length: u64,
        answer: *mut u8,
        answer_length: u64,
        steps: *mut u8,
        steps_length: u64,
        told: *mut u64,
        told_length: u64,
    ) -> u32;

    fn bradovusc_play(
        sheet: *const u8,
        sheet_length: u64,
        steps: *const u8,
        steps_length: u64,
        answer: *mut u8,
        answer_length: u64,
        told: *mut u64,
        told_length: u64,
    ) -> u32;

    fn bradovusc_way(
        sheet: *const u8,
        sheet_length: u64,
        texts: *const u8,
        texts_length: u64,
        steps: *mut u8,
        steps_length: u64,
        told: *mut u64,
        told_length: u64,
    ) -> u32;
}
