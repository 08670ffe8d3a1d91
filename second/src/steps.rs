//! "The steps on paper": the way of a clash as records, and the player, which
//! goes such a way.
//!
//! A record is "mark `ST`, a kind byte (0 left front struck, 1 right front
//! struck, 2 a character) and for kind 2 its value".

use crate::cases::{self, edition_of, push_answer_lent, ANSWER_FILL, WORK_FILL};
use crate::edition::Edition;
use crate::fault::Fault;
use crate::search::{self, Ending, Texts};
use crate::sheet::{Question, Reading};
use crate::situation::{Situation, State, Step};
use crate::{records, room, writer, Outcome};
use crate::{ANSWER_BUFFER_TOO_SHORT, CLASH, MOST_TOKENS, SIDE_TOO_LONG};

/// "47 for one cut short, with another mark, a kind above 2 or a value that is
/// no character"
pub const NO_RECORD: u8 = 47;
/// "48 for a step not allowed"
pub const NOT_ALLOWED: u8 = 48;
/// "49 where the records end before the finish"
pub const NOT_FINISHED: u8 = 49;
/// "50 if it is past the 65,534th"
pub const TOO_MANY_STEPS: u8 = 50;
/// "51 after 20 if the steps don't fit"
pub const STEPS_TOO_SHORT: u8 = 51;

/// A way has at most so many steps.
pub const MOST_STEPS: usize = 65_534;
/// A record's mark.
pub const STEP: &[u8; 2] = b"ST";
/// The kinds.
pub const LEFT_STRUCK: u8 = 0;
pub const RIGHT_STRUCK: u8 = 1;
pub const A_CHARACTER: u8 = 2;
/// The bytes of a record of a character; a struck front has one less.
pub const MOST_RECORD: usize = 4;

/// So many bytes of steps are always enough in this room: a way has a step less
/// than situations.
pub fn enough(room: usize) -> usize {
    MOST_RECORD * room.saturating_sub(1)
}

/// A record of a step.
#[derive(Clone, Copy, Debug, PartialEq, Eq)]
pub enum Record {
    LeftStruck,
    RightStruck,
    Character(u8),
}

impl Record {
    /// That of a step.
    pub fn of(step: &Step) -> Record {
        match step {
            Step::StrikeLeft => Record::LeftStruck,
            Step::StrikeRight => Record::RightStruck,
            Step::Put { character, .. } => Record::Character(*character),
        }
    }

    pub fn write(self, bytes: &mut Vec<u8>) {
        bytes.extend_from_slice(STEP);
        match self {
            Record::LeftStruck => bytes.push(LEFT_STRUCK),
            Record::RightStruck => bytes.push(RIGHT_STRUCK),
            Record::Character(value) => bytes.extend([A_CHARACTER, value]),
        }
    }

    /// The record in front, and the bytes behind it; none where it is "cut
    /// short, with another mark, a kind above 2 or a value that is no
    /// character" of the edition.
    pub fn read(edition: Edition, bytes: &[u8]) -> Option<(Record, &[u8])> {
        match bytes.strip_prefix(STEP)? {
            [LEFT_STRUCK, behind @ ..] => Some((Record::LeftStruck, behind)),
            [RIGHT_STRUCK, behind @ ..] => Some((Record::RightStruck, behind)),
            [A_CHARACTER, value, behind @ ..] if edition.has(*value) => {
                Some((Record::Character(*value), behind))
            }
            _ => None,
        }
    }
}

/// The records of these steps, one behind the other.
pub fn written(steps: &[Step]) -> Vec<u8> {
    let mut bytes = Vec::new();
    for step in steps {
        Record::of(step).write(&mut bytes);
    }
    bytes
}

/// What is handed back beside the three buffers.
#[derive(Clone, Copy, Debug, PartialEq, Eq)]
pub struct Told {
    pub outcome: Outcome,
    /// The bytes written to the steps buffer; 0 for all but answer 0.
    pub bytes: usize,
}

impl Told {
    pub fn of_fault(fault: Fault) -> Told {
        Told { outcome: Outcome::of_fault(fault), bytes: 0 }
    }

    /// What is told of a search, where texts and steps have so many bytes.
    pub fn of_search(number: u8, count: usize, written: usize, bytes: usize) -> Told {
        Told { outcome: Outcome::of_search(number, count, written), bytes }
    }
}

/// Judges the sheet, searches, and writes the answer and the steps: "After
/// answer 0, write the way found into a third lent buffer as records". "51 after
/// 20 if the steps don't fit"; "a refusal changes no lent buffer", but for the
/// working buffer that a search has used.
pub fn steps(sheet: &[u8], work: &mut [u8], answer: &mut [u8], steps: &mut [u8]) -> Told {
    steps_by(Reading::New, sheet, work, answer, steps)
}

/// The same for a sheet that is read by this rule.
pub fn steps_by(
    reading: Reading,
    sheet: &[u8],
    work: &mut [u8],
    answer: &mut [u8],
    steps: &mut [u8],
) -> Told {
    let question = match reading.sheet(sheet) {
        Ok(question) => question,
        Err(fault) => return Told::of_fault(fault),
    };
    let found = search::search(&question, room(work.len()));
    work.fill(0);
    let way = match found.ending {
        Ending::Clash(way) => way,
        other => return Told::of_search(other.number(), found.count, 0, 0),
    };
    let (records, row) = (records(&way.texts), written(&way.steps));
    if records.len() > answer.len() {
        return Told::of_search(ANSWER_BUFFER_TOO_SHORT, found.count, 0, 0);
    }
    if row.len() > steps.len() {
        return Told::of_search(STEPS_TOO_SHORT, found.count, 0, 0);
    }
    answer[..records.len()].copy_from_slice(&records);
    steps[..row.len()].copy_from_slice(&row);
    Told::of_search(CLASH, found.count, records.len(), row.len())
}

/// The player: "given a sheet and such records from anywhere, it makes each step
/// by 01's rules and gives the texts at the end". Count and place are 0, but for
/// the sheet's own place.
pub fn play(sheet: &[u8], steps: &[u8], answer: &mut [u8]) -> Outcome {
    play_by(Reading::New, sheet, steps, answer)
}

/// The same for a sheet that is read by this rule.
pub fn play_by(reading: Reading, sheet: &[u8], steps: &[u8], answer: &mut [u8]) -> Outcome {
    // "then 20 for a short answer buffer"
    written_by(reading, sheet, answer, ANSWER_BUFFER_TOO_SHORT, |question| {
        played(question, steps).map(|texts| records(&texts))
    })
}

/// Judges the sheet, then writes what is made of its question, or tells the number
/// that is given in its place; `short` where the buffer is too short for it.
pub fn written_by(
    reading: Reading,
    sheet: &[u8],
    buffer: &mut [u8],
    short: u8,
    made: impl FnOnce(&Question) -> Result<Vec<u8>, u8>,
) -> Outcome {
    let question = match reading.sheet(sheet) {
        Ok(question) => question,
        Err(fault) => return Outcome::of_fault(fault),
    };
    let (number, written) = match made(&question) {
        Err(number) => (number, 0),
        Ok(bytes) if bytes.len() > buffer.len() => (short, 0),
        Ok(bytes) => {
            buffer[..bytes.len()].copy_from_slice(&bytes);
            (CLASH, bytes.len())
        }
    };
    Outcome { number, count: 0, place: 0, written }
}

/// The texts of the way, or the number of what is wrong with it.
fn played(question: &Question, bytes: &[u8]) -> Result<Texts, u8> {
    let mut situation = Situation::of(question).trimmed();
    let mut made = Vec::new();
    let mut rest = bytes;
    while !rest.is_empty() {
        // "per record 50 if it is past the 65,534th"
        if made.len() == MOST_STEPS {
            return Err(TOO_MANY_STEPS);
        }
        let (record, behind) = Record::read(question.edition, rest).ok_or(NO_RECORD)?;
        let (child, step) = stepped(question, &situation, record)?;
        made.push(step);
        situation = child;
        rest = behind;
    }
    // "49 where the records end before the finish"
    if situation.state() != State::Finished {
        return Err(NOT_FINISHED);
    }
    Ok(search::texts(question, &made))
}

/// The child that this step makes, or the number of what is wrong with the step.
pub fn stepped(
    question: &Question,
    situation: &Situation,
    record: Record,
) -> Result<(Situation, Step), u8> {
    let (child, step) = child(question, situation, record).ok_or(NOT_ALLOWED)?;
    // "The 48-token limit holds"
    if child.left.len() > MOST_TOKENS || child.right.len() > MOST_TOKENS {
        return Err(SIDE_TOO_LONG);
    }
    Ok((child, step))
}

/// The child that this step makes, trimmed: "a dead child is not allowed, and
/// nothing may follow the finish". "neither room nor earlier entries count"
pub fn child(
    question: &Question,
    situation: &Situation,
    record: Record,
) -> Option<(Situation, Step)> {
    // "A finished one ends the search with a clash; a dead one has no children."
    if situation.state() != State::Open {
        return None;
    }
    let children = situation.children(question).into_iter();
    let mut of_step = children.filter(|(_, step)| Record::of(step) == record);
    let (child, step) = of_step.next()?;
    let child = child.trimmed();
    (child.state() != State::Dead).then_some((child, step))
}

// ------------------------------------------------------------------- cases

/// The byte with which the steps buffer is filled before each case.
pub const STEPS_FILL: u8 = 195;

/// A function like `steps`.
pub type Stepper = fn(&[u8], &mut [u8], &mut [u8], &mut [u8]) -> Told;

/// A case of `steps`: a case as of `answer`, and the length of the steps buffer.
#[derive(Clone, Debug, PartialEq, Eq)]
pub struct Case {
    pub case: cases::Case,
    pub steps: u16,
}

/// What is told, and what the three buffers hold afterwards.
#[derive(Clone, Debug, PartialEq, Eq)]
pub struct After {
    pub edition: Edition,
    pub told: Told,
    pub answer: Vec<u8>,
    pub work: Vec<u8>,
    pub steps: Vec<u8>,
}

impl Case {
    /// Runs the case on three freshly filled buffers.
    pub fn run(&self, stepper: Stepper) -> After {
        let mut work = vec![WORK_FILL; self.case.work as usize];
        let mut answer = vec![ANSWER_FILL; self.case.answer as usize];
        let mut steps = vec![STEPS_FILL; self.steps.into()];
        let told = stepper(&self.case.sheet, &mut work, &mut answer, &mut steps);
        After { edition: edition_of(&self.case.sheet), told, answer, work, steps }
    }

    /// Writes the case behind the stream: that of `answer`, then the length of
    /// the steps buffer in two bytes.
    pub fn write(&self, stream: &mut Vec<u8>) {
        self.case.write(stream);
        stream.extend_from_slice(&self.steps.to_le_bytes());
    }

    /// Reads a case from the front of a stream and hands back the rest; none
    /// where the stream stops inside the case.
    pub fn read(stream: &[u8]) -> Option<(Case, &[u8])> {
        let (case, rest) = cases::Case::read(stream)?;
        let (&steps, rest) = rest.split_first_chunk()?;
        Some((Case { case, steps: u16::from_le_bytes(steps) }, rest))
    }
}

impl After {
    /// The line of an answer; then the bytes of steps, and every byte of the
    /// steps buffer.
    pub fn line(&self) -> String {
        let (outcome, answer, work) = (self.told.outcome, self.answer.clone(), self.work.clone());
        let mut line = cases::After { edition: self.edition, outcome, answer, work }.line();
        line += &format!(", steps {}", self.told.bytes);
        push_answer_lent(&mut line, &self.steps, self.told.bytes, STEPS_FILL);
        line
    }
}

impl After {
    /// What the program `steps` prints: the lines of `clash`, and a line for each
    /// step.
    pub fn lines(&self) -> String {
        let mut lines = crate::lines(self.edition, &self.told.outcome, &self.answer);
        let mut rest = &self.steps[..self.told.bytes];
        while let Some((record, behind)) = Record::read(self.edition, rest) {
            lines += &match record {
                Record::LeftStruck => "left\n".to_string(),
                Record::RightStruck => "right\n".to_string(),
                Record::Character(value) => format!("put {}\n", self.edition.printed(&[value])),
            };
            rest = behind;
        }
        lines
    }
}

/// A function like `play`.
pub type Walker = fn(&[u8], &[u8], &mut [u8]) -> Outcome;

/// A case of the player: a case as of `answer`, whose working buffer is not there,
/// and the bytes of the steps. Of the way of given texts likewise, with the bytes
/// of the texts; there the answer buffer is the steps buffer.
#[derive(Clone, Debug, PartialEq, Eq)]
pub struct Handed {
    pub case: cases::Case,
    pub bytes: Vec<u8>,
}

impl Handed {
    /// With a freshly filled buffer: what is told, and the buffer.
    pub fn run(&self, walker: Walker) -> (Outcome, Vec<u8>) {
        let mut buffer = vec![ANSWER_FILL; self.case.answer as usize];
        let told = walker(&self.case.sheet, &self.bytes, &mut buffer);
        (told, buffer)
    }

    /// Number, count, place and written length, then every byte of the buffer.
    pub fn line(&self, walker: Walker) -> String {
        let (Outcome { number, count, place, written }, buffer) = self.run(walker);
        let mut line = format!("{number} {count} {place} {written}");
        push_answer_lent(&mut line, &buffer, written, ANSWER_FILL);
        line
    }

    /// Writes the case behind the stream: that of `answer`, then the bytes with
    /// their length in two bytes before them.
    pub fn write(&self, stream: &mut Vec<u8>) {
        self.case.write(stream);
        stream.extend_from_slice(&(self.bytes.len() as u16).to_le_bytes());
        stream.extend_from_slice(&self.bytes);
    }

    /// Reads a case from the front of a stream and hands back the rest; none
    /// where the stream stops inside the case.
    pub fn read(stream: &[u8]) -> Option<(Handed, &[u8])> {
        let (case, rest) = cases::Case::read(stream)?;
        let (bytes, rest) = writer::bytes(rest)?;
        Some((Handed { case, bytes }, rest))
    }
}
