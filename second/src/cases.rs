//! Streams of cases, for comparing programs on many sheets.
//!
//! A case is four bytes length of the working buffer, four bytes length of the
//! answer buffer, two bytes length of the sheet (all low byte first), and the
//! sheet.

use crate::catalogue::RULE;
use crate::decide::{self, By, Decided};
use crate::edition::{Edition, FIRST};
use crate::plain::{plain, plain_bytes, Needs, Told};
use crate::sheet::Reading;
use crate::spell_open::{self, Spelt};
use crate::{drop_strays, Outcome};

/// The bytes with which the buffers are filled before each case.
pub const WORK_FILL: u8 = 90;
pub const ANSWER_FILL: u8 = 165;

const HEAD: usize = 10;

/// A sheet and the lengths of the two lent buffers.
#[derive(Clone, Debug, PartialEq, Eq)]
pub struct Case {
    pub work: u32,
    pub answer: u32,
    pub sheet: Vec<u8>,
}

/// A function like `crate::answer`.
pub type Answerer = fn(&[u8], &mut [u8], &mut [u8]) -> Outcome;

/// A function that writes a sheet or a rule anew.
type Putter = fn(&[u8], &mut [u8]) -> Spelt;

/// The edition of a good sheet, stray patterns or not. What is printed of another
/// has no text.
pub fn edition_of(sheet: &[u8]) -> Edition {
    Reading::Old.sheet(sheet).map_or(FIRST, |question| question.edition)
}

/// An outcome and what the two buffers hold afterwards.
#[derive(Clone, Debug, PartialEq, Eq)]
pub struct After {
    pub edition: Edition,
    pub outcome: Outcome,
    pub answer: Vec<u8>,
    pub work: Vec<u8>,
}

impl Case {
    /// Runs the case on two freshly filled buffers.
    pub fn run(&self, answerer: Answerer) -> After {
        let mut work = vec![WORK_FILL; self.work as usize];
        let mut answer = vec![ANSWER_FILL; self.answer as usize];
        let outcome = answerer(&self.sheet, &mut work, &mut answer);
        After { edition: edition_of(&self.sheet), outcome, answer, work }
    }

    /// Decides the case on two freshly filled buffers.
    pub fn decide(&self, by: By) -> AfterDecided {
        let mut work = vec![WORK_FILL; self.work as usize];
        let mut answer = vec![ANSWER_FILL; self.answer as usize];
        let decided = decide::decide(&self.sheet, &mut work, &mut answer, by);
        let edition = edition_of(&self.sheet);
        let after = After { edition, outcome: decided.outcome, answer, work };
        AfterDecided { decided, after }
    }

    /// Carries the sheet over into a buffer of the answer buffer's length, or
    /// the rule where the bytes begin with its mark: number, place and written
    /// length, then every byte of the buffer.
    pub fn spelt(&self) -> String {
        self.put_into(spell_open::sheet_into, spell_open::rule_into)
    }

    /// The same, but the stray patterns are dropped.
    pub fn dropped(&self) -> String {
        self.put_into(drop_strays::sheet_into, drop_strays::rule_into)
    }

    fn put_into(&self, sheet: Putter, rule: Putter) -> String {
        let mut output = vec![ANSWER_FILL; self.answer as usize];
        let put = if self.sheet.starts_with(RULE) { rule } else { sheet };
        let Spelt { number, place, written } = put(&self.sheet, &mut output);
        let mut line = format!("{number} {place} {written}");
        push_answer(&mut line, &output, written);
        line
    }

    /// Asks the engine for plain rules, with a freshly filled bit buffer of the
    /// working buffer's length: what is told, and the buffer.
    pub fn plain(&self) -> (Told, Vec<u8>) {
        let mut bits = vec![WORK_FILL; self.work as usize];
        let told = plain(&self.sheet, &mut bits);
        (told, bits)
    }

    /// Number, count and place, then every byte of the bit buffer; then what the
    /// sheet needs: number, place and bytes.
    pub fn plain_line(&self) -> String {
        let (Told { number, count, place }, bits) = self.plain();
        let mut line = format!("{number} {count} {place}");
        push_work(&mut line, &bits);
        let Needs { number, place, bytes } = plain_bytes(&self.sheet);
        line + &format!(", needs {number} {place} {bytes}")
    }

    /// What the program `plain` prints: number, count and place.
    pub fn plain_lines(&self) -> String {
        let (Told { number, count, place }, _) = self.plain();
        format!("{number} {count} {place}\n")
    }

    /// Writes the case behind the stream. A sheet has at most 65,535 bytes.
    pub fn write(&self, stream: &mut Vec<u8>) {
        stream.extend_from_slice(&self.work.to_le_bytes());
        stream.extend_from_slice(&self.answer.to_le_bytes());
        stream.extend_from_slice(&(self.sheet.len() as u16).to_le_bytes());
        stream.extend_from_slice(&self.sheet);
    }

    /// Reads a case from the front of a stream and hands back the rest; none
    /// where the stream stops inside the case.
    pub fn read(stream: &[u8]) -> Option<(Case, &[u8])> {
        let head = stream.get(..HEAD)?;
        let work = u32::from_le_bytes([head[0], head[1], head[2], head[3]]);
        let answer = u32::from_le_bytes([head[4], head[5], head[6], head[7]]);
        let length = usize::from(u16::from_le_bytes([head[8], head[9]]));
        let sheet = stream.get(HEAD..HEAD + length)?.to_vec();
        Some((Case { work, answer, sheet }, &stream[HEAD + length..]))
    }
}

impl After {
    /// Number, count, place and written length; then every byte of the two
    /// buffers: those written one by one, the others in a word where they are
    /// as they were lent, or all zero, and one by one where they are neither.
    pub fn line(&self) -> String {
        let Outcome { number, count, place, written } = self.outcome;
        let mut line = format!("{number} {count} {place} {written}");
        push_answer(&mut line, &self.answer, written);
        push_work(&mut line, &self.work);
        line
    }

    /// What the program `clash` prints.
    pub fn lines(&self) -> String {
        crate::lines(self.edition, &self.outcome, &self.answer)
    }
}

/// What was decided and what the two buffers hold afterwards.
#[derive(Clone, Debug, PartialEq, Eq)]
pub struct AfterDecided {
    pub decided: Decided,
    pub after: After,
}

impl AfterDecided {
    /// The line of `After`, and at its end the search's number.
    pub fn line(&self) -> String {
        format!("{}, search {}", self.after.line(), self.decided.search)
    }

    /// What the program `decide` prints.
    pub fn lines(&self) -> String {
        decide::lines(self.after.edition, &self.decided, &self.after.answer)
    }
}

/// What the answer buffer holds.
pub fn push_answer(line: &mut String, answer: &[u8], written: usize) {
    push_answer_lent(line, answer, written, ANSWER_FILL);
}

/// What a buffer that was lent full of a byte holds.
pub fn push_answer_lent(line: &mut String, answer: &[u8], written: usize, fill: u8) {
    match answer.split_at_checked(written) {
        Some((records, rest)) => {
            *line += ", written";
            push_each(line, records);
            *line += ", rest";
            push_lent(line, rest, fill);
        }
        None => {
            *line += ", more than the answer buffer";
            push_each(line, answer);
        }
    }
}

/// What the working buffer holds.
pub fn push_work(line: &mut String, work: &[u8]) {
    *line += ", work";
    if work.iter().all(|&byte| byte == 0) {
        *line += " all zero";
    } else {
        push_lent(line, work, WORK_FILL);
    }
}

fn push_lent(line: &mut String, bytes: &[u8], fill: u8) {
    if bytes.iter().all(|&byte| byte == fill) {
        *line += " unchanged";
    } else {
        push_each(line, bytes);
    }
}

/// Each byte in two hexadecimal digits.
pub fn push_each(line: &mut String, bytes: &[u8]) {
    for byte in bytes {
        *line += &format!(" {byte:02x}");
    }
}
