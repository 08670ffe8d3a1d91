//! Can two label rules make the same label?
//!
//! `answer` takes a question sheet and two lent buffers, one for work and one
//! for the answer, and goes by the rules of docs/RULES.md.
//! It keeps the situations in storage of its own and looks them up by hash.
//! `scan::answer` does the same with the situations in the lent working buffer
//! and a plain scan over them.
//!
//! Two labels are the same "when they are equal after trailing spaces are
//! dropped": `sheet::Question` has a hidden field of spaces at the end of each
//! side, and the search knows nothing else of it.
//!
//! "A field without a pattern shall now hold one character or more.":
//! `pattern::Allowed` has its two place sets, and `spell_open` writes the old
//! meaning out, by which it held the empty text too.
//!
//! `decide::decide` makes other attempts where `answer` gives up, in the same
//! working buffer, and so answers more sheets with yes or no.
//!
//! `catalogue::add` and `catalogue::withdraw` keep a catalogue of rules of which
//! no two can make the same label, and `catalogue::recheck` lists the pairs of a
//! kept one that may; they search by `searched` or by `scan::searched`.
//! `catalogue::add_decided` and `catalogue::recheck_decided` decide each pair.
//!
//! `plain::plain` says clash or no clash where no field stands twice, with a bit
//! for each pair of standings in place of situations.
//!
//! `fronts::differ` tells two sides apart by what is fixed in them, with no search
//! at all.
//!
//! `steps::steps` does what `answer` does and writes the way too, step by step;
//! `steps::play` goes any such way and gives its texts, and `way::way` gives the way
//! of texts from anywhere.
//!
//! `writer::write` writes the sheet of two sides and patterns by field.
//!
//! "Patterns for fields that stand in neither side mislead clerks. Refuse such a
//! sheet.": `sheet::Reading` has the old rule and the new one, all that reads goes
//! by the new one, and `drop_strays` takes such patterns out.
//!
//! `full_ascii::into` spells a text of Full ASCII in Code 39 values, and reads it
//! back.
//!
//! "A sheet may begin with a record `ED` and the byte 2": `edition` has what is
//! different then, and all of these take it as a value.
//!
//! `smt` reads scripts for other solvers and compares them with their sheets, and
//! writes them too.
//!
//! Sentences in quotation marks in the comments are those of the text in which
//! the rules were first given, or of the requests that changed them;
//! docs/RULES.md says the same in other words.

pub mod calls;
pub mod cases;
pub mod catalogue;
pub mod decide;
pub mod drop_strays;
pub mod edition;
pub mod equations;
pub mod fault;
pub mod fronts;
pub mod full_ascii;
pub mod letters;
pub mod make;
pub mod pattern;
pub mod plain;
pub mod printed;
pub mod scan;
pub mod search;
pub mod share;
pub mod sheet;
pub mod shown;
pub mod situation;
pub mod smt;
pub mod spell_open;
pub mod steps;
pub mod storeroom;
pub mod way;
pub mod write;
pub mod writer;

use edition::Edition;
use fault::Fault;
use search::{Ending, Texts};
use sheet::{Question, Reading};

/// The answers of the search, by the table's "No.".
pub const CLASH: u8 = 0;
pub const NO_CLASH: u8 = 1;
pub const NO_ROOM: u8 = 18;
pub const SIDE_TOO_LONG: u8 = 19;
pub const ANSWER_BUFFER_TOO_SHORT: u8 = 20;

/// Room is one situation for each whole so many bytes of working buffer: "A
/// situation then takes 184 bytes".
pub const SITUATION_BYTES: usize = 184;
/// "and at most 65,535"
pub const MOST_ROOM: usize = 65_535;
/// "a side above 48 tokens gives 19"
pub const MOST_TOKENS: usize = 48;
/// "So a text can't pass 65,534 characters"
pub const MOST_TEXT: usize = 65_534;
/// A record of the answer without its values: "`VA`, field byte, length in two
/// bytes (low first), the values".
pub const ANSWER_RECORD_HEAD: usize = 5;
/// Its mark.
pub const TEXT: &[u8; 2] = b"VA";

/// The characters of Code 39, by value.
pub const CODE_39: &[u8; 43] = b"0123456789ABCDEFGHIJKLMNOPQRSTUVWXYZ-. $/+%";

/// What is handed back beside the two buffers.
#[derive(Clone, Copy, Debug, PartialEq, Eq)]
pub struct Outcome {
    /// The answer's number.
    pub number: u8,
    /// "The count equals the number of situations entered."
    pub count: usize,
    /// The fault's place, "the byte itself"; 0 for the search's answers.
    pub place: usize,
    /// "The number of bytes written is also returned; it is 0 for all but
    /// answer 0."
    pub written: usize,
}

impl Outcome {
    fn of_fault(fault: Fault) -> Outcome {
        Outcome { number: fault.number, count: 0, place: fault.place, written: 0 }
    }

    fn of_search(number: u8, count: usize, written: usize) -> Outcome {
        Outcome { number, count, place: 0, written }
    }
}

/// Room is one situation for each whole 184 bytes of working buffer, and at most
/// 65,535.
pub fn room(work_length: usize) -> usize {
    (work_length / SITUATION_BYTES).min(MOST_ROOM)
}

/// Judges the sheet, searches, and writes the answer.
pub fn answer(sheet: &[u8], work: &mut [u8], answer: &mut [u8]) -> Outcome {
    answer_by(Reading::New, sheet, work, answer)
}

/// The same for a sheet that is read by this rule.
pub fn answer_by(reading: Reading, sheet: &[u8], work: &mut [u8], answer: &mut [u8]) -> Outcome {
    // A faulty sheet leaves both buffers unchanged.
    let question = match reading.sheet(sheet) {
        Ok(question) => question,
        Err(fault) => return Outcome::of_fault(fault),
    };
    asked(&question, work, answer)
}

/// Searches in the room of the working buffer, and writes the answer.
pub fn asked(question: &Question, work: &mut [u8], answer: &mut [u8]) -> Outcome {
    let found = search::search(question, room(work.len()));
    // "a working buffer which a search has used ends all zero after every
    // answer"
    work.fill(0);
    let (number, written) = match found.ending {
        Ending::Clash(way) => {
            let records = records(&way.texts);
            if records.len() > answer.len() {
                (ANSWER_BUFFER_TOO_SHORT, 0)
            } else {
                // "records, the rest unchanged"
                answer[..records.len()].copy_from_slice(&records);
                (CLASH, records.len())
            }
        }
        other => (other.number(), 0),
    };
    Outcome::of_search(number, found.count, written)
}

/// Searches in the room of the working buffer and writes no text: the answer's
/// number and the count.
pub fn searched(question: &Question, work: &mut [u8]) -> (u8, usize) {
    let found = search::search(question, room(work.len()));
    work.fill(0);
    (found.ending.number(), found.count)
}

/// "Answer records, for each field standing in the sides, by rising number,
/// each record written directly behind the one before: `VA`, field byte,
/// length in two bytes (low first), the values." The hidden fields have none.
fn records(texts: &Texts) -> Vec<u8> {
    let mut bytes = Vec::new();
    for (field, text) in texts {
        assert!(text.len() <= MOST_TEXT);
        bytes.extend_from_slice(TEXT);
        bytes.push(*field);
        bytes.extend_from_slice(&(text.len() as u16).to_le_bytes());
        bytes.extend_from_slice(text);
    }
    bytes
}

/// What the program `clash` prints: "Its first line is answer, count and place
/// in decimal, one space between; after answer 0 comes a line for each `VA`:
/// field number, a space, the text as characters." A text of the second edition
/// is spelt: "spell a text into plain Code 39 (`clash` prints it so)".
pub fn lines(edition: Edition, outcome: &Outcome, answer: &[u8]) -> String {
    let mut lines = format!("{} {} {}\n", outcome.number, outcome.count, outcome.place);
    let mut rest = &answer[..outcome.written];
    while rest.len() >= ANSWER_RECORD_HEAD {
        let field = rest[2];
        let length = usize::from(u16::from_le_bytes([rest[3], rest[4]]));
        let (text, behind) = rest[ANSWER_RECORD_HEAD..].split_at(length);
        lines.push_str(&format!("{field} {}\n", edition.printed(text)));
        rest = behind;
    }
    lines
}
