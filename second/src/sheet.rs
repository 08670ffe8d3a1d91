//! Records and the checks on them, and the question sheet.

use std::ops::{Range, RangeInclusive};

use crate::edition::{self, Edition, EDITION_BYTE, FIRST, SECOND, SECOND_BYTE};
use crate::fault::{Fault, CUT_SHORT, STRAY_PATTERN, WRONG_EDITION, WRONG_FIELD};
use crate::fault::{WRONG_LENGTH, WRONG_MARK, WRONG_TOKEN};
use crate::pattern::{Allowed, CharacterSet, Pattern, Places};

/// Fields 0 to 7, which may stand in a sheet.
pub const FIELDS: usize = 8;
/// "one hidden field ...: field 8 on the left and 9 on the right"
pub const HIDDEN_LEFT: u8 = 8;
pub const HIDDEN_RIGHT: u8 = 9;
/// The fields of a sheet and the hidden ones.
pub const ALL_FIELDS: usize = FIELDS + 2;

pub const PATTERN: &[u8; 2] = b"PA";
pub const LEFT: &[u8; 2] = b"LE";
pub const RIGHT: &[u8; 2] = b"RI";

/// "a pattern length up to 192"
pub const MOST_PATTERN: usize = 192;
/// Mark, field byte and length byte.
pub const PATTERN_HEAD: usize = 4;
/// The field byte's offset from the mark.
pub const FIELD_BYTE: usize = 2;
const PATTERN_LENGTHS: RangeInclusive<u8> = 1..=MOST_PATTERN as u8;
/// "length byte 0 to 24, tokens"
pub const MOST_SIDE: usize = 24;
/// Mark and length byte.
pub const SIDE_HEAD: usize = 3;
const SIDE_LENGTHS: RangeInclusive<u8> = 0..=MOST_SIDE as u8;

/// "A token is 0 to 42 (a character) or 64 to 71 (field 0 to 7)." The hidden
/// fields have "tokens 72 and 73, never allowed in a sheet". In the second edition
/// "Characters are then 0 to 127, field tokens 192 to 199, hidden ones 200 and
/// 201".
#[derive(Clone, Copy, Debug, PartialEq, Eq, Hash)]
pub enum Token {
    Character(u8),
    Field(u8),
}

impl Token {
    /// The token of a sheet's byte.
    pub fn of_byte(edition: Edition, byte: u8) -> Option<Token> {
        if edition.has(byte) {
            return Some(Token::Character(byte));
        }
        let field = byte.checked_sub(edition.codes)?;
        (usize::from(field) < FIELDS).then_some(Token::Field(field))
    }

    pub fn byte(self, edition: Edition) -> u8 {
        match self {
            Token::Character(character) => character,
            Token::Field(field) => edition.field(field),
        }
    }
}

/// A sheet that passed all checks, or a pair of rules, with the hidden fields.
#[derive(Clone, Debug)]
pub struct Question {
    pub edition: Edition,
    pub left: Vec<Token>,
    pub right: Vec<Token>,
    /// What each field may stand for.
    pub allowed: [Allowed; ALL_FIELDS],
    /// No place takes a character that is none of these: all of the edition's,
    /// but for the later searches of `decide`.
    pub characters: CharacterSet,
}

impl Question {
    /// "Each side is to be read as if one hidden field, of any number of
    /// spaces, stood at its end".
    pub fn of(
        edition: Edition,
        mut left: Vec<Token>,
        mut right: Vec<Token>,
        allowed: [Allowed; FIELDS],
    ) -> Question {
        left.push(Token::Field(HIDDEN_LEFT));
        right.push(Token::Field(HIDDEN_RIGHT));
        let space = Pattern::Leaf { lo: edition.space, hi: edition.space };
        let spaces = Places::of(&Pattern::AnyTimes(Box::new(space)));
        let hidden = || Allowed::Pattern(Box::new(spaces.clone()));
        let mut allowed = allowed.into_iter();
        let allowed = std::array::from_fn(|_| allowed.next().unwrap_or_else(hidden));
        Question { edition, left, right, allowed, characters: edition.all() }
    }

    /// How often the token stands in the two sides together.
    pub fn times(&self, token: Token) -> usize {
        self.left.iter().chain(&self.right).filter(|&&of| of == token).count()
    }

    /// Whether the field stands in a side.
    pub fn stands(&self, field: u8) -> bool {
        self.times(Token::Field(field)) > 0
    }

    /// The fixed characters of the sides.
    pub fn fixed(&self) -> CharacterSet {
        let sides = self.left.iter().chain(&self.right);
        sides.fold(0, |set, &token| match token {
            Token::Character(character) => set | 1 << character,
            Token::Field(_) => set,
        })
    }
}

/// What becomes of a stray pattern, one "for a field that stands in neither side".
#[derive(Clone, Copy, Debug, PartialEq, Eq)]
pub enum Reading {
    /// "reads by the old rule": it "is read, judged and then ignored".
    Old,
    /// "Refuse such a sheet."
    New,
}

impl Reading {
    /// Reads and judges a whole sheet.
    pub fn sheet(self, bytes: &[u8]) -> Result<Question, Fault> {
        let sheet = Sheet::read(bytes)?;
        self.check(&sheet.patterns, &sheet.sides())?;
        Ok(sheet.question())
    }

    /// "22, with the place of the first stray record's mark": the last check.
    pub fn check(self, patterns: &Patterns, sides: &[&[Token]]) -> Result<(), Fault> {
        match (self, patterns.strays(sides).first()) {
            (Reading::New, Some(first)) => Err(Fault { number: STRAY_PATTERN, place: first.start }),
            _ => Ok(()),
        }
    }
}

/// Reads and judges a whole sheet.
pub fn read(sheet: &[u8]) -> Result<Question, Fault> {
    Reading::New.sheet(sheet)
}

/// The records of a sheet that passed all checks but the last one.
#[derive(Clone, Debug)]
pub struct Sheet {
    pub edition: Edition,
    pub patterns: Patterns,
    pub left: Vec<Token>,
    pub right: Vec<Token>,
}

impl Sheet {
    /// No or one `ED`, then "no, one or several `PA`, field numbers rising; one
    /// `LE`; one `RI`; the end".
    pub fn read(bytes: &[u8]) -> Result<Sheet, Fault> {
        let mut cursor = Cursor::new(bytes);
        cursor.edition()?;
        let patterns = cursor.patterns()?;
        let left = cursor.side(LEFT)?;
        let right = cursor.side(RIGHT)?;
        cursor.end()?;
        Ok(Sheet { edition: cursor.edition, patterns, left, right })
    }

    pub fn sides(&self) -> [&[Token]; 2] {
        [&self.left, &self.right]
    }

    fn question(self) -> Question {
        Question::of(self.edition, self.left, self.right, self.patterns.allowed)
    }
}

/// The patterns of a sheet or a rule, by field.
#[derive(Clone, Debug)]
pub struct Patterns {
    /// What each field may stand for.
    pub allowed: [Allowed; FIELDS],
    /// Where the record of each field stands, from its mark on.
    pub records: [Option<Range<usize>>; FIELDS],
}

impl Patterns {
    /// The records of the fields that stand in none of these sides, rising.
    pub fn strays(&self, sides: &[&[Token]]) -> Vec<Range<usize>> {
        let stands = |field: u8| sides.iter().any(|side| side.contains(&Token::Field(field)));
        let of_field = (0..).zip(&self.records);
        of_field.filter(|(field, _)| !stands(*field)).filter_map(|(_, of)| of.clone()).collect()
    }
}

/// Bytes and how far they are read: "Reading goes on from where the last
/// record ended." The edition is the first one unless a record `ED` is read.
pub struct Cursor<'a> {
    bytes: &'a [u8],
    place: usize,
    edition: Edition,
}

impl<'a> Cursor<'a> {
    pub fn new(bytes: &'a [u8]) -> Cursor<'a> {
        Cursor { bytes, place: 0, edition: FIRST }
    }

    /// The offset at which the next record's mark stands or should stand.
    pub fn place(&self) -> usize {
        self.place
    }

    /// A fault so many bytes behind the mark's first.
    fn fault(&self, number: u8, behind: usize) -> Fault {
        Fault { number, place: self.place + behind }
    }

    /// The bytes of the next record up to this length of its head. "fewer than
    /// two bytes left give 11"; "missing field or length byte 11". "for 11 the
    /// sheet's length"
    fn head(&self, length: usize) -> Result<&'a [u8], Fault> {
        let cut_short = Fault { number: CUT_SHORT, place: self.bytes.len() };
        self.bytes[self.place..].get(..length).ok_or(cut_short)
    }

    /// "an unknown mark or one not allowed here gives 12", where just this one
    /// is allowed. "for 12 the first byte of the mark"
    fn only(&self, mark: &[u8; 2]) -> Result<(), Fault> {
        if self.head(2)? == mark {
            Ok(())
        } else {
            Err(self.fault(WRONG_MARK, 0))
        }
    }

    /// "length out of its range 14; missing body 11". "for 14 the length byte",
    /// which is the head's last.
    fn body(&self, head: usize, lengths: RangeInclusive<u8>) -> Result<&'a [u8], Fault> {
        let length_byte = head - 1;
        let length = self.head(head)?[length_byte];
        if !lengths.contains(&length) {
            return Err(self.fault(WRONG_LENGTH, length_byte));
        }
        Ok(&self.head(head + usize::from(length))?[head..])
    }

    /// A mark that is all of its record.
    pub fn mark(&mut self, mark: &[u8; 2]) -> Result<(), Fault> {
        self.only(mark)?;
        self.place += mark.len();
        Ok(())
    }

    /// "A sheet may begin with a record `ED` and the byte 2": 11 where the byte is
    /// missing, "44 for an edition byte other than 2, its place that byte, right
    /// after its missing-byte check". Other bytes in front are the next record's
    /// affair.
    fn edition(&mut self) -> Result<(), Fault> {
        if self.bytes.starts_with(edition::MARK) {
            if self.head(EDITION_BYTE + 1)?[EDITION_BYTE] != SECOND_BYTE {
                return Err(self.fault(WRONG_EDITION, EDITION_BYTE));
            }
            self.edition = SECOND;
            self.place += SECOND.record.len();
        }
        Ok(())
    }

    /// "no, one or several `PA`, field numbers rising". Which of them are strays is
    /// known behind the sides.
    pub fn patterns(&mut self) -> Result<Patterns, Fault> {
        let allowed = std::array::from_fn(|_| Allowed::Open(self.edition.all()));
        let mut patterns = Patterns { allowed, records: Default::default() };
        let mut before = None;
        while self.head(2)? == PATTERN {
            let mark = self.place;
            let (field, pattern) = self.pattern(before)?;
            let at = usize::from(field);
            patterns.allowed[at] = Allowed::Pattern(Box::new(Places::of(&pattern)));
            patterns.records[at] = Some(mark..self.place);
            before = Some(field);
        }
        Ok(patterns)
    }

    /// A `PA` record behind that of the field before it.
    fn pattern(&mut self, before: Option<u8>) -> Result<(u8, Pattern), Fault> {
        let field = self.head(PATTERN_HEAD)?[FIELD_BYTE];
        // "field above 7 or not above the field before it 13"; "for 13 the field
        // byte"
        if usize::from(field) >= FIELDS || before.is_some_and(|before| field <= before) {
            return Err(self.fault(WRONG_FIELD, FIELD_BYTE));
        }
        let body = self.body(PATTERN_HEAD, PATTERN_LENGTHS)?;
        // "then for a pattern 15, then 16"
        let pass_on = |fault: Fault| fault.passed_on(self.place + PATTERN_HEAD);
        let pattern = Pattern::read(self.edition, body).map_err(pass_on)?;
        self.place += PATTERN_HEAD + body.len();
        Ok((field, pattern))
    }

    /// A side's record with this mark.
    pub fn side(&mut self, mark: &[u8; 2]) -> Result<Vec<Token>, Fault> {
        self.only(mark)?;
        let body = self.body(SIDE_HEAD, SIDE_LENGTHS)?;
        // "for a side 17"; "for 17 the token", the first that is none
        let token = |(number, &byte)| {
            Token::of_byte(self.edition, byte).ok_or(self.fault(WRONG_TOKEN, SIDE_HEAD + number))
        };
        let tokens = body.iter().enumerate().map(token).collect::<Result<Vec<Token>, Fault>>()?;
        self.place += SIDE_HEAD + body.len();
        Ok(tokens)
    }

    /// "after `RI`, any byte left gives 12"; its place is "the first byte after
    /// `RI`".
    pub fn end(&self) -> Result<(), Fault> {
        if self.place == self.bytes.len() {
            Ok(())
        } else {
            Err(self.fault(WRONG_MARK, 0))
        }
    }
}
