//! The catalogue: "up to 32 rules in a lent buffer, rules added singly", of
//! which no two can make the same label.

use std::ops::Range;

use crate::edition::FIRST;
use crate::fault::Fault;
use crate::pattern::Allowed;
use crate::sheet::{Cursor, Patterns, Question, Reading, Token, FIELDS, LEFT};
use crate::{decide, scan, NO_CLASH};

/// A rule is entered or withdrawn, or the pairs are listed.
pub const DONE: u8 = 0;
/// The refusals, by their numbers in the request.
pub const PAIR_NOT_1: u8 = 30;
pub const FIELD_ABOVE_3: u8 = 31;
pub const DOES_NOT_FIT: u8 = 32;
pub const NO_SUCH_RULE: u8 = 33;
pub const NOT_OF_THIS_FORM: u8 = 34;
/// The list of a recheck is longer than its buffer.
pub const LIST_TOO_SHORT: u8 = 35;

/// "A rule's record is the mark `RU` ..."
pub const RULE: &[u8; 2] = b"RU";
/// "a catalogue of up to 32 rules"
pub const MOST_RULES: usize = 32;
/// "its own fields, numbered 0 to 3", "the new one ... with its fields as 4 to
/// 7"
pub const RULE_FIELDS: usize = FIELDS / 2;

/// A rule that passed the checks of reading.
#[derive(Clone, Debug)]
pub struct Rule {
    side: Vec<Token>,
    patterns: Patterns,
}

impl Rule {
    /// Reads and judges a whole rule, "offsets from `RU`".
    pub fn read(bytes: &[u8]) -> Result<Rule, Fault> {
        Rule::read_by(Reading::New, bytes)
    }

    /// The same with stray patterns by this rule: 22 comes behind all else.
    pub fn read_by(reading: Reading, bytes: &[u8]) -> Result<Rule, Fault> {
        let mut cursor = Cursor::new(bytes);
        let rule = Rule::record(&mut cursor)?;
        // "one `LE`, its end as `RI` is a sheet's"
        cursor.end()?;
        rule.check(reading)?;
        Ok(rule)
    }

    /// A whole rule and no field above 3: "the rule's own 11 to 17", 22 "between 17
    /// and 31", "then 31 for a field above 3", which has no place.
    pub fn read_own(bytes: &[u8]) -> Result<Rule, Fault> {
        Rule::read_own_by(Reading::New, bytes)
    }

    /// The same with stray patterns by this rule. By the old one a stray pattern's
    /// field above 3 is 31 as any other.
    pub fn read_own_by(reading: Reading, bytes: &[u8]) -> Result<Rule, Fault> {
        let rule = Rule::read_by(reading, bytes)?;
        if rule.names_a_field_above_3() {
            return Err(Fault { number: FIELD_ABOVE_3, place: 0 });
        }
        Ok(rule)
    }

    pub fn side(&self) -> &[Token] {
        &self.side
    }

    pub fn patterns(&self) -> &Patterns {
        &self.patterns
    }

    /// "the mark `RU`, the `PA` records of its own fields, ..., and one `LE`"
    fn record(cursor: &mut Cursor) -> Result<Rule, Fault> {
        cursor.mark(RULE)?;
        let patterns = cursor.patterns()?;
        let side = cursor.side(LEFT)?;
        Ok(Rule { side, patterns })
    }

    fn check(&self, reading: Reading) -> Result<(), Fault> {
        reading.check(&self.patterns, &[&self.side])
    }

    /// "31 for a field above 3", be it a pattern's or a token's.
    fn names_a_field_above_3(&self) -> bool {
        let pattern = |allowed: &Allowed| matches!(allowed, Allowed::Pattern(_));
        let token = |token: &Token| match *token {
            Token::Field(field) => usize::from(field) >= RULE_FIELDS,
            Token::Character(_) => false,
        };
        self.patterns.allowed[RULE_FIELDS..].iter().any(pattern) || self.side.iter().any(token)
    }
}

/// "In a pair the present rule is the left side, the new one the right, with
/// its fields as 4 to 7." Both rules' own fields are 0 to 3; the hidden ones
/// stand as in a sheet. A rule never has `ED`.
pub fn question(present: &Rule, new: &Rule) -> Question {
    let renumbered = |token: &Token| match *token {
        Token::Field(field) => Token::Field(field + RULE_FIELDS as u8),
        character => character,
    };
    let allowed = std::array::from_fn(|field| match field.checked_sub(RULE_FIELDS) {
        None => present.patterns.allowed[field].clone(),
        Some(own) => new.patterns.allowed[own].clone(),
    });
    let (left, right) = (present.side.clone(), new.side.iter().map(renumbered).collect());
    Question::of(FIRST, left, right, allowed)
}

/// A rule of the catalogue and where its bytes stand.
pub struct Present {
    pub rule: Rule,
    pub bytes: Range<usize>,
}

/// "Records stand one behind the other from the buffer's start, then zero
/// bytes; a rule's number is its place in that order, from 0". None where the
/// buffer is not of this form; "a catalogue holding one", a rule with a stray
/// pattern, is not.
pub fn read(catalogue: &[u8]) -> Option<Vec<Present>> {
    read_by(Reading::New, catalogue)
}

/// The same with stray patterns by this rule.
pub fn read_by(reading: Reading, catalogue: &[u8]) -> Option<Vec<Present>> {
    let mut rules = Vec::new();
    let mut place = 0;
    while catalogue[place..].iter().any(|&byte| byte != 0) {
        let mut cursor = Cursor::new(&catalogue[place..]);
        let rule = Rule::record(&mut cursor).ok()?;
        rule.check(reading).ok()?;
        if rules.len() == MOST_RULES || rule.names_a_field_above_3() {
            return None;
        }
        let end = place + cursor.place();
        rules.push(Present { rule, bytes: place..end });
        place = end;
    }
    Some(rules)
}

/// What `add` tells, each 0 where nothing is said of it.
#[derive(Clone, Copy, Debug, Default, PartialEq, Eq)]
pub struct Added {
    /// The answer's number.
    pub number: u8,
    /// With 30, the situations entered for the pair.
    pub count: usize,
    /// With 11 to 17 and 22, the fault's place, counted from `RU`.
    pub place: usize,
    /// With 30, "the number of the first rule that gave something else ..."
    pub rule: usize,
    /// "... is reported with that answer".
    pub pair: u8,
}

impl Added {
    fn of(number: u8) -> Added {
        Added { number, ..Added::default() }
    }
}

/// Searches a question in the room of a working buffer, which ends all zero:
/// the answer's number and the count.
pub type Searcher = fn(&Question, &mut [u8]) -> (u8, usize);

/// By hash, and by a scan over the working buffer.
pub const HASHING: Searcher = crate::searched;
pub const SCANNING: Searcher = scan::searched;

/// What is said of a pair.
#[derive(Clone, Copy, Debug, PartialEq, Eq)]
pub struct Asked {
    /// 0, 1, 18 or 19.
    pub answer: u8,
    /// The situations entered, in all searches that were made.
    pub count: usize,
    /// The search that gave the answer, where the pair is decided; 0 where none
    /// did, and where the pair is searched once.
    pub search: u8,
}

/// A pair is searched once, or decided.
pub type Ask = fn(&Question, &mut [u8], Searcher) -> Asked;

/// A pair searched once.
pub fn once(question: &Question, work: &mut [u8], search: Searcher) -> Asked {
    let (answer, count) = search(question, work);
    Asked { answer, count, search: 0 }
}

/// Enters a rule behind the last one.
pub fn add(catalogue: &mut [u8], rule: &[u8], work: &mut [u8], search: Searcher) -> Added {
    add_by(Reading::New, catalogue, rule, work, search, once).added
}

/// What `add_decided` tells: as `add`, and with 30 the search that gave the
/// pair's answer, 1, 2 or 3 where that is a clash, 0 where none decided.
#[derive(Clone, Copy, Debug, Default, PartialEq, Eq)]
pub struct AddedDecided {
    pub added: Added,
    pub search: u8,
}

/// As `add`, but each pair is decided.
pub fn add_decided(
    catalogue: &mut [u8],
    rule: &[u8],
    work: &mut [u8],
    search: Searcher,
) -> AddedDecided {
    add_by(Reading::New, catalogue, rule, work, search, decide::pair)
}

/// Enters a rule where stray patterns are read by this rule and pairs are asked so.
pub fn add_by(
    reading: Reading,
    catalogue: &mut [u8],
    rule: &[u8],
    work: &mut [u8],
    search: Searcher,
    ask: Ask,
) -> AddedDecided {
    let told = |added| AddedDecided { added, search: 0 };
    // "34 for a buffer not of this form, ..."
    let Some(present) = read_by(reading, catalogue) else {
        return told(Added::of(NOT_OF_THIS_FORM));
    };
    // "... then the rule's own 11 to 17, then 31 for a field above 3, ..."
    let new = match Rule::read_own_by(reading, rule) {
        Ok(new) => new,
        Err(Fault { number, place }) => return told(Added { place, ..Added::of(number) }),
    };
    // "... then 32 if 32 rules stand or the record's bytes don't fit, ..."
    let place = present.last().map_or(0, |last| last.bytes.end);
    if present.len() == MOST_RULES || rule.len() > catalogue.len() - place {
        return told(Added::of(DOES_NOT_FIT));
    }
    // "... then 30 for a pair not answered 1"
    for (number, present) in present.iter().enumerate() {
        let asked = ask(&question(&present.rule, &new), work, search);
        if asked.answer != NO_CLASH {
            let (count, pair) = (asked.count, asked.answer);
            let added = Added { count, rule: number, pair, ..Added::of(PAIR_NOT_1) };
            return AddedDecided { added, search: asked.search };
        }
    }
    catalogue[place..][..rule.len()].copy_from_slice(rule);
    told(Added::of(DONE))
}

/// Takes the rule with this number out; "withdrawing closes the gap".
pub fn withdraw(catalogue: &mut [u8], number: usize) -> u8 {
    withdraw_by(Reading::New, catalogue, number)
}

/// The same with stray patterns by this rule.
pub fn withdraw_by(reading: Reading, catalogue: &mut [u8], number: usize) -> u8 {
    // "for a withdrawal 34, then 33 if no rule has that number"
    let Some(present) = read_by(reading, catalogue) else {
        return NOT_OF_THIS_FORM;
    };
    let Some(Present { bytes: Range { start, end }, .. }) = present.into_iter().nth(number) else {
        return NO_SUCH_RULE;
    };
    // All behind the record moves up, and as many bytes at the end are zero.
    catalogue.copy_within(end.., start);
    let kept = catalogue.len() - (end - start);
    catalogue[kept..].fill(0);
    DONE
}

/// What `recheck` tells; with 34 and 35 nothing is listed.
#[derive(Clone, Copy, Debug, Default, PartialEq, Eq)]
pub struct Rechecked {
    /// The answer's number.
    pub number: u8,
    /// The pairs listed.
    pub pairs: usize,
    /// The bytes written.
    pub written: usize,
}

/// The bytes of a listed pair, searched once or decided.
pub const PAIR_BYTES: usize = 5;
pub const DECIDED_PAIR_BYTES: usize = 7;

/// A pair not answered 1.
#[derive(Clone, Copy, Debug, PartialEq, Eq)]
pub struct Pair {
    pub lower: u8,
    pub higher: u8,
    pub answer: u8,
    pub count: u16,
}

impl Pair {
    /// Lower number, higher number, answer, and the count with its low byte
    /// first.
    pub fn bytes(&self) -> [u8; PAIR_BYTES] {
        let [low, high] = self.count.to_le_bytes();
        [self.lower, self.higher, self.answer, low, high]
    }

    pub fn of_bytes([lower, higher, answer, low, high]: [u8; PAIR_BYTES]) -> Pair {
        Pair { lower, higher, answer, count: u16::from_le_bytes([low, high]) }
    }
}

/// A pair that is not decided with 1.
#[derive(Clone, Copy, Debug, PartialEq, Eq)]
pub struct DecidedPair {
    pub lower: u8,
    pub higher: u8,
    pub answer: u8,
    /// Of up to seven attempts, so that two bytes don't hold it.
    pub count: u32,
    /// 1, 2 or 3 with a clash, else 0.
    pub search: u8,
}

impl DecidedPair {
    /// Lower number, higher number, answer, the count in three bytes with the
    /// low one first, and the search.
    pub fn bytes(&self) -> [u8; DECIDED_PAIR_BYTES] {
        let [low, middle, high, _] = self.count.to_le_bytes();
        [self.lower, self.higher, self.answer, low, middle, high, self.search]
    }

    pub fn of_bytes(bytes: [u8; DECIDED_PAIR_BYTES]) -> DecidedPair {
        let [lower, higher, answer, low, middle, high, search] = bytes;
        let count = u32::from_le_bytes([low, middle, high, 0]);
        DecidedPair { lower, higher, answer, count, search }
    }
}

/// "a kept catalogue's pairs are all checked again and those not answered 1
/// listed, by lower, then higher number." The rule with the lower number is the
/// left side.
pub fn recheck(catalogue: &[u8], work: &mut [u8], list: &mut [u8], search: Searcher) -> Rechecked {
    recheck_by(Reading::New, catalogue, work, list, search)
}

/// The same with stray patterns by this rule.
pub fn recheck_by(
    reading: Reading,
    catalogue: &[u8],
    work: &mut [u8],
    list: &mut [u8],
    search: Searcher,
) -> Rechecked {
    // At most 65,535 situations.
    let listed = |lower, higher, Asked { answer, count, .. }| {
        Pair { lower, higher, answer, count: count as u16 }.bytes()
    };
    rechecked(read_by(reading, catalogue), work, list, search, once, listed)
}

/// As `recheck`, but each pair is decided.
pub fn recheck_decided(
    catalogue: &[u8],
    work: &mut [u8],
    list: &mut [u8],
    search: Searcher,
) -> Rechecked {
    recheck_decided_by(Reading::New, catalogue, work, list, search)
}

/// The same with stray patterns by this rule.
pub fn recheck_decided_by(
    reading: Reading,
    catalogue: &[u8],
    work: &mut [u8],
    list: &mut [u8],
    search: Searcher,
) -> Rechecked {
    // At most four times 65,535.
    let listed = |lower, higher, Asked { answer, count, search }| {
        DecidedPair { lower, higher, answer, count: count as u32, search }.bytes()
    };
    rechecked(read_by(reading, catalogue), work, list, search, decide::pair, listed)
}

fn rechecked<const BYTES: usize>(
    present: Option<Vec<Present>>,
    work: &mut [u8],
    list: &mut [u8],
    search: Searcher,
    ask: Ask,
    listed: impl Fn(u8, u8, Asked) -> [u8; BYTES],
) -> Rechecked {
    let Some(present) = present else {
        return Rechecked { number: NOT_OF_THIS_FORM, ..Rechecked::default() };
    };
    let mut pairs = Vec::new();
    for (lower, left) in present.iter().enumerate() {
        for (higher, right) in present.iter().enumerate().skip(lower + 1) {
            let asked = ask(&question(&left.rule, &right.rule), work, search);
            if asked.answer != NO_CLASH {
                // At most 32 rules.
                pairs.push(listed(lower as u8, higher as u8, asked));
            }
        }
    }
    let bytes = pairs.concat();
    let Some(front) = list.get_mut(..bytes.len()) else {
        return Rechecked { number: LIST_TOO_SHORT, ..Rechecked::default() };
    };
    front.copy_from_slice(&bytes);
    Rechecked { number: DONE, pairs: pairs.len(), written: bytes.len() }
}
