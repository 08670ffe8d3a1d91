//! A sheet written out as a script, and what is told of a stream of cases.
//!
//! "a string constant for each field that stands in a side, hidden ones too, one
//! equation, one membership for each field, and the check command." In the first
//! edition "Value order is not ASCII order, so a range is written as a choice of
//! single characters"; in the second one it is `re.range`.

use std::collections::BTreeMap;

use super::output::OUTPUT_TOO_SHORT;
use crate::catalogue::DONE;
use crate::edition::{Edition, FIRST};
use crate::fault::Fault;
use crate::pattern::Pattern;
use crate::sheet::{self, Question, Token, ALL_FIELDS, FIELDS, FIELD_BYTE, PATTERN, PATTERN_HEAD};

const HEADING: &str = "; Do two label rules clash? sat: they do. unsat: they don't.
; Fields 8 and 9 are the spaces at the end of the left and the right label.
(set-logic QF_S)
";

/// The script of a sheet: "Refusals: the sheet's own".
pub fn script(sheet: &[u8]) -> Result<String, Fault> {
    let question = sheet::read(sheet)?;
    let edition = question.edition;
    let patterns = patterns(edition, &sheet[edition.record.len()..]);
    let mut script = HEADING.to_string();
    for field in (0..ALL_FIELDS as u8).filter(|&field| stands(&question, field)) {
        let held = match patterns.get(&field) {
            Some(pattern) => expression(edition, pattern),
            None if usize::from(field) < FIELDS => expression(edition, &some_characters(edition)),
            None => expression(edition, &any_spaces(edition)),
        };
        script += &format!("; field {field}\n(declare-const f{field} String)\n");
        script += &format!("(assert (str.in_re f{field} {held}))\n");
    }
    let (left, right) = (side(edition, &question.left), side(edition, &question.right));
    Ok(script + &format!("(assert (= {left} {right}))\n(check-sat)\n"))
}

fn stands(question: &Question, field: u8) -> bool {
    let field = Token::Field(field);
    question.left.contains(&field) || question.right.contains(&field)
}

/// The patterns in front of a good sheet's sides, by field.
fn patterns(edition: Edition, records: &[u8]) -> BTreeMap<u8, Pattern> {
    let mut patterns = BTreeMap::new();
    let mut rest = records;
    while rest.starts_with(PATTERN) {
        let length = rest[PATTERN_HEAD - 1];
        let (record, behind) = rest.split_at(PATTERN_HEAD + usize::from(length));
        let pattern = Pattern::read(edition, &record[PATTERN_HEAD..]).expect("a good sheet");
        patterns.insert(record[FIELD_BYTE], pattern);
        rest = behind;
    }
    patterns
}

/// What a field without a pattern holds: one character of the edition, then any
/// number of them.
fn some_characters(edition: Edition) -> Pattern {
    let any = || Box::new(Pattern::Leaf { lo: 0, hi: edition.characters - 1 });
    Pattern::Then(any(), Box::new(Pattern::AnyTimes(any())))
}

/// What a hidden field holds.
fn any_spaces(edition: Edition) -> Pattern {
    Pattern::AnyTimes(Box::new(Pattern::Leaf { lo: edition.space, hi: edition.space }))
}

fn expression(edition: Edition, pattern: &Pattern) -> String {
    let part = |part: &Pattern| expression(edition, part);
    let one = |character: u8| format!("(str.to_re {})", literal(edition, &[character]));
    match pattern {
        Pattern::Empty => "(str.to_re \"\")".to_string(),
        Pattern::Leaf { lo, hi } if lo == hi => one(*lo),
        Pattern::Leaf { lo, hi } if edition == FIRST => {
            let each: Vec<String> = (*lo..=*hi).map(one).collect();
            format!("(re.union {})", each.join(" "))
        }
        // Value order is ASCII order.
        Pattern::Leaf { lo, hi } => {
            format!("(re.range {} {})", literal(edition, &[*lo]), literal(edition, &[*hi]))
        }
        Pattern::Then(a, b) => format!("(re.++ {} {})", part(a), part(b)),
        Pattern::Or(a, b) => format!("(re.union {} {})", part(a), part(b)),
        Pattern::AnyTimes(a) => format!("(re.* {})", part(a)),
    }
}

/// A side with its hidden field: characters that stand one behind the other are
/// one literal. A side without a token is its hidden field alone.
fn side(edition: Edition, tokens: &[Token]) -> String {
    let mut parts: Vec<String> = Vec::new();
    let mut characters = Vec::new();
    for token in tokens {
        match token {
            Token::Character(character) => characters.push(*character),
            Token::Field(field) => {
                if !characters.is_empty() {
                    parts.push(literal(edition, &characters));
                    characters.clear();
                }
                parts.push(format!("f{field}"));
            }
        }
    }
    match &parts[..] {
        [hidden] => hidden.clone(),
        parts => format!("(str.++ {})", parts.join(" ")),
    }
}

/// "The script of K4 doubles a quotation mark and writes what can't stand plainly
/// as its code": what is no printable ASCII, and the backslash, which begins a
/// code.
fn literal(edition: Edition, text: &[u8]) -> String {
    let sign = |&character: &u8| match edition.ascii(character) {
        b'"' => "\"\"".to_string(),
        plain @ 32..=126 if plain != b'\\' => char::from(plain).to_string(),
        code => format!("\\u{{{code:x}}}"),
    };
    format!("\"{}\"", text.iter().map(sign).collect::<String>())
}

/// What is printed of one sheet, as `output` reads it.
pub fn told(sheet: &[u8]) -> String {
    match script(sheet) {
        Err(Fault { number, place }) => format!("{number} {place} 0\n"),
        Ok(script) => {
            format!("{DONE} 0 {}\n{script}{DONE} {OUTPUT_TOO_SHORT} 0\n", script.len())
        }
    }
}
