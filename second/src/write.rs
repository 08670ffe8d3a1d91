//! Patterns, sides, sheets and rules written out.

use crate::catalogue::RULE;
use crate::sheet::{LEFT, PATTERN, RIGHT};
use crate::CODE_39;

/// The token of a field.
pub const fn field(number: u8) -> u8 {
    64 + number
}

/// The characters' values.
pub fn values(text: &str) -> Vec<u8> {
    text.bytes().map(value).collect()
}

fn value(sign: u8) -> u8 {
    CODE_39.iter().position(|&other| other == sign).expect("a Code 39 character") as u8
}

/// The tokens of a side: its characters, with a field as a small letter, `a`
/// for field 0.
pub fn tokens(text: &str) -> Vec<u8> {
    let token = |sign| match sign {
        b'a'..=b'h' => field(sign - b'a'),
        _ => value(sign),
    };
    text.bytes().map(token).collect()
}

/// A `PA` for each field and pattern.
pub fn patterns(patterns: &[(u8, Vec<u8>)]) -> Vec<u8> {
    let mut records = Vec::new();
    for (field, pattern) in patterns {
        records.extend_from_slice(PATTERN);
        records.extend([*field, pattern.len() as u8]);
        records.extend_from_slice(pattern);
    }
    records
}

fn side(mark: &[u8; 2], tokens: &[u8]) -> Vec<u8> {
    [mark, &[tokens.len() as u8][..], tokens].concat()
}

pub fn sheet(of: &[(u8, Vec<u8>)], left: &[u8], right: &[u8]) -> Vec<u8> {
    [patterns(of), side(LEFT, left), side(RIGHT, right)].concat()
}

pub fn rule(of: &[(u8, Vec<u8>)], tokens: &[u8]) -> Vec<u8> {
    [RULE.to_vec(), patterns(of), side(LEFT, tokens)].concat()
}

/// These patterns one after the other.
pub fn row(parts: Vec<Vec<u8>>) -> Vec<u8> {
    joined(66, parts)
}

/// One of these patterns.
pub fn choice(parts: Vec<Vec<u8>>) -> Vec<u8> {
    joined(67, parts)
}

fn joined(operator: u8, parts: Vec<Vec<u8>>) -> Vec<u8> {
    let mut parts = parts.into_iter().rev();
    let last = parts.next().unwrap_or(vec![64]);
    parts.fold(last, |rest, part| [vec![operator], part, rest].concat())
}

/// A pattern any number of times.
pub fn many(part: Vec<u8>) -> Vec<u8> {
    [vec![68], part].concat()
}

/// Just this text.
pub fn text(text: &str) -> Vec<u8> {
    row(values(text).into_iter().map(|value| vec![value]).collect())
}
