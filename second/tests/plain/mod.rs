//! Scripts of good sheets, written by the tests in several layouts, and the
//! texts of a pattern by its tree alone.

use std::collections::{BTreeMap, BTreeSet};

use second::edition::{Edition, FIRST, SECOND};
use second::pattern::Pattern;
use second::CODE_39;

/// How a script is laid out.
#[derive(Clone, Copy, Debug)]
pub struct Layout {
    /// What stands between two lexemes.
    pub between: &'static str,
    /// Constants are functions without arguments, and their names have bars.
    pub functions: bool,
    /// One assertion with everything, the memberships first.
    pub joined: bool,
    /// Rows and choices have two parts each.
    pub pairs: bool,
}

pub const LAYOUTS: [Layout; 4] = [
    Layout { between: " ", functions: false, joined: false, pairs: false },
    Layout { between: "\n", functions: true, joined: false, pairs: true },
    Layout { between: " ; (\n\t", functions: false, joined: true, pairs: true },
    Layout { between: "\r\n ", functions: true, joined: true, pairs: false },
];

/// A good sheet, taken apart once more.
pub struct Parts {
    pub edition: Edition,
    pub patterns: BTreeMap<u8, Pattern>,
    pub left: Vec<u8>,
    pub right: Vec<u8>,
}

pub fn parts(sheet: &[u8]) -> Parts {
    let (edition, mut rest) = match sheet.strip_prefix(b"ED\x02") {
        Some(behind) => (SECOND, behind),
        None => (FIRST, sheet),
    };
    let mut patterns = BTreeMap::new();
    while rest.starts_with(b"PA") {
        let end = 4 + usize::from(rest[3]);
        patterns.insert(rest[2], Pattern::read(edition, &rest[4..end]).unwrap());
        rest = &rest[end..];
    }
    let (left, rest) = rest[3..].split_at(usize::from(rest[2]));
    let Edition { space, .. } = edition;
    let space = Pattern::AnyTimes(Box::new(Pattern::Leaf { lo: space, hi: space }));
    patterns.insert(8, space.clone());
    patterns.insert(9, space);
    let (left, right) =
        ([left, &[edition.field(8)]].concat(), [&rest[3..], &[edition.field(9)]].concat());
    Parts { edition, patterns, left, right }
}

/// The script of a good sheet.
pub fn script(sheet: &[u8], layout: Layout) -> String {
    let Parts { edition, patterns, left, right } = parts(sheet);
    let tokens = left.iter().chain(&right);
    let fields: BTreeSet<u8> =
        tokens.filter_map(|token| token.checked_sub(edition.codes)).collect();
    let mut script = "(set-logic QF_S)".to_string();
    for field in &fields {
        script += &match layout.functions {
            true => format!("(declare-fun |f{field}| () String)"),
            false => format!("(declare-const f{field} String)"),
        };
    }
    let mut terms =
        vec![format!("(= {} {})", side(edition, &left, layout), side(edition, &right, layout))];
    for field in &fields {
        let regular = match patterns.get(field) {
            Some(pattern) => regular(edition, pattern, layout),
            None => format!("(re.+ {})", leaf(edition, 0, edition.characters - 1, layout)),
        };
        terms.push(format!("(str.in_re f{field} {regular})"));
    }
    if layout.joined {
        terms.reverse();
        terms = vec![applied("and", &terms, layout)];
    }
    script.extend(terms.iter().map(|term| format!("(assert {term})")));
    script += "(check-sat)";
    spread(&script, layout.between)
}

/// White space where none is in a literal.
fn spread(script: &str, between: &str) -> String {
    let mut inside = false;
    let mut spread = String::new();
    for sign in script.chars() {
        inside ^= sign == '"';
        match sign {
            ' ' if !inside => spread += between,
            '(' | ')' if !inside => spread.extend([between, &sign.to_string(), between]),
            _ => spread.push(sign),
        }
    }
    spread
}

/// One part by itself, or an operator with two parts or more.
fn applied(operator: &str, parts: &[String], layout: Layout) -> String {
    match parts {
        [part] => part.clone(),
        [first, rest @ ..] if layout.pairs => {
            format!("({operator} {first} {})", applied(operator, rest, layout))
        }
        _ => format!("({operator} {})", parts.join(" ")),
    }
}

/// In the second edition each character stands as its code, or doubled.
fn sign(edition: Edition, value: u8) -> String {
    match (edition, value) {
        (FIRST, _) => format!("\"{}\"", char::from(CODE_39[usize::from(value)])),
        (_, b'"') => "\"\"\"\"".to_string(),
        _ => format!("\"\\u{value:04X}\""),
    }
}

fn side(edition: Edition, tokens: &[u8], layout: Layout) -> String {
    let term = |&token: &u8| match token.checked_sub(edition.codes) {
        None => sign(edition, token),
        Some(field) => format!("f{field}"),
    };
    applied("str.++", &tokens.iter().map(term).collect::<Vec<String>>(), layout)
}

fn leaf(edition: Edition, lo: u8, hi: u8, layout: Layout) -> String {
    let one = |value| format!("(str.to_re {})", sign(edition, value));
    applied("re.union", &(lo..=hi).map(one).collect::<Vec<String>>(), layout)
}

pub fn regular(edition: Edition, pattern: &Pattern, layout: Layout) -> String {
    let part = |part: &Pattern| regular(edition, part, layout);
    match pattern {
        Pattern::Empty => "(str.to_re \"\")".to_string(),
        Pattern::Leaf { lo, hi } => leaf(edition, *lo, *hi, layout),
        Pattern::Then(a, b) => format!("(re.++ {} {})", part(a), part(b)),
        Pattern::Or(a, b) => format!("(re.union {} {})", part(a), part(b)),
        Pattern::AnyTimes(a) => format!("(re.* {})", part(a)),
    }
}

/// Where a text taken by the pattern may end, if it begins at `from`.
pub fn ends(pattern: &Pattern, text: &[u8], from: usize) -> BTreeSet<usize> {
    match pattern {
        Pattern::Empty => BTreeSet::from([from]),
        Pattern::Leaf { lo, hi } => match text.get(from) {
            Some(value) if lo <= value && value <= hi => BTreeSet::from([from + 1]),
            _ => BTreeSet::new(),
        },
        Pattern::Then(a, b) => {
            ends(a, text, from).into_iter().flat_map(|middle| ends(b, text, middle)).collect()
        }
        Pattern::Or(a, b) => &ends(a, text, from) | &ends(b, text, from),
        Pattern::AnyTimes(a) => {
            let mut all = BTreeSet::from([from]);
            let mut new = vec![from];
            while let Some(at) = new.pop() {
                new.extend(ends(a, text, at).into_iter().filter(|&end| all.insert(end)));
            }
            all
        }
    }
}

pub fn takes(pattern: &Pattern, text: &[u8]) -> bool {
    ends(pattern, text, 0).contains(&text.len())
}
