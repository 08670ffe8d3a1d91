//! Sheets as a reader would write them: `LTab and LTe, a [0-9][0-9], b (BR|CH)`.

use crate::edition::{Edition, FIRST, SECOND};
use crate::pattern::Pattern;

/// The bytes of a good sheet.
pub fn sheet(bytes: &[u8]) -> String {
    let (edition, mut rest) = match bytes.strip_prefix(SECOND.record) {
        Some(behind) => (SECOND, behind),
        None => (FIRST, bytes),
    };
    let mut patterns = Vec::new();
    while rest.starts_with(b"PA") {
        let (record, behind) = rest.split_at(4 + usize::from(rest[3]));
        let read = Pattern::read(edition, &record[4..]);
        let shown = read.map_or("?".to_string(), |read| pattern(edition, &read));
        patterns.push((record[2], shown));
        rest = behind;
    }
    let (left, behind) = rest[3..].split_at(usize::from(rest[2]));
    let right = &behind[3..];
    let mut line = format!("`{}` and `{}`", side(edition, left), side(edition, right));
    for field in 0..8 {
        let token = edition.field(field);
        if left.contains(&token) || right.contains(&token) {
            let of = patterns.iter().find(|(of, _)| *of == field);
            let of = of.map_or("open".to_string(), |(_, shown)| format!("`{shown}`"));
            line += &format!(", {} {of}", name(field));
        }
    }
    line
}

/// A field as a small letter, `a` for field 0.
fn name(field: u8) -> char {
    char::from(b'a' + field)
}

/// As the programs print it.
fn sign(edition: Edition, character: u8) -> String {
    edition.printed(&[character])
}

fn side(edition: Edition, tokens: &[u8]) -> String {
    let shown = |&token: &u8| match token.checked_sub(edition.codes) {
        Some(field) => name(field).to_string(),
        None => sign(edition, token),
    };
    tokens.iter().map(shown).collect()
}

/// A pattern in the usual signs, a range as `[0-9]`.
fn pattern(edition: Edition, of: &Pattern) -> String {
    let pattern = |part: &Pattern| pattern(edition, part);
    let sign = |character: &u8| sign(edition, *character);
    match of {
        Pattern::Empty => "()".to_string(),
        Pattern::Leaf { lo, hi } if lo == hi => sign(lo),
        Pattern::Leaf { lo, hi } => format!("[{}-{}]", sign(lo), sign(hi)),
        Pattern::Then(a, b) => format!("{}{}", pattern(a), pattern(b)),
        Pattern::Or(a, b) => {
            let (mut of, mut rest) = (vec![pattern(a)], &**b);
            while let Pattern::Or(next, behind) = rest {
                of.push(pattern(next));
                rest = &**behind;
            }
            of.push(pattern(rest));
            if of[0] == "()" && of.len() == 2 {
                return match &**b {
                    Pattern::Leaf { .. } => format!("{}?", of[1]),
                    _ => format!("({})?", of[1]),
                };
            }
            format!("({})", of.join("|"))
        }
        Pattern::AnyTimes(a) => match **a {
            Pattern::Leaf { .. } => format!("{}*", pattern(a)),
            _ => format!("({})*", pattern(a)),
        },
    }
}
