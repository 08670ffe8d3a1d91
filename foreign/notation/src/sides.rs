//! A rule as the library reads it: one side of a sheet, or a record of a catalogue.

use std::borrow::Borrow;
use std::fmt;
use std::sync::Arc;

use bradovusc::{Edition, Written, RULE_FIELDS, SHEET_BYTES};

use crate::report::counted;
use crate::visible::visible;

/// The fields of a right side stand behind those of the left one: 4 to 7 for 0 to 3.
pub const RIGHT: u8 = RULE_FIELDS as u8;

/// Where a name is not found, so many rules are named, and more are only counted.
const MOST_NAMES: usize = 20;

/// By what a rule is told.
#[derive(Clone, Debug, PartialEq, Eq)]
pub enum Title {
    /// A rule of a file has a name.
    Name(String),
    /// A rule of a catalogue has a number.
    Number(usize),
}

impl fmt::Display for Title {
    fn fmt(&self, to: &mut fmt::Formatter<'_>) -> fmt::Result {
        match self {
            Title::Name(name) => to.write_str(name),
            Title::Number(number) => write!(to, "rule {number}"),
        }
    }
}

/// Where a rule stands.
#[derive(Clone, Debug, PartialEq, Eq)]
pub struct Place {
    /// The file's name, as it is told.
    pub file: Arc<str>,
    /// The line of its name, from 1. A rule of a catalogue has a number instead.
    pub line: Option<usize>,
}

impl fmt::Display for Place {
    fn fmt(&self, to: &mut fmt::Formatter<'_>) -> fmt::Result {
        to.write_str(&visible(&self.file))?;
        match self.line {
            Some(line) => write!(to, ":{line}"),
            None => Ok(()),
        }
    }
}

/// A rule that the library takes, with the names by which it is told.
#[derive(Clone, Debug)]
pub struct Side {
    /// Which characters it has. Two rules that are asked about have the same.
    pub edition: Edition,
    pub title: Title,
    /// Where it is from, if it is known.
    pub place: Option<Place>,
    /// The fields with a pattern, by rising number, each with the pattern's bytes.
    pub patterns: Vec<(u8, Vec<u8>)>,
    pub tokens: Vec<u8>,
    /// The fields that stand in it, with their names.
    pub fields: Vec<(u8, String)>,
}

/// What a field holds.
#[derive(Clone, Debug, PartialEq, Eq)]
pub struct Text {
    pub field: u8,
    /// Its characters by value.
    pub values: Vec<u8>,
}

impl Side {
    /// Whether it is the same rule as another one, wherever both are from.
    pub fn is_as(&self, other: &Side) -> bool {
        let Side { edition, title, place: _, patterns, tokens, fields } = self;
        (edition, title, patterns, tokens, fields)
            == (&other.edition, &other.title, &other.patterns, &other.tokens, &other.fields)
    }

    /// Its title, with where it is from.
    pub fn told(&self) -> String {
        match &self.place {
            Some(place) => format!("{} ({place})", self.title),
            None => self.title.to_string(),
        }
    }

    /// The record of a catalogue, for a rule of Code 39.
    pub fn record(&self) -> Vec<u8> {
        let mut bytes = b"RU".to_vec();
        for (field, body) in &self.patterns {
            bytes.extend(b"PA");
            bytes.extend([*field, body.len() as u8]);
            bytes.extend(body);
        }
        bytes.extend(b"LE");
        bytes.push(self.tokens.len() as u8);
        bytes.extend(&self.tokens);
        bytes
    }

    /// The label that the rule makes of these texts, by value, without the spaces at its end.
    pub fn label(&self, texts: &[Text]) -> Vec<u8> {
        let mut label = self.written(texts);
        without_spaces(self.edition, &mut label);
        label
    }

    /// The same with the spaces at its end.
    pub fn written(&self, texts: &[Text]) -> Vec<u8> {
        let mut label = Vec::new();
        for &token in &self.tokens {
            match token.checked_sub(self.edition.codes()) {
                None => label.push(token),
                Some(field) => {
                    let text = texts.iter().find(|text| text.field == field);
                    label.extend(text.map_or(&[][..], |text| &text.values));
                }
            }
        }
        label
    }

    /// The tokens, with so much added to each field's number.
    pub fn renamed(&self, first: u8) -> Vec<u8> {
        let codes = self.edition.codes();
        let renamed = |&token: &u8| if token < codes { token } else { token.saturating_add(first) };
        self.tokens.iter().map(renamed).collect()
    }
}

/// The rule with this name, among those of a file that is told so; else which ones there are.
pub fn find<'a, S: Borrow<Side>>(rules: &'a [S], file: &str, name: &str) -> Result<&'a S, String> {
    let title = Title::Name(name.to_string());
    rules.iter().find(|side| (*side).borrow().title == title).ok_or_else(|| {
        let names: Vec<String> = rules.iter().map(|side| side.borrow().title.to_string()).collect();
        let names = match &names[..] {
            [] => "it has none".to_string(),
            few if few.len() <= MOST_NAMES => format!("it has {}", few.join(", ")),
            many => format!("it has {}", counted(many.len(), "rule", "rules")),
        };
        format!("{file} has no rule '{name}'; {names}")
    })
}

/// Rules are asked about together only if they have the same characters. Those of a file have.
pub fn same_edition(one: &Side, other: &Side) -> Result<(), String> {
    if one.edition == other.edition {
        return Ok(());
    }
    let (full, plain) = if one.edition == Edition::FullAscii { (one, other) } else { (other, one) };
    let file =
        |side: &Side| side.place.as_ref().map_or(side.title.to_string(), |at| at.file.to_string());
    Err(format!(
        "{} is Full ASCII and {} is not: only rules with the same characters are asked about together",
        file(full),
        file(plain)
    ))
}

/// Drops the spaces at the end of a label.
pub fn without_spaces(edition: Edition, label: &mut Vec<u8>) {
    while label.last() == Some(&edition.space()) {
        label.pop();
    }
}

/// The sheet that asks whether two rules make the same label. The library writes it, or says what is
/// at fault and where, which it never does of rules that it takes.
pub fn sheet(left: &Side, right: &Side) -> Result<Vec<u8>, Written> {
    let (mut patterns, mut lengths) = (Vec::new(), Vec::new());
    for (side, first) in [(left, 0), (right, usize::from(RIGHT))] {
        for (field, body) in &side.patterns {
            let number = first + usize::from(*field);
            debug_assert!(lengths.len() <= number && !body.is_empty(), "{side:?}");
            // the fields between have no pattern
            lengths.resize(number, 0);
            lengths.push(body.len() as u64);
            patterns.extend(body);
        }
    }
    let (mut sheet, edition) = (vec![0; SHEET_BYTES], left.edition);
    debug_assert_eq!(edition, right.edition);
    let (left, right) = (left.renamed(0), right.renamed(RIGHT));
    match bradovusc::write_edition(edition, &patterns, &lengths, &left, &right, &mut sheet) {
        Written::Sheet { bytes } => {
            sheet.truncate(bytes);
            Ok(sheet)
        }
        other => Err(other),
    }
}

/// The texts that a clash has written, those of the left rule and those of the right one.
pub fn texts(written: &[u8]) -> (Vec<Text>, Vec<Text>) {
    let text = |text: bradovusc::Text| Text { field: text.field, values: text.values.to_vec() };
    let (left, mut right): (Vec<Text>, Vec<Text>) =
        bradovusc::texts(written).map(text).partition(|text| text.field < RIGHT);
    right.iter_mut().for_each(|text| text.field -= RIGHT);
    (left, right)
}

#[cfg(test)]
mod tests {
    use super::*;
    use bradovusc::Fault;

    fn side(patterns: &[(u8, &[u8])], tokens: &[u8]) -> Side {
        let patterns = patterns.iter().map(|&(field, body)| (field, body.to_vec())).collect();
        let (edition, title) = (Edition::Code39, Title::Number(0));
        let (place, tokens, fields) = (None, tokens.to_vec(), Vec::new());
        Side { edition, title, place, patterns, tokens, fields }
    }

    #[test]
    fn a_sheet_of_full_ascii() {
        let ascii = |patterns: &[(u8, &[u8])], tokens: &[u8]| Side {
            edition: Edition::FullAscii,
            ..side(patterns, tokens)
        };
        let (left, right) = (ascii(&[(0, b"@")], b"A\xC0"), ascii(&[(1, b"\xC4D")], b"\xC0\xC1 "));
        let expected = b"ED\x02PA\x00\x01@PA\x05\x02\xC4DLE\x02A\xC0RI\x03\xC4\xC5 ";
        assert_eq!(sheet(&left, &right).unwrap(), expected);
        let texts = [(0, "a &"), (1, " ")].map(|(field, text)| Text { field, values: text.into() });
        assert_eq!(right.label(&texts), b"a &");
    }

    #[test]
    fn fields_without_a_pattern_between_others() {
        let left = side(&[(1, &[10]), (3, &[68, 11])], &[64, 65, 67]);
        let right = side(&[(0, &[4]), (2, &[5])], &[20, 64, 66, 65]);
        let expected = b"PA\x01\x01\x0APA\x03\x02\x44\x0BPA\x04\x01\x04PA\x06\x01\x05\
            LE\x03\x40\x41\x43RI\x04\x14\x44\x46\x45";
        assert_eq!(sheet(&left, &right).unwrap(), expected);
        assert_eq!(sheet(&side(&[], &[]), &side(&[], &[])).unwrap(), b"LE\x00RI\x00");
    }

    #[test]
    fn what_the_library_refuses() {
        let good = side(&[(0, &[4])], &[64]);
        let refused = |fault, place| Err(Written::Refused { fault, place });
        assert_eq!(sheet(&good, &side(&[(0, &[4, 4])], &[])), refused(Fault::NotOnePattern, 10));
        assert_eq!(sheet(&good, &side(&[(4, &[4])], &[])), refused(Fault::WrongField, 7));
        assert_eq!(sheet(&good, &side(&[], &[4; 25])), refused(Fault::WrongLength, 11));
        assert_eq!(sheet(&side(&[], &[4, 43]), &good), refused(Fault::WrongToken, 9));
        assert_eq!(sheet(&good, &side(&[], &[68])), refused(Fault::WrongToken, 12));
    }
}
