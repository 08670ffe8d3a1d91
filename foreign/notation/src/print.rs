//! Prints rules in the notation: what is printed reads back as the same rule.

use std::fmt::Write;

use bradovusc::Edition;

use crate::characters::{control_name, sign, Set};
use crate::{Kind, Pattern, Rule, Stands};

/// A rule's lines, each ended.
pub fn rule_text(rule: &Rule) -> String {
    let mut text = format!("{} = {}\n", rule.name, template_text(rule));
    for field in &rule.fields {
        if let Some(pattern) = &field.pattern {
            text += &format!("  {} = {}\n", field.name, pattern_text(pattern));
        }
    }
    text
}

/// A rule's template.
pub fn template_text(rule: &Rule) -> String {
    if rule.template.is_empty() {
        return "()".to_string();
    }
    let mut text = String::new();
    for token in &rule.template {
        match token.stands {
            Stands::Character(value) => {
                text += &character_text(rule.edition, value, Place::Template);
            }
            Stands::Field(index) => {
                let name = rule.fields.get(index).map_or("", |field| &field.name);
                text += &format!("{{{name}}}");
            }
        }
    }
    text
}

/// A pattern.
pub fn pattern_text(pattern: &Pattern) -> String {
    let mut text = String::new();
    put(pattern, Around::Nothing, &mut text);
    text
}

/// What stands around a part of a pattern, and so where brackets are needed.
#[derive(Clone, Copy, PartialEq, Eq, PartialOrd, Ord)]
enum Around {
    Nothing,
    Row,
    Repetition,
}

fn put(pattern: &Pattern, around: Around, text: &mut String) {
    let most = match pattern.kind {
        Kind::Or(_) => Around::Nothing,
        Kind::Then(_) | Kind::Repeat { .. } => Around::Row,
        Kind::Empty | Kind::One(_) => Around::Repetition,
    };
    if around > most {
        text.push('(');
        put(pattern, Around::Nothing, text);
        text.push(')');
        return;
    }
    match &pattern.kind {
        Kind::Empty => *text += "()",
        Kind::One(set) => *text += &set_text(*set),
        Kind::Then(parts) => parts.iter().for_each(|part| put(part, Around::Row, text)),
        Kind::Or(parts) => {
            for (index, part) in parts.iter().enumerate() {
                *text += if index > 0 { "|" } else { "" };
                put(part, Around::Row, text);
            }
        }
        Kind::Repeat { part, least, most } => {
            put(part, Around::Repetition, text);
            *text += &match (least, most) {
                (0, None) => "*".to_string(),
                (1, None) => "+".to_string(),
                (0, Some(1)) => "?".to_string(),
                (least, None) => format!("{{{least},}}"),
                (least, Some(most)) if least == most => format!("{{{least}}}"),
                (least, Some(most)) => format!("{{{least},{most}}}"),
            };
        }
    }
}

/// A set as one character, as `.` or as the shorter of the two classes.
fn set_text(set: Set) -> String {
    match set.only() {
        Some(value) => character_text(set.edition(), value, Place::Pattern),
        None if set.rest().is_empty() => ".".to_string(),
        None => {
            let (those, others) = (members(set), members(set.rest()));
            if others.len() + 1 < those.len() {
                format!("[^{others}]")
            } else {
                format!("[{those}]")
            }
        }
    }
}

/// The inside of a class: digits, letters, then signs.
fn members(set: Set) -> String {
    let (mut text, mut signs) = (String::new(), set);
    let mut put = |set: Set| {
        for (low, high) in set.ranges_of_signs() {
            let sign = |value| character_text(set.edition(), value, Place::Class);
            let _ = match high - low {
                0 => write!(text, "{}", sign(low)),
                1 => write!(text, "{}{}", sign(low), sign(high)),
                _ => write!(text, "{}-{}", sign(low), sign(high)),
            };
        }
    };
    for (low, high) in [('0', '9'), ('A', 'Z'), ('a', 'z')] {
        let group = Set::signs(set.edition(), low, high);
        put(set.and(group));
        signs = signs.and(group.rest());
    }
    put(signs);
    text
}

/// Where a character is written.
#[derive(Clone, Copy, Debug, PartialEq, Eq)]
pub enum Place {
    Template,
    Pattern,
    Class,
    /// In quotation marks, in what is told.
    Told,
}

impl Place {
    /// The signs that mean something there.
    fn signs(self) -> &'static str {
        match self {
            Place::Template => "#\\{}[]()|*?^",
            Place::Pattern => "#\\{}[]()|*?^.+",
            Place::Class => "#\\[]^-",
            Place::Told => "\\\"",
        }
    }
}

/// A character as it is written somewhere.
pub fn character_text(edition: Edition, value: u8, place: Place) -> String {
    let sign = sign(edition, value);
    match control_name(sign) {
        Some(name) => format!("\\<{name}>"),
        None if sign == ' ' && place != Place::Told => "\\s".to_string(),
        None if place.signs().contains(sign) => format!("\\{sign}"),
        None => sign.to_string(),
    }
}

/// A text as it is told, in quotation marks.
pub fn told_text(edition: Edition, values: &[u8]) -> String {
    let sign = |&value: &u8| character_text(edition, value, Place::Told);
    format!("\"{}\"", values.iter().map(sign).collect::<String>())
}
