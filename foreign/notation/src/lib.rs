//! The notation of label rules, from a text to what is said of two of them: read, compiled for the
//! proved library, asked about, and told in words or in JSON.
//!
//! A [`Source`](source::Source) is read into rules ([`read`]); the library judges them
//! ([`judged`](compile::judged)), so that a mistake is told at its place; two of them are asked about
//! ([`ask`]), and the answer is told ([`report`], [`way`]). Rules are printed too ([`rule_text`]), also
//! from the bytes of a catalogue ([`decompile`]). docs/NOTATION.md has the notation with examples.
//!
//! No file, thread, clock or terminal is touched here: the caller has those.

pub mod advice;
pub mod ask;
pub mod bands;
pub mod characters;
pub mod compile;
mod cursor;
pub mod decompile;
mod groups;
pub mod join;
pub mod json;
pub mod matching;
mod merging;
pub mod mistakes;
pub mod paint;
pub mod parts;
mod pattern;
mod places;
pub mod plain;
mod print;
mod read;
pub mod report;
pub mod sides;
pub mod source;
pub mod status;
mod template;
pub mod told;
pub mod visible;
pub mod way;

pub use print::{character_text, pattern_text, rule_text, template_text, told_text, Place};
pub use read::read;

use bradovusc::Edition;

use crate::characters::Set;
use crate::source::Span;

/// A rule: how a label is made.
#[derive(Clone, Debug)]
pub struct Rule {
    /// Which characters it has: that of its file.
    pub edition: Edition,
    pub name: String,
    /// Where the name stands.
    pub span: Span,
    pub template: Vec<Token>,
    /// The fields of the template, in the order in which they first stand there.
    pub fields: Vec<Field>,
}

/// A character or a field of a template.
#[derive(Clone, Copy, Debug)]
pub struct Token {
    pub stands: Stands,
    pub span: Span,
}

#[derive(Clone, Copy, Debug, PartialEq, Eq)]
pub enum Stands {
    /// A character, by value.
    Character(u8),
    /// A field, by its place among the rule's fields.
    Field(usize),
}

/// A field, and what it may hold.
#[derive(Clone, Debug)]
pub struct Field {
    pub name: String,
    /// Where it first stands in the template.
    pub span: Span,
    /// Where there is none, the field holds one character or more.
    pub pattern: Option<Pattern>,
}

/// What texts a field may hold.
#[derive(Clone, Debug)]
pub struct Pattern {
    pub kind: Kind,
    pub span: Span,
}

#[derive(Clone, Debug, PartialEq, Eq)]
pub enum Kind {
    /// The empty text: `()`.
    Empty,
    /// One character of a set.
    One(Set),
    /// One behind the other; two parts or more, none of them of this kind or empty.
    Then(Vec<Pattern>),
    /// Either; two parts or more, none of them of this kind.
    Or(Vec<Pattern>),
    /// So many times.
    Repeat { part: Box<Pattern>, least: u32, most: Option<u32> },
}

/// Two rules are the same wherever they are written.
impl PartialEq for Rule {
    fn eq(&self, other: &Rule) -> bool {
        let Rule { edition, name, span: _, template, fields } = self;
        (edition, name, template, fields)
            == (&other.edition, &other.name, &other.template, &other.fields)
    }
}

impl PartialEq for Token {
    fn eq(&self, other: &Token) -> bool {
        self.stands == other.stands
    }
}

impl PartialEq for Field {
    fn eq(&self, other: &Field) -> bool {
        (&self.name, &self.pattern) == (&other.name, &other.pattern)
    }
}

impl PartialEq for Pattern {
    fn eq(&self, other: &Pattern) -> bool {
        self.kind == other.kind
    }
}

impl Eq for Pattern {}

impl Pattern {
    /// These parts one behind the other. The span is that of the whole.
    pub fn then(parts: Vec<Pattern>, span: Span) -> Pattern {
        let flat = parts.into_iter().flat_map(|part| match part.kind {
            Kind::Empty => Vec::new(),
            Kind::Then(parts) => parts,
            _ => vec![part],
        });
        Pattern::row(flat.collect(), span, Kind::Then)
    }

    /// One of these parts. The span is that of the whole.
    pub fn or(parts: Vec<Pattern>, span: Span) -> Pattern {
        let flat = parts.into_iter().flat_map(|part| match part.kind {
            Kind::Or(parts) => parts,
            _ => vec![part],
        });
        Pattern::row(flat.collect(), span, Kind::Or)
    }

    fn row(mut parts: Vec<Pattern>, span: Span, kind: fn(Vec<Pattern>) -> Kind) -> Pattern {
        match (parts.pop(), parts.is_empty()) {
            (None, _) => Pattern { kind: Kind::Empty, span },
            (Some(only), true) => only,
            (Some(last), false) => {
                parts.push(last);
                Pattern { kind: kind(parts), span }
            }
        }
    }
}
