//! Rules of a catalogue, from their bytes, in the notation: fields are named a to d, a rule by its
//! number.

use bradovusc::{Edition, Withdrawn};

use crate::characters::Set;
use crate::sides::{Side, Title, RIGHT};
use crate::source::Span;
use crate::{Field, Kind, Pattern, Rule, Stands, Token};

/// The edition of every rule of a catalogue.
const EDITION: Edition = Edition::Code39;

/// The token of field 0.
const FIELD: u8 = EDITION.codes();

/// A rule of a catalogue.
#[derive(Clone, Debug)]
pub struct Entry {
    pub rule: Rule,
    pub side: Side,
    /// The bytes of its record.
    pub bytes: usize,
}

/// The rules of a catalogue; none if the library says that the bytes are no catalogue.
pub fn entries(catalogue: &[u8]) -> Option<Vec<Entry>> {
    // no rule has this number, so nothing is withdrawn: the library only says whether it is one
    if bradovusc::withdraw(&mut catalogue.to_vec(), usize::MAX) == Withdrawn::NoCatalogue {
        return None;
    }
    let mut reader = Reader { bytes: catalogue, at: 0 };
    let mut entries = Vec::new();
    while reader.next() == Some(b'R') {
        entries.push(reader.entry(entries.len())?);
    }
    Some(entries)
}

/// The name of a field of a rule without names.
pub fn field_name(field: u8) -> String {
    char::from(b'a' + field.min(25)).to_string()
}

/// The bytes of a catalogue, of which the library said that they are one.
struct Reader<'a> {
    bytes: &'a [u8],
    at: usize,
}

impl<'a> Reader<'a> {
    fn next(&self) -> Option<u8> {
        self.bytes.get(self.at).copied()
    }

    fn take(&mut self) -> Option<u8> {
        let byte = self.next()?;
        self.at += 1;
        Some(byte)
    }

    fn take_many(&mut self, length: usize) -> Option<&'a [u8]> {
        let bytes = self.bytes.get(self.at..self.at.checked_add(length)?)?;
        self.at += length;
        Some(bytes)
    }

    fn entry(&mut self, number: usize) -> Option<Entry> {
        let start = self.at;
        self.take_many(2)?;
        let mut bodies: Vec<(u8, Vec<u8>)> = Vec::new();
        let mut given: Vec<(u8, Pattern)> = Vec::new();
        while self.take_many(2)? == b"PA" {
            let field = self.take()?;
            let length = usize::from(self.take()?);
            let body = self.take_many(length)?;
            bodies.push((field, body.to_vec()));
            given.push((field, Reader { bytes: body, at: 0 }.pattern()?));
        }
        let length = usize::from(self.take()?);
        let tokens = self.take_many(length)?.to_vec();
        let rule = rule(number, &tokens, &given);
        let fields = standing(&tokens).map(|field| (field, field_name(field))).collect();
        let (edition, title) = (EDITION, Title::Number(number));
        let side = Side { edition, title, place: None, patterns: bodies, tokens, fields };
        Some(Entry { rule, side, bytes: self.at - start })
    }

    fn pattern(&mut self) -> Option<Pattern> {
        let kind = match self.take()? {
            64 => Kind::Empty,
            65 => {
                let low = self.take()?;
                Kind::One(Set::range(EDITION, low, self.take()?))
            }
            66 => {
                let (first, second) = (self.pattern()?, self.pattern()?);
                return Some(then(first, second));
            }
            67 => {
                let (first, second) = (self.pattern()?, self.pattern()?);
                return Some(or(first, second));
            }
            68 => Kind::Repeat { part: Box::new(self.pattern()?), least: 0, most: None },
            value => Kind::One(Set::one(EDITION, value)),
        };
        Some(Pattern { kind, span: Span::default() })
    }
}

/// One behind the other, shown as it was probably written: `AA*` as `A+`.
fn then(first: Pattern, second: Pattern) -> Pattern {
    let (head, mut rest) = match second.kind {
        Kind::Then(mut parts) => (parts.remove(0), parts),
        _ => (second, Vec::new()),
    };
    let parts = match head.kind {
        Kind::Repeat { part, least: 0, most: None } if *part == first => {
            let kind = Kind::Repeat { part, least: 1, most: None };
            vec![Pattern { kind, span: Span::default() }]
        }
        _ => vec![first, head],
    };
    rest.splice(0..0, parts);
    Pattern::then(rest, Span::default())
}

/// Either, shown as it was probably written: characters as a class, `A` or the empty text as `A?`.
fn or(first: Pattern, second: Pattern) -> Pattern {
    let kind = match (first.kind, second.kind) {
        (Kind::One(one), Kind::One(other)) => Kind::One(one.or(other)),
        (kind, Kind::Empty) if kind != Kind::Empty => {
            let part = Box::new(Pattern { kind, span: Span::default() });
            Kind::Repeat { part, least: 0, most: Some(1) }
        }
        (first, second) => {
            let parts = [first, second].map(|kind| Pattern { kind, span: Span::default() });
            return Pattern::or(parts.to_vec(), Span::default());
        }
    };
    Pattern { kind, span: Span::default() }
}

/// The fields that stand in a side, by rising number.
fn standing(tokens: &[u8]) -> impl Iterator<Item = u8> + '_ {
    (0..RIGHT).filter(|field| tokens.contains(&(FIELD + field)))
}

/// A rule with the fields that stand in it, by rising number. No other field has a pattern.
fn rule(number: usize, tokens: &[u8], given: &[(u8, Pattern)]) -> Rule {
    let place = |token: u8| standing(tokens).position(|field| FIELD + field == token);
    let token = |&token: &u8| Token {
        stands: place(token).map_or(Stands::Character(token), Stands::Field),
        span: Span::default(),
    };
    let template = tokens.iter().map(token).collect();
    let field = |number: u8| Field {
        name: field_name(number),
        span: Span::default(),
        pattern: given
            .iter()
            .find(|(given, _)| *given == number)
            .map(|(_, pattern)| pattern.clone()),
    };
    let fields = standing(tokens).map(field).collect();
    let (name, span) = (number.to_string(), Span::default());
    Rule { edition: EDITION, name, span, template, fields }
}
