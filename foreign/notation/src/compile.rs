//! Rules as bytes, for the library. Of each byte it is known from which part of the source it was
//! made, so that a fault which the library finds can be shown there.

use std::sync::Arc;

use bradovusc::{Answer, Fault, RULE_FIELDS};

use crate::merging::merge_hint;
use crate::mistakes::Mistakes;
use crate::plain::{plain, Form, Plain};
use crate::sides::{Place, Side, Title};
use crate::source::{Mistake, Source, Span};
use crate::{read, Field, Rule, Stands};

/// A pattern has at most so many bytes.
const PATTERN_BYTES: usize = 192;
/// A pattern has at most so many leaves.
const LEAVES: usize = 63;
/// A side has at most so many tokens.
const TOKENS: usize = 24;

/// The codes of a pattern, from the first one of an edition on.
pub const EMPTY: u8 = 0;
pub const RANGE: u8 = 1;
pub const THEN: u8 = 2;
pub const OR: u8 = 3;
pub const MANY: u8 = 4;

/// A right side that is empty.
const NO_RIGHT: &[u8] = b"RI\x00";

/// What a byte says.
#[derive(Clone, Copy, Debug, PartialEq, Eq)]
enum Says {
    /// A mark, or a part of it, or the edition.
    Mark,
    /// For which of the rule's fields a pattern is.
    Field(usize),
    /// How long a pattern is; so many bytes were wanted, none where it was not even written out.
    PatternLength(Option<usize>),
    /// A byte of a pattern.
    Pattern,
    /// How long the side is; so many tokens were wanted.
    SideLength(usize),
    /// A token of the side: a character, or one of the rule's fields.
    Token(Option<usize>),
}

/// Where a byte is from.
#[derive(Clone, Copy, Debug)]
struct Origin {
    span: Span,
    says: Says,
}

/// Bytes with their origins.
#[derive(Clone, Debug, Default)]
struct Traced {
    bytes: Vec<u8>,
    origins: Vec<Origin>,
}

impl Traced {
    fn put(&mut self, byte: u8, span: Span, says: Says) {
        self.bytes.push(byte);
        self.origins.push(Origin { span, says });
    }

    fn mark(&mut self, mark: &[u8], span: Span) {
        mark.iter().for_each(|&byte| self.put(byte, span, Says::Mark));
    }

    fn append(&mut self, other: &Traced) {
        self.bytes.extend(&other.bytes);
        self.origins.extend(&other.origins);
    }
}

/// The rule as the library reads it, if the library takes it as the left side of a sheet; else what
/// the library says, at the part of the source from which the byte at fault was made.
pub fn judge(rule: &Rule) -> Result<Side, Mistake> {
    let Compiled { side, front } = compile(rule);
    let sheet = [&front.bytes, NO_RIGHT].concat();
    // no room: the sheet is only read
    if let Answer::Refused { fault, place } = bradovusc::clash(&sheet, &mut [], &mut []) {
        return Err(front.mistake(fault, place, rule));
    }
    // a sheet has as many for each of its two rules
    match rule.fields.get(RULE_FIELDS) {
        Some(field) => Err(too_many_fields(field.span, RULE_FIELDS, rule)),
        None => Ok(side),
    }
}

/// The rules of a source as the library reads them, or the mistakes, in the order of its lines.
pub fn judged(source: &Source) -> Result<Vec<Side>, Mistakes> {
    let (mut sides, mut mistakes) = (Vec::new(), Mistakes::default());
    let file: Arc<str> = source.name.as_str().into();
    for rule in &read(source)? {
        let place = Place { file: file.clone(), line: Some(rule.span.line) };
        match judge(rule) {
            Ok(side) => sides.push(Side { place: Some(place), ..side }),
            Err(mistake) => mistakes.push(mistake),
        }
    }
    mistakes.sort();
    mistakes.or(sides)
}

/// A rule, and the front of a sheet with it on the left, with the origin of each byte.
struct Compiled {
    side: Side,
    front: Traced,
}

/// A number as a byte. What no byte can say is said by 255, which is above every limit.
fn byte(number: usize) -> u8 {
    u8::try_from(number).unwrap_or(u8::MAX)
}

fn compile(rule: &Rule) -> Compiled {
    let (edition, codes) = (rule.edition, rule.edition.codes());
    let (mut front, mut patterns, mut tokens) = (Traced::default(), Vec::new(), Vec::new());
    front.mark(edition.record(), rule.span);
    for (index, field) in rule.fields.iter().enumerate() {
        let pattern = match &field.pattern {
            Some(pattern) => pattern,
            None => continue,
        };
        let mut body = Traced::default();
        let wanted = plain(pattern).map(|plain| {
            put(codes, &plain, &mut body);
            body.bytes.len()
        });
        front.mark(b"PA", field.span);
        front.put(byte(index), field.span, Says::Field(index));
        let length = byte(wanted.unwrap_or(usize::MAX));
        front.put(length, pattern.span, Says::PatternLength(wanted));
        front.append(&body);
        patterns.push((byte(index), body.bytes));
    }
    front.mark(b"LE", rule.span);
    let wanted = rule.template.len();
    let last = rule.template.get(TOKENS).or(rule.template.last());
    let span = last.map_or(rule.span, |token| token.span);
    front.put(byte(wanted), span, Says::SideLength(wanted));
    for token in &rule.template {
        let (code, field) = match token.stands {
            Stands::Character(value) => (value, None),
            Stands::Field(index) => (byte(index.saturating_add(codes.into())), Some(index)),
        };
        front.put(code, token.span, Says::Token(field));
        tokens.push(code);
    }
    let name = |(index, field): (usize, &Field)| (byte(index), field.name.clone());
    let fields = rule.fields.iter().enumerate().map(name).collect();
    let (title, place) = (Title::Name(rule.name.clone()), None);
    Compiled { side: Side { edition, title, place, patterns, tokens, fields }, front }
}

/// A pattern, operator first, in the codes of an edition.
fn put(codes: u8, plain: &Plain, to: &mut Traced) {
    let span = plain.span;
    match &plain.form {
        Form::Empty => to.put(codes + EMPTY, span, Says::Pattern),
        Form::One(set) => {
            let ranges = set.ranges();
            for (index, &(low, high)) in ranges.iter().enumerate() {
                if index + 1 < ranges.len() {
                    to.put(codes + OR, span, Says::Pattern);
                }
                if low < high {
                    to.put(codes + RANGE, span, Says::Pattern);
                    to.put(low, span, Says::Pattern);
                }
                to.put(high, span, Says::Pattern);
            }
        }
        Form::Then(parts) => put_row(codes, THEN, parts, span, to),
        Form::Or(parts) => put_row(codes, OR, parts, span, to),
        Form::Many(part) => {
            to.put(codes + MANY, span, Says::Pattern);
            put(codes, part, to);
        }
    }
}

fn put_row(codes: u8, operator: u8, parts: &[Plain], span: Span, to: &mut Traced) {
    for (index, part) in parts.iter().enumerate() {
        if index + 1 < parts.len() {
            to.put(codes + operator, span, Says::Pattern);
        }
        put(codes, part, to);
    }
}

fn too_many_fields(span: Span, field: usize, rule: &Rule) -> Mistake {
    let words =
        format!("field number {} of this rule: a rule has at most {RULE_FIELDS}", field + 1);
    Mistake::new(span, words).hint(merge_hint(rule))
}

impl Traced {
    /// A fault that the library found, where the byte at fault is from.
    fn mistake(&self, fault: Fault, place: usize, rule: &Rule) -> Mistake {
        let origin = self.origins.get(place).or(self.origins.last());
        let (span, says) = origin.map_or((Span::default(), Says::Mark), |at| (at.span, at.says));
        match (fault, says) {
            (Fault::WrongLength, Says::SideLength(tokens)) => Mistake::new(
                span,
                format!("a label of {tokens} characters and fields: the most are {TOKENS}"),
            )
            .hint("characters that always stand together can be one field with a pattern"),
            (Fault::WrongLength, Says::PatternLength(wanted)) => {
                let words = match wanted {
                    Some(bytes) => {
                        format!("a pattern of {bytes} bytes: the most are {PATTERN_BYTES}")
                    }
                    None => {
                        format!("a pattern far above {PATTERN_BYTES} bytes, which are the most")
                    }
                };
                Mistake::new(span, words).hint(SHORTER)
            }
            (Fault::TooManyLeaves, _) => {
                let words =
                    format!("leaf number {} of this pattern: the most are {LEAVES}", LEAVES + 1);
                Mistake::new(span, words).hint(SHORTER)
            }
            (Fault::WrongField, Says::Field(field)) => too_many_fields(span, field, rule),
            (Fault::WrongToken, Says::Token(Some(field))) => too_many_fields(span, field, rule),
            _ => Mistake::new(span, format!("the library says: {fault}")),
        }
    }
}

const SHORTER: &str =
    "a leaf is a character or a range of characters that are neighbours by value; \
                       + counts its part twice, {n} n times";

#[cfg(test)]
mod tests {
    use super::*;
    use crate::sides::sheet;

    fn sides(text: &str) -> Vec<Side> {
        judged(&Source::new("f", text.as_bytes())).unwrap()
    }

    #[test]
    fn a_rule_and_a_sheet() {
        let rules = sides("a = LT{x}{y}\n y = [0-9]*\nb = {n}4{n}\n n = A|BR\n");
        assert_eq!(rules[0].record(), b"RUPA\x01\x04\x44\x41\x00\x09LE\x04\x15\x1D\x40\x41");
        assert_eq!(rules[1].record(), b"RUPA\x00\x05\x43\x0A\x42\x0B\x1BLE\x03\x40\x04\x40");
        assert_eq!(
            sheet(&rules[0], &rules[1]).unwrap(),
            b"PA\x01\x04\x44\x41\x00\x09PA\x04\x05\x43\x0A\x42\x0B\x1BLE\x04\x15\x1D\x40\x41RI\x03\x44\x04\x44"
        );
    }

    /// A field that does not stand is a mistake before anything is compiled, and a field that has a
    /// pattern and stands is never stray, wherever it stands.
    #[test]
    fn no_strays() {
        let rules = sides("a = A{x}{x}\n x = B\nb = {n}{m}{o}{p}\n p = A\n m = B*\nc = A\n");
        for (left, right) in
            rules.iter().flat_map(|left| rules.iter().map(move |right| (left, right)))
        {
            let sheet = sheet(left, right).unwrap();
            let mut mended = vec![0; sheet.len()];
            assert_eq!(bradovusc::drop_strays(&sheet, &mut mended).written(), sheet.len());
            let mut record = left.record();
            let given = record.clone();
            assert_eq!(bradovusc::drop_strays_rule(&given, &mut record).written(), given.len());
        }
        for text in ["a = A\n x = B\n", "a = {x}\n y = B\n", "full ascii\na = x\n x = B\n"] {
            let mistakes = read(&Source::new("f", text.as_bytes())).unwrap_err();
            assert!(mistakes[0].words.ends_with("does not stand in its rule"), "{mistakes:?}");
        }
    }

    /// Should one come all the same, it is told as the library's other faults are.
    #[test]
    fn a_stray_pattern_in_words() {
        let rules = read(&Source::new("f", b"a = {x}\n x = B\n")).unwrap();
        let mistake = compile(&rules[0]).front.mistake(Fault::StrayPattern, 0, &rules[0]);
        assert_eq!(mistake.words, "the library says: a stray pattern");
        assert_eq!(mistake.span, rules[0].fields[0].span);
    }

    #[test]
    fn in_full_ascii() {
        let rules =
            sides("full ascii\na = Lt{x}\\<GS>\n x = [a-z]*\nb = {n}\\#@{n}\n n = \\{|()\n");
        assert_eq!(
            sheet(&rules[0], &rules[1]).unwrap(),
            b"ED\x02PA\x00\x04\xC4\xC1azPA\x04\x03\xC3{\xC0LE\x04Lt\xC0\x1DRI\x04\xC4#@\xC4"
        );
    }
}
