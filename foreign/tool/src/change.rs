//! Changes of one of two rules, and what the library says of the two with a change.

use crate::advice::SEPARATORS;
use crate::ask::{Asked, Buffers, Room, Shared};
use crate::compile::judge;
use crate::json::Object;
use crate::notation::matching::Reader;
use crate::notation::{pattern_text, template_text, Pattern, Rule, Stands, Token};
use crate::report::titled;
use crate::sides::{Side, Title};
use crate::source::Span;

/// Two rules, as they are written and as the library reads them.
pub struct Pair<'a> {
    pub rules: [&'a Rule; 2],
    pub sides: [&'a Side; 2],
    buffers: Buffers,
}

/// A change of one rule with which it is decided whether the two clash.
#[derive(Clone, Debug)]
pub struct Change {
    /// The left rule, 0, or the right one, 1.
    pub side: usize,
    pub kind: Kind,
    /// The rule with the change.
    pub rule: Rule,
    /// What the library says of the two with it.
    pub clashes: bool,
    /// The label that they make with it, if they do.
    pub shared: Option<Shared>,
}

#[derive(Clone, Copy, Debug, PartialEq, Eq)]
pub enum Kind {
    /// A narrower class of a field, by its place among the rule's fields.
    Class(usize),
    /// A length of such a field.
    Length(usize),
    /// One more character of the template, by value.
    Separator(u8),
}

impl<'a> Pair<'a> {
    /// The rules by their names; none where one of them is not there.
    pub fn new(rules: &'a [Rule], sides: [&'a Side; 2]) -> Option<Pair<'a>> {
        let is = |rule: &Rule, side: &Side| side.title == Title::Name(rule.name.clone());
        let rule = |side: &Side| rules.iter().find(|rule| is(rule, side));
        let rules = [rule(sides[0])?, rule(sides[1])?];
        Some(Pair { rules, sides, buffers: Buffers::new() })
    }

    /// What the library says where one rule is changed; none where it does not take the changed one.
    pub fn ask(&mut self, side: usize, rule: &Rule, room: Room) -> Option<Asked> {
        let changed = judge(rule).ok()?;
        let mut sides = self.sides;
        sides[side] = &changed;
        Some(self.buffers.ask(sides[0], sides[1], room))
    }

    /// The same where both are changed.
    pub fn ask_both(&mut self, rules: &[Rule; 2], room: Room) -> Option<Asked> {
        let (left, right) = (judge(&rules[0]).ok()?, judge(&rules[1]).ok()?);
        Some(self.buffers.ask(&left, &right, room))
    }

    /// Whether both rules, as they are, make this label.
    pub fn both_read(&self, label: &[u8]) -> bool {
        let reads = |side: &Side| Reader::new(side).and_then(|reader| reader.read(label)).is_some();
        self.sides.into_iter().all(reads)
    }
}

pub fn with_pattern(rule: &Rule, place: usize, pattern: Pattern) -> Rule {
    let mut changed = rule.clone();
    changed.fields[place].pattern = Some(pattern);
    changed
}

/// The rule with a character more in its template, in all ways that are tried: between two fields
/// first, then before or behind a field.
pub fn separated(rule: &Rule) -> impl Iterator<Item = (u8, Rule)> + '_ {
    let field = |token: &Token| matches!(token.stands, Stands::Field(_));
    let beside = move |gap: usize| {
        [gap - 1, gap].into_iter().filter(|&token| field(&rule.template[token])).count()
    };
    let mut gaps: Vec<usize> = (1..rule.template.len()).filter(|&gap| beside(gap) > 0).collect();
    gaps.sort_by_key(|&gap| 2 - beside(gap));
    gaps.into_iter().flat_map(move |gap| {
        let values = SEPARATORS.chars().filter_map(|sign| rule.edition.value(sign));
        values.map(move |value| (value, with_separator(rule, gap, value)))
    })
}

fn with_separator(rule: &Rule, gap: usize, value: u8) -> Rule {
    let mut changed = rule.clone();
    let token = Token { stands: Stands::Character(value), span: Span::default() };
    changed.template.insert(gap, token);
    changed
}

impl Change {
    /// The field that is another one, with its pattern.
    fn field(&self) -> Option<(&str, String)> {
        let place = match self.kind {
            Kind::Class(place) | Kind::Length(place) => place,
            Kind::Separator(_) => return None,
        };
        let field = self.rule.fields.get(place)?;
        Some((&field.name, pattern_text(field.pattern.as_ref()?)))
    }

    fn name(&self) -> (&'static str, &'static str) {
        match self.kind {
            Kind::Class(_) => ("class", "a narrower class"),
            Kind::Length(_) => ("length", "a length"),
            Kind::Separator(_) => ("separator", "a separator"),
        }
    }

    /// The rule, what it is, and the line that is another one.
    pub fn words(&self, sides: [&Side; 2]) -> String {
        let line = match self.field() {
            Some((field, pattern)) => format!("{field} = {pattern}"),
            None => format!("{} = {}", self.rule.name, template_text(&self.rule)),
        };
        format!("{}, {}: {line}", sides[self.side].told(), self.name().1)
    }

    pub fn object(&self, sides: [&Side; 2]) -> Object {
        let object = Object::new().text("kind", self.name().0);
        let object = titled(object, "rule", &sides[self.side].title);
        let object = match (self.kind, self.field()) {
            (_, Some((field, pattern))) => object.text("field", field).text("pattern", &pattern),
            (Kind::Separator(value), _) => object
                .text("separator", &self.rule.edition.text(&[value]))
                .text("template", &template_text(&self.rule)),
            _ => object,
        };
        object.text("answer", if self.clashes { "clash" } else { "no clash" })
    }
}
