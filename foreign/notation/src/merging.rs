//! Which two fields of a rule can be one, where it has too many.

use crate::characters::Set;
use crate::print::{character_text, pattern_text, Place};
use crate::source::Span;
use crate::{Field, Kind, Pattern, Rule, Stands};

/// A pattern is written out in a hint if it has at most so many characters.
const MOST_WRITTEN: usize = 60;

/// What to write instead of two fields of a rule: one field, which holds the texts of both and what
/// stands between them. Both must stand once, or it would not make the same labels.
pub fn merge_hint(rule: &Rule) -> String {
    match nearest(rule) {
        Some((first, last)) => merged(rule, first, last),
        None => {
            "fields that stand once and side by side can be one field, whose pattern is theirs, \
                 one behind the other"
                .to_string()
        }
    }
}

/// The places of two fields in the template that stand once each, no other field between them, and as
/// little as there is.
fn nearest(rule: &Rule) -> Option<(usize, usize)> {
    let fields = rule.template.iter().enumerate().filter_map(|(place, token)| match token.stands {
        Stands::Field(field) => Some((place, field)),
        Stands::Character(_) => None,
    });
    let fields: Vec<(usize, usize)> = fields.collect();
    let once = |field: usize| fields.iter().filter(|(_, other)| *other == field).count() == 1;
    let pairs = fields.windows(2).filter(|pair| once(pair[0].1) && once(pair[1].1));
    let pairs = pairs.map(|pair| (pair[0].0, pair[1].0));
    pairs.min_by_key(|(first, last)| last - first)
}

fn merged(rule: &Rule, first: usize, last: usize) -> String {
    let (mut written, mut names, mut parts) = (String::new(), Vec::new(), Vec::new());
    for token in rule.template.get(first..=last).unwrap_or_default() {
        match token.stands {
            Stands::Character(value) => {
                written += &character_text(rule.edition, value, Place::Template);
                parts.push(one(rule, value, token.span));
            }
            Stands::Field(field) => {
                let field = &rule.fields[field];
                written += &format!("{{{}}}", field.name);
                names.push(field.name.as_str());
                parts.push(pattern_of(rule, field));
            }
        }
    }
    let mut name = names.join("_");
    while rule.fields.iter().any(|field| field.name == name) {
        name.push('_');
    }
    let pattern = pattern_text(&Pattern::then(parts, rule.span));
    let pattern = match pattern.len() > MOST_WRITTEN {
        true => "what stands there now, one behind the other".to_string(),
        false => format!("{name} = {pattern}"),
    };
    format!("{written} can be one field, {{{name}}}, with the pattern {pattern}")
}

fn one(rule: &Rule, value: u8, span: Span) -> Pattern {
    Pattern { kind: Kind::One(Set::one(rule.edition, value)), span }
}

/// What a field may hold; without a line of its own, one character or more.
fn pattern_of(rule: &Rule, field: &Field) -> Pattern {
    field.pattern.clone().unwrap_or_else(|| {
        let any = Pattern { kind: Kind::One(Set::all(rule.edition)), span: field.span };
        let kind = Kind::Repeat { part: Box::new(any), least: 1, most: None };
        Pattern { kind, span: field.span }
    })
}

#[cfg(test)]
mod tests {
    use super::*;
    use crate::read;
    use crate::source::Source;

    fn hint(text: &str) -> String {
        merge_hint(&read(&Source::new("f", text.as_bytes())).unwrap()[0])
    }

    #[test]
    fn the_nearest_two_that_stand_once() {
        let merged = "{c}{d} can be one field, {c_d}, with the pattern c_d = .+(A|B)";
        assert_eq!(hint("r = {a}-{b}-{c}{d}{e}\n d = A|B\n"), merged);
        let merged = "{a}-\\s{b} can be one field, {a_b}, with the pattern a_b = [0-9]-\\s.+";
        assert_eq!(hint("r = {a}-\\s{b}{n}{n}\n a = [0-9]\n"), merged);
        assert!(hint("r = {a}{a}{b}{b}\n").starts_with("fields that stand once and side by side"));
        let merged = "{a}{b} can be one field, {a_b_}, with the pattern a_b_ = .+.+";
        assert_eq!(hint("r = {a}{b}{a_b}\n"), merged);
    }
}
