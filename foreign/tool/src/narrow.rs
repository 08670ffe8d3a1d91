//! Patterns that take fewer texts than another one: some of its texts, and no other.

use crate::notation::characters::Set;
use crate::notation::{Field, Kind, Pattern};
use crate::source::Span;
use bradovusc::Edition;

/// What a field may hold, written out where it has no pattern of its own.
pub fn pattern_of(edition: Edition, field: &Field) -> Pattern {
    let span = Span::default();
    field.pattern.clone().unwrap_or_else(|| {
        let part = Box::new(Pattern { kind: Kind::One(Set::all(edition)), span });
        Pattern { kind: Kind::Repeat { part, least: 1, most: None }, span }
    })
}

/// All characters that stand in a text of the pattern.
pub fn characters(edition: Edition, pattern: &Pattern) -> Set {
    match &pattern.kind {
        Kind::Empty => Set::none(edition),
        Kind::One(set) => *set,
        Kind::Then(parts) | Kind::Or(parts) => {
            let parts = parts.iter().map(|part| characters(edition, part));
            parts.fold(Set::none(edition), Set::or)
        }
        Kind::Repeat { most: Some(0), .. } => Set::none(edition),
        Kind::Repeat { part, .. } => characters(edition, part),
    }
}

/// The texts of the pattern in which none of these characters stands; none where there is no such
/// text.
pub fn without(pattern: &Pattern, gone: Set) -> Option<Pattern> {
    let span = pattern.span;
    let kind = match &pattern.kind {
        Kind::Empty => Kind::Empty,
        Kind::One(set) => {
            let rest = set.and(gone.rest());
            (!rest.is_empty()).then_some(Kind::One(rest))?
        }
        Kind::Then(parts) => {
            let parts: Option<Vec<Pattern>> =
                parts.iter().map(|part| without(part, gone)).collect();
            return Some(Pattern::then(parts?, span));
        }
        Kind::Or(parts) => {
            let parts: Vec<Pattern> = parts.iter().filter_map(|part| without(part, gone)).collect();
            return (!parts.is_empty()).then(|| Pattern::or(parts, span));
        }
        Kind::Repeat { part, least, most } => match (without(part, gone), least) {
            (Some(part), _) => Kind::Repeat { part: Box::new(part), least: *least, most: *most },
            (None, 0) => Kind::Empty,
            (None, _) => return None,
        },
    };
    Some(Pattern { kind, span })
}

/// The texts of the pattern that have these characters alone; none where there is no such text.
pub fn within(pattern: &Pattern, kept: Set) -> Option<Pattern> {
    without(pattern, kept.rest())
}

/// The texts whose first character is none of these, where the pattern is some characters once or
/// more; none of another pattern, or where there is no such text.
pub fn without_in_front(pattern: &Pattern, gone: Set) -> Option<Pattern> {
    let span = pattern.span;
    let Kind::Repeat { part, least: 1, most: None } = &pattern.kind else {
        return None;
    };
    let front = without(part, gone)?;
    let kind = Kind::Repeat { part: part.clone(), least: 0, most: None };
    Some(Pattern::then(vec![front, Pattern { kind, span }], span))
}

/// Patterns that take some of the texts alone, most of them not the given one.
pub fn narrowed(pattern: &Pattern, text: &[u8]) -> Vec<Pattern> {
    let span = pattern.span;
    match &pattern.kind {
        Kind::Empty => Vec::new(),
        Kind::One(set) => {
            let others = |&value: &u8| set.and(Set::one(set.edition(), value).rest());
            let others = text.iter().filter(|value| set.has(**value)).map(others);
            let others = others.filter(|set| !set.is_empty());
            others.map(|set| Pattern { kind: Kind::One(set), span }).collect()
        }
        Kind::Then(parts) => {
            let replaced = |(place, part): (usize, &Pattern)| {
                let with = move |part: Pattern| {
                    let mut row = parts.clone();
                    row[place] = part;
                    Pattern::then(row, span)
                };
                narrowed(part, text).into_iter().map(with).collect::<Vec<_>>()
            };
            parts.iter().enumerate().flat_map(replaced).collect()
        }
        Kind::Or(parts) => {
            let inside = parts.iter().flat_map(|part| narrowed(part, text));
            parts.iter().cloned().chain(inside).collect()
        }
        Kind::Repeat { part, least, most } => repeated(part, text, *least, *most, span),
    }
}

/// The same of a part that stands so many times.
fn repeated(
    part: &Pattern,
    text: &[u8],
    least: u32,
    most: Option<u32>,
    span: Span,
) -> Vec<Pattern> {
    let times = |part: Pattern, least| Pattern {
        kind: Kind::Repeat { part: Box::new(part), least, most },
        span,
    };
    let fewer = narrowed(part, text).into_iter().map(|part| times(part, least));
    // more often than now, and more often than in any reading of the text
    let often = [least + 1, least.max(text.len() as u32) + 1];
    let often = often.into_iter().filter(|&more| most.is_none_or(|most| more <= most));
    fewer.chain(often.map(|more| times(part.clone(), more))).collect()
}

#[cfg(test)]
mod tests {
    use super::*;
    use crate::notation::{pattern_text, read};
    use crate::source::Source;
    use Edition::Code39;

    fn pattern(text: &str) -> Pattern {
        let source = Source::new("f", format!("a = {{x}}\n x = {text}\n").as_bytes());
        pattern_of(Code39, &read(&source).unwrap()[0].fields[0])
    }

    fn set(text: &str) -> Set {
        characters(Code39, &pattern(text))
    }

    #[test]
    fn without_some_characters() {
        let shown = |text, gone| without(&pattern(text), set(gone)).map(|left| pattern_text(&left));
        for (text, gone, left) in [
            ("[0-9]+", "[0-4]", Some("[5-9]+")),
            ("BR|CH|SS", "C", Some("BR|SS")),
            ("BR|CH", "[BC]", None),
            ("A(-[0-9])?B", "-", Some("AB")),
            ("A{2}", "A", None),
            ("()", "A", Some("()")),
        ] {
            assert_eq!(shown(text, gone).as_deref(), left, "{text} {gone}");
        }
    }

    #[test]
    fn without_some_in_front() {
        let shown = |text, gone| {
            without_in_front(&pattern(text), set(gone)).map(|left| pattern_text(&left))
        };
        assert_eq!(shown("[A-F]+", "[AB]").as_deref(), Some("[C-F][A-F]*"));
        assert_eq!(shown("[A-F]+", "[A-F]"), None);
        assert_eq!(shown("[A-F]{2}", "A"), None);
    }

    #[test]
    fn narrower_ones() {
        let shown = |text, held: &[u8]| -> Vec<String> {
            narrowed(&pattern(text), held).iter().map(pattern_text).collect()
        };
        assert_eq!(shown("[0-2]A", &[0, 10]), ["[12]A"]);
        assert_eq!(shown("AB|[CD]", &[12]), ["AB", "[CD]", "D"]);
        assert_eq!(shown("[AB]{1,2}", &[10]), ["B{1,2}", "[AB]{2}", "[AB]{2}"]);
        assert_eq!(shown("A{2}", &[10, 10]), [""; 0]);
    }
}
