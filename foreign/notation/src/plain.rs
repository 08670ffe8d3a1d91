//! Patterns in the five forms that the library knows, with as few leaves as is easily had.
//!
//! Repetitions are written out: `A+` is `A` and then `A` any number of times, `A?` is `A` or the
//! empty text, `A{2,3}` is `AA` and then `A` or the empty text. Alternatives that begin alike are
//! grouped, where that makes fewer leaves: `BR|BS|CR|CS` is `[BC][RS]`. None of this changes which
//! texts a pattern takes.

use crate::characters::Set;
use crate::source::Span;
use crate::{Kind, Pattern};

/// A pattern, and the part of the source that it is from.
#[derive(Clone, Debug)]
pub struct Plain {
    pub form: Form,
    pub span: Span,
}

#[derive(Clone, Debug, PartialEq, Eq)]
pub enum Form {
    Empty,
    One(Set),
    /// Two parts or more, none of them of this form or empty.
    Then(Vec<Plain>),
    /// Two parts or more.
    Or(Vec<Plain>),
    /// Any number of times.
    Many(Box<Plain>),
}

/// Patterns are equal wherever they are from.
impl PartialEq for Plain {
    fn eq(&self, other: &Plain) -> bool {
        self.form == other.form
    }
}

impl Eq for Plain {}

/// A pattern that has more parts than this, as it stands or when it is written out, is not written
/// out: it is far above what the library takes.
const MOST_PARTS: usize = 4_000;

/// A part that stands so often is far above it too.
const MOST_COPIES: u32 = 200;

/// The pattern written out, unless it is far too long.
pub fn plain(pattern: &Pattern) -> Option<Plain> {
    (parts_of(pattern) <= MOST_PARTS).then(|| written_out(pattern)).flatten()
}

/// All parts of a pattern as it stands, itself among them.
fn parts_of(pattern: &Pattern) -> usize {
    match &pattern.kind {
        Kind::Empty | Kind::One(_) => 1,
        Kind::Then(parts) | Kind::Or(parts) => 1 + parts.iter().map(parts_of).sum::<usize>(),
        Kind::Repeat { part, .. } => 1 + parts_of(part),
    }
}

fn written_out(pattern: &Pattern) -> Option<Plain> {
    let span = pattern.span;
    let all = |parts: &[Pattern]| parts.iter().map(written_out).collect::<Option<Vec<Plain>>>();
    let written = match &pattern.kind {
        Kind::Empty => Plain::empty(span),
        Kind::One(set) => Plain { form: Form::One(*set), span },
        Kind::Then(parts) => then(all(parts)?, span),
        Kind::Or(parts) => or(all(parts)?, span),
        Kind::Repeat { part, least, most } => repeat(written_out(part)?, *least, *most, span)?,
    };
    (written.parts() <= MOST_PARTS).then_some(written)
}

impl Plain {
    fn empty(span: Span) -> Plain {
        Plain { form: Form::Empty, span }
    }

    /// Whether it takes the empty text.
    fn takes_empty(&self) -> bool {
        match &self.form {
            Form::Empty | Form::Many(_) => true,
            Form::One(_) => false,
            Form::Then(parts) => parts.iter().all(Plain::takes_empty),
            Form::Or(parts) => parts.iter().any(Plain::takes_empty),
        }
    }

    /// The leaves that it has for the library: characters and ranges by value.
    pub fn leaves(&self) -> usize {
        match &self.form {
            Form::Empty => 0,
            Form::One(set) => set.ranges().len(),
            Form::Then(parts) | Form::Or(parts) => parts.iter().map(Plain::leaves).sum(),
            Form::Many(part) => part.leaves(),
        }
    }

    /// All parts, itself among them.
    fn parts(&self) -> usize {
        match &self.form {
            Form::Empty | Form::One(_) => 1,
            Form::Then(parts) | Form::Or(parts) => {
                1 + parts.iter().map(Plain::parts).sum::<usize>()
            }
            Form::Many(part) => 1 + part.parts(),
        }
    }
}

/// One behind the other.
fn then(parts: Vec<Plain>, span: Span) -> Plain {
    let flat = parts.into_iter().flat_map(|part| match part.form {
        Form::Empty => Vec::new(),
        Form::Then(parts) => parts,
        _ => vec![part],
    });
    let mut parts: Vec<Plain> = flat.collect();
    match parts.len() {
        0 => Plain::empty(span),
        1 => parts.remove(0),
        _ => Plain { form: Form::Then(parts), span },
    }
}

/// Any number of times.
fn many(part: Plain, span: Span) -> Plain {
    match part.form {
        Form::Empty | Form::Many(_) => part,
        _ => Plain { form: Form::Many(Box::new(part)), span },
    }
}

/// At least `least` times and at most `most`, unless that is far too long.
fn repeat(part: Plain, least: u32, most: Option<u32>, span: Span) -> Option<Plain> {
    if part.form == Form::Empty || most == Some(0) {
        return Some(Plain::empty(span));
    }
    // fewer texts can stand for more of them where one may be empty
    let least = if part.takes_empty() { 0 } else { least };
    let copies = most.unwrap_or(least + 1);
    if copies > MOST_COPIES || part.parts() * copies as usize > MOST_PARTS {
        return None;
    }
    let mut parts = vec![part.clone(); least as usize];
    match most {
        None => parts.push(many(part, span)),
        Some(most) if part.takes_empty() => parts.extend(vec![part; most as usize]),
        Some(most) => {
            let optional = (least..most).fold(Plain::empty(span), |behind, _| {
                let whole = then(vec![part.clone(), behind], span);
                Plain { form: Form::Or(vec![whole, Plain::empty(span)]), span }
            });
            parts.push(optional);
        }
    }
    Some(then(parts, span))
}

/// Either of these: grouped, if that makes fewer leaves.
fn or(parts: Vec<Plain>, span: Span) -> Plain {
    let flat = parts.into_iter().flat_map(|part| match part.form {
        Form::Or(parts) => parts,
        _ => vec![part],
    });
    let mut parts: Vec<Plain> = Vec::new();
    for part in flat {
        if !parts.contains(&part) {
            parts.push(part);
        }
    }
    let rows = parts.iter().map(row).collect();
    let as_written = either(parts, span);
    let grouped = group(rows, span);
    if grouped.leaves() < as_written.leaves() {
        grouped
    } else {
        as_written
    }
}

fn either(mut parts: Vec<Plain>, span: Span) -> Plain {
    match parts.len() {
        1 => parts.remove(0),
        _ => Plain { form: Form::Or(parts), span },
    }
}

/// The parts that an alternative has one behind the other.
fn row(part: &Plain) -> Vec<Plain> {
    match &part.form {
        Form::Empty => Vec::new(),
        Form::Then(parts) => parts.clone(),
        _ => vec![part.clone()],
    }
}

/// Either of these rows, of which no two are equal. Those that begin with the same part become that
/// part and a choice behind it; those that begin with one character each and go on in the same way
/// become one class and what follows.
fn group(rows: Vec<Vec<Plain>>, span: Span) -> Plain {
    let empty = rows.iter().any(Vec::is_empty);
    let mut begun: Vec<(Plain, Vec<Vec<Plain>>)> = Vec::new();
    for row in rows {
        let mut parts = row.into_iter();
        let first = match parts.next() {
            Some(first) => first,
            None => continue,
        };
        let rest: Vec<Plain> = parts.collect();
        match begun.iter_mut().find(|(known, _)| *known == first) {
            Some((_, rests)) => rests.push(rest),
            None => begun.push((first, vec![rest])),
        }
    }
    let mut ways: Vec<(Plain, Plain)> = Vec::new();
    for (first, mut rests) in begun {
        let behind = match rests.len() {
            1 => then(rests.remove(0), first.span),
            _ => group(rests, first.span),
        };
        let same = ways.iter_mut().find(|(_, known)| *known == behind);
        match (same.map(|(known, _)| &mut known.form), &first.form) {
            (Some(Form::One(known)), Form::One(set)) => *known = known.or(*set),
            _ => ways.push((first, behind)),
        }
    }
    let joined = |(first, behind): (Plain, Plain)| {
        let span = first.span;
        then(vec![first, behind], span)
    };
    let mut parts: Vec<Plain> = ways.into_iter().map(joined).collect();
    if empty && !parts.iter().any(Plain::takes_empty) {
        parts.push(Plain::empty(span));
    }
    if parts.is_empty() {
        return Plain::empty(span);
    }
    either(parts, span)
}
