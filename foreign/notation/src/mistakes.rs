//! The mistakes of a file: the first ones, and how many there are.

use std::ops::Deref;

use crate::json::Object;
use crate::paint::Paint;
use crate::report::{counted, mistake_object};
use crate::source::{Mistake, Source};
use crate::visible::visible;

/// So many mistakes are kept of a file. The others are counted: what comes behind the first ones
/// mostly comes of them, and a file may be one great mistake.
pub const MOST_MISTAKES: usize = 50;

/// Mistakes in the order in which they were found, of which the first ones are kept.
#[derive(Clone, Debug, Default, PartialEq, Eq)]
pub struct Mistakes {
    first: Vec<Mistake>,
    count: usize,
}

impl Mistakes {
    pub fn push(&mut self, mistake: Mistake) {
        if self.first.len() < MOST_MISTAKES {
            self.first.push(mistake);
        }
        self.count += 1;
    }

    /// How many there are, those that are not kept included.
    pub fn count(&self) -> usize {
        self.count
    }

    /// The kept ones, or what was made if there is no mistake.
    pub fn or<T>(self, made: T) -> Result<T, Mistakes> {
        if self.count == 0 {
            Ok(made)
        } else {
            Err(self)
        }
    }

    /// In the order of the lines.
    pub fn sort(&mut self) {
        self.first.sort_by_key(|mistake| mistake.span);
    }
}

/// The ones that are kept.
impl Deref for Mistakes {
    type Target = [Mistake];

    fn deref(&self) -> &[Mistake] {
        &self.first
    }
}

/// All mistakes of a source that are kept, shown at their places, and how many there are.
pub fn mistakes_words(source: &Source, mistakes: &Mistakes, paint: Paint) -> String {
    let shown = mistakes.iter().map(|mistake| source.show(mistake, paint).to_string());
    let count =
        more_mistakes(mistakes).unwrap_or_else(|| counted(mistakes.count(), "mistake", "mistakes"));
    let (shown, name) = (shown.collect::<String>(), visible(&source.name));
    format!("{shown}{name}: {}; nothing was done\n", paint.wrong(&count))
}

/// How many mistakes there are, where not all are told.
pub fn more_mistakes(mistakes: &Mistakes) -> Option<String> {
    let all = counted(mistakes.count(), "mistake", "mistakes");
    let told = mistakes.len();
    (mistakes.count() > told).then(|| format!("{all}, of which the first {told} are told"))
}

/// The same as objects. Where there are more than are told, a last one says how many.
pub fn mistakes_objects(source: &Source, mistakes: &Mistakes) -> Vec<Object> {
    let (all, told) = (mistakes.count(), mistakes.len());
    let mut objects: Vec<Object> =
        mistakes.iter().map(|mistake| mistake_object(source, mistake)).collect();
    if all > told {
        let object = Object::new().number("mistakes", all).number("told", told);
        objects.push(object.text("file", &source.name));
    }
    objects
}

#[cfg(test)]
mod tests {
    use super::*;
    use crate::read;
    use crate::source::Span;

    #[test]
    fn the_first_fifty_are_kept() {
        let mut mistakes = Mistakes::default();
        assert_eq!(mistakes.clone().or(7), Ok(7));
        for line in (1..=60).rev() {
            mistakes.push(Mistake::new(Span { line, column: 1, width: 1 }, "wrong"));
        }
        mistakes.sort();
        assert_eq!((mistakes.len(), mistakes.count()), (50, 60));
        assert_eq!((mistakes[0].span.line, mistakes[49].span.line), (11, 60));
        assert!(mistakes.or(7).is_err());
    }

    #[test]
    fn all_are_counted() {
        let mistakes = read(&Source::new("f", "a\n".repeat(1000).as_bytes())).unwrap_err();
        assert_eq!((mistakes.len(), mistakes.count()), (MOST_MISTAKES, 1000));
        assert_eq!(mistakes[49].span.line, 50);
    }
}
