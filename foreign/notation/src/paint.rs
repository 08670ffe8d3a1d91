//! Parts of what is told, marked by their kind if the caller wants it: by colours, say, on a terminal.

/// What stands before a part of each kind, and behind every part.
#[derive(Clone, Copy, Debug, PartialEq, Eq)]
pub struct Marks {
    /// What is the matter.
    pub bold: &'static str,
    /// A clash, and what is wrong.
    pub wrong: &'static str,
    /// What is not decided.
    pub open: &'static str,
    /// What is as it should be.
    pub good: &'static str,
    /// Where it is.
    pub place: &'static str,
    pub end: &'static str,
}

/// Whether parts are marked. A text is the same in both cases but for the marks.
#[derive(Clone, Copy, Debug, Default, PartialEq, Eq)]
pub struct Paint {
    marks: Option<&'static Marks>,
}

impl Paint {
    pub const NONE: Paint = Paint { marks: None };

    /// By these marks.
    pub const fn by(marks: &'static Marks) -> Paint {
        Paint { marks: Some(marks) }
    }

    fn put(self, mark: fn(&Marks) -> &'static str, text: &str) -> String {
        match self.marks {
            Some(marks) => format!("{}{text}{}", mark(marks), marks.end),
            None => text.to_string(),
        }
    }

    /// What is the matter.
    pub fn bold(self, text: &str) -> String {
        self.put(|marks| marks.bold, text)
    }

    /// A clash, and what is wrong.
    pub fn wrong(self, text: &str) -> String {
        self.put(|marks| marks.wrong, text)
    }

    /// What is not decided.
    pub fn open(self, text: &str) -> String {
        self.put(|marks| marks.open, text)
    }

    /// What is as it should be.
    pub fn good(self, text: &str) -> String {
        self.put(|marks| marks.good, text)
    }

    /// Where it is.
    pub fn place(self, text: &str) -> String {
        self.put(|marks| marks.place, text)
    }
}

/// Marks of tests, and a text without them.
#[cfg(test)]
pub(crate) mod marked {
    use super::{Marks, Paint};

    const MARKS: Marks =
        Marks { bold: "<b>", wrong: "<w>", open: "<o>", good: "<g>", place: "<p>", end: "</>" };
    pub const MARKED: Paint = Paint::by(&MARKS);

    pub fn bare(text: &str) -> String {
        let Marks { bold, wrong, open, good, place, end } = MARKS;
        [bold, wrong, open, good, place, end]
            .iter()
            .fold(text.to_string(), |text, mark| text.replace(mark, ""))
    }
}

#[cfg(test)]
mod tests {
    use super::marked::{bare, MARKED};
    use super::*;

    #[test]
    fn marks_and_none() {
        assert_eq!(Paint::NONE.wrong("LT4"), "LT4");
        assert_eq!(MARKED.wrong("LT4"), "<w>LT4</>");
        let texts = [MARKED.bold("a"), MARKED.open("b"), MARKED.good("c"), MARKED.place("d")];
        assert_eq!(texts.concat(), "<b>a</><o>b</><g>c</><p>d</>");
        assert_eq!(bare(&texts.concat()), "abcd");
    }
}
