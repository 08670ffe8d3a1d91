//! The colours of a terminal.

use crate::notation::paint::{Marks, Paint};

const MARKS: Marks = Marks {
    bold: "\u{1B}[1m",
    wrong: "\u{1B}[1;31m",
    open: "\u{1B}[1;33m",
    good: "\u{1B}[32m",
    place: "\u{1B}[36m",
    end: "\u{1B}[0m",
};

/// Clashes and what is wrong in red, what is not decided in yellow, what is good in green, places in
/// cyan.
pub const COLOURS: Paint = Paint::by(&MARKS);

#[cfg(test)]
mod tests {
    use super::*;

    #[test]
    fn in_colours() {
        assert_eq!(COLOURS.wrong("LT4"), "\u{1B}[1;31mLT4\u{1B}[0m");
    }
}
