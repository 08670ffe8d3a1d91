//! A file of rules as it was read: its lines, places in them, and mistakes shown at their place.

use std::fmt;

use crate::paint::Paint;
use crate::visible::{visible, visible_sign};

/// A part of one line. Lines and columns count from 1, columns in characters.
#[derive(Clone, Copy, Debug, Default, PartialEq, Eq, PartialOrd, Ord, Hash)]
pub struct Span {
    pub line: usize,
    pub column: usize,
    pub width: usize,
}

impl Span {
    /// From the beginning of this part to the end of another one of the same line.
    pub fn to(self, last: Span) -> Span {
        let end = (last.column + last.width).max(self.column + self.width);
        Span { width: end - self.column, ..self }
    }
}

/// What is wrong at a place of a file.
#[derive(Clone, Debug, PartialEq, Eq)]
pub struct Mistake {
    pub span: Span,
    pub words: String,
    /// What to write instead, where that can be guessed.
    pub hint: Option<String>,
}

impl Mistake {
    pub fn new(span: Span, words: impl Into<String>) -> Mistake {
        Mistake { span, words: shortened(words.into()), hint: None }
    }

    pub fn hint(self, hint: impl Into<String>) -> Mistake {
        Mistake { hint: Some(shortened(hint.into())), ..self }
    }
}

/// The words of a mistake have at most so many characters: a name may be as long as a file.
const MOST_WORDS: usize = 400;

fn shortened(mut words: String) -> String {
    if let Some((end, _)) = words.char_indices().nth(MOST_WORDS) {
        words.truncate(end);
        words += "...";
    }
    words
}

/// A file's name, and its bytes. A line is read when it is asked for, so that a file takes no more
/// room than its bytes.
#[derive(Clone, Debug)]
pub struct Source {
    pub name: String,
    bytes: Vec<u8>,
}

/// A line without its end.
#[derive(Clone, Debug)]
pub struct Line {
    pub signs: Vec<char>,
    /// The column of the first byte that is no UTF-8.
    pub broken: Option<usize>,
}

impl Line {
    /// A line ends with a newline byte, before which a carriage return is dropped.
    fn of(bytes: &[u8]) -> Line {
        let bytes = bytes.strip_suffix(b"\r").unwrap_or(bytes);
        let before = |error: std::str::Utf8Error| {
            String::from_utf8_lossy(&bytes[..error.valid_up_to()]).chars().count()
        };
        let broken = std::str::from_utf8(bytes).err().map(|error| before(error) + 1);
        Line { signs: String::from_utf8_lossy(bytes).chars().collect(), broken }
    }
}

/// What some editors put in front of a file in UTF-8.
pub const BYTE_ORDER_MARK: &[u8] = "\u{FEFF}".as_bytes();

impl Source {
    pub fn new(name: impl Into<String>, bytes: &[u8]) -> Source {
        let bytes = bytes.strip_prefix(BYTE_ORDER_MARK).unwrap_or(bytes).to_vec();
        Source { name: name.into(), bytes }
    }

    /// The lines with their numbers.
    pub fn lines(&self) -> impl Iterator<Item = (usize, Line)> + '_ {
        // behind the last newline no line begins
        let bytes = self.bytes.strip_suffix(b"\n").unwrap_or(&self.bytes);
        let lines = bytes.split(|&byte| byte == b'\n').map(Line::of);
        let some = if self.bytes.is_empty() { 0 } else { usize::MAX };
        (1..).zip(lines).take(some)
    }

    fn line(&self, number: usize) -> Option<Line> {
        self.lines().nth(number.checked_sub(1)?).map(|(_, line)| line)
    }

    /// Whether a part is one of this file: at least one character, all of them there.
    pub fn holds(&self, span: Span) -> bool {
        let length = self.line(span.line).map_or(0, |line| line.signs.len());
        span.column >= 1 && span.width >= 1 && span.column + span.width <= length + 1
    }

    /// A mistake with its place, its line and a caret below.
    pub fn show<'a>(&'a self, mistake: &'a Mistake, paint: Paint) -> impl fmt::Display + 'a {
        Shown { source: self, mistake, paint }
    }
}

struct Shown<'a> {
    source: &'a Source,
    mistake: &'a Mistake,
    paint: Paint,
}

/// So many characters of a line are shown before and behind the beginning of a mistake.
const AROUND: usize = 60;

impl fmt::Display for Shown<'_> {
    fn fmt(&self, to: &mut fmt::Formatter<'_>) -> fmt::Result {
        let Shown { source, mistake, paint } = *self;
        let place = format!("{}:{}:{}:", source.name, mistake.span.line, mistake.span.column);
        let (place, words) = (paint.place(&visible(&place)), visible(&mistake.words));
        writeln!(to, "{place} {}", paint.bold(&words))?;
        if let Some(line) = source.line(mistake.span.line) {
            self.put_line(&line, to)?;
        }
        match &mistake.hint {
            Some(hint) => writeln!(to, "    {}", visible(hint)),
            None => Ok(()),
        }
    }
}

impl Shown<'_> {
    /// The line, or a part of it, with carets below.
    fn put_line(&self, line: &Line, to: &mut fmt::Formatter<'_>) -> fmt::Result {
        let (span, length) = (self.mistake.span, line.signs.len());
        let at = span.column.saturating_sub(1).min(length);
        let (first, end) = (at.saturating_sub(AROUND), (at + AROUND).min(length));
        let text: String = line.signs[first..end].iter().map(|&sign| in_line(sign)).collect();
        let blanks = |&sign: &char| match sign {
            '\t' => "\t".to_string(),
            sign => " ".repeat(width(sign)),
        };
        let before: String = line.signs[first..at].iter().map(blanks).collect();
        let (cut, behind) = (first > 0, end < length);
        let dots = |cut| if cut { "..." } else { "" };
        writeln!(to, "    {}{text}{}", dots(cut), dots(behind))?;
        let marked = &line.signs[at..end.min(at + span.width)];
        let carets = "^".repeat(marked.iter().map(|&sign| width(sign)).sum::<usize>().max(1));
        let front = if cut { "   " } else { "" };
        writeln!(to, "    {front}{before}{}", self.paint.wrong(&carets))
    }
}

/// A character of a line that is shown.
fn in_line(sign: char) -> String {
    match sign {
        '\t' => "\t".to_string(),
        sign => visible_sign(sign),
    }
}

fn width(sign: char) -> usize {
    in_line(sign).chars().count()
}

#[cfg(test)]
mod tests {
    use super::*;
    use crate::paint::marked::{bare, MARKED};

    #[test]
    fn lines_end_with_a_newline_or_with_the_file() {
        let signs = |bytes: &[u8]| -> Vec<String> {
            let source = Source::new("f", bytes);
            source.lines().map(|(_, line)| line.signs.iter().collect()).collect()
        };
        assert_eq!(signs(b"a\r\nb\n\nc"), ["a", "b", "", "c"]);
        assert_eq!(signs(b"a\n"), ["a"]);
        assert_eq!(signs(b""), [""; 0]);
        assert_eq!(signs(b"\xEF\xBB\xBFa"), ["a"]);
    }

    #[test]
    fn the_first_byte_that_is_no_utf8() {
        let source = Source::new("f", "é".repeat(3).as_bytes());
        assert_eq!(source.lines().next().unwrap().1.broken, None);
        let source = Source::new("f", b"\xC3\xA9\xC3x");
        assert_eq!(source.lines().next().unwrap().1.broken, Some(2));
    }

    #[test]
    fn a_long_line_is_shown_in_part() {
        let source = Source::new("f", "A".repeat(1000).as_bytes());
        let mistake = Mistake::new(Span { line: 1, column: 500, width: 2 }, "wrong").hint("so");
        let shown = source.show(&mistake, Paint::NONE).to_string();
        let (a, spaces) = ("A".repeat(120), " ".repeat(60));
        assert_eq!(shown, format!("f:1:500: wrong\n    ...{a}...\n       {spaces}^^\n    so\n"));
    }

    #[test]
    fn a_long_name_is_told_in_part() {
        let name = "é".repeat(1000);
        let mistake = Mistake::new(Span::default(), name.as_str()).hint(name.as_str());
        let told = "é".repeat(400) + "...";
        assert_eq!((&mistake.words, mistake.hint.as_ref()), (&told, Some(&told)));
    }

    #[test]
    fn what_is_not_seen_is_shown() {
        let source = Source::new("\u{202E}f", "\tA\u{1B}\u{202E}B".as_bytes());
        let mistake = Mistake::new(Span { line: 1, column: 4, width: 2 }, "wrong '\u{202E}'");
        let shown = source.show(&mistake, Paint::NONE).to_string();
        let lines: Vec<&str> = shown.lines().collect();
        assert_eq!(lines[0], "<U+202E>f:1:4: wrong '<U+202E>'");
        assert_eq!(lines[1], "    \tA<U+001B><U+202E>B");
        assert_eq!(lines[2], "    \t         ^^^^^^^^^");
    }

    #[test]
    fn marks_take_no_place() {
        let source = Source::new("f", b"A\n");
        let mistake = Mistake::new(Span { line: 1, column: 1, width: 1 }, "wrong").hint("so");
        let shown = source.show(&mistake, MARKED).to_string();
        assert!(shown.contains("<p>f:1:1:</>"), "{shown}");
        let bare = bare(&shown);
        assert_eq!(bare, source.show(&mistake, Paint::NONE).to_string());
    }
}
