//! Two files of rules as one.

use crate::read::full_ascii_line;
use crate::source::{Source, BYTE_ORDER_MARK};

/// The text of a file with that of another one behind it, with all their comments. An empty line
/// stands between them. A line that says that the other one is Full ASCII is left out where the first
/// one says so already; its comment is kept.
pub fn joined(base: &[u8], new: &[u8]) -> Vec<u8> {
    let new = new.strip_prefix(BYTE_ORDER_MARK).unwrap_or(new);
    let line = |bytes: &[u8]| full_ascii_line(&Source::new("", bytes));
    let left_out = line(base).and(line(new));
    let end: &[u8] = if base.windows(2).any(|two| two == b"\r\n") { b"\r\n" } else { b"\n" };
    let mut text = base.to_vec();
    if !base.is_empty() {
        text.extend(if base.ends_with(b"\n") { b"" } else { end });
        text.extend(end);
    }
    for (number, line) in (1..).zip(new.split_inclusive(|&byte| byte == b'\n')) {
        let comment = || line.iter().position(|&byte| byte == b'#').unwrap_or(line.len());
        let from = if Some(number) == left_out { comment() } else { 0 };
        text.extend(&line[from..]);
    }
    text
}

#[cfg(test)]
mod tests {
    use super::*;

    fn text(base: &str, new: &str) -> String {
        String::from_utf8(joined(base.as_bytes(), new.as_bytes())).unwrap()
    }

    #[test]
    fn all_lines_of_both() {
        assert_eq!(text("", "# new\na = A\n"), "# new\na = A\n");
        assert_eq!(text("a = A\n", "b = B # of b"), "a = A\n\nb = B # of b");
        assert_eq!(text("# last line", "\n\nb = B\n"), "# last line\n\n\n\nb = B\n");
        assert_eq!(text("a = A\r\n", "\u{FEFF}b = B\n"), "a = A\r\n\r\nb = B\n");
        assert_eq!(text("a = A\r\nb = B", "c = C"), "a = A\r\nb = B\r\n\r\nc = C");
    }

    #[test]
    fn full_ascii_is_said_once() {
        let base = "full ascii\na = a\n";
        assert_eq!(text(base, "# new\nfull ascii\nb = b\n"), format!("{base}\n# new\nb = b\n"));
        let said = text(base, "\u{FEFF} \nfull\tascii # of b\r\nb = \\#b\n");
        assert_eq!(said, format!("{base}\n \n# of b\r\nb = \\#b\n"));
        assert_eq!(text("# none\n", "full ascii\nb = b\n"), "# none\n\nfull ascii\nb = b\n");
    }
}
