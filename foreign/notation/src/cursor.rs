//! One line as it is read: names, blanks, and the characters of its edition.

use bradovusc::Edition;

use crate::characters::{control_name, named};
use crate::source::{Mistake, Span};

pub type Result<T, E = Mistake> = std::result::Result<T, E>;

/// A line without its comment, and how far it is read.
pub struct Cursor<'a> {
    pub edition: Edition,
    pub signs: &'a [char],
    pub at: usize,
    line: usize,
}

pub fn is_blank(sign: char) -> bool {
    sign == ' ' || sign == '\t'
}

pub fn is_name(sign: char) -> bool {
    sign.is_ascii_alphanumeric() || sign == '_' || sign == '-'
}

/// A sign in a mistake's words.
pub fn quoted(sign: char) -> String {
    match sign {
        ' ' => "a space".to_string(),
        '\t' => "a tab".to_string(),
        sign if sign.is_control() => format!("the control character {:02X}", sign as u32),
        sign => format!("'{sign}'"),
    }
}

impl<'a> Cursor<'a> {
    pub fn new(edition: Edition, signs: &'a [char], line: usize) -> Cursor<'a> {
        Cursor { edition, signs, at: 0, line }
    }

    pub fn next(&self) -> Option<char> {
        self.signs.get(self.at).copied()
    }

    pub fn take(&mut self) -> Option<char> {
        let sign = self.next()?;
        self.at += 1;
        Some(sign)
    }

    pub fn take_if(&mut self, wanted: char) -> bool {
        let is_it = self.next() == Some(wanted);
        self.at += usize::from(is_it);
        is_it
    }

    /// The next sign's place; at the end the last one's.
    pub fn here(&self) -> Span {
        self.from(self.at.min(self.signs.len().saturating_sub(1)))
    }

    /// From an index to the last sign taken, at least one sign.
    pub fn from(&self, start: usize) -> Span {
        Span { line: self.line, column: start + 1, width: self.at.saturating_sub(start).max(1) }
    }

    pub fn skip_blanks(&mut self) -> bool {
        let start = self.at;
        while self.next().map_or(false, is_blank) {
            self.at += 1;
        }
        self.at > start
    }

    /// A name, an equals sign and the blanks around it.
    pub fn name_and_sign(&mut self, form: &str) -> Result<(String, Span)> {
        let start = self.at;
        let name = self.name().ok_or_else(|| {
            Mistake::new(self.here(), "a name is missing here")
                .hint(format!("{form}; a name has letters, digits, _ and -"))
        })?;
        let span = self.from(start);
        self.skip_blanks();
        match self.next() {
            Some('=') => {
                self.at += 1;
                Ok((name, span))
            }
            Some(sign) => Err(Mistake::new(
                self.here(),
                format!("an = is missing here, before {}", quoted(sign)),
            )
            .hint(format!("{form}; a name has letters, digits, _ and -"))),
            None => Err(Mistake::new(span, format!("an = is missing behind {name}")).hint(form)),
        }
    }

    pub fn name(&mut self) -> Option<String> {
        let start = self.at;
        while self.next().map_or(false, is_name) {
            self.at += 1;
        }
        (self.at > start).then(|| self.signs[start..self.at].iter().collect())
    }

    /// What stands behind a \, which begins at `start`: one of the signs, s for the space, or, in
    /// Full ASCII, a name.
    pub fn escaped(&mut self, start: usize) -> Result<u8> {
        let hint = match self.edition {
            Edition::Code39 => {
                "a \\ stands before one of - . $ / + % or a space, and \\s is the space too"
            }
            Edition::FullAscii => {
                "a \\ stands before a sign or a space, \\s is the space too, and a control \
                 character is written by its name, \\<LF>, or its code, \\<0A>"
            }
        };
        let wrong = |span, words: String| Err(Mistake::new(span, words).hint(hint));
        match self.take() {
            None => wrong(self.from(start), "nothing stands behind this \\".to_string()),
            Some('s') => Ok(self.edition.space()),
            Some('d') => {
                let mistake = Mistake::new(self.from(start), "\\d is not known here");
                Err(mistake.hint("a digit is written [0-9]"))
            }
            Some('<') if self.edition == Edition::FullAscii => self.named(start),
            Some(sign) => match self.edition.value(sign) {
                Some(value) if sign == ' ' || sign.is_ascii_punctuation() => Ok(value),
                _ => {
                    let words = format!("a \\ before {} means nothing", quoted(sign));
                    wrong(self.from(start), words)
                }
            },
        }
    }

    /// A character by its name or its code, of which \< is taken.
    fn named(&mut self, start: usize) -> Result<u8> {
        let name = self.name().unwrap_or_default();
        let hint = "a control character is written by its name, as \\<NUL>, \\<LF> and \\<GS>, or by \
                    its code of two hexadecimal digits, \\<00> to \\<7F>; the sign < stands for itself";
        if !self.take_if('>') {
            return Err(Mistake::new(self.from(start), "a \\< without a > behind it").hint(hint));
        }
        let value = named(&name).and_then(|sign| self.edition.value(sign));
        value.ok_or_else(|| {
            let words = format!("no character has the name or the code '{name}'");
            Mistake::new(self.from(start), words).hint(hint)
        })
    }

    /// A sign that stands for itself, at `start`.
    pub fn plain(&self, sign: char, start: usize) -> Result<u8> {
        let itself = !matches!(sign, ' ' | '\0'..='\x1F' | '\x7F');
        let known = self.edition.value(sign).filter(|_| itself);
        known.ok_or_else(|| {
            let code = match self.edition {
                Edition::Code39 => "Code 39",
                Edition::FullAscii => "Full ASCII",
            };
            let words = match control_name(sign).filter(|_| self.edition == Edition::FullAscii) {
                Some(_) => format!("{} as it is", quoted(sign)),
                None => format!("{} is no character of {code}", quoted(sign)),
            };
            Mistake::new(self.from(start), words).hint(self.instead(sign))
        })
    }

    /// What to write in place of a sign that stands for nothing.
    fn instead(&self, sign: char) -> String {
        match (self.edition, control_name(sign)) {
            (Edition::Code39, _) if sign.is_ascii_lowercase() => {
                format!("Code 39 has capital letters alone: {}", sign.to_ascii_uppercase())
            }
            (Edition::Code39, _) => {
                "the characters are 0 to 9, A to Z, - . $ / + % and the space".to_string()
            }
            (Edition::FullAscii, Some(name)) => format!("it is written \\<{name}>"),
            (Edition::FullAscii, None) => "the characters are those of ASCII, 0 to 127".to_string(),
        }
    }

    /// A hint on a sign of the notation: how the character itself is written, if it is one.
    pub fn itself(&self, sign: char, otherwise: &str) -> String {
        match self.edition {
            Edition::Code39 => otherwise.to_string(),
            Edition::FullAscii => format!("the character is written \\{sign}"),
        }
    }

    /// The same behind another hint.
    pub fn and_itself(&self, hint: &str, sign: char) -> String {
        match self.edition {
            Edition::Code39 => hint.to_string(),
            Edition::FullAscii => format!("{hint}; {}", self.itself(sign, "")),
        }
    }
}
