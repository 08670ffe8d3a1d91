//! The lexemes of a script, by SMT-LIB 2.6, section 3.1.

use super::{wrong, Told};

/// A lexeme and the line in which it begins, counted from 1.
#[derive(Clone, Debug, PartialEq, Eq)]
pub struct Lexeme {
    pub line: usize,
    pub kind: Kind,
}

#[derive(Clone, Debug, PartialEq, Eq)]
pub enum Kind {
    Open,
    Close,
    /// A symbol means the same with and without its bars. Only without them is
    /// it a reserved word, such as the name of a command.
    Symbol {
        name: String,
        quoted: bool,
    },
    /// With its colon.
    Keyword(String),
    /// A numeral, or a decimal, hexadecimal or binary number.
    Number(String),
    /// What stands between the quotation marks, a doubled one as one. What it
    /// means is the theory's affair.
    Literal(Vec<u8>),
}

/// All lexemes of a script. White space and comments may stand between any two.
pub fn read(script: &[u8]) -> Told<Vec<Lexeme>> {
    let mut reader = Reader { script, at: 0, line: 1 };
    let mut lexemes = Vec::new();
    while let Some(byte) = reader.behind_layout()? {
        let line = reader.line;
        let kind = reader.kind(byte)?;
        lexemes.push(Lexeme { line, kind });
    }
    Ok(lexemes)
}

struct Reader<'a> {
    script: &'a [u8],
    at: usize,
    line: usize,
}

impl<'a> Reader<'a> {
    fn front(&self) -> Option<u8> {
        self.script.get(self.at).copied()
    }

    /// The next byte: a script has white space and printable characters only,
    /// with the codes 32 to 126 and from 128 on.
    fn next(&mut self) -> Told<Option<u8>> {
        let front = self.front();
        match front {
            None => return Ok(None),
            Some(b'\n') => self.line += 1,
            Some(b'\t' | b'\r' | 32..=126 | 128..) => {}
            Some(byte) => {
                return wrong(self.line, format!("byte {byte} is no character of a script"));
            }
        }
        self.at += 1;
        Ok(front)
    }

    /// The first byte behind white space and comments.
    fn behind_layout(&mut self) -> Told<Option<u8>> {
        loop {
            match self.front() {
                Some(b' ' | b'\t' | b'\r' | b'\n') => {
                    self.next()?;
                }
                Some(b';') => self.comment()?,
                front => return Ok(front),
            }
        }
    }

    /// A comment goes to the end of the line.
    fn comment(&mut self) -> Told<()> {
        while !matches!(self.next()?, None | Some(b'\n' | b'\r')) {}
        Ok(())
    }

    /// The lexeme that begins with this byte.
    fn kind(&mut self, first: u8) -> Told<Kind> {
        match first {
            b'(' | b')' => {
                self.next()?;
                Ok(if first == b'(' { Kind::Open } else { Kind::Close })
            }
            b'"' => self.literal(),
            b'|' => self.quoted(),
            b':' | b'#' => {
                self.next()?;
                let word = format!("{}{}", char::from(first), self.word());
                self.prefixed(word)
            }
            _ if in_symbol(first) => {
                let word = self.word();
                self.unprefixed(word)
            }
            _ => {
                self.next()?;
                wrong(self.line, format!("{} begins no lexeme", shown(first)))
            }
        }
    }

    /// As many of a symbol's characters as there are.
    fn word(&mut self) -> String {
        let rest = &self.script[self.at..];
        let length = rest.iter().position(|&byte| !in_symbol(byte)).unwrap_or(rest.len());
        self.at += length;
        rest[..length].iter().map(|&byte| char::from(byte)).collect()
    }

    /// A keyword is a colon and a simple symbol; `#x` and `#b` begin a number.
    fn prefixed(&self, word: String) -> Told<Kind> {
        let digits =
            |digit: fn(&u8) -> bool| word.len() > 2 && word.bytes().skip(2).all(|b| digit(&b));
        if word.starts_with("#x") && digits(u8::is_ascii_hexdigit)
            || word.starts_with("#b") && digits(|byte| matches!(byte, b'0' | b'1'))
        {
            Ok(Kind::Number(word))
        } else if word.starts_with(':')
            && word.as_bytes().get(1).is_some_and(|byte| !byte.is_ascii_digit())
        {
            Ok(Kind::Keyword(word))
        } else {
            wrong(self.line, format!("{word} is no lexeme"))
        }
    }

    /// A simple symbol doesn't begin with a digit.
    fn unprefixed(&self, word: String) -> Told<Kind> {
        if !word.starts_with(|first: char| first.is_ascii_digit()) {
            Ok(Kind::Symbol { name: word, quoted: false })
        } else if is_number(&word) {
            Ok(Kind::Number(word))
        } else {
            wrong(self.line, format!("{word} is no lexeme"))
        }
    }

    /// A string literal: within it a doubled quotation mark is one, and a
    /// single one ends it.
    fn literal(&mut self) -> Told<Kind> {
        let line = self.line;
        let mut bytes = Vec::new();
        self.next()?;
        loop {
            match self.next()? {
                None => return wrong(line, "the literal that begins here is not closed"),
                Some(b'"') if self.front() == Some(b'"') => {
                    self.next()?;
                    bytes.push(b'"');
                }
                Some(b'"') => return Ok(Kind::Literal(bytes)),
                Some(byte) => bytes.push(byte),
            }
        }
    }

    /// A quoted symbol: anything but a bar or a backslash between two bars.
    fn quoted(&mut self) -> Told<Kind> {
        let line = self.line;
        let mut bytes = Vec::new();
        self.next()?;
        loop {
            match self.next()? {
                None => return wrong(line, "the symbol that begins here is not closed"),
                Some(b'|') => {
                    let name = String::from_utf8_lossy(&bytes).into_owned();
                    return Ok(Kind::Symbol { name, quoted: true });
                }
                Some(b'\\') => return wrong(self.line, "a backslash in a quoted symbol"),
                Some(byte) => bytes.push(byte),
            }
        }
    }
}

/// The characters of a simple symbol.
fn in_symbol(byte: u8) -> bool {
    byte.is_ascii_alphanumeric() || b"~!@$%^&*_-+=<>.?/".contains(&byte)
}

/// A numeral is 0 or has no 0 in front; a decimal is a numeral, a point and
/// digits.
fn is_number(word: &str) -> bool {
    let digits = |text: &str| !text.is_empty() && text.bytes().all(|byte| byte.is_ascii_digit());
    let numeral = |text: &str| digits(text) && (text == "0" || !text.starts_with('0'));
    match word.split_once('.') {
        Some((whole, behind)) => numeral(whole) && digits(behind),
        None => numeral(word),
    }
}

fn shown(byte: u8) -> String {
    match byte {
        b' '..=b'~' => char::from(byte).to_string(),
        _ => format!("byte {byte}"),
    }
}

impl Kind {
    /// As it stands in a script, for messages.
    pub fn shown(&self) -> String {
        match self {
            Kind::Open => "(".to_string(),
            Kind::Close => ")".to_string(),
            Kind::Symbol { name, quoted: false } => name.clone(),
            Kind::Symbol { name, quoted: true } => format!("|{name}|"),
            Kind::Keyword(word) | Kind::Number(word) => word.clone(),
            Kind::Literal(bytes) => {
                format!("\"{}\"", String::from_utf8_lossy(bytes).replace('"', "\"\""))
            }
        }
    }
}
