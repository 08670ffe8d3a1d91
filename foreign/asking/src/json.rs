//! Reads JSON, strictly: what the standard does not allow is a fault, and so are two equal keys.

use std::collections::BTreeMap;
use std::fmt;

/// What was read.
#[derive(Clone, Debug, PartialEq, Eq)]
pub enum Value {
    Nothing,
    Truth(bool),
    /// A number as it is written.
    Number(String),
    Text(String),
    List(Vec<Value>),
    Object(Object),
}

/// Values by their keys.
pub type Object = BTreeMap<String, Value>;

/// What is no JSON, and the offset of the byte at which that is seen.
#[derive(Clone, Debug, PartialEq, Eq)]
pub struct Fault {
    pub place: usize,
    pub words: String,
}

impl fmt::Display for Fault {
    fn fmt(&self, to: &mut fmt::Formatter<'_>) -> fmt::Result {
        write!(to, "{}, at byte {}", self.words, self.place)
    }
}

type Result<T> = std::result::Result<T, Fault>;

/// Lists and objects within one another, up to so many.
const MOST_NESTED: usize = 32;

/// The one value that these bytes are.
pub fn read(bytes: &[u8]) -> Result<Value> {
    let text = std::str::from_utf8(bytes).map_err(|error| Fault {
        place: error.valid_up_to(),
        words: "a byte that is no UTF-8".to_string(),
    })?;
    let mut reader = Reader { text, at: 0 };
    reader.skip_blanks();
    let value = reader.value(0)?;
    match reader.next() {
        None => Ok(value),
        Some(_) => reader.wrong("something stands behind the value"),
    }
}

/// A text, and how far it is read, in bytes.
struct Reader<'a> {
    text: &'a str,
    at: usize,
}

impl<'a> Reader<'a> {
    fn rest(&self) -> &'a str {
        self.text.get(self.at..).unwrap_or_default()
    }

    fn next(&self) -> Option<char> {
        self.rest().chars().next()
    }

    fn take(&mut self) -> Option<char> {
        let sign = self.next()?;
        self.at += sign.len_utf8();
        Some(sign)
    }

    fn take_if(&mut self, wanted: char) -> bool {
        let is_it = self.next() == Some(wanted);
        self.at += if is_it { wanted.len_utf8() } else { 0 };
        is_it
    }

    fn skip_blanks(&mut self) {
        while matches!(self.next(), Some(' ' | '\t' | '\n' | '\r')) {
            self.at += 1;
        }
    }

    fn wrong<T>(&self, words: &str) -> Result<T> {
        Err(Fault { place: self.at, words: words.to_string() })
    }

    /// A value, and the blanks behind it.
    fn value(&mut self, nested: usize) -> Result<Value> {
        let value = match self.next() {
            Some('"') => Value::Text(self.string()?),
            Some('[' | '{') if nested == MOST_NESTED => {
                return self.wrong("more lists and objects within one another than are read");
            }
            Some('[') => Value::List(self.list(nested + 1)?),
            Some('{') => Value::Object(self.object(nested + 1)?),
            Some('-' | '0'..='9') => Value::Number(self.number()?),
            _ => self.word()?,
        };
        self.skip_blanks();
        Ok(value)
    }

    fn word(&mut self) -> Result<Value> {
        let words = [
            ("null", Value::Nothing),
            ("true", Value::Truth(true)),
            ("false", Value::Truth(false)),
        ];
        for (word, value) in words {
            if self.rest().starts_with(word) {
                self.at += word.len();
                return Ok(value);
            }
        }
        self.wrong("a value is missing")
    }

    fn list(&mut self, nested: usize) -> Result<Vec<Value>> {
        let mut values = Vec::new();
        self.at += 1;
        self.skip_blanks();
        if self.take_if(']') {
            return Ok(values);
        }
        loop {
            values.push(self.value(nested)?);
            match self.next() {
                Some(',') => self.at += 1,
                Some(']') => break,
                _ => return self.wrong("a , or a ] is missing"),
            }
            self.skip_blanks();
        }
        self.at += 1;
        Ok(values)
    }

    fn object(&mut self, nested: usize) -> Result<Object> {
        let mut members = Object::new();
        self.at += 1;
        self.skip_blanks();
        if self.take_if('}') {
            return Ok(members);
        }
        loop {
            let place = self.at;
            let key = match self.next() {
                Some('"') => self.string()?,
                _ => return self.wrong("a key is missing"),
            };
            if members.contains_key(&key) {
                return Err(Fault { place, words: format!("a second key {key:?}") });
            }
            self.skip_blanks();
            if !self.take_if(':') {
                return self.wrong("a : is missing");
            }
            self.skip_blanks();
            members.insert(key, self.value(nested)?);
            match self.next() {
                Some(',') => self.at += 1,
                Some('}') => break,
                _ => return self.wrong("a , or a } is missing"),
            }
            self.skip_blanks();
        }
        self.at += 1;
        Ok(members)
    }

    fn string(&mut self) -> Result<String> {
        let mut string = String::new();
        self.at += 1;
        loop {
            let place = self.at;
            match self.take() {
                Some('"') => return Ok(string),
                Some('\\') => string.push(self.escaped()?),
                Some('\0'..='\x1F') => {
                    return Err(Fault { place, words: "a control character".to_string() });
                }
                Some(sign) => string.push(sign),
                None => return self.wrong("a \" is missing"),
            }
        }
    }

    /// What stands behind a \.
    fn escaped(&mut self) -> Result<char> {
        let place = self.at - 1;
        Ok(match self.take() {
            Some(sign @ ('"' | '\\' | '/')) => sign,
            Some('b') => '\x08',
            Some('f') => '\x0C',
            Some('n') => '\n',
            Some('r') => '\r',
            Some('t') => '\t',
            Some('u') => {
                let unit = self.unit()?;
                // two units make a character above U+FFFF
                let other = matches!(unit, 0xD800..=0xDBFF) && self.rest().starts_with("\\u");
                let units = if other {
                    self.at += 2;
                    vec![unit, self.unit()?]
                } else {
                    vec![unit]
                };
                match char::decode_utf16(units).next() {
                    Some(Ok(sign)) => sign,
                    _ => {
                        return Err(Fault { place, words: "half of a character alone".to_string() })
                    }
                }
            }
            _ => return Err(Fault { place, words: "a \\ that means nothing".to_string() }),
        })
    }

    /// Four hexadecimal digits.
    fn unit(&mut self) -> Result<u16> {
        let digits =
            self.rest().get(..4).filter(|four| four.bytes().all(|d| d.is_ascii_hexdigit()));
        match digits.and_then(|four| u16::from_str_radix(four, 16).ok()) {
            Some(unit) => {
                self.at += 4;
                Ok(unit)
            }
            None => self.wrong("four hexadecimal digits are missing"),
        }
    }

    fn digits(&mut self) -> Result<()> {
        let start = self.at;
        while matches!(self.next(), Some('0'..='9')) {
            self.at += 1;
        }
        if self.at == start {
            return self.wrong("a digit is missing");
        }
        Ok(())
    }

    fn number(&mut self) -> Result<String> {
        let start = self.at;
        self.take_if('-');
        if !self.take_if('0') {
            self.digits()?;
        } else if matches!(self.next(), Some('0'..='9')) {
            return self.wrong("a digit behind a 0 in front");
        }
        if self.take_if('.') {
            self.digits()?;
        }
        if self.take_if('e') || self.take_if('E') {
            if !self.take_if('+') {
                self.take_if('-');
            }
            self.digits()?;
        }
        Ok(self.text[start..self.at].to_string())
    }
}

#[cfg(test)]
mod tests {
    use super::*;

    fn text(text: &str) -> Value {
        Value::Text(text.to_string())
    }

    fn number(text: &str) -> Value {
        Value::Number(text.to_string())
    }

    #[test]
    fn values() {
        let read = |text: &str| read(text.as_bytes()).unwrap();
        assert_eq!(read(" null\n"), Value::Nothing);
        assert_eq!(
            read("[true,false]"),
            Value::List(vec![Value::Truth(true), Value::Truth(false)])
        );
        for one in ["0", "-0", "10", "-1.50", "1e9", "0.1E-7", "2e+00"] {
            assert_eq!(read(one), number(one));
        }
        assert_eq!(
            read(r#""a\"\\\/\b\f\n\r\t\u00e9\uD834\uDD1Eé""#),
            text("a\"\\/\x08\x0C\n\r\té\u{1D11E}é")
        );
        assert_eq!(read("\t[ ]\r"), Value::List(Vec::new()));
        assert_eq!(read("{ }"), Value::Object(Object::new()));
        let object = [("a".to_string(), number("1")), ("".to_string(), text(""))];
        assert_eq!(read(r#" { "a" : 1 , "" : "" } "#), Value::Object(object.into()));
        let nested = "[".repeat(MOST_NESTED) + &"]".repeat(MOST_NESTED);
        assert!(matches!(read(&nested), Value::List(_)));
    }

    #[test]
    fn what_is_no_json() {
        let deep = "[".repeat(MOST_NESTED + 1);
        for (wrong, place, words) in [
            ("", 0, "a value is missing"),
            ("\u{FEFF}1", 0, "a value is missing"),
            ("nul", 0, "a value is missing"),
            ("True", 0, "a value is missing"),
            ("1 2", 2, "something stands behind the value"),
            ("01", 1, "a digit behind a 0 in front"),
            ("-", 1, "a digit is missing"),
            ("1.", 2, "a digit is missing"),
            (".5", 0, "a value is missing"),
            ("1e", 2, "a digit is missing"),
            ("+1", 0, "a value is missing"),
            ("[1,]", 3, "a value is missing"),
            ("[1 2]", 3, "a , or a ] is missing"),
            ("[1", 2, "a , or a ] is missing"),
            ("{\"a\"}", 4, "a : is missing"),
            ("{a:1}", 1, "a key is missing"),
            ("{\"a\":1,}", 7, "a key is missing"),
            ("{\"a\":1", 6, "a , or a } is missing"),
            ("{\"a\":1,\"b\":2,\"\\u0061\":3}", 13, "a second key \"a\""),
            ("\"a", 2, "a \" is missing"),
            ("\"a\nb\"", 2, "a control character"),
            ("\"\\x\"", 1, "a \\ that means nothing"),
            ("\"\\u12\"", 3, "four hexadecimal digits are missing"),
            ("\"\\u+123\"", 3, "four hexadecimal digits are missing"),
            ("\"\\ud800\"", 1, "half of a character alone"),
            ("\"\\ud800\\u0041\"", 1, "half of a character alone"),
            ("\"\\udc00\"", 1, "half of a character alone"),
            ("'a'", 0, "a value is missing"),
            ("/**/1", 0, "a value is missing"),
            (&deep, MOST_NESTED, "more lists and objects within one another than are read"),
        ] {
            let fault = Fault { place, words: words.to_string() };
            assert_eq!(read(wrong.as_bytes()), Err(fault), "{wrong}");
        }
        assert_eq!(
            read(b"\"\xC3\"").unwrap_err().to_string(),
            "a byte that is no UTF-8, at byte 1"
        );
    }

    /// What the writer of the notation writes is read as it was.
    #[test]
    fn what_is_written_is_read() {
        for sign in (0..=0x3000).filter_map(char::from_u32).chain(['\u{1D11E}', char::MAX]) {
            let written = bradovusc_notation::json::Object::new().text("k", &format!("a{sign}b"));
            let object: Object = [("k".to_string(), text(&format!("a{sign}b")))].into();
            assert_eq!(read(written.done().as_bytes()), Ok(Value::Object(object)));
        }
    }
}
