//! Objects in JSON, one a line.

use std::fmt::Write;

use crate::visible::is_hidden;

/// An object that is being written.
#[derive(Clone, Debug, Default)]
pub struct Object {
    /// What is written so far: nothing, or all but the last brace.
    text: String,
}

impl Object {
    pub fn new() -> Object {
        Object::default()
    }

    pub fn text(mut self, key: &str, text: &str) -> Object {
        self.key(key);
        put_quoted(&mut self.text, text);
        self
    }

    pub fn number(mut self, key: &str, number: usize) -> Object {
        self.key(key);
        let _ = write!(self.text, "{}", number);
        self
    }

    pub fn truth(self, key: &str, truth: bool) -> Object {
        self.raw(key, if truth { "true" } else { "false" })
    }

    pub fn object(self, key: &str, object: Object) -> Object {
        self.raw(key, &object.done())
    }

    pub fn list(self, key: &str, objects: Vec<Object>) -> Object {
        let objects: Vec<String> = objects.into_iter().map(Object::done).collect();
        self.raw(key, &format!("[{}]", objects.join(",")))
    }

    /// What is not there.
    pub fn nothing(self, key: &str) -> Object {
        self.raw(key, "null")
    }

    fn raw(mut self, key: &str, value: &str) -> Object {
        self.key(key);
        self.text += value;
        self
    }

    fn key(&mut self, key: &str) {
        if self.text.is_empty() {
            self.text.reserve(USUAL);
        }
        self.text.push(if self.text.is_empty() { '{' } else { ',' });
        put_quoted(&mut self.text, key);
        self.text.push(':');
    }

    /// The object as text, without a newline.
    pub fn done(mut self) -> String {
        self.text += if self.text.is_empty() { "{}" } else { "}" };
        self.text
    }
}

/// Most objects have no more bytes.
const USUAL: usize = 160;

/// A text as a JSON string.
fn put_quoted(to: &mut String, text: &str) {
    to.push('"');
    let plain = |byte: u8| (b' '..0x7F).contains(&byte) && byte != b'"' && byte != b'\\';
    if text.bytes().all(plain) {
        *to += text;
    } else {
        put_escaped(to, text);
    }
    to.push('"');
}

fn put_escaped(to: &mut String, text: &str) {
    for sign in text.chars() {
        match sign {
            '"' | '\\' => to.extend(['\\', sign]),
            '\n' => *to += "\\n",
            // U+2028 and U+2029 end lines for some readers, and others change what is seen
            sign if is_hidden(sign) => {
                for unit in sign.encode_utf16(&mut [0; 2]) {
                    let _ = write!(to, "\\u{:04x}", unit);
                }
            }
            sign => to.push(sign),
        }
    }
}

#[cfg(test)]
mod tests {
    use super::*;

    #[test]
    fn strings_are_escaped() {
        let object = Object::new().text("a\"b", "c\\d\ne\u{1}é").number("n", 7).truth("t", true);
        let object = object.object("o", Object::new());
        assert_eq!(object.done(), r#"{"a\"b":"c\\d\ne\u0001é","n":7,"t":true,"o":{}}"#);
    }

    #[test]
    fn what_is_not_seen_is_escaped() {
        let object = Object::new().text("t", "\u{202E}\u{2028}\u{E0041}\u{7F}");
        assert_eq!(object.done(), "{\"t\":\"\\u202e\\u2028\\udb40\\udc41\\u007f\"}");
    }

    #[test]
    fn lists_of_objects() {
        let objects = vec![Object::new().number("n", 7), Object::new()];
        let object = Object::new().list("l", objects).list("e", Vec::new()).nothing("x");
        assert_eq!(object.done(), r#"{"l":[{"n":7},{}],"e":[],"x":null}"#);
    }
}
