//! What the tests share.
#![allow(dead_code)]

use bradovusc_asking::json::{read, Object, Value};
use bradovusc_asking::request::answer;

/// The status and the lines of a request's answer.
pub fn asked(request: &str) -> (u8, Vec<String>) {
    let (status, text) = answer(request.as_bytes());
    assert!(text.is_empty() || text.ends_with('\n'), "{text:?}");
    (status.number(), text.lines().map(String::from).collect())
}

/// A line of an answer, which is always an object.
pub fn object(line: &str) -> Object {
    match read(line.as_bytes()) {
        Ok(Value::Object(object)) => object,
        other => panic!("{line}: {other:?}"),
    }
}

/// A text of an object.
pub fn text(object: &Object, key: &str) -> String {
    match object.get(key) {
        Some(Value::Text(text)) => text.clone(),
        other => panic!("{key}: {other:?}"),
    }
}

/// A text as JSON.
pub fn quoted(text: &str) -> String {
    let written = bradovusc_notation::json::Object::new().text("", text).done();
    written["{\"\":".len()..written.len() - 1].to_string()
}

/// A request with one file.
pub fn of_file(name: &str, text: &str, more: &str) -> String {
    format!("{{\"files\":[{{\"name\":{},\"text\":{}}}]{more}}}", quoted(name), quoted(text))
}

/// The latches of the README.
pub const LATCHES: &str =
    "mortice = LT{size}{finish}\n  size   = [0-9][0-9]\n  finish = BR | CH | SS\n\
                           rim     = LT{set}C{turn}\n  set    = [0-9]+\n  turn   = H | K | T\n";
