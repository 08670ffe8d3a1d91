//! The answers to requests in JSON are what the tool prints, for every file of rules of these tests.

mod common;

use std::fs;
use std::path::PathBuf;

use bradovusc_asking::check;
use bradovusc_asking::json::{read, Value};
use bradovusc_asking::request::answer;
use bradovusc_tool::json::Object;
use common::{call, files as files_of, golden};

/// What the tool prints, and its status.
fn tool(words: &[&str]) -> (u8, Vec<String>) {
    let said = call(words);
    let text = said.text() + &said.errors;
    (said.status as u8, text.lines().map(String::from).collect())
}

/// The status and the lines of a request's answer.
fn asked(request: &str) -> (u8, Vec<String>) {
    let (status, text) = answer(request.as_bytes());
    (status.number(), text.lines().map(String::from).collect())
}

/// A request with one file.
fn of_file(name: &str, text: &str, more: &str) -> String {
    let file = Object::new().text("name", name).text("text", text);
    format!("{{\"files\":[{}]{more}}}", file.done())
}

/// A text of a line's object.
fn text(line: &str, key: &str) -> String {
    match read(line.as_bytes()) {
        Ok(Value::Object(mut object)) => match object.remove(key) {
            Some(Value::Text(text)) => text,
            other => panic!("{line} {key}: {other:?}"),
        },
        other => panic!("{line}: {other:?}"),
    }
}

/// All files of rules, with what they have. One that is no UTF-8 no JSON can hold.
fn files() -> Vec<(PathBuf, String)> {
    let folders = ["../../examples", "files", "mistakes"];
    let paths = folders.iter().flat_map(|folder| files_of(&golden(folder), "rules"));
    paths.filter_map(|path| Some((path.clone(), fs::read_to_string(path).ok()?))).collect()
}

#[test]
fn all_pairs() {
    let (mut good, mut bad) = (0, 0);
    for (path, rules) in files() {
        let name = path.display().to_string();
        let wanted = tool(&["check", "--json", "--summary", "--room", "356", &name]);
        let request = of_file(&name, &rules, ",\"room\":356,\"summary\":true");
        assert_eq!(asked(&request), wanted, "{name}");
        if wanted.0 < 3 {
            good += 1;
        } else {
            bad += 1;
        }
    }
    assert!(good >= 5 && bad >= 50, "{good} {bad}");
}

#[test]
fn pairs_by_name_with_their_steps() {
    let mut asked_of = 0;
    for (path, rules) in files() {
        let name = path.display().to_string();
        let told = check(&rules).map_or(Vec::new(), |checked| checked.pairs);
        for pair in told.iter().take(5) {
            let (left, right) = (pair.left.title.to_string(), pair.right.title.to_string());
            let wanted = tool(&["pair", "--json", "--steps", &name, &left, &right]);
            let more = format!(",\"pairs\":[[\"{left}\",\"{right}\"]],\"steps\":true");
            assert_eq!(asked(&of_file(&name, &rules, &more)), wanted, "{name} {left} {right}");
            asked_of += 1;
        }
    }
    assert!(asked_of >= 15, "{asked_of}");
}

/// In words too: what a check prints is in its summary, what a pair prints in its object.
#[test]
fn the_same_words() {
    for (path, rules) in files() {
        let name = path.display().to_string();
        let more = ",\"words\":true,\"summary\":true,\"no_clash\":false,\"room\":356";
        let (status, lines) = asked(&of_file(&name, &rules, more));
        if status > 2 {
            continue;
        }
        let (_, wanted) = tool(&["check", "--room", "356", &name]);
        let words = |line: &str| text(line, "words").lines().map(String::from).collect::<Vec<_>>();
        assert_eq!(words(lines.last().unwrap()), wanted, "{name}");
        for line in &lines[..lines.len().min(4) - 1] {
            let (left, right) = (text(line, "left"), text(line, "right"));
            let (_, wanted) = tool(&["pair", "--room", "356", &name, &left, &right]);
            assert_eq!(words(line), wanted, "{name}");
        }
    }
}
