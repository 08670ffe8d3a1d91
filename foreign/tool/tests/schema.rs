//! Every object that the golden files and the pages show, and more, held to schema/objects.schema.json;
//! every log in SARIF to what the standard asks of such a log. It needs python3 with jsonschema.

mod common;

use std::fs;
use std::io::Write;
use std::path::{Path, PathBuf};
use std::process::{Command, Stdio};

use bradovusc_asking::request::answer;
use bradovusc_tool::json::Object;
use common::{call, files, golden};

fn here(name: &str) -> PathBuf {
    Path::new(env!("CARGO_MANIFEST_DIR")).join(name)
}

/// The lines that a schema refuses, by number, each with the reason; none at all where there is no
/// Python with jsonschema.
fn refused(schema: &str, lines: &[String]) -> Option<Vec<(usize, String)>> {
    let there = Command::new("python3").args(["-c", "import jsonschema"]).output();
    if !there.is_ok_and(|output| output.status.success()) {
        println!("skipped: no python3 with jsonschema");
        return None;
    }
    let mut python = Command::new("python3")
        .args([here("tests/schema.py"), here(schema)])
        .stdin(Stdio::piped())
        .stdout(Stdio::piped())
        .spawn()
        .unwrap();
    let mut input = python.stdin.take().unwrap();
    lines.iter().for_each(|line| writeln!(input, "{line}").unwrap());
    drop(input);
    let output = python.wait_with_output().unwrap();
    assert!(output.status.success());
    let said = String::from_utf8(output.stdout).unwrap();
    let reason = |line: &str| {
        let (number, words) = line.split_once(' ').unwrap();
        (number.parse().unwrap(), words.to_string())
    };
    Some(said.lines().map(reason).collect())
}

const OBJECTS: &str = "schema/objects.schema.json";
const LOG: &str = "tests/sarif.schema.json";

/// The lines of golden files and pages that are objects.
fn shown() -> Vec<String> {
    let pages = ["../../docs/NOTATION.md", "../../docs/CI.md"].map(here);
    let said = files(&golden("commands"), "said").into_iter().chain(pages);
    let mut lines = Vec::new();
    for path in said {
        let text = fs::read_to_string(path).unwrap();
        let objects = text.lines().map(str::trim).filter(|line| line.starts_with("{\""));
        lines.extend(objects.map(String::from));
    }
    lines
}

/// What further calls print.
fn called() -> Vec<String> {
    let file = |name: &str| golden(&format!("files/{name}")).display().to_string();
    let (latch, open, ascii) = (file("latch.rules"), file("open.rules"), file("ascii.rules"));
    let storeroom = here("examples/storeroom.rules").display().to_string();
    let mut lines = Vec::new();
    for words in [
        &["check", "--json", "--summary", &storeroom][..],
        &["check", "--json", "--summary", "--clashes-only", &ascii],
        &["check", "--json", "--room", "40", "--max", "1", &open],
        &["pair", "--json", "--steps", "--repair", &latch, "mortice", "latch"],
        &["pair", "--json", "--repair", &ascii, "box", "note"],
        &["check", "--json", &file("mistake.rules")],
        &["check", "--json", &file("nothing.rules")],
        &["--json", "--version"],
        &["--json", "help", "pair"],
    ] {
        let text = call(words).text();
        assert!(!text.is_empty(), "{words:?}");
        lines.extend(text.lines().map(String::from));
    }
    for path in files(&golden("mistakes"), "rules") {
        let text = call(&["check", "--json", &path.display().to_string()]).text();
        lines.extend(text.lines().map(String::from));
    }
    lines
}

/// What requests are answered with, with all that can be told.
fn requested() -> Vec<String> {
    let mut lines = Vec::new();
    for name in ["latch.rules", "open.rules", "ascii.rules", "spaces.rules", "mistake.rules"] {
        let rules = fs::read_to_string(golden("files").join(name)).unwrap();
        let rules = Object::new().text("rules", &rules).done();
        let told = ["steps", "bands", "words", "summary"].map(|key| format!(",\"{key}\":true"));
        let request = format!("{}{},\"room\":356}}", &rules[..rules.len() - 1], told.concat());
        let (_, text) = answer(request.as_bytes());
        assert!(text.contains("\"words\""), "{text}");
        lines.extend(text.lines().map(String::from));
    }
    assert!(lines.iter().any(|line| line.contains("\"left_bands\"")));
    lines
}

#[test]
fn objects() {
    let lines = [shown(), called(), requested()].concat();
    assert!(lines.len() > 500);
    let logs: Vec<&String> = lines.iter().filter(|line| line.contains("\"$schema\"")).collect();
    let objects: Vec<String> = lines.iter().filter(|line| !logs.contains(line)).cloned().collect();
    if let Some(refused) = refused(OBJECTS, &objects) {
        let refused: Vec<_> = refused.iter().map(|(at, why)| (&objects[*at], why)).collect();
        assert!(refused.is_empty(), "{refused:#?}");
    }
}

/// What is no such object is refused.
#[test]
fn wrong_objects() {
    let right =
        call(&["check", "--json", "--summary", &golden("files/latch.rules").display().to_string()]);
    let lines: Vec<String> = right.text().lines().map(String::from).collect();
    let wrong: Vec<String> = [
        (1, "\"clash\"", "\"no clash\""),
        (1, "\"label\":\"LT00BR\",", ""),
        (1, "\"number\":0", "\"number\":18"),
        (1, "\"left_line\":3", "\"left_line\":0"),
        (1, "\"left_file\":\"latch.rules\"", "\"left_file\":7"),
        (1, "\"right_fields\"", "\"right_texts\""),
        (0, "\"answer\":\"no clash\"", "\"answer\":\"maybe\""),
        (0, "\"room\"", "\"rooms\""),
        (3, "\"schema\":1", "\"schema\":2"),
        (3, "\"pairs\":3", "\"pairs\":\"3\""),
    ]
    .map(|(line, old, new)| {
        let file = golden("files/latch.rules").display().to_string();
        let short = lines[line].replace(&file, "latch.rules");
        let changed = short.replacen(old, new, 1);
        assert_ne!(changed, short, "{old}");
        changed
    })
    .to_vec();
    if let Some(refused) = refused(OBJECTS, &wrong) {
        let mut numbers: Vec<usize> = refused.into_iter().map(|(number, _)| number).collect();
        numbers.dedup();
        assert!(numbers.into_iter().eq(0..wrong.len()));
    }
}

/// A clash whose way can't be shown has the reason, and no other clash has one.
#[test]
fn reasons_for_no_way() {
    let file = golden("files/latch.rules").display().to_string();
    let clash = call(&["pair", "--json", &file, "mortice", "latch"]).text();
    let with = |more: &str| clash.trim_end().replacen('{', &format!("{{{more},"), 1);
    let lines = [
        r#""steps":null,"steps_reason":"the way would have more than 65,534 steps""#,
        r#""steps":null"#,
        r#""steps":null,"steps_reason":"""#,
        r#""steps":null,"steps_reason":50"#,
        r#""steps_reason":"the way would have more than 65,534 steps""#,
    ];
    if let Some(refused) = refused(OBJECTS, &lines.map(with)) {
        let mut numbers: Vec<usize> = refused.into_iter().map(|(number, _)| number).collect();
        numbers.dedup();
        assert!(numbers.into_iter().eq(1..lines.len()));
    }
}

#[test]
fn logs() {
    let file = |name: &str| golden(&format!("files/{name}")).display().to_string();
    let mut logs = Vec::new();
    for (words, results) in [
        (&["check", &file("latch.rules")][..], 1),
        (&["check", &file("apart.rules")], 0),
        (&["check", &file("spaces.rules")], 4),
        (&["check", "--max", "2", &file("spaces.rules")], 2),
        (&["check", "--room", "20", &file("open.rules")], 4),
        (&["check", "--room", "20", "--clashes-only", &file("open.rules")], 0),
        (&["check", &file("ascii.rules")], 3),
        (&["check", &file("mistake.rules")], 2),
        (&["check", &file("nothing.rules")], 0),
        (&["pair", &file("latch.rules"), "mortice", "latch"], 1),
        (&["pair", &file("latch.rules"), "mortice", "keypad"], 0),
        (&["chekc"], 0),
    ] {
        let said = call(&[&["--format", "sarif"], words].concat());
        let text = said.text();
        assert_eq!(
            (text.lines().count(), text.matches("\"ruleId\"").count()),
            (1, results),
            "{text}"
        );
        assert!(text.contains(&format!("\"exitCode\":{}", said.status)), "{text}");
        logs.push(text.trim_end().to_string());
    }
    for path in files(&golden("mistakes"), "rules") {
        let said = call(&["check", "--format", "sarif", &path.display().to_string()]);
        logs.push(said.text().trim_end().to_string());
    }
    let broken = logs[0].replacen("\"startLine\":10", "\"startLine\":0", 1);
    assert_ne!(broken, logs[0]);
    if let Some(refused) = refused(LOG, &[logs.clone(), vec![broken]].concat()) {
        assert_eq!(refused.len(), 1, "{refused:?}");
        assert_eq!(refused[0].0, logs.len());
    }
}
