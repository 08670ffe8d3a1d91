//! Requests in JSON: each key, what is told, and what is refused.

mod common;

use bradovusc_asking::json::Value;
use common::{asked, object, of_file, quoted, text, LATCHES};

/// A request with the latches as text.
fn latches(more: &str) -> (u8, Vec<String>) {
    asked(&format!("{{\"rules\":{}{more}}}", quoted(LATCHES)))
}

const TWO: &str = r#""left":{"template":"LT{size}{finish}","fields":{"size":"[0-9]{2}","finish":"BR|CH|SS"}},
    "right":{"template":"LT{set}C{turn}","fields":{"set":"[0-9]+","turn":"H|K|T"}}"#;

#[test]
fn rules_as_text() {
    let (status, lines) = latches("");
    assert_eq!((status, lines.len()), (1, 1));
    let pair = object(&lines[0]);
    assert_eq!([text(&pair, "left"), text(&pair, "right")], ["mortice", "rim"]);
    assert_eq!(text(&pair, "label"), "LT00CH");
    assert_eq!(text(&pair, "left_file"), "rules");
    for key in ["words", "steps", "left_bands", "summary"] {
        assert!(!pair.contains_key(key), "{key}");
    }
}

#[test]
fn rules_of_several_files() {
    let one = r#"{"name":"a.rules","text":"a = A{x}\n"}"#;
    let other = r#"{"text":"\nb = {x}B\nc = C\n","name":"b.rules"}"#;
    let (status, lines) = asked(&format!("{{\"files\":[{one},{other}]}}"));
    assert_eq!((status, lines.len()), (1, 3));
    let pair = object(&lines[0]);
    assert_eq!([text(&pair, "left_file"), text(&pair, "right_file")], ["a.rules", "b.rules"]);
    assert_eq!(pair["right_line"], Value::Number("2".to_string()));
    assert_eq!(text(&object(&lines[2]), "answer"), "no clash");
}

#[test]
fn two_rules_in_parts() {
    let (status, lines) = asked(&format!("{{{TWO},\"bands\":true,\"words\":true}}"));
    assert_eq!((status, lines.len()), (1, 1));
    let pair = object(&lines[0]);
    assert_eq!([text(&pair, "left"), text(&pair, "right")], ["left", "right"]);
    let bands = r#""left_bands":[{"from":0,"to":2,"fixed":"LT"},{"from":2,"to":4,"field":"size"},{"from":4,"to":6,"field":"finish"}],"right_bands":[{"from":0,"to":2,"fixed":"LT"},{"from":2,"to":4,"field":"set"},{"from":4,"to":5,"fixed":"C"},{"from":5,"to":6,"field":"turn"}]"#;
    assert!(lines[0].contains(bands), "{}", lines[0]);
    assert!(text(&pair, "words").starts_with("left and right clash: \"LT00CH\"\n"));
}

/// The same name on both sides is two fields: what `A{0}` and `{0}B` on one sheet are not.
#[test]
fn fields_belong_to_their_rule() {
    let request = r#"{"left":{"template":"A{x}"},"right":{"template":"{x}B"}}"#;
    let (status, lines) = asked(request);
    assert_eq!(status, 1);
    let pair = object(&lines[0]);
    assert_eq!(text(&pair, "label"), "AB");
    assert!(lines[0].contains(r#""left_fields":{"x":"B"},"right_fields":{"x":"A"}"#));
}

#[test]
fn parts_of_full_ascii() {
    let parts =
        r##""left":{"name":"box","template":"Box\\s{n}"},"right":{"template":"{kind}\\s\\#"}"##;
    let (status, lines) = asked(&format!("{{{parts},\"edition\":\"full ascii\"}}"));
    assert_eq!(status, 1, "{lines:?}");
    let pair = object(&lines[0]);
    assert_eq!([text(&pair, "left"), text(&pair, "label")], ["box", "Box #"]);
    assert_eq!(text(&pair, "spelt"), "B+O+X /C");
    let (status, lines) = asked(&format!("{{{parts},\"edition\":\"code 39\"}}"));
    assert_eq!(status, 3, "{lines:?}");
}

#[test]
fn pairs_by_name_in_their_order() {
    let text = "a = A{x}\nb = {x}B\nc = C\n";
    let request = of_file("f", text, r#","pairs":[["c","a"],["b","a"],["b","b"]]"#);
    let (status, lines) = asked(&request);
    assert_eq!((status, lines.len()), (1, 3));
    assert!(lines[0].starts_with(r#"{"left":"c","right":"a","answer":"no clash""#));
    assert!(lines[1].starts_with(r#"{"left":"b","right":"a","answer":"clash""#));
    assert!(lines[2].starts_with(r#"{"left":"b","right":"b","answer":"clash""#));
    // a name that is not there ends it before anything is told
    let (status, lines) = asked(&of_file("f", text, r#","pairs":[["c","a"],["b","d"]]"#));
    assert_eq!(status, 3);
    assert_eq!(lines, [r#"{"error":"f has no rule 'd'; it has a, b, c","status":3}"#]);
    assert_eq!(asked(&of_file("f", text, r#","pairs":[]"#)), (0, Vec::new()));
    assert_eq!(asked(&of_file("f", text, r#","pairs":"all""#)).1.len(), 3);
}

#[test]
fn room() {
    let (status, lines) = latches(",\"room\":5");
    assert_eq!(status, 2);
    assert_eq!(text(&object(&lines[0]), "answer"), "not decided");
    assert_eq!(object(&lines[0])["room"], Value::Number("5".to_string()));
    assert_eq!(latches(",\"room\":null"), latches(""));
    for wrong in ["0", "65536", "-1", "1.0", "1e2", "\"9\"", "true", "99999999999999999999"] {
        let (status, lines) = latches(&format!(",\"room\":{wrong}"));
        let wanted = r#"{"error":"'room' is a whole number from 1 to 65,535","status":3}"#;
        assert_eq!((status, &*lines[0]), (3, wanted), "{wrong}");
    }
}

#[test]
fn what_is_told_besides() {
    let rules = format!("{LATCHES}other = X{{n}}\n");
    let ask = |more: &str| asked(&format!("{{\"rules\":{}{more}}}", quoted(&rules))).1;
    assert_eq!(ask("").len(), 3);
    assert_eq!(ask(",\"no_clash\":false").len(), 1);
    let lines = ask(",\"summary\":true,\"no_clash\":false");
    let counts = r#""rules":3,"pairs":3,"clashes":1,"not_decided":0,"no_clash":2,"status":1"#;
    assert!(lines[1].contains(counts), "{lines:?}");
    assert!(!lines[1].contains("words"));
    let lines = ask(",\"summary\":true,\"words\":true");
    let words = text(&object(&lines[3]), "words");
    assert!(words.ends_with("3 rules, 3 pairs: 1 clash, 0 not decided, 2 without a clash\n"));
    let first = object(&lines[0]);
    assert!(words.starts_with(&text(&first, "words")), "{words}");
    let steps = ask(",\"steps\":true,\"words\":true");
    assert!(matches!(&object(&steps[0])["steps"], Value::List(rows) if rows.len() == 11));
    assert!(text(&object(&steps[0]), "words").contains("step by step"));
    assert!(!object(&steps[1]).contains_key("steps"));
}

#[test]
fn mistakes_are_told_at_their_places() {
    let (status, lines) = asked(r#"{"left":{"template":"LT{size"},"right":{"template":"lt"}}"#);
    assert_eq!((status, lines.len()), (3, 2));
    let (one, other) = (object(&lines[0]), object(&lines[1]));
    assert_eq!([text(&one, "file"), text(&other, "file")], ["pair", "pair"]);
    let place = |of: &str, object: &bradovusc_asking::json::Object| object[of].clone();
    let number = |number: &str| Value::Number(number.to_string());
    assert_eq!([place("line", &one), place("column", &one)], [number("1"), number("10")]);
    assert_eq!([place("line", &other), place("column", &other)], [number("2"), number("9")]);
    // as they are shown, if words are wanted
    let (_, lines) = asked(r#"{"rules":"a = A{x\n","words":true}"#);
    let shown = "rules:1:6: a { without a } behind it\n    a = A{x\n         ^^\n";
    assert!(text(&object(&lines[0]), "words").starts_with(shown), "{lines:?}");
    // of several files those of the first one that has some
    let file = |name: &str, text: &str| format!(r#"{{"name":"{name}","text":"{text}\n"}}"#);
    let files = |files: &[String]| asked(&format!("{{\"files\":[{}]}}", files.join(",")));
    let (_, lines) = files(&[file("one", "a = A"), file("two", "a = b"), file("three", "a = b")]);
    assert_eq!((lines.len(), text(&object(&lines[0]), "file")), (1, "two".to_string()));
    let (status, lines) = files(&[file("one", "a = A"), file("two", "full ascii\\na = b")]);
    assert_eq!(status, 3);
    assert!(text(&object(&lines[0]), "error").starts_with("two is Full ASCII and one is not"));
    assert_eq!(asked(r##"{"rules":"# nothing\n"}"##).0, 5);
}

/// The requests of docs/NOTATION.md, and that its table has every key.
#[test]
fn the_page() {
    let page = include_str!("../../../docs/NOTATION.md");
    let requests: Vec<&str> = page
        .lines()
        .filter_map(|line| line.strip_prefix("- `")?.split_once("` asks").map(|of| of.0))
        .collect();
    assert_eq!(requests.len(), 3);
    for request in requests {
        let (status, lines) = asked(request);
        assert_eq!((status, lines.len()), (1, 1), "{request}");
    }
    let (_, table) = page.split_once("| Key of a request |").unwrap();
    let (table, _) = table.split_once("\n\n").unwrap();
    for key in include_str!("../src/request.rs").split("keys.truth(\"").skip(1) {
        let key = key.split('"').next().unwrap();
        assert!(table.contains(&format!("| `{key}` |")), "{key}");
    }
}

#[test]
fn what_is_no_request() {
    let two = |more: &str| format!("{{{TWO}{more}}}");
    for (request, words) in [
        ("", "the request is no JSON: a value is missing, at byte 0"),
        ("{\"rules\":\"\",}", "the request is no JSON: a key is missing, at byte 12"),
        ("[]", "the request is no object"),
        ("{}", "the request has one of 'rules', 'files', and 'left' with 'right'"),
        (
            "{\"rules\":\"\",\"files\":[]}",
            "the request has one of 'rules', 'files', and 'left' with 'right'",
        ),
        (
            "{\"left\":{\"template\":\"\"}}",
            "the request has one of 'rules', 'files', and 'left' with 'right'",
        ),
        ("{\"rules\":7}", "'rules' in the request is no text"),
        ("{\"files\":{}}", "'files' in the request is no list"),
        ("{\"files\":[7]}", "a file is no object"),
        ("{\"files\":[{\"name\":\"f\"}]}", "a file has no 'text'"),
        (
            "{\"files\":[{\"name\":\"f\",\"text\":\"\",\"path\":\"\"}]}",
            "a file has a key that means nothing: \"path\"",
        ),
        (
            "{\"rules\":\"a = A\",\"rooms\":7}",
            "the request has a key that means nothing: \"rooms\"",
        ),
        (
            "{\"rules\":\"a = A\",\"edition\":\"code 39\"}",
            "the request has a key that means nothing: \"edition\"",
        ),
        (
            "{\"rules\":\"a = A\",\"pairs\":\"some\"}",
            "'pairs' is \"all\" or a list of lists of two names",
        ),
        (
            "{\"rules\":\"a = A\",\"pairs\":[\"a\",\"a\"]}",
            "'pairs' is \"all\" or a list of lists of two names",
        ),
        (
            "{\"rules\":\"a = A\",\"pairs\":[[\"a\"]]}",
            "'pairs' is \"all\" or a list of lists of two names",
        ),
        ("{\"rules\":\"a = A\",\"words\":1}", "'words' in the request is neither true nor false"),
        ("{\"left\":7,\"right\":7}", "'left' is no object"),
        ("{\"left\":{},\"right\":{}}", "'left' has no 'template'"),
        (
            "{\"left\":{\"template\":\"A\",\"fields\":7},\"right\":{\"template\":\"A\"}}",
            "the fields of 'left' is no object",
        ),
        (
            "{\"left\":{\"template\":\"A\"},\"right\":{\"template\":\"{x}\",\"fields\":{\"x\":7}}}",
            "'x' in the fields of 'right' is no text",
        ),
        (
            "{\"left\":{\"template\":\"A\\nB = C\"},\"right\":{\"template\":\"A\"}}",
            "\"A\\nB = C\" has more than one line",
        ),
        (
            &two(",\"edition\":\"latin\""),
            "'edition' is \"code 39\" or \"full ascii\", and not \"latin\"",
        ),
    ] {
        let (status, lines) = asked(request);
        assert_eq!((status, lines.len()), (3, 1), "{request}");
        assert_eq!(text(&object(&lines[0]), "error"), words, "{request}");
    }
}
