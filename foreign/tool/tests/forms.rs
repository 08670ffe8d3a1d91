//! The forms of `check` against each other: each tells the pairs that the others tell, at lines where the
//! rules stand.

mod common;

use std::collections::BTreeSet;
use std::fs;

use common::{call, files, golden, program_in, Folder};

/// A file of so many rules, all of which clash with one that takes everything, wherever that stands.
fn wide(rules: usize, at: usize) -> String {
    let rule = |number: usize| format!("r{number} = R{number}-{{n}}\n  n = [0-9]\n");
    let mut lines: Vec<String> = (0..rules).map(rule).collect();
    lines.insert(at, "all = {x}\n".to_string());
    lines.concat()
}

/// The rule whose name stands in this line of a file.
fn name_at(text: &str, line: usize) -> String {
    let line = text.lines().nth(line - 1).unwrap();
    line.split(" = ").next().unwrap().trim_end().to_string()
}

/// The numbers behind these keys, in order.
fn numbers(object: &str, key: &str) -> Vec<usize> {
    let key = format!("\"{key}\":");
    let digits = |rest: &str| {
        rest.chars().take_while(char::is_ascii_digit).collect::<String>().parse().unwrap()
    };
    object.split(&key).skip(1).map(digits).collect()
}

fn told(form: &[&str], file: &str) -> String {
    call(&[&["check", "--room", "300"], form, &[file]].concat()).text()
}

/// The pairs that each form tells, by the lines of their rules.
#[test]
fn every_form_tells_the_same_pairs() {
    let mut pairs_in_all = 0;
    for path in files(&golden("files"), "rules") {
        let (file, text) = (path.display().to_string(), fs::read_to_string(&path).unwrap());
        let objects = told(&["--json"], &file);
        if objects.contains("\"mistake\"") {
            continue;
        }
        let mut lines = BTreeSet::new();
        for object in objects.lines().filter(|object| !object.contains("\"no clash\"")) {
            let (left, right) = (numbers(object, "left_line")[0], numbers(object, "right_line")[0]);
            assert!(object.contains(&format!("\"left\":\"{}\"", name_at(&text, left))), "{object}");
            assert!(
                object.contains(&format!("\"right\":\"{}\"", name_at(&text, right))),
                "{object}"
            );
            lines.insert((left, right));
        }
        pairs_in_all += lines.len();
        let short = told(&["--format", "short"], &file);
        let of_short = |line: &str| {
            let (right, rest) =
                line.strip_prefix(&format!("{file}:")).unwrap().split_once(": ").unwrap();
            let left = rest.split_once(&format!("({file}:")).unwrap().1.split_once(')').unwrap().0;
            (left.parse().unwrap(), right.parse().unwrap())
        };
        assert_eq!(short.lines().map(of_short).collect::<BTreeSet<_>>(), lines, "{short}");
        let github = told(&["--format", "github"], &file);
        let of_github = |line: &str| numbers(&line.replace(",line=", "\"line\":"), "line")[0];
        let second: Vec<usize> = short.lines().map(|line| of_short(line).1).collect();
        assert_eq!(github.lines().map(of_github).collect::<Vec<_>>(), second, "{github}");
        let sarif = numbers(&told(&["--format", "sarif"], &file), "startLine");
        let of_sarif: BTreeSet<_> = sarif.chunks(2).map(|two| (two[1], two[0])).collect();
        assert_eq!(of_sarif, lines);
    }
    assert!(pairs_in_all > 15, "{pairs_in_all}");
}

#[test]
fn one_rule_with_many() {
    let folder = Folder::new("many");
    for (rules, at) in [(2, 0), (7, 3), (40, 40)] {
        fs::write(folder.0.join("wide.rules"), wide(rules, at)).unwrap();
        let said = program_in(&folder.0, &["check", "wide.rules"]).text();
        let heading = format!("all (wide.rules:{}) clashes with {rules} rules:\n", 2 * at + 1);
        assert!(said.starts_with(&heading), "{said}");
        let others = said.lines().filter(|line| line.starts_with("  r")).count();
        assert_eq!(others, rules);
        assert!(said.ends_with(&format!(
            "{rules} clashes, 0 not decided, {} without a clash\n",
            rules * (rules - 1) / 2
        )));
    }
}

/// More clashes than are put into groups at a time: each is told once.
#[test]
fn very_many() {
    let folder = Folder::new("very-many");
    let rules: String = (0..120).map(|number| format!("r{number} = A{{x}}\n")).collect();
    fs::write(folder.0.join("same.rules"), rules).unwrap();
    let said = program_in(&folder.0, &["check", "same.rules"]).text();
    let told = said.lines().filter(|line| line.ends_with(": \"A0\"")).count();
    assert_eq!(told, 120 * 119 / 2);
    let few = program_in(&folder.0, &["check", "--max", "7", "same.rules"]).text();
    assert_eq!(few.lines().filter(|line| line.ends_with(": \"A0\"")).count(), 7);
    assert!(few.contains("\nand 7,133 more clashes\n"), "{few}");
}

/// Names of files that would end a command or a URI.
#[test]
fn names_of_files() {
    let folder = Folder::new("names");
    let name = "a,b:c %é.rules";
    fs::write(folder.0.join(name), "a = A{x}\nb = B\nc = A4\n").unwrap();
    let said = |form: &str| program_in(&folder.0, &["check", "--format", form, name]).text();
    assert!(said("short").starts_with("a,b:c %é.rules:3: c and a (a,b:c %é.rules:1) clash: \"A4\""));
    assert!(said("github").starts_with("::error file=a%2Cb%3Ac %25é.rules,line=3,title="));
    assert!(said("sarif").contains("\"uri\":\"a%2Cb%3Ac%20%25%C3%A9.rules\""));
    assert!(said("json").contains("\"left_file\":\"a,b:c %é.rules\""));
}
