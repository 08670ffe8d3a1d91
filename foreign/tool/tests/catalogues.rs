//! Catalogues made at random that have the form of one, whatever their rules are: so every command
//! goes beyond the first look, meets rules that clash, and must agree with what `check` says of the
//! rules as `list` prints them.

mod common;

use std::fs;

use bradovusc_tool::compile::judged;
use bradovusc_tool::decompile::entries;
use bradovusc_tool::source::Source;
use common::{call, Dice, Folder};

const CATALOGUES: usize = 250;

/// What a template is made of; fields are named by the place of their pattern.
const PARTS: [&str; 12] =
    ["L", "LT", "K", "4", "-", "\\s", "{a}", "{b}", "{c}", "{d}", "{a}", "{b}"];

const PATTERNS: [&str; 14] = [
    "[0-9]",
    "[0-9]+",
    "[0-9]{2}",
    "BR|CH|SS",
    ".*",
    "\\s*",
    "()",
    "(A|B)*C?",
    "[^0-9]",
    "L?T?",
    "K[A-F]{0,3}",
    "[A-Z][A-Z0-9]*",
    "4+",
    "T|\\s",
];

/// A rule at random, in the notation.
fn rule(dice: &mut Dice, name: &str) -> String {
    let parts: Vec<&str> = (0..dice.below(6)).map(|_| dice.pick(&PARTS)).collect();
    let template = if parts.is_empty() { "()".to_string() } else { parts.concat() };
    let mut text = format!("{name} = {template}\n");
    for field in ["a", "b", "c", "d"] {
        if template.contains(&format!("{{{field}}}")) && !dice.one_in(4) {
            text += &format!("  {field} = {}\n", dice.pick(&PATTERNS));
        }
    }
    text
}

/// The record of a rule in a catalogue.
fn record(text: &str) -> Vec<u8> {
    judged(&Source::new("made", text.as_bytes())).unwrap()[0].record()
}

/// A catalogue of this length with some rules; now and then with bytes changed so that it still is
/// one.
fn catalogue(dice: &mut Dice, length: usize) -> Vec<u8> {
    let mut bytes = Vec::new();
    for _ in 0..dice.below(8) {
        let record = record(&rule(dice, "r"));
        if bytes.len() + record.len() <= length {
            bytes.extend(record);
        }
    }
    let used = bytes.len();
    bytes.resize(length, 0);
    for _ in 0..if dice.one_in(3) { 40 } else { 0 } {
        let mut changed = bytes.clone();
        let Some(byte) = changed.get_mut(dice.below(used)) else {
            continue;
        };
        *byte = dice.below(72) as u8;
        if entries(&changed).is_some() {
            bytes = changed;
        }
    }
    bytes
}

/// The rules that `list` prints, each with its fields, without their numbers.
fn listed(path: &str, length: &str) -> Vec<String> {
    let said = call(&["list", "--bytes", length, path]);
    assert_eq!((said.status, said.errors.as_str()), (0, ""));
    let mut rules: Vec<String> = Vec::new();
    for line in said.text().lines().filter(|line| !line.starts_with('#')) {
        match (line.split_once(" = "), rules.last_mut()) {
            (Some((_, template)), _) if !line.starts_with(' ') => {
                rules.push(format!("{template}\n"))
            }
            (_, Some(rule)) => *rule += &format!("{line}\n"),
            _ => panic!("{line}"),
        }
    }
    rules
}

/// A file of rules with these, named by their numbers.
fn numbered(rules: &[String]) -> String {
    rules.iter().enumerate().map(|(number, rule)| format!("r{number} = {rule}")).collect()
}

/// The summary of a check or a recheck: all that is said behind the pairs.
fn summary(text: &str) -> String {
    text.lines().last().unwrap_or_default().to_string()
}

struct Tried<'a> {
    folder: &'a Folder,
    path: String,
    length: String,
    /// In how many cases something was met.
    met: Met,
}

#[derive(Debug, Default)]
struct Met {
    clashing: usize,
    open: usize,
    added: usize,
    refused: usize,
    full: usize,
    withdrawn: usize,
}

impl Tried<'_> {
    fn words<'w>(&'w self, words: &[&'w str]) -> Vec<&'w str> {
        [&words[..1], &["--bytes", &self.length, &self.path], &words[1..]].concat()
    }

    /// `recheck` says what `check` says of the rules that `list` prints.
    fn recheck(&mut self, rules: &[String]) {
        let again = call(&self.words(&["recheck", "--room", "90"]));
        if rules.is_empty() {
            assert_eq!(again.status, 0);
            return;
        }
        fs::write(self.folder.0.join("listed.rules"), numbered(rules)).unwrap();
        let checked = call(&["check", "--room", "90", &self.folder.path("listed.rules")]);
        assert_eq!(again.status, checked.status, "{again:?} {checked:?}");
        assert_eq!(summary(&again.text()), summary(&checked.text()));
        self.met.clashing += usize::from(again.status == 1);
        self.met.open += usize::from(again.status == 2);
    }

    /// `add` adds a rule exactly if no pair with it clashes or is open, by `check --against`.
    fn add(&mut self, rules: &[String], new: &str) {
        fs::write(self.folder.0.join("new.rules"), new).unwrap();
        let before = fs::read(&self.path).unwrap();
        let file = self.folder.path("new.rules");
        let said = call(&self.words(&["add", "--room", "90", &file, "new"]));
        if said.errors.contains("has no room for new") {
            assert_eq!((said.status, fs::read(&self.path).unwrap()), (3, before));
            self.met.full += 1;
            return;
        }
        let wanted = match rules {
            [] => 0,
            _ => {
                fs::write(self.folder.0.join("listed.rules"), numbered(rules)).unwrap();
                let base = self.folder.path("listed.rules");
                call(&["check", "--room", "90", "--against", &base, &file]).status
            }
        };
        // add tells the first pair that stands against the rule: a clash may be behind an open one
        assert!(
            said.status == wanted || (said.status, wanted) == (2, 1),
            "{said:?} {wanted} {new}"
        );
        if said.status == 0 {
            let now = listed(&self.path, &self.length);
            assert_eq!(now.len(), rules.len() + 1);
            assert_eq!(now[..rules.len()], *rules);
            self.met.added += 1;
        } else {
            assert_eq!(fs::read(&self.path).unwrap(), before);
            self.met.refused += 1;
        }
    }

    fn withdraw(&mut self, number: usize) {
        let mut rules = listed(&self.path, &self.length);
        let said = call(&self.words(&["withdraw", &number.to_string()]));
        if number < rules.len() {
            assert_eq!(said.status, 0, "{said:?}");
            rules.remove(number);
            self.met.withdrawn += 1;
        } else {
            assert_eq!(said.status, 3, "{said:?}");
        }
        assert_eq!(listed(&self.path, &self.length), rules);
    }
}

#[test]
fn catalogues_of_the_form() {
    let folder = Folder::new("form");
    let mut dice = Dice::new(34);
    let (length, path) = (120, folder.path("made.cat"));
    let mut tried =
        Tried { folder: &folder, path, length: length.to_string(), met: Met::default() };
    for number in 0..CATALOGUES {
        let bytes = catalogue(&mut dice, length);
        assert!(entries(&bytes).is_some(), "{number}: {bytes:?}");
        fs::write(&tried.path, &bytes).unwrap();
        let rules = listed(&tried.path, &tried.length);
        tried.recheck(&rules);
        assert_eq!(fs::read(&tried.path).unwrap(), bytes, "{number}");
        tried.add(&rules, &rule(&mut dice, "new"));
        tried.withdraw(dice.below(rules.len() + 2));
    }
    println!("{:?}", tried.met);
    let Met { clashing, added, refused, full, withdrawn, .. } = tried.met;
    for met in [clashing, added, refused, withdrawn] {
        assert!(met > CATALOGUES / 10, "{met}");
    }
    assert!(full > 0);
}
