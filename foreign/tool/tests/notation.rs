//! Rules are printed so that they read back as the same, and their bytes take the same texts as
//! their patterns do.

mod common;

use std::collections::{BTreeSet, HashSet};
use std::fs;

use bradovusc_tool::compile::judge;
use bradovusc_tool::decompile::entries;
use bradovusc_tool::notation::{
    character_text, pattern_text, read, rule_text, Kind, Pattern, Place, Rule, Stands,
};
use bradovusc_tool::sides::Side;
use bradovusc_tool::source::Source;
use common::{files, golden, Dice};
use second::edition::{Edition, FIRST, SECOND};
use second::pattern::{Allowed, Pattern as Bytes, Places, ONLY_START};

fn rules(text: &str) -> Vec<Rule> {
    read(&Source::new("rules", text.as_bytes()))
        .unwrap_or_else(|mistakes| panic!("{text}: {mistakes:?}"))
}

/// The front of a file of an edition.
fn front(edition: Edition) -> &'static str {
    if edition == SECOND {
        "full ascii\n"
    } else {
        ""
    }
}

fn printed(rules: &[Rule]) -> String {
    let edition = rules.first().map_or(FIRST, |rule| of(rule.edition));
    front(edition).to_string() + &rules.iter().map(rule_text).collect::<String>()
}

/// The same edition in the second program.
fn of(edition: bradovusc::Edition) -> Edition {
    match edition {
        bradovusc::Edition::Code39 => FIRST,
        bradovusc::Edition::FullAscii => SECOND,
    }
}

/// Printing reads back, and is the same when it is done again.
fn round_trip(text: &str) {
    let first = rules(text);
    let once = printed(&first);
    let second = rules(&once);
    assert!(first == second, "{text}\n{once}");
    assert_eq!(once, printed(&second), "{text}");
}

#[test]
fn the_files_read_back() {
    let mut read_back = 0;
    for path in files(&golden("files"), "rules") {
        let text = fs::read_to_string(&path).unwrap();
        if read(&Source::new("rules", text.as_bytes())).is_ok() {
            round_trip(&text);
            read_back += 1;
        }
    }
    assert!(read_back >= 5);
}

#[test]
fn what_is_printed() {
    let cases = [
        ("[0-9][0-9]", "[0-9][0-9]"),
        (" BR | CH|SS ", "BR|CH|SS"),
        ("( A )", "A"),
        ("(AB)C", "ABC"),
        ("A|(B|C)", "A|B|C"),
        ("A(B|C)D", "A(B|C)D"),
        ("(AB)*", "(AB)*"),
        ("(A*)*", "(A*)*"),
        ("((A))+", "A+"),
        ("A{3}B{2,}C{2,4}D{0,1}E{0,}F{1,}G{1}", "A{3}B{2,}C{2,4}D?E*F+G{1}"),
        ("()", "()"),
        ("()|A", "()|A"),
        ("A()B", "AB"),
        ("()*", "()*"),
        ("\\s\\ \\.\\+\\-\\$\\/\\%-$/%", "\\s\\s\\.\\+-$/%-$/%"),
        (".", "."),
        ("[\\s-Z]", "."),
        ("[A-Z0-9]", "[0-9A-Z]"),
        ("[AB]", "[AB]"),
        ("[ABC]", "[A-C]"),
        ("[A]", "A"),
        ("[.]", "\\."),
        ("[-A]", "[A\\-]"),
        ("[A-]", "[A\\-]"),
        ("[--9]", "[0-9\\-./]"),
        ("[+-9]", "[0-9\\-./+]"),
        ("[+--]", "[\\-+]"),
        ("[^A]", "[^A]"),
        ("[^A-Z0-9]", "[^0-9A-Z]"),
        ("[^-]", "[^\\-]"),
        ("[^0-9]", "[^0-9]"),
    ];
    for (written, wanted) in cases {
        let rules = rules(&format!("r = {{x}}\n  x = {written}\n"));
        assert_eq!(pattern_text(rules[0].fields[0].pattern.as_ref().unwrap()), wanted, "{written}");
        round_trip(&format!("r = {{x}}\n  x = {written}\n"));
    }
    round_trip("r = ()\n");
    round_trip("r = 0\\s\\ -.$/+%Z{a-b_C9}{x}{a-b_C9}\\s  # and \u{e9}\n\t x=A\n");
    let every = "r = 0123456789ABCDEFGHIJKLMN\ns = OPQRSTUVWXYZ-.\\s$/+%\n";
    assert_eq!(printed(&rules(every)), every);
}

const SETS: [&str; 13] =
    ["A", "B", "0", "[0-9]", "[AB]", "[^A]", ".", "\\s", "\\.", "[+-9]", "-", "[A0]", "C"];

/// Those that only Full ASCII has.
const FULL_ASCII_SETS: [&str; 13] = [
    "a",
    "[a-z]",
    "[^a-zA-Z]",
    "\\<LF>",
    "[\\<00>-\\<US>\\<DEL>]",
    "\\#",
    "\\\\",
    "[\\]\\[\\^\\-]",
    "\\{",
    "\"",
    "<",
    "[!-~]",
    "~",
];

/// Every character, in each place.
#[test]
fn each_character_of_full_ascii() {
    let ascii = bradovusc::Edition::FullAscii;
    for value in 0..128 {
        let [alone, part, member] = [Place::Template, Place::Pattern, Place::Class]
            .map(|place| character_text(ascii, value, place));
        let text = format!(
            "full ascii\nr = {alone}{{x}}{alone}\n  x = {part}[{member}][{member}-{member}]\n"
        );
        let rule = rules(&text).remove(0);
        assert_eq!(rule.template[0].stands, Stands::Character(value), "{text}");
        let side = judge(&rule).unwrap();
        assert_eq!(side.patterns[0].1, [194, value, 194, value, value], "{text}");
        assert_eq!(side.tokens, [value, 192, value]);
        round_trip(&text);
        // by its code too
        let coded = format!("full ascii\nr = \\<{value:02X}>\n");
        assert_eq!(rules(&coded)[0].template[0].stands, Stands::Character(value));
    }
}

/// A pattern at random, in the notation.
fn pattern(dice: &mut Dice, edition: Edition, depth: usize) -> String {
    if depth == 0 || dice.one_in(4) {
        let sets = if edition == SECOND && dice.one_in(2) { FULL_ASCII_SETS } else { SETS };
        return dice.pick(&sets).to_string();
    }
    let parts = 2 + dice.below(3);
    let mut several = |between: &str| {
        let parts: Vec<String> = (0..parts).map(|_| pattern(dice, edition, depth - 1)).collect();
        format!("({})", parts.join(between))
    };
    match parts {
        2 => several(""),
        3 => several(" | "),
        _ => {
            let times =
                ["*", "+", "?", "{2}", "{0}", "{1,2}", "{0,3}", "{2,}", "|()", "|AB|AC|BB|BC"];
            let times = dice.pick(&times);
            format!("({}){times}", pattern(dice, edition, depth - 1))
        }
    }
}

#[test]
fn patterns_at_random_read_back() {
    let mut dice = Dice::new(1);
    for number in 0..2_000 {
        let edition = [FIRST, SECOND][number % 2];
        let pattern = pattern(&mut dice, edition, 4);
        round_trip(&format!("{}r = {{x}}\n  x = {pattern}\n", front(edition)));
    }
}

/// An automaton with empty steps, straight from what the notation says.
#[derive(Default)]
struct Automaton {
    empty: Vec<Vec<usize>>,
    steps: Vec<Option<(bradovusc_tool::notation::characters::Set, usize)>>,
}

impl Automaton {
    fn state(&mut self) -> usize {
        self.empty.push(Vec::new());
        self.steps.push(None);
        self.empty.len() - 1
    }

    /// From a state through the pattern to a new one.
    fn through(&mut self, pattern: &Pattern, from: usize) -> usize {
        let end = self.state();
        match &pattern.kind {
            Kind::Empty => self.empty[from].push(end),
            Kind::One(set) => {
                let start = self.state();
                self.empty[from].push(start);
                self.steps[start] = Some((*set, end));
            }
            Kind::Then(parts) => {
                let last = parts.iter().fold(from, |at, part| self.through(part, at));
                self.empty[last].push(end);
            }
            Kind::Or(parts) => {
                for part in parts {
                    let last = self.through(part, from);
                    self.empty[last].push(end);
                }
            }
            Kind::Repeat { part, least, most } => {
                let mut at = from;
                for _ in 0..*least {
                    at = self.through(part, at);
                }
                match most {
                    Some(most) => {
                        for _ in *least..*most {
                            self.empty[at].push(end);
                            at = self.through(part, at);
                        }
                        self.empty[at].push(end);
                    }
                    None => {
                        let turn = self.state();
                        self.empty[at].push(turn);
                        let last = self.through(part, turn);
                        self.empty[last].push(turn);
                        self.empty[turn].push(end);
                    }
                }
            }
        }
        end
    }

    fn closed(&self, states: BTreeSet<usize>) -> BTreeSet<usize> {
        let (mut all, mut waiting) = (states.clone(), Vec::from_iter(states));
        while let Some(state) = waiting.pop() {
            waiting.extend(self.empty[state].iter().copied().filter(|&next| all.insert(next)));
        }
        all
    }
}

/// Whether the pattern and the bytes take the same texts, all of them.
fn same_texts(edition: Edition, pattern: &Pattern, bytes: &[u8]) -> bool {
    let mut automaton = Automaton::default();
    let start = automaton.state();
    let end = automaton.through(pattern, start);
    let allowed = Allowed::Pattern(Box::new(Places::of(&Bytes::read(edition, bytes).unwrap())));
    let first = (automaton.closed(BTreeSet::from([start])), ONLY_START);
    let (mut seen, mut waiting) = (HashSet::from([first.clone()]), vec![first]);
    while let Some((states, places)) = waiting.pop() {
        if states.contains(&end) != allowed.may_end(places) {
            return false;
        }
        for value in 0..edition.characters {
            let step = |state: &usize| match automaton.steps[*state] {
                Some((set, next)) if set.has(value) => Some(next),
                _ => None,
            };
            let next = automaton.closed(states.iter().filter_map(step).collect());
            let next = (next, allowed.after(places, value));
            // an empty set of one has to be an empty one of the other only as far as texts go
            if seen.insert(next.clone()) {
                waiting.push(next);
            }
        }
    }
    true
}

fn leaves(bytes: &[u8]) -> usize {
    fn count(pattern: &Bytes) -> usize {
        match pattern {
            Bytes::Empty => 0,
            Bytes::Leaf { .. } => 1,
            Bytes::Then(a, b) | Bytes::Or(a, b) => count(a) + count(b),
            Bytes::AnyTimes(a) => count(a),
        }
    }
    count(&Bytes::read(FIRST, bytes).unwrap())
}

/// The rule with one field of this pattern, if the library takes it.
fn one_field(text: &str) -> Option<(Pattern, Side)> {
    one_field_of(FIRST, text)
}

fn one_field_of(edition: Edition, text: &str) -> Option<(Pattern, Side)> {
    let rule = rules(&format!("{}r = {{x}}\n  x = {text}\n", front(edition))).remove(0);
    let side = judge(&rule).ok()?;
    Some((rule.fields[0].pattern.clone().unwrap(), side))
}

#[test]
fn bytes_take_the_same_texts() {
    let mut dice = Dice::new(2);
    let mut taken = 0;
    for number in 0..2_000 {
        let edition = [FIRST, SECOND][number % 2];
        let text = pattern(&mut dice, edition, 3);
        if let Some((pattern, side)) = one_field_of(edition, &text) {
            assert!(same_texts(edition, &pattern, &side.patterns[0].1), "{text}");
            taken += 1;
        }
    }
    assert!(taken > 1_400, "{taken}");
}

/// Words at random, of few letters, so that many begin alike.
fn words(dice: &mut Dice) -> String {
    let parts = ["A", "B", "C", "[AB]", "0", "A?", "(B|C)"];
    let word =
        |dice: &mut Dice| -> String { (0..dice.below(4)).map(|_| dice.pick(&parts)).collect() };
    let words: Vec<String> = (0..2 + dice.below(12)).map(|_| word(dice)).collect();
    let words: Vec<&str> =
        words.iter().map(|word| if word.is_empty() { "()" } else { word.as_str() }).collect();
    words.join("|")
}

#[test]
fn grouped_words_are_the_same_words() {
    let mut dice = Dice::new(3);
    for _ in 0..1_500 {
        let text = words(&mut dice);
        let (pattern, side) = one_field(&text).unwrap_or_else(|| panic!("{text}"));
        assert!(same_texts(FIRST, &pattern, &side.patterns[0].1), "{text}");
    }
}

#[test]
fn leaves_that_are_saved() {
    let cases = [
        ("BR|CH|SS", 6),
        ("A|B|C", 1),
        ("A|C", 2),
        ("BR|BS|CR|CS", 2),
        ("BR|BT|CR", 5),
        ("A|AB", 2),
        ("A|A", 1),
        ("[0-9A-Z]", 1),
        ("[0-9]|[A-Z]", 1),
        ("[A-Z0-9\\-.]", 1),
        ("[+-9]", 3),
        ("A+", 2),
        ("A*|()", 1),
        ("(A?)+", 1),
        ("(A*)*", 1),
        ("A{2,4}", 4),
        ("[0-9]{4}", 4),
        ("LT[0-9]|LT[A-F]", 3),
    ];
    for (text, wanted) in cases {
        let (pattern, side) = one_field(text).unwrap();
        assert_eq!(leaves(&side.patterns[0].1), wanted, "{text}");
        assert!(same_texts(FIRST, &pattern, &side.patterns[0].1), "{text}");
    }
    // all words of two digits or letters: 2,592 leaves as they are written
    let signs = || ('0'..='9').chain('A'..='Z');
    let words: Vec<String> =
        signs().flat_map(|a| signs().map(move |b| format!("{a}{b}"))).collect();
    let (_, side) = one_field(&words.join("|")).unwrap();
    assert_eq!(side.patterns[0].1, [66, 65, 0, 35, 65, 0, 35]);
    let finishes = fs::read_to_string(golden("files/finishes.rules")).unwrap();
    let side = judge(&rules(&finishes)[0]).unwrap();
    assert!(leaves(&side.patterns[0].1) < 63);
}

/// Listed rules are printed so that they read back, and mean what they meant.
#[test]
fn rules_of_a_catalogue_read_back() {
    let mut dice = Dice::new(4);
    for _ in 0..500 {
        let text = if dice.one_in(2) { pattern(&mut dice, FIRST, 3) } else { words(&mut dice) };
        let Some((pattern, side)) = one_field(&text) else {
            continue;
        };
        let entry = entries(&side.record()).unwrap().remove(0);
        let printed = rule_text(&entry.rule);
        let again = rules(&printed).remove(0);
        assert!(again == entry.rule, "{printed}");
        let side = judge(&again).unwrap_or_else(|mistake| panic!("{text}: {printed}: {mistake:?}"));
        assert!(same_texts(FIRST, &pattern, &side.patterns[0].1), "{text}: {printed}");
    }
}
