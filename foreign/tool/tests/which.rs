//! `which`: labels are matched as the library decides, and told from words, lines and columns.

mod common;

use std::collections::BTreeSet;
use std::fs;

use bradovusc::Edition;
use bradovusc_tool::ask::{Buffers, Room};
use bradovusc_tool::matching::Reader;
use bradovusc_tool::run::judged;
use bradovusc_tool::sides::{Side, Text, Title};
use bradovusc_tool::source::Source;
use common::{call, call_with, golden, Dice, Folder};
use second::edition::{FIRST, SECOND};
use second::pattern::{Allowed, Pattern, Places, ONLY_START};

/// Patterns that take much or little, the empty text and spaces among them.
const PATTERNS: [&str; 16] = [
    "[AB]*",
    "A+",
    "(AB)*",
    "A|AB|ABA",
    "()",
    "A?",
    ".{2}",
    "\\s*",
    "\\s{2}",
    "A\\s*",
    "(A\\s|B)*",
    "\\s{3}|A",
    "[^A]+",
    "(A|B\\s?){1,3}",
    "(AA|AAA)*",
    "\\s\\s*",
];

/// A rule of up to four fields, some of them twice or more.
fn rule(dice: &mut Dice, edition: Edition) -> Side {
    let names = ["w", "x", "y", "z"];
    let fields = 1 + dice.below(names.len());
    let mut template = String::new();
    for _ in 0..1 + dice.below(7) {
        template += &match dice.below(3) {
            0 => dice.pick(&["A", "B", "\\s", "AB"]).to_string(),
            _ => format!("{{{}}}", dice.pick(&names[..fields])),
        };
    }
    let front = if edition == Edition::FullAscii { "full ascii\n" } else { "" };
    let mut text = format!("{front}r = {template}\n");
    for name in names.iter().filter(|name| template.contains(&format!("{{{name}}}"))) {
        if !dice.one_in(4) {
            text += &format!("  {name} = {}\n", dice.pick(&PATTERNS));
        }
    }
    judged(Source::new("r", text.as_bytes())).unwrap().remove(0)
}

/// A label that the rule may make, if the texts are good: the same field has the same text.
fn label(dice: &mut Dice, side: &Side) -> String {
    let text = |dice: &mut Dice| -> String {
        (0..dice.below(4)).map(|_| dice.pick(&['A', 'A', 'B', ' '])).collect()
    };
    let texts: Vec<Text> = (0..4)
        .map(|field| {
            let values = text(dice).chars().filter_map(|sign| side.edition.value(sign)).collect();
            Text { field, values }
        })
        .collect();
    let mut label = side.edition.text(&side.label(&texts));
    if dice.one_in(4) && !label.is_empty() {
        let at = dice.below(label.len());
        label.replace_range(at..at + 1, dice.pick(&["A", "B", " ", "", "AB"]));
    }
    label + &" ".repeat(dice.below(3))
}

/// The label as a rule without fields.
fn fixed(edition: Edition, label: &str) -> Side {
    let mut tokens: Vec<u8> = label.chars().filter_map(|sign| edition.value(sign)).collect();
    bradovusc_tool::sides::without_spaces(edition, &mut tokens);
    let title = Title::Name("label".to_string());
    Side { edition, title, place: None, patterns: Vec::new(), tokens, fields: Vec::new() }
}

/// Whether the field's pattern takes the text, by the second program.
fn takes(side: &Side, text: &Text) -> bool {
    let edition = if side.edition == Edition::FullAscii { SECOND } else { FIRST };
    let allowed = match side.patterns.iter().find(|(field, _)| *field == text.field) {
        None => Allowed::Open(edition.all()),
        Some((_, bytes)) => {
            Allowed::Pattern(Box::new(Places::of(&Pattern::read(edition, bytes).unwrap())))
        }
    };
    let after = |set, &character: &u8| allowed.after(set, character);
    allowed.may_end(text.values.iter().fold(ONLY_START, after))
}

/// Whether some texts make the label, by trying all parts of it with spaces behind; none where these are
/// too many.
fn tried(side: &Side, label: &[u8]) -> Option<bool> {
    let long = [label, &[side.edition.space(); 4]].concat();
    let parts: BTreeSet<&[u8]> = (0..=long.len())
        .flat_map(|end| (0..=end).map(move |start| (start, end)))
        .map(|(start, end)| &long[start..end])
        .collect();
    let all = |&(field, _): &(u8, String)| -> Vec<Text> {
        let text = |part: &&[u8]| Text { field, values: part.to_vec() };
        parts.iter().map(text).filter(|text| takes(side, text)).collect()
    };
    let choices: Vec<Vec<Text>> = side.fields.iter().map(all).collect();
    let ways: usize = choices.iter().map(Vec::len).product();
    let makes = |mut way: usize| {
        let texts = choices.iter().map(|texts| {
            let text = texts[way % texts.len()].clone();
            way /= texts.len();
            text
        });
        side.label(&texts.collect::<Vec<_>>()) == label
    };
    (ways < 20_000).then(|| (0..ways).any(makes))
}

/// A label that a rule reads is one that it makes, as the library decides of the rule and the label.
#[test]
fn as_the_library_decides() {
    let (mut dice, mut buffers) = (Dice::new(40), Buffers::new());
    let (mut read, mut not_read, mut open) = (0, 0, 0);
    for number in 0..2_500 {
        let edition = if number % 3 == 0 { Edition::FullAscii } else { Edition::Code39 };
        let side = rule(&mut dice, edition);
        let reader = Reader::new(&side).unwrap();
        for _ in 0..6 {
            let label = label(&mut dice, &side);
            let fixed = fixed(edition, &label);
            if fixed.tokens.len() > 24 {
                continue;
            }
            let asked = buffers.ask(&side, &fixed, Room::Fixed(1_000));
            let values: Vec<u8> = label.chars().map(|sign| edition.value(sign).unwrap()).collect();
            let texts = reader.read(&values);
            // where a field stands twice the library may search without an end
            let tried = || tried(&side, &fixed.tokens);
            match asked.answer.clashes().or_else(tried) {
                Some(wanted) => assert_eq!(texts.is_some(), wanted, "{number}: {side:?} {label:?}"),
                None => open += 1,
            }
            match texts {
                None => not_read += 1,
                Some(texts) => {
                    read += 1;
                    assert_eq!(side.label(&texts), fixed.tokens, "{number}: {side:?} {label:?}");
                    assert!(texts.iter().all(|text| takes(&side, text)), "{side:?} {texts:?}");
                    assert_eq!(texts.len(), side.fields.len());
                }
            }
        }
    }
    println!("{read} labels read, {not_read} not; of {open} nothing else is known");
    assert!(read > 2_000 && not_read > 2_000 && open < 500, "{read} {not_read} {open}");
}

/// Long labels and rules that can be read in very many ways take no time to speak of.
#[test]
fn no_blow_up() {
    let rules = "open = {w}{x}{y}{z}B\nstars = {w}{x}{y}{z}B\n  w = (A|AA)*\n  x = (A*)*\n  \
                 y = (A?A?)*\n  z = A*\ntwice = {w}-{x}{w}{y}B\n  w = A*\n";
    let folder = Folder::new("blow-up");
    fs::write(folder.0.join("many.rules"), rules).unwrap();
    let begun = std::time::Instant::now();
    let label = "A".repeat(300) + "-" + &"A".repeat(900);
    let said = call(&["which", &folder.path("many.rules"), &label, &(label.clone() + "B")]);
    assert_eq!(said.status, 1, "{}", said.errors);
    let last = "2 labels: 0 read by one rule, 1 by several, 1 by none\n";
    assert!(said.text().ends_with(last), "{}", said.text());
    assert!(begun.elapsed().as_secs() < 20, "{:?}", begun.elapsed());
    let long = "A".repeat(4_097);
    let said = call(&["which", &folder.path("many.rules"), &long]);
    assert_eq!(said.status, 3);
    assert!(said.errors.ends_with("a label of 4,097 characters: the most are 4,096\n"));
}

/// Each label of a clash that is found is read by both rules.
#[test]
fn labels_of_clashes_are_read_by_both() {
    for file in ["latch.rules", "spaces.rules", "ascii.rules", "finishes.rules", "dropped.rules"] {
        let source = Source::new("f", &fs::read(golden("files").join(file)).unwrap());
        let sides = judged(source).unwrap();
        let mut clashes = 0;
        for (left, right) in sides.iter().flat_map(|left| sides.iter().map(move |to| (left, to))) {
            if let Some(shared) = Buffers::new().ask(left, right, Room::Growing).shared {
                clashes += 1;
                for side in [left, right] {
                    let texts = Reader::new(side).unwrap().read(&shared.label).unwrap();
                    assert_eq!(side.label(&texts), shared.label);
                }
            }
        }
        assert!(clashes > 0, "{file}");
    }
}

#[test]
fn labels_from_lines() {
    let rules = golden("files/latch.rules").display().to_string();
    let input = b"LT00BR\r\n\n   \nKP7-7  \nKP7-8\n\xFF\n";
    for words in [&["which", &rules][..], &["which", &rules, "-"]] {
        let said = call_with(words, input);
        assert_eq!(said.status, 1, "{}", said.errors);
        let text = said.text();
        let fronts: Vec<&str> = text.lines().filter(|line| line.starts_with("-:")).collect();
        assert_eq!(fronts.len(), 4, "{text}");
        assert!(fronts[0].starts_with("-:1: \"LT00BR\" is read by 2 rules"));
        assert!(fronts[1].starts_with("-:4: \"KP7-7  \" is read by keypad"));
        assert_eq!(fronts[2], "-:5: \"KP7-8\" is read by no rule");
        assert!(fronts[3].ends_with("is no character of Code 39"));
        let last = "4 labels: 1 read by one rule, 1 by several, 2 by none\n";
        assert!(text.ends_with(last), "{text}");
    }
    // the empty label is asked for by a word
    let said = call(&["which", &golden("files/spaces.rules").display().to_string(), ""]);
    assert_eq!(said.status, 1);
    assert!(said.text().starts_with("\"\" is read by 2 rules, a clash at hand:\n"));
}

#[test]
fn labels_from_a_column() {
    let folder = Folder::with_files("column");
    let rules = folder.path("latch.rules");
    fs::write(folder.0.join("parts.csv"), "part;label\nlatch;KP7-7\n\"a; b\";\"LT00BR\"\n")
        .unwrap();
    let csv = folder.path("parts.csv");
    let words = ["which", &rules, "--csv", &csv, "--separator", ";", "--column"];
    for column in ["label", "2"] {
        let said = call(&[&words[..], &[column]].concat());
        assert_eq!(said.status, 1, "{}", said.errors);
        assert!(said.text().contains(&format!("{csv}:3: \"LT00BR\" is read by 2 rules")));
    }
    let said = call_with(&["which", &rules, "--csv", "-", "--column", "1"], b"KP1-1,x\n");
    assert_eq!((said.status, said.errors.as_str()), (0, ""));
    for (words, wanted) in [
        (&["which", &rules, "--csv", &csv][..], "--csv goes with --column"),
        (&["which", &rules, "--column", "2"], "--column goes with --csv"),
        (&["which", &rules, "A", "--csv", &csv, "--column", "2"], "not from both"),
        (&["which", &rules, "--csv", &rules, "--column", "label"], "no column 'label'; there is"),
        (&["which", &rules, "--csv", &csv, "--column", "1"], "behind a value in quotation marks"),
        (&["which", "-"], "can't both come from standard input"),
        (&["which", &rules, "--separator", ";;", "A"], "--separator takes one sign"),
    ] {
        let said = call(words);
        assert_eq!(said.status, 3, "{words:?}");
        assert!(said.errors.contains(wanted), "{words:?} {}", said.errors);
    }
}
