//! Files mutated from good ones: the tool never fails on them, and shows every mistake at a place
//! inside of the file.

mod common;

use std::fs;

use bradovusc::{drop_strays, Edition, Mended};
use bradovusc_tool::ask::{Buffers, Room};
use bradovusc_tool::labels::{from_values, Column};
use bradovusc_tool::matching::Reader;
use bradovusc_tool::notation::join::joined;
use bradovusc_tool::notation::paint::Paint;
use bradovusc_tool::notation::{read, rule_text};
use bradovusc_tool::run::judged;
use bradovusc_tool::sides::{sheet, Side};
use bradovusc_tool::source::{Mistake, Source};
use bradovusc_tool::status::{problem_objects, problem_words, Problem};
use common::{files, golden, Dice};

const FILES: usize = 10_000;

/// Pieces that stand in rules, and some that don't.
const PIECES: [&str; 50] = [
    "{",
    "}",
    "[",
    "]",
    "(",
    ")",
    "|",
    "*",
    "+",
    "?",
    "\\",
    "^",
    "-",
    "=",
    "#",
    " ",
    "\t",
    "\n",
    "\r\n",
    "\n  ",
    "{n}",
    "{2,3}",
    "{9999}",
    "[^",
    "()",
    "\\s",
    "a",
    "Z",
    "0",
    "é",
    "\u{FEFF}",
    "\u{2028}",
    "\0",
    "x = ",
    "rule = ",
    "  x = A\n",
    "((((((((",
    "[0-9]",
    "{1,",
    "A|",
    "|B",
    "\\d",
    "%$/.",
    "{x}{y}",
    "full ascii\n",
    "\\<LF>",
    "\\<7F>",
    "\\<",
    "\\#",
    "[ -~]",
];

fn mutated(dice: &mut Dice, good: &[Vec<u8>]) -> Vec<u8> {
    let mut bytes = good[dice.below(good.len())].clone();
    let changes = if dice.one_in(3) { 8 } else { 2 };
    for _ in 0..1 + dice.below(changes) {
        let at = dice.below(bytes.len() + 1);
        let end = (at + 1 + dice.below(12)).min(bytes.len());
        match dice.below(8) {
            0 => drop(bytes.drain(at..end)),
            1 => bytes.truncate(at),
            2 => drop(bytes.splice(at..at, dice.pick(&PIECES).bytes())),
            3 => drop(bytes.splice(at..end, dice.pick(&PIECES).bytes())),
            4 => bytes.insert(at, dice.below(256) as u8),
            5 => {
                if let Some(byte) = bytes.get_mut(at) {
                    *byte ^= 1 << dice.below(8);
                }
            }
            6 => {
                let part = bytes[at..end].to_vec();
                let to = dice.below(bytes.len() + 1);
                bytes.splice(to..to, part.repeat(1 + dice.below(20)));
            }
            _ => {
                let other = &good[dice.below(good.len())];
                let from = dice.below(other.len() + 1);
                let part = &other[from..(from + 40).min(other.len())];
                bytes.splice(at..at, part.iter().copied());
            }
        }
    }
    bytes
}

/// The lines of a file, counted here once more: how many characters each has.
fn lengths(bytes: &[u8]) -> Vec<usize> {
    let bytes = bytes.strip_prefix("\u{FEFF}".as_bytes()).unwrap_or(bytes);
    let lines = bytes.split(|&byte| byte == b'\n').map(|line| {
        let line = line.strip_suffix(b"\r").unwrap_or(line);
        String::from_utf8_lossy(line).chars().count()
    });
    lines.collect()
}

fn inside(mistake: &Mistake, lengths: &[usize]) -> bool {
    let span = mistake.span;
    let length = span.line.checked_sub(1).and_then(|index| lengths.get(index));
    length.is_some_and(|length| {
        span.column >= 1 && span.width >= 1 && span.column + span.width - 1 <= *length
    })
}

#[test]
fn ten_thousand_files() {
    let paths = files(&golden("files"), "rules");
    let mut good: Vec<Vec<u8>> = paths.iter().map(|path| fs::read(path).unwrap()).collect();
    // what is taken often has many characters and few signs
    good.extend((0..8).map(|number| {
        let rule = format!("r{number} = {}{{x}}\n  x = [0-9A-F]*\n", "LT".repeat(number));
        (rule + "s = KEYPAD-4{y}-{y}  # a comment, in which anything may stand\n").into_bytes()
    }));
    let mut dice = Dice::new(21);
    let mut buffers = Buffers::new();
    let (mut taken, mut pairs, mut mistakes_seen) = (0, 0, 0);
    for number in 0..FILES {
        let bytes = mutated(&mut dice, &good);
        let lengths = lengths(&bytes);
        let source = Source::new("fuzzed", &bytes);
        if let Ok(rules) = read(&source) {
            let ascii = rules.first().is_some_and(|rule| rule.edition == Edition::FullAscii);
            let front = if ascii { "full ascii\n" } else { "" };
            let printed = front.to_string() + &rules.iter().map(rule_text).collect::<String>();
            let again = read(&Source::new("printed", printed.as_bytes()));
            assert!(again.is_ok_and(|again| again == rules), "{number}: {printed}");
        }
        match judged(source) {
            Ok(sides) => {
                taken += 1;
                for pair in sides.windows(2) {
                    let asked = buffers.ask(&pair[0], &pair[1], Room::Fixed(40));
                    assert!(
                        matches!(asked.answer.number(), 0 | 1 | 18 | 19),
                        "{number}: {asked:?}"
                    );
                    if let Some(shared) = &asked.shared {
                        assert_eq!(shared.label, pair[1].label(&shared.right), "{number}");
                        for side in pair {
                            let texts = Reader::new(side).unwrap().read(&shared.label);
                            let label = texts.map(|texts| side.label(&texts));
                            assert_eq!(label.as_ref(), Some(&shared.label), "{number}: {side:?}");
                        }
                    }
                    // no pattern is stray: the library has nothing to drop
                    let sheet = sheet(&pair[0], &pair[1]).unwrap();
                    let mut mended = vec![0; sheet.len()];
                    let written = Mended::Written { bytes: sheet.len() };
                    assert_eq!(drop_strays(&sheet, &mut mended), written, "{number}");
                    assert_eq!(mended, sheet, "{number}");
                    pairs += 1;
                }
            }
            Err(problem) => {
                let Problem::Mistakes(_, mistakes) = &problem else {
                    panic!("{number}: {problem:?}");
                };
                assert!(!mistakes.is_empty());
                for mistake in mistakes.iter() {
                    assert!(inside(mistake, &lengths), "{number}: {mistake:?} {bytes:?}");
                    assert!(!mistake.words.contains("stray"), "{number}: {mistake:?}");
                }
                mistakes_seen += mistakes.count();
                let more = usize::from(mistakes.count() > mistakes.len());
                assert!(problem_words(&problem, Paint::NONE).lines().count() > mistakes.len());
                assert_eq!(problem_objects(&problem).lines().count(), mistakes.len() + more);
            }
        }
    }
    println!("{taken} files taken, {pairs} pairs asked, {mistakes_seen} mistakes shown");
    assert!(taken > FILES / 20 && pairs > FILES / 20 && mistakes_seen > FILES / 2);
}

/// A file whose rules have other names.
fn renamed(text: &str) -> String {
    let is_rule = |line: &str| line.starts_with(|sign: char| sign.is_ascii_alphanumeric());
    let line = |line: &str| match is_rule(line) && !line.starts_with("full") {
        true => format!("other-{line}"),
        false => line.to_string(),
    };
    text.split_inclusive('\n').map(line).collect()
}

/// Two files as one have the rules of both, in their order, and all their comments.
#[test]
fn joined_files() {
    let paths = files(&golden("files"), "rules");
    let good: Vec<Vec<u8>> = paths.iter().map(|path| fs::read(path).unwrap()).collect();
    let mut dice = Dice::new(22);
    let (mut taken, mut texts): (usize, Vec<(String, Vec<Side>)>) = (0, Vec::new());
    for number in 0..FILES {
        let text = String::from_utf8_lossy(&mutated(&mut dice, &good)).into_owned();
        let Ok(sides) = judged(Source::new("f", text.as_bytes())) else { continue };
        let (base, base_sides) = match texts.is_empty() {
            true => (String::new(), Vec::new()),
            false => texts[dice.below(texts.len())].clone(),
        };
        let new = renamed(&text);
        if let Ok(new_sides) = judged(Source::new("f", new.as_bytes())) {
            let edition = |sides: &[Side]| sides.first().map(|side| side.edition);
            let both = joined(base.as_bytes(), new.as_bytes());
            if edition(&base_sides) == edition(&new_sides) {
                let read = judged(Source::new("f", &both)).unwrap();
                let wanted = [base_sides, new_sides].concat();
                assert_eq!(read.len(), wanted.len(), "{number}: {base:?} {new:?}");
                let same = read.iter().zip(&wanted).all(|(one, other)| one.is_as(other));
                assert!(same, "{number}: {base:?} {new:?}");
                taken += 1;
            }
            let signs = |text: &str| text.matches('#').count();
            assert_eq!(
                signs(&String::from_utf8_lossy(&both)),
                signs(&base) + signs(&new),
                "{number}"
            );
        }
        texts.push((text, sides));
    }
    println!("{taken} files joined");
    assert!(taken > FILES / 50, "{taken}");
}

/// Values in quotation marks or without them come back as they were written.
#[test]
fn columns_at_random() {
    let mut dice = Dice::new(23);
    let signs = ['A', 'B', ' ', ',', ';', '"', '\n', 'é'];
    for number in 0..3_000 {
        let (columns, separator) = (1 + dice.below(4), dice.pick(&[',', ';', '\t']));
        let rows: Vec<Vec<String>> = (0..dice.below(6))
            .map(|_| {
                let mut value =
                    || (0..dice.below(5)).map(|_| dice.pick(&signs)).collect::<String>();
                (0..columns).map(|_| value()).collect()
            })
            .collect();
        let mut text = String::new();
        for row in &rows {
            let written = |value: &String| {
                let must = value.contains(['"', '\n', separator]) || value.is_empty();
                match must || dice.one_in(3) {
                    true => format!("\"{}\"", value.replace('"', "\"\"")),
                    false => value.clone(),
                }
            };
            let values: Vec<String> = row.iter().map(written).collect();
            text += &values.join(&separator.to_string());
            text += dice.pick(&["\n", "\r\n"]);
        }
        let column = dice.below(columns);
        let title = (column + 1).to_string();
        let labels = from_values("f", text.as_bytes(), &Column { title, separator }).unwrap();
        let blank = |value: &&String| !value.trim_matches(' ').is_empty();
        let wanted = rows.iter().map(|row| &row[column]).filter(blank);
        assert!(labels.iter().map(|label| &label.text).eq(wanted), "{number}: {text:?}");
        // and whatever else stands there does no harm
        let broken: String = text.chars().filter(|_| !dice.one_in(9)).collect();
        let column = Column { title: "1".to_string(), separator: ',' };
        let _ = from_values("f", broken.as_bytes(), &column);
    }
}
