//! Scripts of many generated sheets, in several layouts: each says its sheet,
//! and each damage is found. Memberships of other patterns are told apart from
//! the field's as the short texts say.

mod plain;

use plain::{parts, regular, script, takes, Layout, LAYOUTS};
use second::cases::Case;
use second::edition::{FIRST, SECOND};
use second::make::{case, Dice};
use second::pattern::{Allowed, Pattern, Places, MOST_LEAVES};
use second::sheet;
use second::smt::compare::says;
use second::smt::language::difference;
use second::smt::output::{check, Checked};
use second::smt::script::read;
use second::{storeroom, write, CODE_39};

/// Half of them of the first edition, half of the second.
fn cases(seed: u64, number: usize) -> Vec<Case> {
    let mut dice = [FIRST, SECOND].map(|edition| Dice::of(seed, edition));
    (0..number).map(|of| case(&mut dice[of % 2])).collect()
}

fn good(seed: u64, number: usize) -> Vec<Vec<u8>> {
    let sheets = cases(seed, number).into_iter().map(|case| case.sheet);
    sheets.filter(|bytes| sheet::read(bytes).is_ok()).collect()
}

fn says_it(script: &str, bytes: &[u8]) -> Result<(), String> {
    says(script.as_bytes(), &sheet::read(bytes).unwrap())
}

#[test]
fn each_script_says_its_sheet() {
    for (number, bytes) in good(11, 6_000).into_iter().enumerate() {
        let script = script(&bytes, LAYOUTS[number % LAYOUTS.len()]);
        assert_eq!(says_it(&script, &bytes), Ok(()), "{bytes:?}\n{script}");
    }
}

/// The script of one sheet says another one only where both ask the same.
#[test]
fn a_script_does_not_say_another_sheet() {
    let mut different = 0;
    for pair in good(12, 3_000).windows(2) {
        let (a, b) = (parts(&pair[0]), parts(&pair[1]));
        if (a.left, a.right) != (b.left, b.right) {
            different += 1;
            let script = script(&pair[0], LAYOUTS[0]);
            assert!(says_it(&script, &pair[1]).is_err(), "{:?}\n{script}", pair[1]);
        }
    }
    assert!(different > 1_000);
}

/// Each command taken out or doubled.
#[test]
fn each_command_left_out_or_doubled_is_found() {
    for bytes in good(13, 400) {
        let script = script(&bytes, LAYOUTS[0]);
        for part in commands(&script) {
            let (front, behind) = (&script[..part.start], &script[part.end..]);
            let without = [front, behind].concat();
            assert!(says_it(&without, &bytes).is_err(), "{without}");
            let doubled = [front, &script[part.clone()], &script[part.clone()], behind].concat();
            assert!(says_it(&doubled, &bytes).is_err(), "{doubled}");
        }
    }
}

/// Where each command stands.
fn commands(script: &str) -> Vec<std::ops::Range<usize>> {
    let mut parts = Vec::new();
    let (mut depth, mut inside, mut start) = (0, false, 0);
    for (at, sign) in script.char_indices() {
        inside ^= sign == '"';
        match sign {
            '(' if !inside => {
                start = if depth == 0 { at } else { start };
                depth += 1;
            }
            ')' if !inside => {
                depth -= 1;
                if depth == 0 {
                    parts.push(start..at + 1);
                }
            }
            _ => {}
        }
    }
    parts
}

// ----------------------------------------------------------------- languages

/// A small generator of patterns over few characters.
struct Few(u64);

impl Few {
    fn below(&mut self, n: u64) -> u64 {
        self.0 =
            self.0.wrapping_mul(6_364_136_223_846_793_005).wrapping_add(1_442_695_040_888_963_407);
        (self.0 >> 33) % n
    }

    fn pattern(&mut self, depth: u32) -> Pattern {
        let part = |few: &mut Few| Box::new(few.pattern(depth - 1));
        match if depth == 0 { self.below(3) } else { self.below(9) } {
            0 => Pattern::Empty,
            1 => Pattern::Leaf { lo: 9, hi: 10 },
            2 => {
                let value = 9 + self.below(3) as u8;
                Pattern::Leaf { lo: value, hi: value }
            }
            3 | 4 => Pattern::AnyTimes(part(self)),
            5 | 6 => Pattern::Or(part(self), part(self)),
            _ => Pattern::Then(part(self), part(self)),
        }
    }
}

/// All texts over three characters, the shortest first.
fn short_texts(longest: usize) -> Vec<Vec<u8>> {
    let mut texts: Vec<Vec<u8>> = vec![Vec::new()];
    let mut at = 0;
    while texts[at].len() < longest {
        let text = texts[at].clone();
        texts.extend((9..12).map(|value| [&text[..], &[value]].concat()));
        at += 1;
    }
    texts
}

fn leaves(pattern: &Pattern) -> usize {
    match pattern {
        Pattern::Empty => 0,
        Pattern::Leaf { .. } => 1,
        Pattern::Then(a, b) | Pattern::Or(a, b) => leaves(a) + leaves(b),
        Pattern::AnyTimes(a) => leaves(a),
    }
}

/// The script's regular expression for a pattern, read back.
fn read_back(pattern: &Pattern, layout: Layout) -> second::smt::regular::Regular {
    let script = format!(
        "(set-logic QF_S) (declare-const f0 String) (assert (= f0 f0))
         (assert (str.in_re f0 {})) (check-sat)",
        regular(FIRST, pattern, layout)
    );
    read(script.as_bytes()).unwrap().memberships.remove(0).1
}

#[test]
fn memberships_differ_as_their_short_texts_do() {
    const LONGEST: usize = 5;
    let texts = short_texts(LONGEST);
    let mut few = Few(7);
    let (mut same, mut too_many, mut too_few) = (0, 0, 0);
    for number in 0..4_000 {
        let (held, written) = (few.pattern(4), few.pattern(4));
        if leaves(&held) > MOST_LEAVES {
            continue;
        }
        let allowed = Allowed::Pattern(Box::new(Places::of(&held)));
        let membership = read_back(&written, LAYOUTS[number % LAYOUTS.len()]);
        let differs = |text: &&Vec<u8>| takes(&held, text) != takes(&written, text);
        let first = texts.iter().find(differs);
        match difference(FIRST, &membership, &allowed) {
            None => {
                assert_eq!(first, None, "{held:?} {written:?}");
                same += 1;
            }
            Some(found) => {
                let value = |&sign: &u32| CODE_39.iter().position(|&some| u32::from(some) == sign);
                let text: Option<Vec<u8>> =
                    found.text.iter().map(|sign| value(sign).map(|value| value as u8)).collect();
                let text = text.expect("a text of the 43 characters");
                assert_eq!(takes(&written, &text), found.too_many, "{held:?} {written:?}");
                assert_eq!(takes(&held, &text), !found.too_many, "{held:?} {written:?}");
                if text.len() <= LONGEST {
                    assert_eq!(first.map(Vec::len), Some(text.len()), "{held:?} {written:?}");
                }
                *(if found.too_many { &mut too_many } else { &mut too_few }) += 1;
            }
        }
    }
    assert!(same > 100 && too_many > 500 && too_few > 500, "{same} {too_many} {too_few}");
}

// -------------------------------------------------------------------- output

fn stream(cases: &[Case]) -> Vec<u8> {
    let mut stream = Vec::new();
    for case in cases {
        case.write(&mut stream);
    }
    stream
}

/// What is printed for a case.
fn printed(bytes: &[u8], layout: Layout) -> String {
    match sheet::read(bytes) {
        Err(fault) => format!("{} {} 0\n", fault.number, fault.place),
        Ok(_) => {
            let script = script(bytes, layout);
            format!("0 0 {}\n{script}0 40 0\n", script.len())
        }
    }
}

#[test]
fn many_cases_are_checked() {
    let cases = [cases(14, 2_000), storeroom::full_pairs()].concat();
    let output: Vec<String> = cases
        .iter()
        .enumerate()
        .map(|(number, case)| printed(&case.sheet, LAYOUTS[number % LAYOUTS.len()]))
        .collect();
    let refused = output.iter().filter(|printed| !printed.starts_with('0')).count();
    let checked = check(&stream(&cases), output.concat().as_bytes()).unwrap();
    assert_eq!(checked, Checked { scripts: cases.len() - refused, refused });
    assert!(refused > 300 && checked.scripts > 1_000, "{checked:?}");
    assert_eq!(
        checked.line(),
        format!("{} scripts say their sheets, {refused} sheets refused", checked.scripts)
    );
    // Every cut of the output is a difference, and so is a byte more.
    let (stream, output) = (stream(&cases[..4]), output[..4].concat());
    assert!(check(&stream, output.as_bytes()).is_ok());
    for cut in 0..output.len() {
        assert!(check(&stream, &output.as_bytes()[..cut]).is_err(), "{cut}");
    }
    for more in ["\n", "0", "0 0 0\n"] {
        let told = check(&stream, (output.clone() + more).as_bytes()).unwrap_err();
        assert_eq!(told, format!("{} bytes of output behind the last case", more.len()));
    }
}

/// The output for a good sheet and a faulty one, with one place changed.
fn told(from: &str, to: &str) -> String {
    let sheets = [write::sheet(&[], &[10], &[11]), b"LE\0RX\0".to_vec()];
    let cases = sheets.map(|sheet| Case { work: 0, answer: 0, sheet });
    let output = cases.iter().map(|case| printed(&case.sheet, LAYOUTS[0])).collect::<String>();
    assert!(check(&stream(&cases), output.as_bytes()).is_ok());
    assert_eq!(output.matches(from).count(), 1, "{from:?} in {output:?}");
    check(&stream(&cases), output.replace(from, to).as_bytes()).unwrap_err()
}

#[test]
fn the_first_case_that_differs_is_told() {
    let good = "\nsheet 4c 45 01 0a 52 49 01 0b";
    let faulty = "\nsheet 4c 45 00 52 58 00";
    let answered = |case, answer: &str, sheet| format!("case {case}: answer {answer}{sheet}");
    let is = "; the sheet's fault is 12, its place 3";
    assert_eq!(
        told("12 3 0", "12 4 0"),
        answered(2, &format!("12, place 4, written 0{is}"), faulty)
    );
    assert_eq!(
        told("12 3 0", "11 3 0"),
        answered(2, &format!("11, place 3, written 0{is}"), faulty)
    );
    assert_eq!(
        told("12 3 0", "12 3 1"),
        answered(2, &format!("12, place 3, written 1{is}"), faulty)
    );
    assert_eq!(told("12 3 0", "0 0 0"), answered(2, &format!("0, place 0, written 0{is}"), faulty));
    assert!(told("0 0 ", "0 1 ").contains("the sheet has no fault"));
    assert!(told("0 0 ", "40 0 ").contains("the sheet has no fault"));
    assert_eq!(
        told("\"A\"", "\"B\""),
        format!(
            "case 1: the left side's token 1 is \"B\" in the script and \"A\" in the sheet{good}"
        )
    );
    assert_eq!(
        told("0 40 0", "40 40 0"),
        format!("case 1: a buffer of exactly the script's bytes gives 40{good}")
    );
    assert_eq!(told("0 40 0", "0 0 0"), format!("case 1: a buffer of one byte less gives 0{good}"));
    assert_eq!(
        told("0 40 0", "0 40 3"),
        format!("case 1: 3 bytes of the short buffer changed{good}")
    );
    for line in ["0 40", "0 40 0 0", "0  40 0", "0 040 0", "+0 40 0", "0 40 0 ", "x", ""] {
        let words = format!("case 1: {line:?} is no line of three numbers{good}");
        assert_eq!(told("0 40 0", line), words);
    }
}

#[test]
fn a_stream_that_stops_inside_a_case() {
    let case = Case { work: 0, answer: 0, sheet: b"LE\0RX\0".to_vec() };
    let stream = stream(&[case]);
    assert!(check(&stream, b"12 3 0\n").is_ok());
    let told = check(&stream[..stream.len() - 1], b"12 3 0\n").unwrap_err();
    assert_eq!(told, "case 1: the stream stops inside it");
}
