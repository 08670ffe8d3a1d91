//! Many generated cases: the two modules agree, and all kinds come up.

mod table;

use std::collections::BTreeMap;

use second::cases::{After, Case};
use second::edition::{Edition, FIRST, SECOND};
use second::make::{case, long, Dice};
use second::storeroom::{by_first_letter, FINISHES};
use second::{printed, Outcome, CODE_39};

fn cases(seed: u64, number: usize) -> Vec<Case> {
    of_edition(FIRST, seed, number)
}

fn of_edition(edition: Edition, seed: u64, number: usize) -> Vec<Case> {
    let mut dice = Dice::of(seed, edition);
    (0..number).map(|_| case(&mut dice)).collect()
}

#[test]
fn the_two_modules_agree() {
    for case in [cases(1, 6000), of_edition(SECOND, 1, 6000)].concat() {
        assert_eq!(case.run(second::answer), case.run(second::scan::answer), "{case:?}");
    }
}

#[test]
fn all_answers_come_up() {
    for edition in [FIRST, SECOND] {
        let mut seen = BTreeMap::new();
        for case in of_edition(edition, 2, 6000) {
            *seen.entry(case.run(second::scan::answer).outcome.number).or_insert(0) += 1;
        }
        for number in [0, 1, 11, 12, 13, 14, 15, 16, 17, 18, 19, 20] {
            assert!(seen.get(&number).is_some_and(|&times| times >= 40), "{number}: {seen:?}");
        }
        let wrong_edition = seen.get(&44).copied().unwrap_or(0);
        assert!(if edition == FIRST { wrong_edition == 0 } else { wrong_edition >= 40 });
    }
}

#[test]
fn each_byte_that_shows_a_fault_comes_up() {
    [FIRST, SECOND].into_iter().for_each(each_byte_that_shows_a_fault_of);
}

fn each_byte_that_shows_a_fault_of(edition: Edition) {
    let mut seen = BTreeMap::new();
    for case in of_edition(edition, 7, 20_000) {
        let outcome = case.run(second::answer).outcome;
        match table::met(&case.sheet, b"", &[b"LE", b"RI"]) {
            Some(met) => {
                assert_eq!((outcome.number, outcome.place), (met.number, met.place), "{case:?}");
                *seen.entry((met.shown, met.later)).or_insert(0) += 1;
            }
            None => assert!(matches!(outcome.number, 0 | 1 | 18..=20), "{case:?}"),
        }
    }
    table::all_come_up(&seen, 10);
}

#[test]
fn long_patterns_come_up() {
    for edition in [FIRST, SECOND] {
        let mut seen = BTreeMap::new();
        for case in of_edition(edition, 8, 6000) {
            table::sizes(&case.sheet, edition.record, &mut seen);
        }
        table::all_sizes_come_up(&seen, 60, 15);
    }
}

/// The keypad maker's 40 finishes, in sheets that clash and in sheets that do
/// not.
#[test]
fn forty_finishes_come_up() {
    let finishes = by_first_letter(&FINISHES);
    let mut seen = BTreeMap::new();
    for case in cases(9, 12_000) {
        if case.sheet.windows(finishes.len()).any(|bytes| bytes == finishes) {
            let after = case.run(second::answer);
            assert_eq!(after, case.run(second::scan::answer));
            *seen.entry(after.outcome.number).or_insert(0) += 1;
        }
    }
    for number in [0, 1, 18, 20] {
        assert!(seen.get(&number).is_some_and(|&times| times >= 5), "{number}: {seen:?}");
    }
}

#[test]
fn the_long_ones_fill_the_room() {
    for case in long(356) {
        let after = case.run(second::answer);
        assert_eq!((after.outcome.number, after.outcome.count), (18, 356));
        assert_eq!(after, case.run(second::scan::answer));
    }
}

#[test]
fn the_printed_cases_tell_printers_apart() {
    // Of those that were stored before, the first one has strays.
    let before = printed::cases();
    assert_eq!(before[0].run(second::answer).lines(), "22 0 125\n");
    let cases = printed::kept_cases();
    assert_eq!(cases[1..], before[1..]);
    let outcomes: Vec<After> = cases.iter().map(|case| case.run(second::answer)).collect();
    for number in [0, 1, 11, 12, 13, 14, 15, 16, 17, 18, 19, 20] {
        assert!(outcomes.iter().any(|after| after.outcome.number == number), "{number}");
    }
    let every_sign = String::from_utf8(CODE_39.to_vec()).unwrap();
    assert!(outcomes.iter().any(|after| after.lines().contains(&every_sign)));
    // The first one, which the program `clash` is run on, has its end behind
    // 1,024 bytes, a text above 255 characters and an empty last one, and wants
    // all 356 situations.
    let Case { work, answer, sheet } = cases[0].clone();
    let lines = outcomes[0].lines();
    assert!(lines.starts_with("0 356 0\n") && lines.ends_with("\n7 \n"));
    assert!(lines.lines().any(|line| line.len() > 2 + 255));
    let other = |work, answer, sheet: &[u8]| {
        Case { work, answer, sheet: sheet.to_vec() }.run(second::answer).lines()
    };
    assert_eq!(other(work - 184, answer, &sheet), "18 355 0\n");
    assert_eq!(other(work - 1, answer, &sheet), "18 355 0\n");
    assert_eq!(other(work, 64, &sheet), "20 356 0\n");
    assert_eq!(other(work, answer, &sheet[..1_024]), "11 0 1024\n");
    // The last ones have a fault, some places above 255.
    let faults: Vec<String> = outcomes[15..].iter().map(After::lines).collect();
    let (cut_short, marks) = (["11 0 0\n", "11 0 1568\n"], ["12 0 6\n", "12 0 1372\n"]);
    let others = ["13 0 1570\n", "14 0 590\n", "15 0 11\n", "16 0 326\n", "17 0 202\n"];
    assert_eq!(faults, [&cut_short[..], &marks, &others].concat());
}

#[test]
fn cases_are_read_as_written() {
    let cases = cases(3, 200);
    let mut stream = Vec::new();
    for case in &cases {
        case.write(&mut stream);
    }
    let mut rest = &stream[..];
    for case in &cases {
        let (read, behind) = Case::read(rest).unwrap();
        assert_eq!(&read, case);
        rest = behind;
    }
    assert!(rest.is_empty());
}

#[test]
fn a_line_has_every_byte() {
    let line = |number, written, answer: &[u8], work: &[u8]| {
        let outcome = Outcome { number, count: 3, place: 0, written };
        After { edition: FIRST, outcome, answer: answer.to_vec(), work: work.to_vec() }.line()
    };
    assert_eq!(
        line(0, 2, &[86, 10, 165, 165], &[0, 0]),
        "0 3 0 2, written 56 0a, rest unchanged, work all zero"
    );
    assert_eq!(line(11, 0, &[], &[90]), "11 3 0 0, written, rest unchanged, work unchanged");
    assert_eq!(line(1, 0, &[165, 1], &[0, 9]), "1 3 0 0, written, rest a5 01, work 00 09");
    assert_eq!(line(0, 2, &[86], &[]), "0 3 0 2, more than the answer buffer 56, work all zero");
}
