//! Carrying over as an operation on a catalogue: what is told, the buffer, and
//! the pairs afterwards, by trying short texts.

mod table;

use std::collections::{BTreeMap, BTreeSet};

use second::calls::{After, Call, Calls, Operation};
use second::catalogue::HASHING;
use second::edition::{Edition, FIRST, SECOND};
use second::make::calls::operations;
use second::make::{spelt, Dice};
use second::write;

const A: u8 = 10;
const B: u8 = 11;
const SPACE: u8 = 38;
const X: u8 = 64;
const Y: u8 = 65;

/// The record that is added.
fn added(field: u8) -> (u8, Vec<u8>) {
    (field, vec![68, 65, 0, 42])
}

/// A catalogue of so many bytes that begins with these rules.
fn calls(length: usize, rules: &[Vec<u8>]) -> Calls {
    let mut calls = Calls::new(HASHING);
    assert!(calls.run(&Operation::Catalogue { length, front: rules.concat() }).is_none());
    calls
}

fn carry(calls: &mut Calls) -> (u8, After) {
    match calls.run(&Operation::Carry) {
        Some(after @ After { call: Call::Carry { number }, .. }) => (number, after),
        other => panic!("{other:?}"),
    }
}

// ------------------------------------------------------------------ by hand

#[test]
fn an_operation_of_two_bytes() {
    assert_eq!(Operation::read(b"SO"), Some((Operation::Carry, &b""[..])));
    assert_eq!(Operation::read(b"SOWI\x00"), Some((Operation::Carry, &b"WI\x00"[..])));
    for other in [&b""[..], b"S", b"so", b"OS", b"SP\x00"] {
        assert_eq!(Operation::read(other), None);
    }
    let mut stream = Vec::new();
    Operation::Carry.write(&mut stream);
    assert_eq!(stream, b"SO");
}

#[test]
fn lines() {
    let old = [write::rule(&[], &[A, Y])];
    let mut kept = calls(18, &old);
    let (number, after) = carry(&mut kept);
    assert_eq!(number, 0);
    assert_eq!(after.numbers(), "carry 0");
    let line = "carry 0, catalogue 52 55 50 41 01 04 44 41 00 2a 4c 45 02 0a 41, zeros 3";
    assert_eq!(after.line(), line);
    // Once more, and nothing is added.
    assert_eq!(carry(&mut kept).1.line(), line);
    let after = carry(&mut calls(14, &old)).1;
    assert_eq!(after.numbers(), "carry 32");
    assert_eq!(after.line(), "carry 32, catalogue 52 55 4c 45 02 0a 41, zeros 7");
    let after = carry(&mut calls(9, &[b"RULE\x01\x40\x01".to_vec()])).1;
    assert_eq!(after.numbers(), "carry 34");
    assert_eq!(after.line(), "carry 34, catalogue 52 55 4c 45 01 40 01, zeros 2");
    let after = carry(&mut calls(0, &[])).1;
    assert_eq!(after.line(), "carry 0, catalogue, zeros 0");
}

#[test]
fn the_three_answers() {
    let old = [write::rule(&[], &[X, A, Y]), write::rule(&[(0, vec![4])], &[X, 66])];
    let new = [
        write::rule(&[added(0), added(1)], &[X, A, Y]),
        write::rule(&[(0, vec![4]), added(2)], &[X, 66]),
    ];
    let (before, needed) = (old.concat().len(), new.concat().len());
    assert_eq!(needed, before + 24);
    for length in before..needed + 9 {
        let mut kept = calls(length, &old);
        let lent = kept.catalogue.clone();
        let (number, after) = carry(&mut kept);
        assert_eq!(after.catalogue, kept.catalogue);
        if length < needed {
            assert_eq!((number, &kept.catalogue), (32, &lent));
        } else {
            assert_eq!((number, &kept.catalogue), (0, &calls(length, &new).catalogue));
        }
    }
    // 34 comes before 32.
    let other_form = [old[0].clone(), write::rule(&[], &[68])];
    let mut kept = calls(other_form.concat().len(), &other_form);
    let lent = kept.catalogue.clone();
    assert_eq!(carry(&mut kept).0, 34);
    assert_eq!(kept.catalogue, lent);
}

#[test]
fn a_full_catalogue() {
    // 32 rules, every one with a record more.
    let rule = |patterns: &[(u8, Vec<u8>)], first| write::rule(patterns, &[first, X]);
    let old: Vec<Vec<u8>> = (0..32).map(|first| rule(&[], first)).collect();
    let new: Vec<Vec<u8>> = (0..32).map(|first| rule(&[added(0)], first)).collect();
    for (length, number) in [(32 * 15, 0), (32 * 15 - 1, 32), (8_192, 0), (32 * 7, 32)] {
        let mut kept = calls(length, &old);
        assert_eq!(carry(&mut kept).0, number);
        let expected = if number == 0 { &new } else { &old };
        assert_eq!(kept.catalogue, calls(length, expected).catalogue);
    }
}

#[test]
fn rules_are_added_and_withdrawn_behind_it() {
    let mut kept = calls(100, &[write::rule(&[], &[A, X, B])]);
    let add = |calls: &mut Calls, tokens: &[u8]| {
        calls.run(&Operation::Add(write::rule(&[], tokens))).unwrap().numbers()
    };
    // `AB` is none of its labels before, and one of them behind.
    assert_eq!(add(&mut kept, &[A, B]), "add 0 0 0 0 0");
    assert_eq!(kept.run(&Operation::Withdraw(1)).unwrap().numbers(), "withdraw 0");
    assert_eq!(carry(&mut kept).0, 0);
    assert_eq!(add(&mut kept, &[A, B]), "add 30 10 0 0 0");
    // A rule added now has the present meaning.
    assert_eq!(add(&mut kept, &[B, X]), "add 0 0 0 0 0");
    // `B` and a space; as x and the empty side.
    assert_eq!(add(&mut kept, &[B]), "add 30 9 0 1 0");
    assert_eq!(kept.run(&Operation::Withdraw(0)).unwrap().numbers(), "withdraw 0");
    assert_eq!(kept.catalogue, calls(100, &[write::rule(&[], &[B, X])]).catalogue);
}

// ------------------------------------------------------------ many operations

#[test]
fn many_operations() {
    let mut calls = Calls::new(HASHING);
    let mut seen = BTreeMap::new();
    let (mut all, mut carried) = (0, 0);
    for operation in operations(&mut Dice::new(41), 6_000) {
        all += usize::from(!matches!(operation, Operation::Catalogue { .. } | Operation::Work(_)));
        if operation != Operation::Carry {
            calls.run(&operation);
            continue;
        }
        carried += 1;
        let before = calls.catalogue.clone();
        let (number, after) = carry(&mut calls);
        assert_eq!(after.catalogue, calls.catalogue);
        assert_eq!(before.len(), calls.catalogue.len());
        if number != 0 {
            assert_eq!(calls.catalogue, before);
        } else {
            // Again, there is nothing to add.
            let (again, after) = carry(&mut calls);
            assert_eq!((again, &after.catalogue), (0, &calls.catalogue));
            assert_eq!(calls.catalogue, after.catalogue);
        }
        let rules = second::catalogue::read(&before).map_or(0, |present| present.len());
        let exact = calls.catalogue.last().is_some_and(|&byte| byte != 0);
        *seen.entry((number, calls.catalogue != before, rules >= 31)).or_insert(0) += 1;
        *seen.entry((100, number == 0, exact)).or_insert(0) += 1;
    }
    // Carried over with something added and without, refused, each of them with
    // 31 rules or 32 too; and buffers of which the last byte is used.
    let few = [(0, false, false), (0, true, false), (32, false, false), (34, false, false)];
    let full = [(0, false, true), (0, true, true), (32, false, true)];
    let exact = [(100, true, true), (100, false, true)];
    for kind in few.into_iter().chain(full).chain(exact) {
        let times = seen.get(&kind).copied().unwrap_or(0);
        assert!(times >= 5, "{kind:?}: {seen:?}");
    }
    // A few in a hundred.
    assert!((2..10).contains(&(100 * carried / all)), "{carried} of {all}");
}

// ------------------------------------------------------------- by short texts

/// Every side of at most two tokens, and some of three.
fn sides() -> Vec<Vec<u8>> {
    let tokens = [A, B, X, Y];
    let mut sides = vec![vec![]];
    for first in tokens {
        sides.push(vec![first]);
        for second in tokens {
            sides.push(vec![first, second]);
            sides.extend([vec![first, X, second], vec![A, first, second]]);
        }
    }
    sides
}

/// The labels of a side, its fields having these texts; without the spaces at
/// their ends.
fn labels(side: &[u8], texts: &[Vec<u8>]) -> BTreeSet<Vec<u8>> {
    let mut labels = BTreeSet::new();
    for x in texts {
        for y in texts {
            let mut label = Vec::new();
            for &token in side {
                match token {
                    X => label.extend_from_slice(x),
                    Y => label.extend_from_slice(y),
                    _ => label.push(token),
                }
            }
            while label.last() == Some(&SPACE) {
                label.pop();
            }
            labels.insert(label);
        }
    }
    labels
}

/// Texts of at most three characters, the empty one first.
fn texts() -> Vec<Vec<u8>> {
    let mut texts = vec![vec![]];
    let mut from = 0;
    for _ in 0..3 {
        let shorter = texts[from..].to_vec();
        from = texts.len();
        let longer = |text: &Vec<u8>| [A, B, SPACE].map(|more| [&text[..], &[more]].concat());
        texts.extend(shorter.iter().flat_map(longer));
    }
    texts
}

/// The answer to the only pair of a catalogue of two rules.
fn pair(calls: &mut Calls) -> u8 {
    match calls.run(&Operation::Recheck(5)) {
        Some(After { call: Call::Recheck { told, list, .. }, .. }) if told.number == 0 => {
            assert!(told.pairs <= 1);
            if told.pairs == 0 {
                1
            } else {
                list[2]
            }
        }
        other => panic!("{other:?}"),
    }
}

#[test]
fn pairs_have_the_old_meaning_afterwards() {
    let (sides, texts) = (sides(), texts());
    let with_labels: Vec<_> =
        sides.iter().map(|side| (side, labels(side, &texts), labels(side, &texts[1..]))).collect();
    let mut seen = BTreeMap::new();
    for (left, old_left, new_left) in &with_labels {
        for (right, old_right, new_right) in &with_labels {
            let mut kept = calls(64, &[write::rule(&[], left), write::rule(&[], right)]);
            let before = pair(&mut kept);
            assert_eq!(carry(&mut kept).0, 0);
            let after = pair(&mut kept);
            // A text of three characters is enough for a clash here.
            let clash = |some: &BTreeSet<Vec<u8>>, others| !some.is_disjoint(others);
            let expected =
                [(before, clash(new_left, new_right)), (after, clash(old_left, old_right))];
            for (answer, clash) in expected {
                match answer {
                    0 => assert!(clash, "{left:?} {right:?}"),
                    1 => assert!(!clash, "{left:?} {right:?}"),
                    other => assert!([18, 19].contains(&other)),
                }
            }
            *seen.entry((before, after)).or_insert(0) += 1;
        }
    }
    for kind in [(0, 0), (1, 1), (1, 0)] {
        assert!(seen.get(&kind).is_some_and(|&times| times >= 30), "{kind:?}: {seen:?}");
    }
    assert!(!seen.contains_key(&(0, 1)));
}

// ------------------------------------------------- faults of what is carried over

/// The faults of the sheets and rules that are made, looked for once more.
#[test]
fn each_byte_that_shows_a_fault_comes_up() {
    [FIRST, SECOND].into_iter().for_each(each_byte_that_shows_a_fault_of);
}

fn each_byte_that_shows_a_fault_of(edition: Edition) {
    let mut dice = Dice::of(42, edition);
    let mut seen = BTreeMap::new();
    for _ in 0..40_000 {
        let case = spelt::case(&mut dice);
        let is_rule = case.sheet.starts_with(b"RU");
        let (front, sides): (&[u8], &[&[u8; 2]]) =
            if is_rule { (b"RU", &[b"LE"]) } else { (b"", &[b"LE", b"RI"]) };
        let line = case.spelt();
        match table::met(&case.sheet, front, sides) {
            Some(met) => {
                let expected = format!("{} {} 0, written, rest unchanged", met.number, met.place);
                assert_eq!(line, expected, "{case:?}");
                *seen.entry((met.shown, met.later)).or_insert(0) += 1;
            }
            None => {
                let number = line.split(' ').next().unwrap();
                assert!(["0", "41", "31"].contains(&number), "{line}");
            }
        }
    }
    table::all_come_up(&seen, 10);
}

#[test]
fn long_patterns_come_up() {
    let mut dice = Dice::new(43);
    let (mut sheets, mut rules) = (BTreeMap::new(), BTreeMap::new());
    for _ in 0..10_000 {
        let case = spelt::case(&mut dice);
        table::sizes(&case.sheet, b"", &mut sheets);
        table::sizes(&case.sheet, b"RU", &mut rules);
    }
    table::all_sizes_come_up(&sheets, 60, 10);
    table::all_sizes_come_up(&rules, 60, 10);
}
