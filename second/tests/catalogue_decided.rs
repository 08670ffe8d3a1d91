//! A catalogue that decides: known pairs, what is left in the lent buffers, and
//! many generated operations.

use std::collections::BTreeMap;

use second::calls::{After, Call, Calls, Operation};
use second::catalogue::{add, add_decided, recheck, recheck_decided};
use second::catalogue::{Added, AddedDecided, DecidedPair, Rechecked, Searcher};
use second::catalogue::{HASHING, SCANNING};
use second::make::calls::{decided_operations, decided_stream};
use second::make::{pairs, Dice};
use second::write::{many, row, rule, tokens};
use second::{decide, share, sheet, storeroom, MOST_ROOM, SITUATION_BYTES};

const FILL: u8 = 90;

/// A rule whose fields have no pattern.
fn open(side: &str) -> Vec<u8> {
    rule(&[], &tokens(side))
}

fn digit() -> Vec<u8> {
    vec![65, 0, 9]
}

/// Adds with so many bytes of work, by both modules: what is told, the catalogue
/// and the working buffer afterwards.
fn added(before: &[u8], rule: &[u8], work: usize) -> (AddedDecided, Vec<u8>, Vec<u8>) {
    let [hashed, scanned] = [HASHING, SCANNING].map(|search| {
        let mut catalogue = before.to_vec();
        let mut work = vec![FILL; work];
        let told = add_decided(&mut catalogue, rule, &mut work, search);
        (told, catalogue, work)
    });
    assert_eq!(hashed, scanned);
    hashed
}

/// The rules' bytes and some zeros.
fn catalogue(rules: &[Vec<u8>]) -> Vec<u8> {
    [rules.concat(), vec![0; 200]].concat()
}

/// The rule is entered, and the working buffer is all zero.
fn enters(before: &[Vec<u8>], new: &[u8], work: usize) {
    let (told, after, worked) = added(&catalogue(before), new, work);
    assert_eq!(told, AddedDecided::default());
    let mut expected = [before.concat(), new.to_vec()].concat();
    expected.resize(after.len(), 0);
    assert_eq!(after, expected);
    assert!(worked.iter().all(|&byte| byte == 0));
}

/// The rule is refused for this pair: its rule's number, the answer, the count
/// and the search.
fn refused(before: &[Vec<u8>], new: &[u8], work: usize, pair: (usize, u8, usize, u8)) {
    let before = catalogue(before);
    let (told, after, worked) = added(&before, new, work);
    let (rule, answer, count, search) = pair;
    let expected = Added { number: 30, count, place: 0, rule, pair: answer };
    assert_eq!(told, AddedDecided { added: expected, search });
    assert_eq!(after, before);
    assert!(worked.iter().all(|&byte| byte == 0));
}

// The counts are those of docs/RULES.md, section 15, where the same sides are
// decided as a sheet.

#[test]
fn known_decisions() {
    enters(&[open("A")], &open("B"), 184);
    refused(&[open("a")], &open("A"), 2208, (0, 0, 10, 1));
    // no 4 on the left
    enters(&[open("A")], &open("a4a"), 1104);
    enters(&[open("A")], &open("a4aaaaaaaa"), 1104);
    // 3, 3, 3, 3 and 1
    refused(&[open("AA")], &open("a"), 552, (0, 18, 13, 0));
    refused(&[open("a")], &open("AA"), 552, (0, 18, 13, 0));
    // x twice is never one character
    enters(&[open("aa")], &open("A"), 2576);
    // 3, 1, 1, 3 and 1
    refused(&[open(&("a".repeat(23) + "b"))], &open("AA"), 552, (0, 19, 9, 0));
    refused(&[open("a")], &open("A"), 0, (0, 18, 0, 0));
    refused(&[open("a")], &open("A"), 183, (0, 18, 0, 0));
}

#[test]
fn a_number_that_stands_twice() {
    // `KP`n`-`n and `KP`m`-`m, where m ends in 0
    let number = rule(&[(0, row(vec![digit(), many(digit())]))], &tokens("KPa-a"));
    let ends_in_0 = rule(&[(0, row(vec![many(digit()), vec![0]]))], &tokens("KPa-a"));
    refused(std::slice::from_ref(&number), &ends_in_0, 65_520, (0, 0, 365, 4));
    // The first pair is decided with 1, and the second is told.
    let slash = rule(&[(0, row(vec![digit(), many(digit())]))], &tokens("KPa/a"));
    enters(std::slice::from_ref(&number), &slash, 65_520);
    refused(&[slash, number], &ends_in_0, 65_520, (1, 0, 365, 4));
}

#[test]
fn a_first_rule_needs_no_room() {
    let (told, _, worked) = added(&[0; 20], &open("A"), 9);
    assert_eq!(told, AddedDecided::default());
    assert_eq!(worked, [FILL; 9]);
}

#[test]
fn the_serial_numbers_print_what_their_table_says() {
    for search in [HASHING, SCANNING] {
        let mut calls = Calls::new(search);
        for storeroom::Row { what, operation, line } in storeroom::serial_rows() {
            let after = calls.run(&operation);
            assert_eq!(after.map(|after| after.numbers()).as_deref(), line, "{what}");
        }
    }
}

// ------------------------------------------------------------ checking again

fn rechecked(kept: &[u8], work: usize, list: usize) -> (Rechecked, Vec<u8>, Vec<u8>) {
    let [hashed, scanned] = [HASHING, SCANNING].map(|search| {
        let (mut work, mut list) = (vec![FILL; work], vec![165; list]);
        let told = recheck_decided(kept, &mut work, &mut list, search);
        (told, list, work)
    });
    assert_eq!(hashed, scanned);
    hashed
}

#[test]
fn seven_bytes_for_a_pair() {
    // a clash of the fourth attempt, and one of the first
    let number = rule(&[(0, row(vec![digit(), many(digit())]))], &tokens("KPa-a"));
    let ends_in_0 = rule(&[(0, row(vec![many(digit()), vec![0]]))], &tokens("KPa-a"));
    let kept = catalogue(&[number, open("B"), ends_in_0, open("B ")]);
    let expected = [0, 2, 0, 109, 1, 0, 4, 1, 3, 0, 6, 0, 0, 1];
    let (told, list, worked) = rechecked(&kept, 65_520, 16);
    assert_eq!(told, Rechecked { number: 0, pairs: 2, written: 14 });
    assert_eq!(list, [&expected[..], &[165, 165]].concat());
    assert!(worked.iter().all(|&byte| byte == 0));
    for length in 0..14 {
        let (told, list, worked) = rechecked(&kept, 65_520, length);
        assert_eq!(told, Rechecked { number: 35, pairs: 0, written: 0 });
        assert!(list.iter().all(|&byte| byte == 165) && worked.iter().all(|&byte| byte == 0));
    }
    // Not decided, at room for three.
    let kept = catalogue(&[open("a"), open("AA")]);
    let (_, list, _) = rechecked(&kept, 552, 7);
    assert_eq!(list, [0, 1, 18, 13, 0, 0, 0]);
}

#[test]
fn without_a_pair_nothing_is_searched() {
    for kept in [vec![], vec![0; 9], catalogue(&[open("a")])] {
        let (told, list, worked) = rechecked(&kept, 500, 3);
        assert_eq!(told, Rechecked::default());
        assert!(list == [165; 3] && worked == [FILL; 500]);
    }
    let (told, list, worked) = rechecked(b"RU", 500, 3);
    assert_eq!(told, Rechecked { number: 34, pairs: 0, written: 0 });
    assert!(list == [165; 3] && worked == [FILL; 500]);
}

#[test]
fn a_count_of_three_bytes() {
    // Up to the dash both are the same, and then there is `PP` too much: the first
    // search and that of the characters alike fill the greatest room.
    let signs = || vec![(0, many(vec![65, 0, 35]))];
    let (short, long) = (rule(&signs(), &tokens("a-a")), rule(&signs(), &tokens("a-aPP")));
    let kept = catalogue(&[short.clone(), long.clone()]);
    let mut work = vec![FILL; MOST_ROOM * SITUATION_BYTES];
    let mut list = [165; 7];
    let told = recheck_decided(&kept, &mut work, &mut list, HASHING);
    assert_eq!(told, Rechecked { number: 0, pairs: 1, written: 7 });
    let pair = DecidedPair::of_bytes(list);
    assert_eq!(pair.bytes(), list);
    assert!((pair.answer, pair.search) == (18, 0) && pair.count > 65_535, "{pair:?}");
    let mut present = catalogue(&[short]);
    let told = add_decided(&mut present, &long, &mut work, HASHING);
    let expected = Added { number: 30, count: pair.count as usize, place: 0, rule: 0, pair: 18 };
    assert_eq!(told, AddedDecided { added: expected, search: 0 });
}

#[test]
fn thirty_two_rules_of_one_label() {
    let kept = catalogue(&vec![open("A"); 32]);
    let (told, list, _) = rechecked(&kept, 65_520, 3_472);
    assert_eq!(told, Rechecked { number: 0, pairs: 496, written: 3_472 });
    assert_eq!(list[3_465..], [30, 31, 0, 5, 0, 0, 1]);
    assert_eq!(rechecked(&kept, 65_520, 3_471).0.number, 35);
}

// ---------------------------------------------------------- many operations

fn run(operations: &[Operation], search: Searcher) -> Vec<After> {
    let mut calls = Calls::new(search);
    operations.iter().filter_map(|operation| calls.run(operation)).collect()
}

#[test]
fn the_two_modules_agree() {
    let operations = decided_operations(&mut Dice::new(1), 1500);
    let hashed = run(&operations, HASHING);
    assert_eq!(hashed.len(), 1500);
    for (hashed, scanned) in hashed.iter().zip(run(&operations, SCANNING)) {
        assert_eq!(*hashed, scanned);
    }
}

#[test]
fn all_answers_come_up() {
    let mut seen = BTreeMap::new();
    let mut see = |answer| *seen.entry(answer).or_insert(0) += 1;
    for After { call, .. } in run(&decided_operations(&mut Dice::new(2), 4000), HASHING) {
        match call {
            Call::AddDecided { told: AddedDecided { added, search }, .. } => {
                see(("add", added.number, added.pair, search));
            }
            Call::RecheckDecided { told, list, .. } => {
                see(("recheck", told.number, u8::from(told.pairs > 0), 0));
                let (pairs, _) = list[..told.written].as_chunks::<7>();
                for &pair in pairs {
                    let DecidedPair { answer, search, .. } = DecidedPair::of_bytes(pair);
                    see(("pair", 0, answer, search));
                }
            }
            _ => {}
        }
    }
    let adds = [0, 11, 12, 13, 14, 15, 16, 17, 22, 31, 32, 34].map(|number| ("add", number, 0, 0));
    let answers = [(0, 1), (0, 4), (0, 5), (0, 6), (0, 7), (18, 0), (19, 0)];
    let pairs = answers.map(|(answer, search)| ("add", 30, answer, search));
    let listed = answers.map(|(answer, search)| ("pair", 0, answer, search));
    let rechecks =
        [(0, 0), (0, 1), (35, 0), (34, 0)].map(|(number, any)| ("recheck", number, any, 0));
    for answer in adds.into_iter().chain(pairs).chain(listed).chain(rechecks) {
        let times = seen.remove(&answer).unwrap_or(0);
        assert!(times >= 5, "{answer:?}: {times}");
    }
    assert!(seen.is_empty(), "{seen:?}");
}

/// What is told of a rule is what `add` tells where no pair is asked, and else
/// what deciding says of each pair as a sheet of its own.
#[test]
fn each_pair_is_decided_as_a_sheet_of_its_own() {
    let mut calls = Calls::new(HASHING);
    let mut work = 65_520;
    let (mut apart, mut refused, mut entered_by) = (0, 0, [0; 8]);
    for operation in decided_operations(&mut Dice::new(3), 2500) {
        if let Operation::Work(length) = operation {
            work = length;
        }
        let before = calls.catalogue.clone();
        let after = calls.run(&operation);
        let (Operation::AddDecided(rule), Some(After { call, catalogue })) = (operation, after)
        else {
            continue;
        };
        let Call::AddDecided { told: AddedDecided { added, search }, work: worked } = call else {
            panic!("an addition is told as one");
        };
        // In no room a pair is given up, so that no search is made in vain.
        let mut unused = before.clone();
        let first = add(&mut unused, &rule, &mut [], HASHING);
        let expected = match added.number {
            0 => None,
            30 => Some(added.rule),
            _ => {
                assert_eq!((added, search), (first, 0));
                assert_eq!(catalogue, before);
                assert!(worked.iter().all(|&byte| byte == FILL));
                continue;
            }
        };
        assert!(matches!(first.number, 0 | 30));
        let records = records(&before);
        for (number, present) in records.iter().enumerate() {
            let sheet = pair_sheet(present, &rule);
            let (mut lent, mut answer) = (vec![9; work], vec![9; 20_000]);
            let decided = decide::decide(&sheet, &mut lent, &mut answer, decide::HASHING);
            if Some(number) == expected {
                let outcome = decided.outcome;
                assert_eq!((outcome.number, outcome.count), (added.pair, added.count));
                assert_eq!(decided.search, search);
                refused += 1;
                break;
            }
            assert_eq!(decided.outcome.number, 1);
            entered_by[usize::from(decided.search)] += 1;
            apart += 1;
        }
        if expected.is_none() {
            assert_eq!(catalogue[..records.concat().len()], records.concat());
            assert!(catalogue[records.concat().len()..].starts_with(&rule));
        } else {
            assert_eq!(catalogue, before);
        }
    }
    assert!(apart > 300 && refused > 100, "{apart} {refused}");
    assert!([0, 4, 5, 7].iter().all(|&search| entered_by[search] == 0), "{entered_by:?}");
    assert!([1, 2, 3].iter().all(|&search| entered_by[search] >= 10), "{entered_by:?}");
}

#[test]
fn each_pair_is_checked_again_as_a_sheet_of_its_own() {
    let mut calls = Calls::new(HASHING);
    let mut work = 65_520;
    let (mut whole, mut short) = (0, 0);
    for operation in decided_operations(&mut Dice::new(6), 2000) {
        if let Operation::Work(length) = operation {
            work = length;
        }
        let before = calls.catalogue.clone();
        let after = calls.run(&operation);
        let (Operation::RecheckDecided(length), Some(after)) = (operation, after) else {
            continue;
        };
        let After { call: Call::RecheckDecided { told, list, work: worked }, catalogue } = after
        else {
            panic!("a recheck is told as one");
        };
        assert_eq!(catalogue, before);
        let once = recheck(&before, &mut vec![0; work], &mut [0; 2_480], HASHING);
        if once.number == 34 {
            assert_eq!(told, once);
            continue;
        }
        let records = records(&before);
        let mut expected = Vec::new();
        for (lower, left) in records.iter().enumerate() {
            for (higher, right) in records.iter().enumerate().skip(lower + 1) {
                let sheet = pair_sheet(left, right);
                let (mut lent, mut answer) = (vec![9; work], vec![9; 20_000]);
                let decided = decide::decide(&sheet, &mut lent, &mut answer, decide::HASHING);
                if decided.outcome.number != 1 {
                    expected.extend([lower as u8, higher as u8, decided.outcome.number]);
                    expected.extend(&decided.outcome.count.to_le_bytes()[..3]);
                    expected.push(decided.search);
                }
            }
        }
        let used = if records.len() > 1 { 0 } else { FILL };
        assert!(worked.iter().all(|&byte| byte == used));
        if expected.len() <= length {
            let (pairs, written) = (expected.len() / 7, expected.len());
            assert_eq!(told, Rechecked { number: 0, pairs, written });
            assert!(pairs <= once.pairs);
            expected.resize(length, 165);
            assert_eq!(list, expected);
            whole += 1;
        } else {
            assert_eq!(told, Rechecked { number: 35, pairs: 0, written: 0 });
            assert!(list.iter().all(|&byte| byte == 165));
            short += 1;
        }
    }
    assert!(whole > 75 && short > 25, "{whole} {short}");
}

/// The records of a catalogue that is of the form.
fn records(catalogue: &[u8]) -> Vec<Vec<u8>> {
    let mut records = Vec::new();
    let mut rest = catalogue;
    while rest.starts_with(b"RU") {
        let end = 2 + side_at(&rest[2..]);
        let end = end + 3 + usize::from(rest[end + 2]);
        records.push(rest[..end].to_vec());
        rest = &rest[end..];
    }
    records
}

/// Where the `PA` records end.
fn side_at(records: &[u8]) -> usize {
    let mut at = 0;
    while records[at..].starts_with(b"PA") {
        at += 4 + usize::from(records[at + 3]);
    }
    at
}

/// The sheet of two rules, the second one's fields as 4 to 7.
fn pair_sheet(present: &[u8], new: &[u8]) -> Vec<u8> {
    let (present, mut new) = (&present[2..], new[2..].to_vec());
    let (left, right) = (side_at(present), side_at(&new));
    let mut at = 0;
    while at < right {
        new[at + 2] += 4;
        at += 4 + usize::from(new[at + 3]);
    }
    let (patterns, side) = new.split_at_mut(right);
    side[..2].copy_from_slice(b"RI");
    for token in side[3..].iter_mut().filter(|token| **token >= 64) {
        *token += 4;
    }
    [&present[..left], patterns, &present[left..], side].concat()
}

#[test]
fn operations_are_read_as_written() {
    for seed in 0..12 {
        let operations = decided_operations(&mut Dice::new(seed), 50);
        let stream = decided_stream(&mut Dice::new(seed), 50);
        let mut rest = &stream[..];
        for operation in &operations {
            let (read, behind) = Operation::read(rest).unwrap();
            assert_eq!(read, *operation);
            rest = behind;
        }
        assert_eq!(Operation::read(rest), None);
    }
    let (read, rest) = Operation::read(b"RD\x00\x0eWI").unwrap();
    assert_eq!((read, rest), (Operation::RecheckDecided(3_584), &b"WI"[..]));
    for none in [&b"RD\x01\x0e"[..], b"RD\x00", b"AE\x01\x00", b"AE\x01"] {
        assert_eq!(Operation::read(none), None);
    }
}

#[test]
fn lines() {
    let mut calls = Calls::new(HASHING);
    let mut run = |operation: Operation| {
        let after = calls.run(&operation);
        after.map(|after| (after.numbers(), after.line()))
    };
    let front = [open("a"), open("B")].concat();
    run(Operation::Catalogue { length: front.len() + 2, front });
    let (numbers, line) = run(Operation::RecheckDecided(8)).unwrap();
    assert_eq!(numbers, "recheck_decided 0 1 7\npair 0 1 0 10 1");
    let bytes = "52 55 4c 45 01 40 52 55 4c 45 01 0b";
    assert_eq!(
        line,
        format!(
            "recheck_decided 0 1 7, list 00 01 00 0a 00 00 01 a5, zeros 0, \
            catalogue {bytes}, zeros 2, work all zero"
        )
    );
    let (numbers, line) = run(Operation::AddDecided(open(""))).unwrap();
    assert_eq!(numbers, "add_decided 32 0 0 0 0 0");
    assert_eq!(line, format!("{numbers}, catalogue {bytes}, zeros 2, work unchanged"));
}

// ------------------------------------------------------------------ the share

#[test]
fn rules_of_pairs_are_good_ones() {
    let rules = pairs::rules(&mut Dice::new(1), 200);
    assert_eq!(rules.len(), 200);
    for two in rules.chunks_exact(2) {
        assert!(two.iter().all(|rule| rule.len() <= 813));
        assert!(sheet::read(&pair_sheet(&two[0], &two[1])).is_ok());
    }
    // Serial numbers: by one search a single one is entered.
    let serial: Vec<Vec<u8>> = storeroom::serial_rows()
        .into_iter()
        .filter_map(|row| match row.operation {
            Operation::AddDecided(rule) => Some(rule),
            _ => None,
        })
        .take(6)
        .collect();
    let once = share::share(&serial, false);
    assert_eq!((once.tried, once.entered, once.apart), (6, 1, 5));
    let decided = share::share(&serial, true);
    assert_eq!((decided.tried, decided.entered, decided.apart), (6, 6, 0));
}
