//! Many generated operations: the two modules agree, all answers come up, and
//! each pair is answered as a sheet of its own.

mod table;

use std::collections::BTreeMap;

use second::calls::{After, Call, Calls, Operation};
use second::catalogue::{withdraw, Added, Searcher, HASHING, SCANNING};
use second::make::calls::{operations, stream};
use second::make::Dice;
use second::{storeroom, SITUATION_BYTES};

fn run(operations: &[Operation], search: Searcher) -> Vec<After> {
    let mut calls = Calls::new(search);
    operations.iter().filter_map(|operation| calls.run(operation)).collect()
}

#[test]
fn the_two_modules_agree() {
    let operations = operations(&mut Dice::new(1), 6000);
    let hashed = run(&operations, HASHING);
    assert_eq!(hashed.len(), 6000);
    for (hashed, scanned) in hashed.iter().zip(run(&operations, SCANNING)) {
        assert_eq!(*hashed, scanned);
    }
}

#[test]
fn all_answers_come_up() {
    let mut seen = BTreeMap::new();
    let mut see = |answer| *seen.entry(answer).or_insert(0) += 1;
    for After { call, .. } in run(&operations(&mut Dice::new(2), 8000), HASHING) {
        match call {
            Call::Add { told: Added { number, pair, .. }, .. } => see(("add", number, pair)),
            Call::Withdraw { number } => see(("withdraw", number, 0)),
            Call::Carry { number } => see(("carry", number, 0)),
            Call::Recheck { told, list, .. } => {
                see(("recheck", told.number, u8::from(told.pairs > 0)));
                list[..told.written].chunks_exact(5).for_each(|pair| see(("pair", pair[2], 0)));
            }
            Call::AddDecided { .. } | Call::RecheckDecided { .. } | Call::Drop { .. } => {
                panic!("not asked for")
            }
        }
    }
    let adds = [0, 11, 12, 13, 14, 15, 16, 17, 22, 31, 32, 34].map(|number| ("add", number, 0));
    let pairs = [0, 18, 19].map(|answer| ("add", 30, answer));
    let withdrawals = [0, 33, 34].map(|number| ("withdraw", number, 0));
    let rechecks = [("recheck", 0, 0), ("recheck", 0, 1), ("recheck", 35, 0)];
    let listed = [0, 18, 19].map(|answer| ("pair", answer, 0));
    let carried = [0, 32, 34].map(|number| ("carry", number, 0));
    let others = rechecks.into_iter().chain(listed).chain(carried);
    for answer in adds.into_iter().chain(pairs).chain(withdrawals).chain(others) {
        let times = seen.remove(&answer).unwrap_or(0);
        assert!(times >= 20, "{answer:?}: {times}");
    }
    assert!(seen.remove(&("recheck", 34, 0)).is_some_and(|times| times >= 5));
    assert!(seen.is_empty(), "{seen:?}");
}

#[test]
fn each_byte_that_shows_a_fault_comes_up() {
    let mut calls = Calls::new(HASHING);
    let mut seen = BTreeMap::new();
    for operation in operations(&mut Dice::new(5), 20_000) {
        let after = calls.run(&operation);
        let (Operation::Add(rule), Some(After { call: Call::Add { told, .. }, .. })) =
            (operation, after)
        else {
            continue;
        };
        match table::met(&rule, b"RU", &[b"LE"]) {
            // 34 comes before the rule's own faults.
            _ if told.number == 34 => {}
            Some(met) => {
                assert_eq!((told.number, told.place), (met.number, met.place), "{rule:?}");
                *seen.entry((met.shown, met.later)).or_insert(0) += 1;
            }
            None => {
                assert!(!(11..=17).contains(&told.number), "{rule:?}");
                assert_eq!(told.place, 0);
            }
        }
    }
    table::all_come_up(&seen, 10);
}

#[test]
fn long_patterns_come_up() {
    let mut seen = BTreeMap::new();
    for operation in operations(&mut Dice::new(7), 6000) {
        if let Operation::Add(rule) = operation {
            table::sizes(&rule, b"RU", &mut seen);
        }
    }
    table::all_sizes_come_up(&seen, 60, 10);
}

#[test]
fn operations_are_read_as_written() {
    for seed in 0..40 {
        let operations = operations(&mut Dice::new(seed), 50);
        let stream = stream(&mut Dice::new(seed), 50);
        let mut rest = &stream[..];
        for operation in &operations {
            let (read, behind) = Operation::read(rest).unwrap();
            assert_eq!(read, *operation);
            rest = behind;
        }
        assert_eq!(Operation::read(rest), None);
    }
}

#[test]
fn the_storeroom_prints_what_its_table_says() {
    let mut calls = Calls::new(HASHING);
    for storeroom::Row { what, operation, line } in storeroom::rows() {
        let after = calls.run(&operation);
        assert_eq!(after.map(|after| after.numbers()).as_deref(), line, "{what}");
    }
}

#[test]
fn a_full_catalogue_has_no_two_rules_that_clash() {
    let mut calls = Calls::new(HASHING);
    let stream = storeroom::full_stream();
    let mut rest = &stream[..];
    let mut added = 0;
    while let Some((operation, behind)) = Operation::read(rest) {
        assert_eq!(calls.run(&operation).unwrap().numbers(), "add 0 0 0 0 0");
        added += 1;
        rest = behind;
    }
    assert_eq!(added, 32);
    let records = records(&calls.catalogue);
    let mut pairs = Vec::new();
    for (number, new) in records.iter().enumerate() {
        pairs.extend(records[..number].iter().map(|present| sheet(present, new)));
    }
    let sheets: Vec<Vec<u8>> = storeroom::full_pairs().into_iter().map(|case| case.sheet).collect();
    assert_eq!(sheets, pairs);
}

// ------------------------------------------------- a pair as a sheet of its own

/// The records of a catalogue that is of the form.
fn records(catalogue: &[u8]) -> Vec<Vec<u8>> {
    let mut records = Vec::new();
    let mut rest = catalogue;
    while rest.starts_with(b"RU") {
        let mut end = 2;
        while rest[end..].starts_with(b"PA") {
            end += 4 + usize::from(rest[end + 3]);
        }
        end += 3 + usize::from(rest[end + 2]);
        records.push(rest[..end].to_vec());
        rest = &rest[end..];
    }
    records
}

/// The sheet of two rules: `PA` of the one, `PA` of the other with its fields
/// as 4 to 7, then the sides.
fn sheet(present: &[u8], new: &[u8]) -> Vec<u8> {
    let side = |rule: &[u8]| {
        let mut at = 2;
        while rule[at..].starts_with(b"PA") {
            at += 4 + usize::from(rule[at + 3]);
        }
        at
    };
    let (left, right) = (side(present), side(new));
    let mut patterns = new[2..right].to_vec();
    let mut at = 0;
    while at < patterns.len() {
        patterns[at + 2] += 4;
        at += 4 + usize::from(patterns[at + 3]);
    }
    let mut last = new[right..].to_vec();
    last[..2].copy_from_slice(b"RI");
    for token in &mut last[3..] {
        *token += if *token >= 64 { 4 } else { 0 };
    }
    [&present[2..left], &patterns, &present[left..], &last].concat()
}

#[test]
fn each_pair_is_answered_as_a_sheet_of_its_own() {
    let mut calls = Calls::new(HASHING);
    let mut work = 65_520;
    let (mut entered, mut refused) = (0, 0);
    for operation in operations(&mut Dice::new(3), 6000) {
        if let Operation::Work(length) = operation {
            work = length;
        }
        let before = calls.catalogue.clone();
        let after = calls.run(&operation);
        let (Operation::Add(rule), Some(After { call: Call::Add { told, .. }, .. })) =
            (operation, after)
        else {
            continue;
        };
        let expected = match told.number {
            0 => None,
            30 => Some(told.rule),
            _ => continue,
        };
        // Rules before the one told, or all of them, give 1.
        for (number, present) in records(&before).iter().enumerate() {
            let outcome =
                second::answer(&sheet(present, &rule), &mut vec![9; work], &mut [9; 4096]);
            if Some(number) == expected {
                assert_eq!((outcome.number, outcome.count), (told.pair, told.count));
                refused += 1;
                break;
            }
            assert_eq!(outcome.number, 1);
            entered += 1;
        }
    }
    assert!(entered > 1000 && refused > 300);
}

/// How much longer a list buffer is than what is written into it.
#[derive(Clone, Copy, Debug, PartialEq, Eq, PartialOrd, Ord)]
enum Length {
    None,
    Below,
    OneLess,
    Exact,
    More,
}

#[test]
fn each_pair_is_checked_again_as_a_sheet_of_its_own() {
    let mut calls = Calls::new(HASHING);
    let mut work = 65_520;
    let mut seen = BTreeMap::new();
    let mut most = 0;
    for operation in operations(&mut Dice::new(6), 10_000) {
        if let Operation::Work(length) = operation {
            work = length;
        }
        let before = calls.catalogue.clone();
        let after = calls.run(&operation);
        let (Operation::Recheck(length), Some(after)) = (operation, after) else {
            continue;
        };
        let After { call: Call::Recheck { told, list, work: worked }, catalogue } = after else {
            panic!("a recheck is told as one");
        };
        assert_eq!(catalogue, before);
        // `withdraw` knows a catalogue of another form too.
        if told.number == 34 {
            assert_eq!(withdraw(&mut before.clone(), 0), 34);
            assert_eq!((told.pairs, told.written), (0, 0));
            assert!(list.iter().all(|&byte| byte == 165) && worked.iter().all(|&byte| byte == 90));
            continue;
        }
        let records = records(&before);
        let mut expected = Vec::new();
        for (lower, left) in records.iter().enumerate() {
            for (higher, right) in records.iter().enumerate().skip(lower + 1) {
                let sheet = sheet(left, right);
                let outcome = second::answer(&sheet, &mut vec![9; work], &mut [9; 4096]);
                if outcome.number != 1 {
                    let [low, high] = (outcome.count as u16).to_le_bytes();
                    expected.push([lower as u8, higher as u8, outcome.number, low, high]);
                }
            }
        }
        most = most.max(expected.len());
        let bytes = expected.concat();
        let how = match length {
            0 if !bytes.is_empty() => Length::None,
            _ if length + 1 == bytes.len() => Length::OneLess,
            _ if length < bytes.len() => Length::Below,
            _ if length == bytes.len() => Length::Exact,
            _ => Length::More,
        };
        *seen.entry((how, !bytes.is_empty())).or_insert(0) += 1;
        let fits = bytes.len() <= length;
        let number = if fits { 0 } else { 35 };
        let listed = if fits { &bytes[..] } else { &[] };
        assert_eq!((told.number, told.pairs), (number, listed.len() / 5));
        assert_eq!(told.written, listed.len());
        assert_eq!(&list[..listed.len()], listed);
        assert!(list.len() == length && list[listed.len()..].iter().all(|&byte| byte == 165));
        let filled = if records.len() < 2 { 90 } else { 0 };
        assert!(worked.iter().all(|&byte| byte == filled));
    }
    for how in [Length::None, Length::Below, Length::OneLess, Length::Exact, Length::More] {
        let times = seen.get(&(how, true)).copied().unwrap_or(0);
        assert!(times >= 10, "{how:?}: {seen:?}");
    }
    assert!(most > 400, "{most}");
}

#[test]
fn no_label_is_made_by_two_rules_of_a_catalogue_that_began_empty() {
    let mut calls = Calls::new(HASHING);
    let mut began_empty = true;
    let mut pairs = 0;
    for operation in operations(&mut Dice::new(4), 6000) {
        if let Operation::Catalogue { front, .. } = &operation {
            // The same rules may come in another buffer.
            began_empty = front.is_empty() || began_empty && calls.catalogue.starts_with(front);
        }
        let before = calls.catalogue.clone();
        let entered = match calls.run(&operation) {
            Some(After { call: Call::Add { told, .. }, .. }) => told.number == 0,
            // Rules that hold more texts than before may clash.
            Some(After { call: Call::Carry { .. }, catalogue }) => {
                began_empty &= catalogue == before;
                false
            }
            _ => false,
        };
        if !(entered && began_empty) {
            continue;
        }
        // In a larger room the answer is the same.
        let records = records(&calls.catalogue);
        let (new, others) = records.split_last().unwrap();
        for present in others {
            let mut work = vec![0; 356 * SITUATION_BYTES];
            assert_eq!(second::answer(&sheet(present, new), &mut work, &mut []).number, 1);
            // Nor the other way round, where the search ends.
            let number = second::answer(&sheet(new, present), &mut work, &mut []).number;
            assert!([1, 18, 19].contains(&number));
            pairs += 1;
        }
    }
    assert!(pairs > 1000);
}
