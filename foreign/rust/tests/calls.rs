//! The library and the crate `second` agree on many generated calls of a catalogue: all that is
//! told, and both buffers to the last byte.

use std::collections::BTreeSet;

use bradovusc::{
    add, add_decided, drop_strays_catalogue, recheck, recheck_decided, spell_open_catalogue,
    withdraw, Added, DecidedPair, Pair, Rechecked, RecheckedDecided, DECIDED_PAIR_BYTES,
    PAIR_BYTES,
};
use second::calls::{After, Call, Calls, Operation, LIST_FILL, MOST_CATALOGUE, WORK};
use second::cases::WORK_FILL;
use second::catalogue::HASHING;
use second::make::calls::{decided_operations, operations, strays_operations};
use second::make::Dice;
use second::storeroom;

/// The library in the form of `second::calls::Calls`.
struct Library {
    catalogue: Vec<u8>,
    work: usize,
}

impl Library {
    fn new() -> Library {
        Library { catalogue: vec![0; MOST_CATALOGUE], work: WORK }
    }

    fn run(&mut self, operation: &Operation) -> Option<After> {
        let call = match operation {
            Operation::Add(rule) => {
                let mut work = vec![WORK_FILL; self.work];
                let told = told(add(&mut self.catalogue, rule, &mut work));
                Call::Add { told, work }
            }
            Operation::Withdraw(number) => {
                let withdrawn = withdraw(&mut self.catalogue, usize::from(*number));
                Call::Withdraw { number: withdrawn.number() as u8 }
            }
            Operation::Catalogue { length, front } => {
                self.catalogue = front.clone();
                self.catalogue.resize(*length, 0);
                return None;
            }
            Operation::Work(length) => {
                self.work = *length;
                return None;
            }
            Operation::Recheck(length) => {
                let mut list = vec![LIST_FILL; *length];
                let mut work = vec![WORK_FILL; self.work];
                let (told, pairs) = listed(recheck(&self.catalogue, &mut work, &mut list));
                assert_eq!(list[..told.written], pairs, "the pairs, read from their bytes");
                Call::Recheck { told, list, work }
            }
            Operation::AddDecided(rule) => {
                let mut work = vec![WORK_FILL; self.work];
                let decided = add_decided(&mut self.catalogue, rule, &mut work);
                let (added, search) = (told(decided.added), decided.search);
                Call::AddDecided { told: second::catalogue::AddedDecided { added, search }, work }
            }
            Operation::RecheckDecided(length) => {
                let mut list = vec![LIST_FILL; *length];
                let mut work = vec![WORK_FILL; self.work];
                let rechecked = recheck_decided(&self.catalogue, &mut work, &mut list);
                let (told, pairs) = listed_decided(rechecked);
                assert_eq!(list[..told.written], pairs, "the pairs, read from their bytes");
                Call::RecheckDecided { told, list, work }
            }
            Operation::Carry => {
                let carried = spell_open_catalogue(&mut self.catalogue);
                Call::Carry { number: carried.number() as u8 }
            }
            Operation::Drop => {
                let mended = drop_strays_catalogue(&mut self.catalogue);
                Call::Drop { number: mended.number() as u8 }
            }
        };
        Some(After { call, catalogue: self.catalogue.clone() })
    }
}

fn told(added: Added) -> second::catalogue::Added {
    let number = added.number() as u8;
    let nothing = second::catalogue::Added { number, ..Default::default() };
    match added {
        Added::Refused { place, .. } => second::catalogue::Added { place, ..nothing },
        Added::NotApart { rule, pair } => {
            let (count, pair) = (pair.count(), pair.number() as u8);
            second::catalogue::Added { count, rule, pair, ..nothing }
        }
        _ => nothing,
    }
}

/// What is told, and the bytes of the pairs.
fn listed(rechecked: Rechecked) -> (second::catalogue::Rechecked, Vec<u8>) {
    let number = rechecked.number() as u8;
    let pairs: Vec<Pair> = match rechecked {
        Rechecked::Listed(pairs) => pairs.collect(),
        Rechecked::NoCatalogue | Rechecked::ListTooShort => Vec::new(),
    };
    let bytes: Vec<u8> = pairs.iter().flat_map(pair_bytes).collect();
    let (pairs, written) = (pairs.len(), pairs.len() * PAIR_BYTES);
    (second::catalogue::Rechecked { number, pairs, written }, bytes)
}

fn pair_bytes(pair: &Pair) -> [u8; PAIR_BYTES] {
    let (lower, higher) = (pair.lower as u8, pair.higher as u8);
    let (answer, count) = (pair.answer.number() as u8, pair.answer.count() as u16);
    second::catalogue::Pair { lower, higher, answer, count }.bytes()
}

/// The same of decided pairs.
fn listed_decided(rechecked: RecheckedDecided) -> (second::catalogue::Rechecked, Vec<u8>) {
    let number = rechecked.number() as u8;
    let pairs: Vec<DecidedPair> = match rechecked {
        RecheckedDecided::Listed(pairs) => pairs.collect(),
        RecheckedDecided::NoCatalogue | RecheckedDecided::ListTooShort => Vec::new(),
    };
    let bytes: Vec<u8> = pairs.iter().flat_map(decided_pair_bytes).collect();
    let (pairs, written) = (pairs.len(), pairs.len() * DECIDED_PAIR_BYTES);
    (second::catalogue::Rechecked { number, pairs, written }, bytes)
}

fn decided_pair_bytes(pair: &DecidedPair) -> [u8; DECIDED_PAIR_BYTES] {
    let (lower, higher) = (pair.lower as u8, pair.higher as u8);
    let (answer, count) = (pair.answer.number() as u8, pair.answer.count() as u32);
    second::catalogue::DecidedPair { lower, higher, answer, count, search: pair.search }.bytes()
}

/// Both do these operations; hands back what each call was answered.
fn agreed(operations: &[Operation]) -> Vec<Call> {
    let mut library = Library::new();
    let mut second = Calls::new(HASHING);
    let mut calls = Vec::new();
    for operation in operations {
        let after = library.run(operation);
        assert_eq!(after, second.run(operation), "{operation:?}");
        calls.extend(after.map(|after| after.call));
    }
    calls
}

#[test]
fn generated_calls() {
    let mut seen = BTreeSet::new();
    for call in agreed(&operations(&mut Dice::new(39), 4000)) {
        let answered = match call {
            Call::Add { told, .. } => ("add", told.number, told.pair),
            Call::Withdraw { number } => ("withdraw", number, 0),
            Call::Recheck { told, list, .. } => {
                let answers = list[..told.written].chunks(PAIR_BYTES).map(|pair| pair[2]);
                seen.extend(answers.map(|answer| ("listed", 0, answer)));
                ("recheck", told.number, 0)
            }
            Call::Carry { number } => ("carry", number, 0),
            Call::AddDecided { .. } | Call::RecheckDecided { .. } | Call::Drop { .. } => {
                panic!("none of these is decided, and no strays are dropped")
            }
        };
        seen.insert(answered);
    }
    let alone = [0, 11, 12, 13, 14, 15, 16, 17, 22, 31, 32, 34].map(|number| ("add", number, 0));
    let pairs = [0, 18, 19].map(|answer| ("add", 30, answer));
    let withdrawals = [0, 33, 34].map(|number| ("withdraw", number, 0));
    let rechecks = [0, 34, 35].map(|number| ("recheck", number, 0));
    let listed = [0, 18, 19].map(|answer| ("listed", 0, answer));
    let carried = [0, 32, 34].map(|number| ("carry", number, 0));
    let additions = alone.into_iter().chain(pairs);
    let expected = additions.chain(withdrawals).chain(rechecks).chain(listed).chain(carried);
    assert_eq!(seen, expected.collect());
}

#[test]
fn a_storeroom() {
    let operations: Vec<Operation> =
        storeroom::rows().into_iter().map(|row| row.operation).collect();
    assert!(agreed(&operations).len() > 40);
}

#[test]
fn decided_calls() {
    let mut seen = BTreeSet::new();
    for call in agreed(&decided_operations(&mut Dice::new(40), 2000)) {
        match call {
            Call::AddDecided { told, .. } => {
                seen.insert(("add", told.added.number, told.added.pair, told.search));
            }
            Call::RecheckDecided { told, list, .. } => {
                let pairs = list[..told.written].chunks(DECIDED_PAIR_BYTES);
                seen.extend(pairs.map(|pair| ("listed", 0, pair[2], pair[6])));
                seen.insert(("recheck", told.number, 0, 0));
            }
            _ => (),
        }
    }
    let alone = [0, 11, 12, 13, 14, 15, 16, 17, 22, 31, 32, 34].map(|number| ("add", number, 0, 0));
    // a clash by each attempt that finds one, and what none decides
    let answers = [(0, 1), (0, 4), (0, 5), (0, 6), (0, 7), (18, 0)];
    let pairs = answers.map(|(answer, search)| ("add", 30, answer, search));
    let too_long = [("listed", 0, 19, 0)];
    let listed =
        answers.map(|(answer, search)| ("listed", 0, answer, search)).into_iter().chain(too_long);
    let rechecks = [0, 34, 35].map(|number| ("recheck", number, 0, 0));
    let expected = alone.into_iter().chain(pairs).chain(listed).chain(rechecks);
    assert_eq!(seen, expected.collect());
}

/// Rules with strays are added, stand there and are dropped.
#[test]
fn calls_with_strays() {
    let mut seen = BTreeSet::new();
    for call in agreed(&strays_operations(&mut Dice::new(39), 2000)) {
        seen.insert(match call {
            Call::Add { told, .. } => ("add", told.number),
            Call::Withdraw { number } => ("withdraw", number),
            Call::Recheck { told, .. } => ("recheck", told.number),
            Call::Carry { number } => ("carry", number),
            Call::AddDecided { told, .. } => ("add", told.added.number),
            Call::RecheckDecided { told, .. } => ("recheck", told.number),
            Call::Drop { number } => ("drop", number),
        });
    }
    let refused = ["add", "withdraw", "recheck", "carry", "drop"].map(|call| (call, 34));
    let others = [("add", 0), ("add", 22), ("add", 31), ("drop", 0)];
    for answered in refused.into_iter().chain(others) {
        assert!(seen.contains(&answered), "{answered:?} in {seen:?}");
    }
    assert!(!seen.contains(&("drop", 32)));
}

#[test]
fn serial_numbers() {
    let operations: Vec<Operation> =
        storeroom::serial_rows().into_iter().map(|row| row.operation).collect();
    assert!(agreed(&operations).len() > 40);
}
