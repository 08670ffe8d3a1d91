//! Calls of a catalogue that decides, known by hand: the answer, the attempt, and both buffers to the
//! last byte.

use bradovusc::{
    add, add_decided, catalogue_bytes, decided_list_bytes, recheck, recheck_decided, Added,
    AddedDecided, Answer, DecidedPair, Fault, Rechecked, RecheckedDecided, DECIDED_PAIR_BYTES,
    MOST_RULES, SITUATION_BYTES,
};

const A: u8 = 10;
const B: u8 = 11;
const DASH: u8 = 36;
const SPACE: u8 = 38;
const SLASH: u8 = 40;
const X: u8 = 64;

const ROOM: usize = 356 * SITUATION_BYTES;
const WORK_FILL: u8 = 90;
const LIST_FILL: u8 = 165;

/// A rule without patterns.
fn rule(side: &[u8]) -> Vec<u8> {
    with(&[], side)
}

/// A rule whose `PA` records are these bytes.
fn with(patterns: &[u8], side: &[u8]) -> Vec<u8> {
    [b"RU", patterns, b"LE", &[side.len() as u8], side].concat()
}

/// `KP`, a number of at least one digit, a sign and the number again.
fn number(sign: u8) -> Vec<u8> {
    with(b"PA\x00\x08\x42\x41\x00\x09\x44\x41\x00\x09", &[20, 25, X, sign, X])
}

/// The same with a dash, and the number ends in 0.
fn ends_in_0() -> Vec<u8> {
    with(b"PA\x00\x06\x42\x44\x41\x00\x09\x00", &[20, 25, X, DASH, X])
}

/// `KP`, a number of six digits, a sign and the number again.
fn serial(sign: u8) -> Vec<u8> {
    let mut digits = Vec::new();
    for _ in 0..5 {
        digits.extend([66, 65, 0, 9]);
    }
    digits.extend([65, 0, 9]);
    let patterns = [&[b'P', b'A', 0, digits.len() as u8][..], &digits].concat();
    with(&patterns, &[20, 25, X, sign, X])
}

/// Adds to these rules, after which the working buffer must be all zero where a pair was searched,
/// else unchanged, and the catalogue must have the rule where it was entered, else be unchanged.
fn added(present: &[Vec<u8>], new: &[u8], work: usize, searched: bool) -> AddedDecided {
    let mut before = present.concat();
    before.resize(1_000, 0);
    let (mut catalogue, mut work) = (before.clone(), vec![WORK_FILL; work]);
    let added = add_decided(&mut catalogue, new, &mut work);
    if added.added == Added::Entered {
        let length = present.concat().len();
        before[length..length + new.len()].copy_from_slice(new);
    }
    assert_eq!(catalogue, before, "{added:?}");
    let left = if searched { 0 } else { WORK_FILL };
    assert!(work.iter().all(|&byte| byte == left), "{added:?}");
    added
}

/// The first of these rules that the new one is not apart from, their pair's answer and the attempt.
fn not_apart(present: &[Vec<u8>], new: &[u8], work: usize) -> (usize, Answer, u8) {
    match added(present, new, work, true) {
        AddedDecided { added: Added::NotApart { rule, pair }, search } => (rule, pair, search),
        other => panic!("{other:?}"),
    }
}

fn clash(count: usize) -> Answer {
    Answer::Clash { count, written: 0 }
}

const ENTERED: AddedDecided = AddedDecided { added: Added::Entered, search: 0 };

#[test]
fn entered() {
    // No pair is searched, so no room is needed.
    assert_eq!(added(&[], &rule(&[A]), 0, false), ENTERED);
    assert_eq!(added(&[rule(&[A])], &rule(&[B]), SITUATION_BYTES, true), ENTERED);
    // One search has no room for this pair.
    assert_eq!(added(&[number(DASH)], &number(SLASH), ROOM, true), ENTERED);
    // `A` and x4x, xx and `A`: the letters differ, which needs no room.
    for work in [0, 6 * SITUATION_BYTES] {
        assert_eq!(added(&[rule(&[A])], &rule(&[X, 4, X]), work, true), ENTERED);
        assert_eq!(added(&[rule(&[X, X])], &rule(&[A]), work, true), ENTERED);
    }
}

#[test]
fn a_clash() {
    assert_eq!(not_apart(&[rule(&[A]), rule(&[B])], &rule(&[B]), ROOM), (1, clash(5), 1));
    assert_eq!(not_apart(&[number(DASH)], &ends_in_0(), ROOM), (0, clash(365), 4));
    let both = [number(SLASH), number(DASH)];
    assert_eq!(not_apart(&both, &ends_in_0(), ROOM), (1, clash(365), 4));
}

#[test]
fn not_decided() {
    let no_room = |count| Answer::NoRoom { count };
    for work in [0, SITUATION_BYTES - 1] {
        assert_eq!(not_apart(&[rule(&[X])], &rule(&[A]), work), (0, no_room(0), 0));
    }
    let three = 3 * SITUATION_BYTES;
    assert_eq!(not_apart(&[rule(&[A, A])], &rule(&[X]), three), (0, no_room(13), 0));
    let mut long = [X; 24];
    long[23] = X + 1;
    let too_long = Answer::SideTooLong { count: 9 };
    assert_eq!(not_apart(&[rule(&long)], &rule(&[A, A]), three), (0, too_long, 0));
    // xxy and `A` make no label that is the same, but x can take one space after the other.
    let too_long = Answer::SideTooLong { count: 269 };
    assert_eq!(not_apart(&[rule(&[X, X, X + 1])], &rule(&[A]), ROOM), (0, too_long, 0));
}

#[test]
fn refused() {
    let alone = |added| AddedDecided { added, search: 0 };
    let fault = Added::Refused { fault: Fault::WrongMark, place: 6 };
    assert_eq!(added(&[rule(&[A])], b"RULE\x01\x0a\x00", ROOM, false), alone(fault));
    let foreign = Added::ForeignField;
    assert_eq!(added(&[rule(&[A])], &rule(&[X + 4]), ROOM, false), alone(foreign));
    let full: Vec<Vec<u8>> = (0..32).map(|label| rule(&[label])).collect();
    assert_eq!(added(&full, &rule(&[32]), ROOM, false), alone(Added::Full));
    assert_eq!(added(&[b"RU".to_vec()], &rule(&[A]), ROOM, false), alone(Added::NoCatalogue));
}

/// Of twenty rules with a serial number that stands twice no two clash. One search says so of none.
#[test]
fn serial_numbers() {
    let signs = [36, 40, 37, 41, 39, 42, 10, 11, 12, 13, 14, 15, 16, 17, 19, 20, 21, 22, 23, 25];
    let mut catalogue = vec![0; catalogue_bytes(MOST_RULES)];
    let mut work = vec![0; ROOM];
    for (present, sign) in signs.into_iter().enumerate() {
        let mut tried = catalogue.clone();
        let one = add(&mut tried, &serial(sign), &mut work);
        assert_eq!(one.number(), if present == 0 { 0 } else { 30 });
        assert_eq!(add_decided(&mut catalogue, &serial(sign), &mut work), ENTERED);
    }
    let (mut list, mut decided) = (vec![0; 2_480], vec![0; 3_472]);
    let Rechecked::Listed(pairs) = recheck(&catalogue, &mut work, &mut list) else {
        panic!("a catalogue, and the list is long enough");
    };
    assert_eq!(pairs.len(), 190);
    let RecheckedDecided::Listed(pairs) = recheck_decided(&catalogue, &mut work, &mut decided)
    else {
        panic!("a catalogue, and the list is long enough");
    };
    assert_eq!(pairs.len(), 0);
}

/// Checks again with so many bytes of work and of list, after which the working buffer must be all
/// zero where a pair was searched, else unchanged, and the list unchanged behind the pairs.
fn rechecked(
    catalogue: &[u8],
    work: usize,
    list: usize,
    searched: bool,
) -> (u32, Vec<DecidedPair>) {
    let (mut work, mut list) = (vec![WORK_FILL; work], vec![LIST_FILL; list]);
    let given = recheck_decided(catalogue, &mut work, &mut list);
    let number = given.number();
    let pairs: Vec<DecidedPair> = match given {
        RecheckedDecided::Listed(pairs) => pairs.collect(),
        RecheckedDecided::NoCatalogue | RecheckedDecided::ListTooShort => Vec::new(),
    };
    let left = if searched { 0 } else { WORK_FILL };
    assert!(work.iter().all(|&byte| byte == left), "{pairs:?}");
    let behind = &list[DECIDED_PAIR_BYTES * pairs.len()..];
    assert!(behind.iter().all(|&byte| byte == LIST_FILL), "{pairs:?}");
    (number, pairs)
}

#[test]
fn listed() {
    let kept = [number(DASH), rule(&[B]), ends_in_0(), rule(&[B, SPACE])].concat();
    let pairs = vec![
        DecidedPair { lower: 0, higher: 2, answer: clash(365), search: 4 },
        DecidedPair { lower: 1, higher: 3, answer: clash(6), search: 1 },
    ];
    for list in [14, 15, decided_list_bytes(MOST_RULES)] {
        assert_eq!(rechecked(&kept, ROOM, list, true), (0, pairs.clone()));
    }
    for list in 0..14 {
        assert_eq!(rechecked(&kept, ROOM, list, true), (35, vec![]));
    }
    let open = [rule(&[A, A]), rule(&[X])].concat();
    let answer = Answer::NoRoom { count: 13 };
    let pair = DecidedPair { lower: 0, higher: 1, answer, search: 0 };
    assert_eq!(rechecked(&open, 3 * SITUATION_BYTES, 7, true), (0, vec![pair]));
}

#[test]
fn every_pair_by_the_lower_number() {
    let rules: Vec<u8> = (0..MOST_RULES).flat_map(|_| rule(&[])).collect();
    let length = decided_list_bytes(MOST_RULES);
    assert_eq!(length, 3_472);
    let (number, pairs) = rechecked(&rules, 5 * SITUATION_BYTES, length, true);
    assert_eq!((number, pairs.len()), (0, 496));
    let expected = (0..MOST_RULES).flat_map(|lower| {
        (lower + 1..MOST_RULES).map(move |higher| DecidedPair {
            lower,
            higher,
            answer: clash(5),
            search: 1,
        })
    });
    assert!(pairs.into_iter().eq(expected));
    assert_eq!(rechecked(&rules, 5 * SITUATION_BYTES, length - 1, true), (35, vec![]));
}

/// Two searches that fill much room count more than two bytes hold.
#[test]
fn a_count_of_three_bytes() {
    // x/y-y and x/y-yPK, x and y any number of letters and digits: no clash, which none finds out
    let patterns = b"PA\x00\x04\x44\x41\x00\x23PA\x01\x04\x44\x41\x00\x23";
    let side = [X, SLASH, X + 1, DASH, X + 1, 25, 20];
    let kept = [with(patterns, &side[..5]), with(patterns, &side)].concat();
    let (number, pairs) = rechecked(&kept, 40_000 * SITUATION_BYTES, 7, true);
    let [DecidedPair { answer: Answer::NoRoom { count }, search: 0, .. }] = pairs[..] else {
        panic!("{number}, {pairs:?}");
    };
    assert!(count > 65_535, "{count}");
}

#[test]
fn nothing_to_check_again() {
    for catalogue in [vec![], vec![0; 16], rule(&[X])] {
        assert_eq!(rechecked(&catalogue, 150, 8, false), (0, vec![]));
        assert_eq!(rechecked(&catalogue, 0, 0, false), (0, vec![]));
    }
    for wrong in [[&rule(&[A])[..], &[0, 1]].concat(), rule(&[X + 4])] {
        assert_eq!(rechecked(&wrong, 864, 8, false), (34, vec![]));
        assert_eq!(rechecked(&wrong, 864, 0, false), (34, vec![]));
    }
}
