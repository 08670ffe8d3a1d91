//! Calls of a catalogue known by hand: the answer, and both buffers to the last byte.

use bradovusc::{
    add, catalogue_bytes, list_bytes, recheck, withdraw, Added, Answer, Fault, Pair, Rechecked,
    Withdrawn, MOST_RULES, PAIR_BYTES, RULE_BYTES, RULE_FIELDS, SITUATION_BYTES,
};

const A: u8 = 10;
const B: u8 = 11;
const SPACE: u8 = 38;
const X: u8 = 64;

const WORK_FILL: u8 = 90;
const LIST_FILL: u8 = 165;

/// A rule without patterns.
fn rule(side: &[u8]) -> Vec<u8> {
    with(&[], side)
}

/// A rule whose `PA` records are these bytes.
fn with(patterns: &[u8], side: &[u8]) -> Vec<u8> {
    [b"RU", patterns, b"LE", &[side.len() as u8], side].concat()
}

/// These rules in a buffer of this length.
fn catalogue(rules: &[Vec<u8>], length: usize) -> Vec<u8> {
    let mut catalogue = rules.concat();
    assert!(catalogue.len() <= length);
    catalogue.resize(length, 0);
    catalogue
}

/// Adds with so many bytes of work, after which the catalogue must be as expected and the working
/// buffer all zero where a pair was searched, else unchanged.
fn added(before: &[u8], rule: &[u8], work: usize, after: &[u8], searched: bool) -> Added {
    let mut catalogue = before.to_vec();
    let mut work = vec![WORK_FILL; work];
    let added = add(&mut catalogue, rule, &mut work);
    assert_eq!(catalogue, after, "{added:?}");
    let left = if searched { 0 } else { WORK_FILL };
    assert!(work.iter().all(|&byte| byte == left), "{added:?}");
    added
}

/// The rule stands behind these afterwards, in a buffer that is just long enough and in others.
fn enters(present: &[Vec<u8>], new: &[u8], work: usize) {
    let all = [present, &[new.to_vec()]].concat();
    let least = all.concat().len();
    for length in [least, least + 1, catalogue_bytes(MOST_RULES)] {
        let (before, after) = (catalogue(present, length), catalogue(&all, length));
        let added = added(&before, new, work, &after, !present.is_empty());
        assert_eq!(added, Added::Entered);
    }
}

/// The first of these rules that the new one is not apart from, and their pair's answer.
fn not_apart(present: &[Vec<u8>], new: &[u8], situations: usize) -> (usize, Answer) {
    let before = catalogue(present, 500);
    let work = situations * SITUATION_BYTES + 5;
    match added(&before, new, work, &before, true) {
        Added::NotApart { rule, pair } => (rule, pair),
        other => panic!("{other:?}"),
    }
}

/// Refused before any pair is searched.
fn refused(before: &[u8], new: &[u8]) -> Added {
    added(before, new, 9 * SITUATION_BYTES, before, false)
}

fn clash(count: usize) -> Answer {
    Answer::Clash { count, written: 0 }
}

#[test]
fn entered() {
    // No pair is searched, so no room is needed.
    enters(&[], &rule(&[A]), 0);
    enters(&[], &rule(&[]), 0);
    enters(&[rule(&[A])], &rule(&[B]), SITUATION_BYTES);
    enters(&[rule(&[A]), rule(&[B]), rule(&[])], &rule(&[A, A]), SITUATION_BYTES);
    // A space that is not at the end is a character like the others.
    enters(&[rule(&[A])], &rule(&[A, SPACE, B]), 2 * SITUATION_BYTES);
    enters(&[rule(&[A])], &rule(&[SPACE, A]), SITUATION_BYTES);
}

#[test]
fn a_clash() {
    assert_eq!(not_apart(&[rule(&[])], &rule(&[]), 5), (0, clash(5)));
    assert_eq!(not_apart(&[rule(&[A]), rule(&[B])], &rule(&[B]), 5), (1, clash(5)));
    // x and `A`
    assert_eq!(not_apart(&[rule(&[X])], &rule(&[A]), 10), (0, clash(10)));
    // The first of several, though a later one has a clash too.
    let rules = [rule(&[B]), rule(&[A]), rule(&[X])];
    assert_eq!(not_apart(&rules, &rule(&[A]), 5), (1, clash(5)));
    assert_eq!(not_apart(&rules, &rule(&[B, B]), 12), (2, clash(12)));
}

#[test]
fn spaces_at_the_end() {
    let (none, one, two) = (rule(&[A]), rule(&[A, SPACE]), rule(&[A, SPACE, SPACE]));
    assert_eq!(not_apart(std::slice::from_ref(&none), &one, 6), (0, clash(6)));
    assert_eq!(not_apart(std::slice::from_ref(&one), &none, 6), (0, clash(6)));
    assert_eq!(not_apart(&[none], &two, 7), (0, clash(7)));
    assert_eq!(not_apart(&[rule(&[SPACE, SPACE])], &rule(&[]), 7), (0, clash(7)));
}

#[test]
fn a_rules_fields_are_its_own() {
    // As a sheet xA and Bx have no clash; here x is another field in each: BA.
    assert_eq!(not_apart(&[rule(&[X, A])], &rule(&[B, X]), 19), (0, clash(19)));
    // Any digits, and the digit 4: sheet S of the rules.
    let digits = with(b"PA\x00\x04\x44\x41\x00\x09", &[X]);
    let four = with(b"PA\x00\x01\x04", &[X]);
    assert_eq!(not_apart(&[digits], &four, 13), (0, clash(13)));
    // x is `A` in the one and `B` in the other.
    let patterns = [&b"PA\x00\x01\x0a"[..], b"PA\x00\x01\x0b"];
    enters(&[with(patterns[0], &[X])], &with(patterns[1], &[X]), SITUATION_BYTES);
}

#[test]
fn the_present_rule_is_the_left_one() {
    let (two, three) = (rule(&[X, A, A]), rule(&[X, A, A, A]));
    assert_eq!(not_apart(std::slice::from_ref(&three), &two, 21), (0, clash(20)));
    assert_eq!(not_apart(&[two], &three, 21), (0, clash(21)));
}

#[test]
fn not_decided() {
    let present = [rule(&[X])];
    assert_eq!(not_apart(&present, &rule(&[A]), 2), (0, Answer::NoRoom { count: 2 }));
    assert_eq!(not_apart(&present, &rule(&[A]), 0), (0, Answer::NoRoom { count: 0 }));
    let long = [rule(&[B]), rule(&[X; 24])];
    assert_eq!(not_apart(&long, &rule(&[A, A]), 3), (1, Answer::SideTooLong { count: 3 }));
    // xx and `A` make no label that is the same, but x can take one space after the other.
    let twice = [rule(&[X, X])];
    assert_eq!(not_apart(&twice, &rule(&[A]), 356), (0, Answer::SideTooLong { count: 136 }));
}

#[test]
fn faults_of_the_rule() {
    let fault = |rule: &[u8], fault, place| {
        for before in [vec![], vec![0; 16], catalogue(&[self::rule(&[A])], 99)] {
            assert_eq!(refused(&before, rule), Added::Refused { fault, place });
        }
    };
    fault(b"", Fault::CutShort, 0);
    fault(b"R", Fault::CutShort, 1);
    fault(b"RU", Fault::CutShort, 2);
    fault(b"RULE\x01", Fault::CutShort, 5);
    fault(b"LE\x00", Fault::WrongMark, 0);
    fault(b"RURI\x01\x0a", Fault::WrongMark, 2);
    fault(b"RULE\x01\x0a\x00", Fault::WrongMark, 6);
    fault(b"RUPA\x08\x01\x04LE\x00", Fault::WrongField, 4);
    // Field 4 twice: before 31.
    fault(b"RUPA\x04\x01\x00PA\x04\x01\x00LE\x00", Fault::WrongField, 9);
    fault(b"RULE\x19", Fault::WrongLength, 4);
    fault(b"RUPA\x04\x00LE\x00", Fault::WrongLength, 5);
    fault(b"RUPA\x00\x02\x04\x04LE\x00", Fault::NotOnePattern, 7);
    fault(b"RUPA\x00\x02\x41\x2bLE\x00", Fault::NotOnePattern, 7);
    fault(b"RUPA\x00\x01\x44", Fault::NotOnePattern, 7);
    let leaves = [&b"PA\x00\x7f"[..], &[66; 63], &[0; 64]].concat();
    fault(&with(&leaves, &[X]), Fault::TooManyLeaves, 132);
    fault(&rule(&[X + 4, 43]), Fault::WrongToken, 6);
    // Stray: the first of two, behind one that stands; then one of field 4, before 31 and behind 12.
    let patterns = b"PA\x00\x01\x04PA\x01\x01\x04PA\x03\x01\x04";
    fault(&with(patterns, &[A, X]), Fault::StrayPattern, 7);
    fault(b"RUPA\x04\x01\x04LE\x01\x45", Fault::StrayPattern, 2);
    fault(b"RUPA\x04\x01\x04LE\x00\x00", Fault::WrongMark, 10);
}

#[test]
fn a_field_above_3() {
    for field in RULE_FIELDS as u8..8 {
        assert_eq!(refused(&[0; 16], &rule(&[A, X + field])), Added::ForeignField);
        let pattern = [b'P', b'A', field, 1, 4];
        assert_eq!(refused(&[0; 16], &with(&pattern, &[X + field])), Added::ForeignField);
    }
    // Before 32.
    assert_eq!(refused(&[], &rule(&[X + 7])), Added::ForeignField);
}

#[test]
fn full() {
    assert_eq!(refused(&[], &rule(&[])), Added::Full);
    // One byte too few; before 30.
    assert_eq!(refused(&catalogue(&[rule(&[A])], 11), &rule(&[A])), Added::Full);
    let rules: Vec<Vec<u8>> = (0..33).map(|label| rule(&[label])).collect();
    let full = catalogue(&rules[..MOST_RULES], catalogue_bytes(MOST_RULES));
    assert_eq!(refused(&full, &rules[32]), Added::Full);
    // The room of a withdrawn rule is used again.
    let mut after = full;
    assert_eq!(withdraw(&mut after, 5), Withdrawn::Gone);
    assert_eq!(add(&mut after, &rules[32], &mut [0; SITUATION_BYTES]), Added::Entered);
    let expected = [&rules[..5], &rules[6..]].concat();
    assert_eq!(after, catalogue(&expected, catalogue_bytes(MOST_RULES)));
}

#[test]
fn the_longest_rule() {
    let pattern = |field| [&[b'P', b'A', field, 192][..], &[68; 191], &[A]].concat();
    let patterns: Vec<u8> = (0..RULE_FIELDS as u8).flat_map(pattern).collect();
    let longest = with(&patterns, &[X, X + 1, X + 2, X + 3].repeat(6));
    assert_eq!(longest.len(), RULE_BYTES);
    enters(&[], &longest, 0);
}

#[test]
fn withdrawn() {
    let rules = [rule(&[A]), with(b"PA\x00\x01\x04", &[X]), rule(&[]), rule(&[B, B])];
    for length in [rules.concat().len(), rules.concat().len() + 1, 200] {
        for number in 0..4 {
            let mut after = catalogue(&rules, length);
            assert_eq!(withdraw(&mut after, number), Withdrawn::Gone);
            let mut kept = rules.to_vec();
            kept.remove(number);
            assert_eq!(after, catalogue(&kept, length));
        }
        for number in [4, 32, usize::MAX] {
            let mut after = catalogue(&rules, length);
            assert_eq!(withdraw(&mut after, number), Withdrawn::NoRule);
            assert_eq!(after, catalogue(&rules, length));
        }
    }
    assert_eq!(withdraw(&mut [], 0), Withdrawn::NoRule);
}

#[test]
fn no_catalogue() {
    let (a, b) = (rule(&[A]), rule(&[B]));
    let wrong: [Vec<u8>; 7] = [
        // a byte behind the zeros, a gap between two records
        [&a[..], &[0, 1]].concat(),
        [&a[..], &[0], &b].concat(),
        // a record cut short, one that is no rule's, one with field 4
        [&a[..], b"RU"].concat(),
        [&a[..], b"LE\x00"].concat(),
        rule(&[X + 4]),
        // a stray pattern
        [&a[..], &with(b"PA\x01\x01\x04", &[X])].concat(),
        // 33 of them
        (0..33).flat_map(|label| rule(&[label])).collect(),
    ];
    for before in wrong {
        // Before all else: a good rule, and no rule.
        assert_eq!(refused(&before, &b), Added::NoCatalogue);
        assert_eq!(refused(&before, b""), Added::NoCatalogue);
        let mut after = before.clone();
        assert_eq!(withdraw(&mut after, 0), Withdrawn::NoCatalogue);
        assert_eq!(after, before);
    }
    // Pairs of a catalogue filled by hand are not searched.
    enters(&[a.clone(), a.clone()], &b, SITUATION_BYTES);
    let mut twice = [&a[..], &a].concat();
    assert_eq!(withdraw(&mut twice, 0), Withdrawn::Gone);
    assert_eq!(twice, catalogue(&[a], 12));
}

/// Checks again with so many bytes of work and of list, after which the working buffer must be all
/// zero where a pair was searched, else unchanged, and the list unchanged behind the pairs. Hands
/// back the number and the pairs.
fn rechecked(catalogue: &[u8], work: usize, list: usize, searched: bool) -> (u32, Vec<Pair>) {
    let mut work = vec![WORK_FILL; work];
    let mut list = vec![LIST_FILL; list];
    let given = recheck(catalogue, &mut work, &mut list);
    let number = given.number();
    let pairs: Vec<Pair> = match given {
        Rechecked::Listed(pairs) => pairs.collect(),
        Rechecked::NoCatalogue | Rechecked::ListTooShort => Vec::new(),
    };
    let left = if searched { 0 } else { WORK_FILL };
    assert!(work.iter().all(|&byte| byte == left), "{pairs:?}");
    assert!(list[PAIR_BYTES * pairs.len()..].iter().all(|&byte| byte == LIST_FILL), "{pairs:?}");
    (number, pairs)
}

fn pair(lower: usize, higher: usize, answer: Answer) -> Pair {
    Pair { lower, higher, answer }
}

#[test]
fn nothing_listed() {
    // No pair is searched.
    for catalogue in [vec![], vec![0; 16], rule(&[X]), catalogue(&[rule(&[A])], 9)] {
        assert_eq!(rechecked(&catalogue, 150, 8, false), (0, vec![]));
        assert_eq!(rechecked(&catalogue, 0, 0, false), (0, vec![]));
    }
    let apart = [rule(&[A]), rule(&[B]), rule(&[A, SPACE, B])];
    assert_eq!(rechecked(&catalogue(&apart, 40), 2 * SITUATION_BYTES, 0, true), (0, vec![]));
}

#[test]
fn listed() {
    let (none, one, two) = (rule(&[A]), rule(&[A, SPACE]), rule(&[A, SPACE, SPACE]));
    let kept = catalogue(&[none.clone(), one.clone()], 16);
    let room = 6 * SITUATION_BYTES;
    for list in [5, 6, list_bytes(MOST_RULES)] {
        assert_eq!(rechecked(&kept, room, list, true), (0, vec![pair(0, 1, clash(6))]));
    }
    for list in 0..5 {
        assert_eq!(rechecked(&kept, room, list, true), (35, vec![]));
    }
    let no_room = Answer::NoRoom { count: 5 };
    assert_eq!(rechecked(&kept, room - 1, 8, true), (0, vec![pair(0, 1, no_room)]));
    // Each pair has the whole room; one that is not decided does not stop the rest.
    let three = [none, one, two].concat();
    let pairs = [(0, 1, clash(6)), (0, 2, Answer::NoRoom { count: 6 }), (1, 2, clash(6))];
    let pairs = pairs.map(|(lower, higher, answer)| pair(lower, higher, answer));
    assert_eq!(rechecked(&three, room + 9, 15, true), (0, pairs.to_vec()));
    assert_eq!(rechecked(&three, room + 9, 14, true), (35, vec![]));
    let long = [rule(&[X; 24]), rule(&[A, A])].concat();
    let too_long = Answer::SideTooLong { count: 3 };
    assert_eq!(rechecked(&long, 600, 8, true), (0, vec![pair(0, 1, too_long)]));
}

#[test]
fn the_lower_rule_is_the_left_one() {
    let (two, three) = (rule(&[X, A, A]), rule(&[X, A, A, A]));
    let room = 21 * SITUATION_BYTES;
    let both = [&three[..], &two].concat();
    assert_eq!(rechecked(&both, room, 8, true), (0, vec![pair(0, 1, clash(20))]));
    let both = [two, three].concat();
    assert_eq!(rechecked(&both, room, 8, true), (0, vec![pair(0, 1, clash(21))]));
}

#[test]
fn every_pair_by_the_lower_number() {
    let rules: Vec<u8> = (0..MOST_RULES).flat_map(|_| rule(&[])).collect();
    let length = list_bytes(MOST_RULES);
    assert_eq!(length, 2_480);
    let (number, pairs) = rechecked(&rules, 5 * SITUATION_BYTES, length, true);
    let expected = (0..MOST_RULES)
        .flat_map(|lower| (lower + 1..MOST_RULES).map(move |higher| pair(lower, higher, clash(5))));
    assert_eq!((number, pairs.len()), (0, 496));
    assert!(pairs.into_iter().eq(expected));
    assert_eq!(rechecked(&rules, 5 * SITUATION_BYTES, length - 1, true), (35, vec![]));
}

#[test]
fn nothing_to_check_again() {
    // A byte behind the zeros; field 4; a stray pattern; 33 rules. Before 35.
    let rules: Vec<u8> = (0..33).flat_map(|_| rule(&[])).collect();
    let stray = with(b"PA\x01\x01\x04", &[X]);
    for wrong in [[&rule(&[A])[..], &[0, 1]].concat(), rule(&[X + 4]), stray, rules] {
        assert_eq!(rechecked(&wrong, 864, 8, false), (34, vec![]));
        assert_eq!(rechecked(&wrong, 864, 0, false), (34, vec![]));
    }
}
