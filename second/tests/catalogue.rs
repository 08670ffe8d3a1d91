//! The catalogue: each answer and what it leaves in the lent buffers, worked
//! out by hand from the bytes. In lists of situations h is the hidden field of
//! the left rule, k that of the right one, `_` a space, and a field with a
//! stroke one whose set is no longer the first.

use second::calls::{Calls, Operation};
use second::catalogue::{add, recheck, withdraw, Added, Rechecked, HASHING, SCANNING};
use second::SITUATION_BYTES;

const A: u8 = 10;
const B: u8 = 11;
const SPACE: u8 = 38;
const X: u8 = 64;
const FILL: u8 = 90;

/// A rule without patterns.
fn rule(side: &[u8]) -> Vec<u8> {
    [b"RULE", &[side.len() as u8][..], side].concat()
}

/// A rule whose `PA` records are these bytes.
fn with(patterns: &[u8], side: &[u8]) -> Vec<u8> {
    [b"RU", patterns, b"LE", &[side.len() as u8], side].concat()
}

/// These rules in a buffer of this length.
fn catalogue(rules: &[Vec<u8>], length: usize) -> Vec<u8> {
    let mut catalogue = rules.concat();
    assert!(catalogue.len() <= length);
    catalogue.resize(length, 0);
    catalogue
}

const DONE: Added = Added { number: 0, count: 0, place: 0, rule: 0, pair: 0 };

fn refused(number: u8) -> Added {
    Added { number, ..DONE }
}

fn pair(rule: usize, answer: u8, count: usize) -> Added {
    Added { number: 30, count, place: 0, rule, pair: answer }
}

/// Adds with room for so many situations, by both modules: what is told, the
/// catalogue and the working buffer afterwards.
fn added(before: &[u8], rule: &[u8], room: usize) -> (Added, Vec<u8>, Vec<u8>) {
    let [hashed, scanned] = [HASHING, SCANNING].map(|search| {
        let mut catalogue = before.to_vec();
        let mut work = vec![FILL; room * SITUATION_BYTES + 5];
        let told = add(&mut catalogue, rule, &mut work, search);
        (told, catalogue, work)
    });
    assert_eq!(hashed, scanned);
    hashed
}

/// A rule is entered, after pairs or without one; the bytes stand behind the
/// last record and the others are as before.
fn enters(before: &[Vec<u8>], new: &[u8], room: usize) {
    let used = before.concat().len();
    for length in [used + new.len(), used + new.len() + 1, 8192] {
        let (told, after, work) = added(&catalogue(before, length), new, room);
        assert_eq!(told, DONE);
        assert_eq!(after, catalogue(&[before, &[new.to_vec()]].concat(), length));
        let left = if before.is_empty() { FILL } else { 0 };
        assert!(work.iter().all(|&byte| byte == left));
    }
}

/// Refused by a pair: the catalogue is as before, the working buffer all zero.
fn refused_by_pair(before: &[Vec<u8>], new: &[u8], room: usize, expected: Added) {
    let before = catalogue(before, 500);
    let (told, after, work) = added(&before, new, room);
    assert_eq!(told, expected);
    assert_eq!(after, before);
    assert!(work.iter().all(|&byte| byte == 0));
}

/// Refused before any pair: both buffers are as before.
fn refused_at_once(before: &[u8], new: &[u8], expected: Added) {
    for room in [0, 9] {
        let (told, after, work) = added(before, new, room);
        assert_eq!(told, expected, "{new:?}");
        assert_eq!(after, before);
        assert!(work.iter().all(|&byte| byte == FILL));
    }
}

// ----------------------------------------------------------------- 0 and 30

#[test]
fn the_first_rule_is_entered_without_a_search() {
    enters(&[], &rule(&[A]), 0);
    enters(&[], &rule(&[]), 0);
    enters(&[], &rule(&[X; 24]), 0);
    // With a pattern for each own field.
    let patterns = b"PA\x00\x01\x04PA\x01\x01\x04PA\x02\x01\x04PA\x03\x01\x04";
    enters(&[], &with(patterns, &[X, X + 1, X + 2, X + 3]), 0);
}

#[test]
fn no_clash_is_entered() {
    // `A` and `B`, count 1
    enters(&[rule(&[A])], &rule(&[B]), 1);
    // any digits and `A`: xh|Ak, h|Ak
    enters(&[with(b"PA\x00\x04\x44\x41\x00\x09", &[X])], &rule(&[A]), 2);
    // `A` and `A`, a space, `B`: h|_Bk, h'|Bk
    enters(&[rule(&[A])], &rule(&[A, SPACE, B]), 2);
    // behind three others
    enters(&[rule(&[A]), rule(&[B]), rule(&[])], &rule(&[A, A]), 1);
}

#[test]
fn a_clash_is_refused() {
    // both sides empty, count 5; the rule `B` before it gives 1
    refused_by_pair(&[rule(&[]), rule(&[B])], &rule(&[]), 5, pair(0, 0, 5));
    refused_by_pair(&[rule(&[B]), rule(&[])], &rule(&[]), 5, pair(1, 0, 5));
    // x and `A`, count 10
    refused_by_pair(&[rule(&[X])], &rule(&[A]), 10, pair(0, 0, 10));
    // x and 24 times `A`: two more for each `A`
    refused_by_pair(&[rule(&[X])], &rule(&[A; 24]), 56, pair(0, 0, 56));
}

#[test]
fn rules_that_differ_in_spaces_at_their_ends() {
    let spaces = |number: usize| rule(&[&[A][..], &vec![SPACE; number]].concat());
    for (present, new) in [(0, 1), (1, 0), (0, 2), (2, 1), (3, 23), (23, 0)] {
        let count = 5 + usize::abs_diff(present, new);
        refused_by_pair(&[spaces(present)], &spaces(new), count, pair(0, 0, count));
        refused_by_pair(&[spaces(present)], &spaces(new), count - 1, pair(0, 18, count - 1));
    }
    // A rule of spaces alone makes the empty label.
    refused_by_pair(&[rule(&[B]), rule(&[SPACE])], &rule(&[]), 6, pair(1, 0, 6));
}

#[test]
fn the_first_pair_that_is_not_1_is_told() {
    // Rules 1 and 2 both make `A`, rules 2 and 3 both `AA`.
    let rules = [rule(&[B]), rule(&[A]), rule(&[X]), rule(&[X, X])];
    refused_by_pair(&rules, &rule(&[A]), 356, pair(1, 0, 5));
    refused_by_pair(&rules, &rule(&[A, A]), 356, pair(2, 0, 12));
    // Bh|yk, h|y'k, |y'k, h|k, h'|y'k, |k, h|, h'|k', h'|k, |
    refused_by_pair(&rules[..2], &rule(&[X]), 356, pair(0, 0, 10));
    // A pair given up ends it too, though a later one has a clash.
    refused_by_pair(&[rule(&[X, X]), rule(&[A])], &rule(&[A]), 1, pair(0, 18, 1));
}

#[test]
fn the_new_rules_fields_are_others() {
    // As one sheet xA and Bx have no clash; as rules they have: BA. Entered:
    // xAh|Byk, x'Ah|yk, Ah|yk, x'Ah|y'k, h|y'k, Ah|y'k, x'Ah|k, |y'k, h|k,
    // h'|y'k, Ah|k, x'Ah|, x'Ah|k', |k, h|, h'|k', h'|k, Ah|k', |.
    refused_by_pair(&[rule(&[X, A])], &rule(&[B, X]), 356, pair(0, 0, 19));
    refused_by_pair(&[rule(&[X, A])], &rule(&[B, X]), 19, pair(0, 0, 19));
    refused_by_pair(&[rule(&[X, A])], &rule(&[B, X]), 18, pair(0, 18, 18));
    // Field 3 becomes 7.
    refused_by_pair(&[rule(&[X + 3, A])], &rule(&[B, X + 3]), 19, pair(0, 0, 19));
}

#[test]
fn each_rule_keeps_its_own_patterns() {
    let digit = with(b"PA\x00\x03\x41\x00\x09", &[X]);
    let four = with(b"PA\x00\x01\x04", &[X]);
    let letter = with(b"PA\x00\x01\x0a", &[X]);
    // xh|yk; no character is taken by both.
    enters(std::slice::from_ref(&digit), &letter, 1);
    // xh|yk, x'h|y'k, h|y'k, x'h|k, |y'k, h|k, x'h|, |k, h|, h'|k', |
    refused_by_pair(std::slice::from_ref(&digit), &four, 11, pair(0, 0, 11));
    refused_by_pair(&[four], &digit, 11, pair(0, 0, 11));
    // A field without a pattern is not held to the other's: xh|yk, x'h|y'k,
    // h|y'k, x'h|k, |y'k, h|k, h'|y'k, x'h|, |k, h|, h'|k', h'|k, |.
    refused_by_pair(&[digit], &rule(&[X]), 13, pair(0, 0, 13));
    // A pattern of a field that stands nowhere is refused before any pair.
    let stray = with(b"PA\x01\x01\x04", &[X]);
    refused_at_once(&catalogue(&[letter], 500), &stray, Added { place: 2, ..refused(22) });
}

/// "A field without a pattern shall now hold one character or more."
#[test]
fn a_field_without_a_pattern() {
    // `A`x`B` and `AB`: xBh|Bk, x'Bh|k, Bh|k, x'Bh|, x'Bh|k', Bh|k'
    let between = rule(&[A, X, B]);
    enters(std::slice::from_ref(&between), &rule(&[A, B]), 6);
    refused_by_pair(std::slice::from_ref(&between), &rule(&[A, B]), 5, pair(0, 18, 5));
    // and `AAB`: xBh|ABk, x'Bh|Bk, h|k, x'Bh|k, |k, h|, h'|k', Bh|k, x'Bh|,
    // x'Bh|k', |
    refused_by_pair(&[between], &rule(&[A, A, B]), 11, pair(0, 0, 11));
    // With the old meaning written out it may be empty: xBh|Bk, h|k, x'Bh|k,
    // |k, h|, h'|k', Bh|k, x'Bh|, x'Bh|k', |
    let spelt = with(b"PA\x00\x04\x44\x41\x00\x2a", &[A, X, B]);
    refused_by_pair(&[spelt], &rule(&[A, B]), 10, pair(0, 0, 10));
    // At the end it may be one space: xh|k, xh|, x'h|k', h|k', x'h|, |k', h|,
    // h'|k', |
    refused_by_pair(&[rule(&[A, X])], &rule(&[A]), 9, pair(0, 0, 9));
    lists(&[rule(&[A, X]), rule(&[A])], 9, &[[0, 1, 0, 9, 0]]);
    lists(&[rule(&[A, X, B]), rule(&[A, B])], 6, &[]);
}

#[test]
fn no_room() {
    refused_by_pair(&[rule(&[A])], &rule(&[B]), 0, pair(0, 18, 0));
    refused_by_pair(&[rule(&[X])], &rule(&[A]), 2, pair(0, 18, 2));
    // xxA and yyB: no label, but the search runs on.
    let (left, right) = (rule(&[X, X, A]), rule(&[X, X, B]));
    refused_by_pair(&[left], &right, 356, pair(0, 18, 356));
}

#[test]
fn a_working_buffer_of_no_bytes() {
    for search in [HASHING, SCANNING] {
        let mut before = catalogue(&[rule(&[A])], 20);
        assert_eq!(add(&mut before, &rule(&[B]), &mut [], search), pair(0, 18, 0));
        assert_eq!(before, catalogue(&[rule(&[A])], 20));
        assert_eq!(add(&mut [0; 6], &rule(&[B]), &mut [], search), DONE);
    }
}

#[test]
fn a_side_above_48_tokens() {
    refused_by_pair(&[rule(&[X; 24])], &rule(&[A, A]), 3, pair(0, 19, 3));
    // AAh|y..k, Ah|y'(Ay')..k, h|A..k, then 68 tokens
    let many_times = rule(&[&[A][..], &[X; 23]].concat());
    refused_by_pair(&[rule(&[B]), rule(&[A, A, A])], &many_times, 3, pair(1, 19, 3));
}

// ------------------------------------------------------- 11 to 17, then 31

/// The fault of a rule and its place, whether or not it would fit.
fn fault(new: &[u8], number: u8, place: usize) {
    let full: Vec<Vec<u8>> = (0..32).map(|label| rule(&[label])).collect();
    for before in [vec![], vec![0; 9], catalogue(&[rule(&[A])], 99), catalogue(&full, 300)] {
        refused_at_once(&before, new, Added { place, ..refused(number) });
    }
}

#[test]
fn cut_short() {
    fault(b"", 11, 0);
    fault(b"R", 11, 1);
    fault(b"X", 11, 1);
    // Every cut of a good rule with two patterns gives 11 at its length.
    let whole = with(b"PA\x00\x04\x44\x41\x00\x09PA\x03\x01\x04", &[A, X]);
    for cut in 0..whole.len() {
        fault(&whole[..cut], 11, cut);
    }
}

#[test]
fn wrong_mark() {
    fault(b"LE\x00", 12, 0);
    fault(b"PA\x00\x01\x04LE\x00", 12, 0);
    fault(b"UR", 12, 0);
    fault(b"\x00\x00", 12, 0);
    fault(b"RURI\x00", 12, 2);
    fault(b"RURULE\x00", 12, 2);
    fault(b"RUPA\x00\x01\x04RI\x00", 12, 7);
    // `LE` is the end, also for a right side and for zeros.
    fault(b"RULE\x00RI\x00", 12, 5);
    fault(b"RULE\x00LE\x00", 12, 5);
    fault(b"RULE\x00\x00", 12, 5);
    fault(b"RULE\x01\x0aX", 12, 6);
    fault(b"RULE\x00RULE\x00", 12, 5);
}

#[test]
fn wrong_field() {
    fault(b"RUPA\x08\x01\x04LE\x00", 13, 4);
    fault(b"RUPA\xff\x00", 13, 4);
    fault(b"RUPA\x01\x01\x04PA\x01\x01\x04LE\x00", 13, 9);
    fault(b"RUPA\x02\x01\x04PA\x01\x01\x04LE\x00", 13, 9);
    // Above 3 and falling.
    fault(b"RUPA\x05\x01\x04PA\x04\x01\x04LE\x00", 13, 9);
}

#[test]
fn wrong_length() {
    fault(b"RUPA\x00\x00", 14, 5);
    fault(b"RUPA\x00\xc1", 14, 5);
    fault(b"RULE\x19", 14, 4);
    fault(b"RUPA\x00\x01\x04PA\x01\xc1", 14, 10);
    fault(b"RUPA\x00\x01\x04LE\xff", 14, 9);
}

/// The fault of a pattern with these bytes, its place counted from the first of
/// them: as the first of a rule's patterns, and as its second.
fn fault_of_body(body: &[u8], number: u8, place: usize) {
    let pattern = |field: u8, body: &[u8]| [b"PA", &[field, body.len() as u8][..], body].concat();
    fault(&with(&pattern(0, body), &[X]), number, 6 + place);
    fault(&with(&[pattern(0, &[4]), pattern(3, body)].concat(), &[X]), number, 11 + place);
}

#[test]
fn not_one_pattern() {
    // no code
    fault_of_body(&[43], 15, 0);
    fault_of_body(&[66, 1, 69, 255], 15, 2);
    // lo above 42, hi missing or not
    fault_of_body(&[65, 43], 15, 1);
    fault_of_body(&[66, 1, 65, 64, 42], 15, 3);
    // hi above 42, or below lo
    fault_of_body(&[65, 0, 43], 15, 2);
    fault_of_body(&[68, 65, 2, 1], 15, 3);
    // left over, be it a code or none
    fault_of_body(&[4, 4], 15, 1);
    fault_of_body(&[66, 1, 2, 63], 15, 3);
    // running out
    fault_of_body(&[68, 68], 15, 2);
    fault_of_body(&[66, 1, 65, 3], 15, 4);
    // The next record's bytes are not used.
    fault(b"RUPA\x00\x01\x44LE\x00", 15, 7);
}

#[test]
fn more_than_63_leaves() {
    let leaves = |number: usize| [vec![66; number - 1], vec![7; number]].concat();
    fault_of_body(&leaves(64), 16, 126);
    fault_of_body(&leaves(96), 16, 158);
    fault_of_body(&[vec![66; 63], [7, 65, 0, 9].repeat(32)].concat(), 16, 188);
    // 15 comes before 16.
    fault_of_body(&[leaves(64), vec![7]].concat(), 15, 127);
    fault_of_body(&[vec![66], leaves(64), vec![65, 2, 1]].concat(), 15, 130);
    for number in [31, 32, 62, 63] {
        let leaves = leaves(number);
        let body = [b"PA", &[0, leaves.len() as u8][..], &leaves].concat();
        enters(&[], &with(&body, &[X]), 0);
    }
}

/// A longest rule has 813 bytes: 2 + 4 × (4 + 192) + 3 + 24.
#[test]
fn the_longest_rule() {
    // `7` any number of times, then 62 times: 63 leaves, 192 bytes
    let full = [vec![66; 62], vec![68; 67], vec![7; 63]].concat();
    let longer = [&[68], &full[..]].concat();
    let leaf_more = [vec![66; 63], vec![68; 65], vec![7; 64]].concat();
    let four = |other: u8, body: &[u8]| {
        let pattern = |field: u8| {
            let body = if field == other { body } else { &full };
            [b"PA", &[field, body.len() as u8][..], body].concat()
        };
        let patterns: Vec<u8> = (0..4).flat_map(pattern).collect();
        with(&patterns, &[X, X + 1, X + 2, X + 3].repeat(6))
    };
    let longest = four(0, &full);
    assert_eq!((full.len(), leaf_more.len(), longest.len()), (192, 192, 813));
    enters(&[], &longest, 0);
    // Bh|x..k: no field takes `B`, and none may be empty.
    enters(&[rule(&[B])], &longest, 1);
    // Just long enough, and a byte too short.
    refused_at_once(&[0; 812], &longest, refused(32));
    // One of its patterns is a byte longer, or has a leaf more.
    for field in 0..4 {
        let record = 2 + 196 * usize::from(field);
        fault(&four(field, &longer), 14, record + 3);
        fault(&four(field, &leaf_more), 16, record + 4 + 63 + 65 + 63);
    }
}

#[test]
fn wrong_token() {
    for token in (43..64).chain(72..=255) {
        fault(&rule(&[A, token]), 17, 6);
    }
    fault(&with(b"PA\x00\x01\x04", &[43]), 17, 10);
    // The first that is none, of several.
    fault(&rule(&[A, X, 72, B, 255]), 17, 7);
    // Before the bytes behind it, and before 31.
    fault(b"RULE\x01\x2bX", 17, 5);
    fault(&rule(&[68, 43]), 17, 6);
    fault(&with(b"PA\x04\x01\x04", &[43]), 17, 10);
    fault(b"RUPA\x04\x01\x04LE\x00X", 12, 10);
}

#[test]
fn a_field_above_3() {
    for field in 4..8 {
        fault(&rule(&[A, X + field]), 31, 0);
        fault(&with(&[b'P', b'A', field, 1, 4], &[X + field]), 31, 0);
        // Where it stands nowhere, that comes first.
        fault(&with(&[b'P', b'A', field, 1, 4], &[A]), 22, 2);
    }
    for field in 0..4 {
        enters(&[], &rule(&[A, X + field]), 0);
        enters(&[], &with(&[b'P', b'A', field, 1, 4], &[A, X + field]), 0);
    }
    // Behind a good one.
    fault(&with(b"PA\x00\x01\x04PA\x04\x01\x04", &[X, X + 4]), 31, 0);
    fault(&with(b"PA\x00\x01\x04PA\x04\x01\x04", &[X]), 22, 7);
}

// ------------------------------------------------------------------- 32

#[test]
fn bytes_that_do_not_fit() {
    refused_at_once(&[], &rule(&[]), refused(32));
    refused_at_once(&[0; 4], &rule(&[]), refused(32));
    refused_at_once(&catalogue(&[rule(&[A])], 11), &rule(&[B]), refused(32));
    // Before 30: the same rule again.
    refused_at_once(&catalogue(&[rule(&[A])], 6), &rule(&[A]), refused(32));
    enters(&[rule(&[A])], &rule(&[B]), 1);
}

#[test]
fn a_33rd_rule() {
    let rules: Vec<Vec<u8>> = (0..33).map(|label| rule(&[label])).collect();
    enters(&rules[..31], &rules[31], 1);
    let full = catalogue(&rules[..32], 8192);
    refused_at_once(&full, &rules[32], refused(32));
    refused_at_once(&full, &rules[0], refused(32));
    // The room of a withdrawn one is used again.
    let mut one_less = full;
    assert_eq!(withdraw(&mut one_less, 5), 0);
    let (told, after, _) = added(&one_less, &rules[32], 1);
    assert_eq!(told, DONE);
    assert_eq!(after, catalogue(&[&rules[..5], &rules[6..]].concat(), 8192));
}

// ------------------------------------------------------------- withdrawing

#[test]
fn withdrawing_closes_the_gap() {
    let rules = [rule(&[A]), with(b"PA\x00\x01\x04", &[X]), rule(&[]), rule(&[B, B])];
    for length in [rules.concat().len(), rules.concat().len() + 1, 200] {
        for number in 0..4 {
            let mut after = catalogue(&rules, length);
            assert_eq!(withdraw(&mut after, number), 0);
            let mut kept = rules.to_vec();
            kept.remove(number);
            assert_eq!(after, catalogue(&kept, length));
        }
    }
    let mut only = rule(&[A]);
    assert_eq!(withdraw(&mut only, 0), 0);
    assert_eq!(only, [0; 6]);
}

#[test]
fn no_rule_has_that_number() {
    let rules = [rule(&[A]), rule(&[B])];
    for (before, number) in [
        (vec![], 0),
        (vec![0; 50], 0),
        (catalogue(&rules, 12), 2),
        (catalogue(&rules, 60), 2),
        (catalogue(&rules, 60), 255),
    ] {
        let mut after = before.clone();
        assert_eq!(withdraw(&mut after, number), 33);
        assert_eq!(after, before);
    }
}

#[test]
fn a_rule_entered_again_is_the_last() {
    let rules = [rule(&[A]), rule(&[B]), rule(&[A, B])];
    let mut after = catalogue(&rules, 40);
    assert_eq!(withdraw(&mut after, 0), 0);
    let (told, again, _) = added(&after, &rules[0], 356);
    assert_eq!(told, DONE);
    assert_eq!(again, catalogue(&[&rules[1..], &rules[..1]].concat(), 40));
    refused_by_pair(&[&rules[1..], &rules[..1]].concat(), &rules[0], 356, pair(2, 0, 5));
}

// ------------------------------------------------------------------- 34

#[test]
fn not_of_this_form() {
    let full: Vec<Vec<u8>> = (0..33).map(|label| rule(&[label])).collect();
    let good = rule(&[A]);
    // A zero more makes no rule of these.
    let wrong: [Vec<u8>; 13] = [
        // a byte behind the zeros, and zeros between the records or before
        [&good[..], &[0, 0, 1]].concat(),
        [&good[..], &[0], &rule(&[B])].concat(),
        [&[0][..], &good].concat(),
        vec![0, 0, 255],
        // a record cut off
        b"R".to_vec(),
        b"RU".to_vec(),
        [&good[..], b"RUPA\x00\x03\x41"].concat(),
        // no rule
        [&good[..], b"LE\x00"].concat(),
        [&good[..], b"RUPA\x00\x00LE\x00"].concat(),
        [&good[..], &rule(&[43])].concat(),
        // a field above 3
        [&good[..], &rule(&[X + 4])].concat(),
        with(b"PA\x07\x01\x04", &[]),
        // 33 records
        full.concat(),
    ];
    for bytes in wrong {
        not_a_catalogue(&bytes);
        not_a_catalogue(&[&bytes[..], &[0]].concat());
    }
    // The hidden fields' tokens are none in a rule.
    for token in [72, 73] {
        not_a_catalogue(&[&good[..], &rule(&[B, token])].concat());
    }
    // A zero more is the length of a side, or its last character.
    for bytes in [&b"RULE"[..], b"RULE\x01", b"RULE\x01\x0aRULE\x02\x0a"] {
        not_a_catalogue(bytes);
        let mut whole = [bytes, &[0]].concat();
        assert_eq!(withdraw(&mut whole, 0), 0);
    }
}

fn not_a_catalogue(before: &[u8]) {
    // Before all else: a good rule, none, one with a field above 3.
    for new in [&rule(&[B])[..], b"", b"XX", &rule(&[X + 4])] {
        refused_at_once(before, new, refused(34));
    }
    for number in [0, 1, 40] {
        let mut after = before.to_vec();
        assert_eq!(withdraw(&mut after, number), 34, "{before:?}");
        assert_eq!(after, before);
    }
    for length in [0, 2, 2560] {
        rechecks_to(before, 9, length, told(34, 0), &[], FILL);
    }
}

#[test]
fn zeros_that_are_part_of_a_record() {
    // A side of no token ends in a zero byte, and so does one that ends in the
    // character 0; a range may begin with it.
    let rules = [rule(&[]), rule(&[A, 0]), with(b"PA\x00\x03\x41\x00\x09", &[X, 0, 0])];
    enters(&rules, &rule(&[B]), 356);
    let used = rules.concat().len();
    let mut after = catalogue(&rules, used);
    assert_eq!(withdraw(&mut after, 1), 0);
    assert_eq!(after, catalogue(&[rules[0].clone(), rules[2].clone()], used));
}

#[test]
fn pairs_of_a_kept_catalogue_are_not_searched_again() {
    // Two rules that make the same label; a third that clashes with neither.
    let kept = [rule(&[X, A]), rule(&[X, A])];
    enters(&kept, &rule(&[X, B]), 356);
    let mut after = catalogue(&kept, 30);
    assert_eq!(withdraw(&mut after, 1), 0);
    assert_eq!(after, catalogue(&kept[..1], 30));
}

// ---------------------------------------------------------- checking again

const LIST_FILL: u8 = 165;

fn told(number: u8, pairs: usize) -> Rechecked {
    Rechecked { number, pairs, written: 5 * pairs }
}

/// Checks again with this room and length of the list buffer, by both modules:
/// what is told, the list in front and the rest unchanged, and what each byte
/// of the working buffer is afterwards.
fn rechecks_to(
    catalogue: &[u8],
    room: usize,
    length: usize,
    expected: Rechecked,
    listed: &[u8],
    worked: u8,
) {
    for search in [HASHING, SCANNING] {
        let mut list = vec![LIST_FILL; length];
        // Bytes beyond the last situation's are no room.
        let mut work = vec![FILL; room * SITUATION_BYTES + 183];
        let told = recheck(catalogue, &mut work, &mut list, search);
        assert_eq!(told, expected, "{catalogue:?}");
        let (front, rest) = list.split_at(listed.len());
        assert_eq!(front, listed);
        assert!(rest.iter().all(|&byte| byte == LIST_FILL));
        assert!(work.iter().all(|&byte| byte == worked));
    }
}

/// The list of rules of which at least two stand, in buffers just long enough
/// and longer; one byte less is too short.
fn lists(rules: &[Vec<u8>], room: usize, pairs: &[[u8; 5]]) {
    let listed = pairs.concat();
    for zeros in [0, 1, 40] {
        let kept = catalogue(rules, rules.concat().len() + zeros);
        for more in [0, 1, 4, 5, 1000] {
            let expected = told(0, pairs.len());
            rechecks_to(&kept, room, listed.len() + more, expected, &listed, 0);
        }
        for less in 1..=listed.len() {
            rechecks_to(&kept, room, listed.len() - less, told(35, 0), &[], 0);
        }
    }
}

#[test]
fn without_a_pair_nothing_is_searched() {
    for length in [0, 1, 5, 2560] {
        for kept in [vec![], vec![0; 9], rule(&[X; 24]), catalogue(&[rule(&[A])], 99)] {
            for room in [0, 9] {
                rechecks_to(&kept, room, length, told(0, 0), &[], FILL);
            }
        }
    }
}

#[test]
fn pairs_answered_1_are_not_listed() {
    lists(&[rule(&[A]), rule(&[B])], 1, &[]);
    lists(&[rule(&[A]), rule(&[B]), rule(&[]), rule(&[A, SPACE, B])], 2, &[]);
    let all: Vec<Vec<u8>> = (0..32).map(|label| rule(&[label])).collect();
    lists(&all, 1, &[]);
}

#[test]
fn pairs_that_clash_are_listed() {
    // both empty, and with a space behind one of them
    lists(&[rule(&[]), rule(&[])], 5, &[[0, 1, 0, 5, 0]]);
    lists(&[rule(&[A]), rule(&[A, SPACE])], 6, &[[0, 1, 0, 6, 0]]);
    // x and 24 times `A`
    lists(&[rule(&[X]), rule(&[A; 24])], 56, &[[0, 1, 0, 56, 0]]);
    // By lower, then higher number; `B` clashes with none of them.
    let rules = [rule(&[A, SPACE]), rule(&[B]), rule(&[A]), rule(&[A; 2]), rule(&[A, SPACE])];
    lists(&rules, 356, &[[0, 2, 0, 6, 0], [0, 4, 0, 5, 0], [2, 4, 0, 6, 0]]);
    lists(&rules[1..], 356, &[[1, 3, 0, 6, 0]]);
    // Each rule has fields of its own: xA and Bx make BA.
    lists(&[rule(&[X, A]), rule(&[B, X])], 19, &[[0, 1, 0, 19, 0]]);
}

#[test]
fn the_lower_number_is_the_left_side() {
    // x is `A` or empty, y any spaces. xh|yAyk, h|yAyk, xh|Ak, |yAyk, h|Ak,
    // h'|y'A_y'k, x'h|k, |y'A_y'k, h'|A_k, h'|y'A__y'k, h|k, x'h|, |y'A__y'k,
    // h'|A__k, h'|y'A___y'k, |k, h|, h'|k', |y'A___y'k, h'|A___k,
    // h'|y'A____y'k, |
    let x = with(b"PA\x00\x03\x43\x40\x0a", &[X]);
    let yay = with(b"PA\x01\x02\x44\x26", &[X + 1, A, X + 1]);
    lists(&[x.clone(), yay.clone()], 22, &[[0, 1, 0, 22, 0]]);
    // yAyh|xk, Ah|xk, yAyh|k, Ah|k, h|x'k, yAyh|, y'A_y'h|k', |x'k, h|k,
    // A_h|k', y'A_y'h|, y'A__y'h|k', |k, h|, h'|k', A__h|k', y'A__y'h|,
    // y'A___y'h|k', |
    lists(&[yay.clone(), x.clone()], 19, &[[0, 1, 0, 19, 0]]);
    // As present and new rule of `add`.
    refused_by_pair(std::slice::from_ref(&x), &yay, 22, pair(0, 0, 22));
    refused_by_pair(&[yay], &x, 19, pair(0, 0, 19));
}

#[test]
fn pairs_given_up_are_listed() {
    // No room: also with bytes that are no situation's.
    lists(&[rule(&[A]), rule(&[B])], 0, &[[0, 1, 18, 0, 0]]);
    let rules = [rule(&[A]), rule(&[B]), rule(&[A])];
    lists(&rules, 0, &[[0, 1, 18, 0, 0], [0, 2, 18, 0, 0], [1, 2, 18, 0, 0]]);
    lists(&rules, 4, &[[0, 2, 18, 4, 0]]);
    // xxA and yyB: a count above 255. With x..x and AA a side above 48 tokens.
    let runs_on = [rule(&[X, X, A]), rule(&[X, X, B])];
    lists(&runs_on, 356, &[[0, 1, 18, 0x64, 1]]);
    lists(&runs_on, 256, &[[0, 1, 18, 0, 1]]);
    lists(&[rule(&[X; 24]), rule(&[A, A])], 3, &[[0, 1, 19, 3, 0]]);
}

#[test]
fn a_working_buffer_of_no_bytes_for_a_recheck() {
    for search in [HASHING, SCANNING] {
        let mut list = [LIST_FILL; 6];
        let kept = catalogue(&[rule(&[A]), rule(&[B])], 20);
        assert_eq!(recheck(&kept, &mut [], &mut list, search), told(0, 1));
        assert_eq!(list, [0, 1, 18, 0, 0, LIST_FILL]);
        assert_eq!(recheck(&kept, &mut [], &mut [], search), told(35, 0));
    }
}

#[test]
fn all_pairs_of_32_rules() {
    // The same label with 0 to 19 spaces, and with none: 496 pairs.
    let spaces = |rule: usize| if rule < 20 { rule } else { 0 };
    let side = |number: usize| [vec![A], vec![SPACE; spaces(number)]].concat();
    let rules: Vec<Vec<u8>> = (0..32).map(|number| rule(&side(number))).collect();
    let mut pairs = Vec::new();
    for lower in 0..32 {
        for higher in lower + 1..32 {
            let count = 5 + spaces(lower).abs_diff(spaces(higher)) as u8;
            pairs.push([lower as u8, higher as u8, 0, count, 0]);
        }
    }
    assert_eq!(pairs.len(), 496);
    let kept = catalogue(&rules, 8192);
    rechecks_to(&kept, 24, 2480, told(0, 496), &pairs.concat(), 0);
    rechecks_to(&kept, 24, 2560, told(0, 496), &pairs.concat(), 0);
    rechecks_to(&kept, 24, 2479, told(35, 0), &[], 0);
    rechecks_to(&kept, 24, 0, told(35, 0), &[], 0);
}

#[test]
fn what_add_entered_is_not_listed() {
    let mut kept = vec![0; 100];
    for new in [rule(&[A]), rule(&[A, SPACE]), rule(&[A, A]), rule(&[]), rule(&[SPACE; 3])] {
        add(&mut kept, &new, &mut vec![0; 20 * SITUATION_BYTES], HASHING);
    }
    // `A`, `AA` and the empty label are entered.
    assert_eq!(kept, catalogue(&[rule(&[A]), rule(&[A, A]), rule(&[])], 100));
    rechecks_to(&kept, 20, 0, told(0, 0), &[], 0);
}

// ---------------------------------------------------------------- operations

/// The lines of a stream, by both modules.
fn lines(stream: &[u8]) -> Vec<String> {
    let [hashed, scanned] = [HASHING, SCANNING].map(|search| {
        let mut calls = Calls::new(search);
        let mut lines = Vec::new();
        let mut rest = stream;
        while let Some((operation, behind)) = Operation::read(rest) {
            lines.extend(calls.run(&operation).map(|after| after.line()));
            rest = behind;
        }
        lines
    });
    assert_eq!(hashed, scanned);
    hashed
}

#[test]
fn lines_have_every_byte() {
    let stream = b"AD\x06\x00RULE\x01\x0a\
        AD\x06\x00RULE\x01\x0a\
        WI\x01\
        AD\x02\x00RU\
        WI\x00\
        CA\x07\x00\x06\x00RULE\x01\x0a\
        AD\x05\x00RULE\x00\
        WO\xb8\x00\x00\x00\
        CA\x0b\x00\x06\x00RULE\x01\x0a\
        AD\x05\x00RULE\x00\
        WO\x00\x00\x00\x00\
        AD\x00\x00\
        CA\x00\x00\x00\x00\
        WI\xff\
        CA\x03\x00\x02\x00\x00X\
        WI\x00\
        RE\x02\x00\
        CA\x10\x00\x0d\x00RULE\x01\x0aRULE\x02\x0a\x26\
        RE\x05\x00\
        WO\xc0\x04\x00\x00\
        RE\x04\x00\
        RE\x05\x00\
        RE\x07\x00\
        WI\x00\
        RE\x00\x00\
        RE\x01\x00";
    assert_eq!(
        lines(stream),
        [
            "add 0 0 0 0 0, catalogue 52 55 4c 45 01 0a, zeros 8186, work unchanged",
            "add 30 5 0 0 0, catalogue 52 55 4c 45 01 0a, zeros 8186, work all zero",
            "withdraw 33, catalogue 52 55 4c 45 01 0a, zeros 8186",
            "add 11 0 2 0 0, catalogue 52 55 4c 45 01 0a, zeros 8186, work unchanged",
            "withdraw 0, catalogue, zeros 8192",
            "add 32 0 0 0 0, catalogue 52 55 4c 45 01 0a, zeros 1, work unchanged",
            "add 0 0 0 0 0, catalogue 52 55 4c 45 01 0a 52 55 4c 45, zeros 1, work all zero",
            "add 11 0 0 0 0, catalogue 52 55 4c 45 01 0a 52 55 4c 45, zeros 1, work all zero",
            "withdraw 33, catalogue, zeros 0",
            "withdraw 34, catalogue 00 58, zeros 1",
            "recheck 34 0 0, list a5 a5, zeros 0, catalogue 00 58, zeros 1, work all zero",
            "recheck 0 1 5, list 00 01 12, zeros 2, catalogue 52 55 4c 45 01 0a 52 55 4c 45 02 0a \
             26, zeros 3, work all zero",
            "recheck 35 0 0, list a5 a5 a5 a5, zeros 0, catalogue 52 55 4c 45 01 0a 52 55 4c 45 02 \
             0a 26, zeros 3, work all zero",
            "recheck 0 1 5, list 00 01 00 06, zeros 1, catalogue 52 55 4c 45 01 0a 52 55 4c 45 02 \
             0a 26, zeros 3, work all zero",
            "recheck 0 1 5, list 00 01 00 06 00 a5 a5, zeros 0, catalogue 52 55 4c 45 01 0a 52 55 \
             4c 45 02 0a 26, zeros 3, work all zero",
            "withdraw 0, catalogue 52 55 4c 45 02 0a 26, zeros 9",
            "recheck 0 0 0, list, zeros 0, catalogue 52 55 4c 45 02 0a 26, zeros 9, work unchanged",
            "recheck 0 0 0, list a5, zeros 0, catalogue 52 55 4c 45 02 0a 26, zeros 9, \
             work unchanged",
        ]
    );
}

#[test]
fn a_stream_ends_where_an_operation_is_none() {
    let ends: [&[u8]; 22] = [
        b"",
        b"W",
        b"WI",
        b"AD",
        b"AD\x01",
        b"AD\x01\x00",
        b"CA\x01\x00\x01\x00",
        b"CA\x01\x00\x00",
        b"WO\x00\x00\x00",
        b"RE",
        b"RE\x00",
        // other marks
        b"XX\x00WI\x00",
        b"ad\x00\x00WI\x00",
        b"re\x00\x00WI\x00",
        b"RI\x00\x00WI\x00",
        // more than is allowed: 8,193 bytes, a front longer than the buffer,
        // 65,688 bytes of work, 2,561 bytes of list
        b"CA\x01\x20\x00\x00WI\x00",
        b"CA\x01\x00\x02\x00\x00\x00WI\x00",
        b"WO\x98\x00\x01\x00WI\x00",
        b"WO\x00\x00\x00\x01WI\x00",
        b"WO\xff\xff\xff\xffWI\x00",
        b"RE\x01\x0aWI\x00",
        b"RE\xff\xffWI\x00",
    ];
    for end in ends {
        assert_eq!(lines(&[b"WI\x00", end].concat()).len(), 1, "{end:?}");
    }
    // The most that is allowed.
    let most = [b"CA\x00\x20\x00\x00", &b"WO\x97\x00\x01\x00"[..], b"WI\x00"].concat();
    assert_eq!(lines(&most), ["withdraw 33, catalogue, zeros 8192"]);
    let list = lines(b"RE\x00\x0aWI\x00");
    assert!(list[0].starts_with("recheck 0 0 0, list a5 a5 ") && list.len() == 2);
    let full = [&b"CA\x02\x00\x02\x00RU"[..], b"WI\x00"].concat();
    assert_eq!(lines(&full), ["withdraw 34, catalogue 52 55, zeros 0"]);
}
