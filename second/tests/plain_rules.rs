//! The engine for plain rules: known sheets, each refusal, buffers around the
//! right length, and the full search wherever that decides.

use second::cases::Case;
use second::edition::{Edition, FIRST, SECOND};
use second::make::{pairs, plainly, Dice};
use second::plain::{plain, plain_by, plain_bytes, plain_bytes_by, standings, stands_twice};
use second::plain::{Needs, Told};
use second::sheet::{read, Reading};
use second::write::{many, row, sheet, tokens};
use second::{answer, MOST_ROOM, NO_ROOM, SITUATION_BYTES};

const FILL: u8 = 90;

fn told(number: u8, place: usize) -> Told {
    Told { number, count: 0, place }
}

/// What is said of these bytes with so many bytes of bits, and what those are
/// afterwards where they are all alike.
fn asked(sheet: &[u8], bits: usize) -> (Told, Option<u8>) {
    let mut buffer = vec![FILL; bits];
    let told = plain(sheet, &mut buffer);
    let first = buffer.first().copied();
    assert!(buffer.iter().all(|&byte| Some(byte) == first));
    (told, first)
}

/// Sides as texts, fields as small letters from `a` on, and patterns.
fn of(patterns: &[(u8, &[u8])], left: &str, right: &str) -> Vec<u8> {
    let patterns: Vec<(u8, Vec<u8>)> =
        patterns.iter().map(|(field, body)| (*field, body.to_vec())).collect();
    sheet(&patterns, &tokens(left), &tokens(right))
}

/// The sheet needs so many pairs of standings, and is answered with this number
/// in every buffer that holds them, and with 43 in every other.
#[track_caller]
fn answers(sheet: &[u8], left: usize, right: usize, number: u8) {
    let question = read(sheet).unwrap();
    assert_eq!(standings(&question, &question.left), left);
    assert_eq!(standings(&question, &question.right), right);
    let needed = (left * right).div_ceil(8);
    assert_eq!(plain_bytes(sheet), Needs { number: 0, place: 0, bytes: needed });
    for bits in needed.saturating_sub(9)..needed {
        let zero = (bits > 0).then_some(0);
        assert_eq!(asked(sheet, bits), (told(43, 0), zero), "{bits} bytes");
    }
    for bits in [needed, needed + 1, needed + 50] {
        assert_eq!(asked(sheet, bits), (told(number, 0), Some(0)), "{bits} bytes");
    }
}

#[track_caller]
fn refuses(sheet: &[u8], number: u8, place: usize) {
    let unchanged = number != 42;
    for bits in [0, 1, 9, 9_731, 65_520] {
        let left = (bits > 0).then_some(if unchanged { FILL } else { 0 });
        assert_eq!(asked(sheet, bits), (told(number, place), left));
    }
    assert_eq!(plain_bytes(sheet), Needs { number, place, bytes: 0 });
}

const DIGITS: &[u8] = &[68, 65, 0, 9];
const ANY: &[u8] = &[68, 65, 0, 42];

#[test]
fn known_sheets() {
    // The hidden fields alone: the end, and two for each of them.
    answers(&of(&[], "", ""), 3, 3, 0);
    answers(&of(&[], "A", "B"), 4, 4, 1);
    answers(&of(&[], "A", "A"), 4, 4, 0);
    answers(&of(&[], "a", "A"), 5, 4, 0);
    answers(&of(&[], "a", ""), 5, 3, 0); // a space, which is dropped
    answers(&of(&[], "aA", ""), 6, 3, 1);
    answers(&of(&[], "aA", "A"), 6, 4, 1); // open: one character or more
    answers(&of(&[(0, ANY)], "aA", "A"), 6, 4, 0);
    // sheet S
    answers(&of(&[(0, DIGITS), (1, &[4])], "a", "b"), 5, 5, 0);
    answers(&of(&[(0, DIGITS), (1, &[10])], "a", "b"), 5, 5, 1);
    // 72 pairs, which are 9 bytes, and 35, which are not four bytes and a half
    answers(&of(&[], "ABCDE", "ABCDEF"), 8, 9, 1);
    answers(&of(&[], "AB", "ABCD"), 5, 7, 1);
}

#[test]
fn trailing_spaces() {
    answers(&of(&[], "LT4", "LT4 "), 6, 7, 0);
    answers(&of(&[], "LT4", " LT4"), 6, 7, 1);
    answers(&of(&[(0, &[38])], "LT4a", "LT4"), 8, 6, 0);
    answers(&of(&[(0, &[39])], "LT4a", "LT4"), 8, 6, 1);
    answers(&of(&[(0, &[66, 38, 10])], "LT4a", "LT4  "), 9, 8, 1);
    answers(&of(&[(0, &[66, 38, 10])], "LT4a", "LT4 A  "), 9, 10, 0);
}

#[test]
fn patterns_without_a_leaf() {
    // one place, the start
    answers(&of(&[(0, &[64])], "a", ""), 4, 3, 0);
    answers(&of(&[(0, &[64])], "a", "A"), 4, 4, 1);
    answers(&of(&[(0, &[66, 64, 64]), (1, &[68, 64])], "aA", "Ab"), 5, 5, 0);
    // and the pattern of a field that stands nowhere added none, by the old rule
    let stray = of(&[(5, DIGITS)], "A", "A");
    assert_eq!(plain_by(Reading::Old, &stray, &mut [1; 2]).number, 0);
    assert_eq!(plain_bytes_by(Reading::Old, &stray).bytes, 2);
}

#[test]
fn a_place_is_one_alone() {
    // 0s and 1s with a 1 at the third place from the end, and three characters
    let third = [66, 68, 65, 0, 1, 66, 1, 66, 65, 0, 1, 65, 0, 1];
    answers(&of(&[(0, &third)], "a", "0100"), 8, 7, 0);
    answers(&of(&[(0, &third)], "a", "1000"), 8, 7, 1);
    // a field that may not end where the other side does
    answers(&of(&[(0, &[66, 10, 11])], "a", "A"), 6, 4, 1);
    answers(&of(&[(0, &[67, 10, 66, 10, 11]), (1, &[67, 66, 10, 11, 12])], "a", "b"), 7, 7, 0);
    // a place leads to no other without a character in common
    answers(&of(&[(0, &[66, 10, 10]), (1, &[66, 10, 11])], "a", "b"), 6, 6, 1);
}

#[test]
fn each_refusal() {
    refuses(b"", 11, 0);
    refuses(b"LE\x00RI\x00L", 12, 6);
    refuses(b"PA\x08\x01\x40LE\x00RI\x00", 13, 2);
    refuses(b"PA\x00\xc1", 14, 3);
    refuses(b"PA\x00\x01\x2bLE\x00RI\x00", 15, 4);
    let leaves = row(vec![vec![0]; 64]);
    refuses(&sheet(&[(0, leaves)], &[], &[]), 16, 4 + 126);
    refuses(b"LE\x01\x48RI\x00", 17, 3);
    // twice on a side, once on each; the sheet's own faults come first
    refuses(&of(&[], "aAa", "B"), 42, 0);
    refuses(&of(&[(7, DIGITS)], "h", "h"), 42, 0);
    refuses(&of(&[], "", "hAh"), 42, 0);
    refuses(b"LE\x02\x40\x40RI\x01\x2b", 17, 8);
    refuses(b"LE\x02\x40\x40RI\x00A", 12, 8);
    // and 42 comes before 43, which the buffers of no and of one byte would give
    refuses(&of(&[], "aABCDEFGHIJKLMNOPQRSTUVa", "ABCDEF"), 42, 0);
}

#[test]
fn the_largest_buffer() {
    let pattern = many(row(vec![vec![0]; 63]));
    let patterns: Vec<(u8, Vec<u8>)> = (0..8).map(|field| (field, pattern.clone())).collect();
    let characters = "0".repeat(20);
    let sides = [tokens(&format!("abcd{characters}")), tokens(&format!("{characters}efgh"))];
    answers(&sheet(&patterns, &sides[0], &sides[1]), 279, 279, 0);
    assert_eq!(279_usize.pow(2).div_ceil(8), plainly::MOST_BITS);
    // No other share of the fields among the sides has more.
    for left in 0..=8 {
        let standings = |fields: usize| 64 * fields + (24 - fields) + 3;
        assert!(standings(left) * standings(8 - left) <= 279 * 279);
    }
}

/// What the full search says in room for 4,000 situations, and where that is too
/// little, in the largest.
fn searched(sheet: &[u8]) -> u8 {
    let in_room = |room: usize| {
        let mut work = vec![0; room * SITUATION_BYTES];
        answer(sheet, &mut work, &mut [0; 4_096]).number
    };
    match in_room(4_000) {
        NO_ROOM => in_room(MOST_ROOM),
        number => number,
    }
}

#[test]
fn it_agrees_with_the_search() {
    it_agrees_with_the_search_in(FIRST, 6_000);
    it_agrees_with_the_search_in(SECOND, 1_500);
}

fn it_agrees_with_the_search_in(edition: Edition, cases: usize) {
    let (mut clashes, mut none, mut given_up) = (0, 0, 0);
    let mut dice = Dice::of(21, edition);
    for number in 0..cases {
        let case = match number % 3 {
            0 => pairs::plain_case(&mut dice),
            _ => plainly::case(&mut dice),
        };
        let needed = plain_bytes(&case.sheet);
        let told = plain(&case.sheet, &mut vec![FILL; needed.bytes]);
        let search = searched(&case.sheet);
        match told.number {
            0 | 1 => {
                let its = if search == 20 { 0 } else { search };
                match search {
                    0 | 20 => clashes += 1,
                    1 => none += 1,
                    _ => given_up += 1,
                }
                assert!(its == told.number || matches!(its, 18 | 19), "{:?}", case.sheet);
            }
            42 => assert!(read(&case.sheet).is_ok_and(|question| stands_twice(&question))),
            fault => assert_eq!(fault, search),
        }
    }
    let many = cases / 6;
    assert!(clashes > many && none > many && given_up < 10, "{clashes} {none} {given_up}");
}

#[test]
fn the_cases_have_everything() {
    let mut dice = Dice::new(9);
    let cases: Vec<Case> = (0..1_500).map(|_| plainly::case(&mut dice)).collect();
    let mut by_number = [0; 64];
    let (mut exact, mut one_less, mut one_more, mut no_buffer, mut plenty) = (0, 0, 0, 0, 0);
    let mut part_of_a_byte = 0;
    for case in &cases {
        let (told, _) = case.plain();
        by_number[usize::from(told.number)] += 1;
        let needed = plain_bytes(&case.sheet).bytes;
        if needed > 0 {
            let work = case.work as usize;
            exact += usize::from(work == needed);
            one_less += usize::from(work + 1 == needed);
            one_more += usize::from(work == needed + 1);
            no_buffer += usize::from(work == 0);
            plenty += usize::from(work >= plainly::MOST_BITS);
            let question = read(&case.sheet).unwrap();
            let pairs =
                standings(&question, &question.left) * standings(&question, &question.right);
            part_of_a_byte += usize::from(work == pairs / 8 && work < needed);
        }
    }
    for number in [0, 1, 11, 12, 13, 14, 15, 16, 17, 42, 43] {
        let wanted = if matches!(number, 0 | 1 | 42 | 43) { 100 } else { 3 };
        assert!(by_number[number] >= wanted, "{number}: {}", by_number[number]);
    }
    assert_eq!(by_number.iter().sum::<usize>(), 1_500);
    assert!(exact > 200 && one_less > 100 && one_more > 50 && no_buffer > 20 && plenty > 40);
    assert!(part_of_a_byte > 80);
}

#[test]
fn growing_sheets() {
    let cases = plainly::growing();
    assert_eq!(cases.len(), 16);
    for case in &cases {
        assert_eq!(case.plain().0, told(1, 0));
    }
    let bytes: Vec<usize> = cases.iter().map(|case| plain_bytes(&case.sheet).bytes).collect();
    assert_eq!((bytes[0], bytes[15]), ((67_usize * 67).div_ceil(8), plainly::MOST_BITS));
}
