//! Every row of "Known sheets", and sheet S in all its variants; then sheets
//! whose labels end in spaces. Counts are worked out by hand where a comment
//! lists the situations: h is the left hidden field, k the right one, `_` a
//! space, and a field with a stroke one whose set is no longer the first.

use std::io::Write;
use std::process::{Command, Stdio};

use second::cases::{After, Case, ANSWER_FILL};
use second::edition::FIRST;
use second::storeroom::by_first_letter;
use second::write::tokens;
use second::{lines, Outcome, SITUATION_BYTES};

const A: u8 = 10;
const B: u8 = 11;
const SPACE: u8 = 38;
const X: u8 = 64;
const Y: u8 = 65;

/// Sheet S: x any digits, y the digit 4, x and y the sides.
const SHEET_S: [u8; 21] = [
    0x50, 0x41, 0x00, 0x04, 0x44, 0x41, 0x00, 0x09, 0x50, 0x41, 0x01, 0x01, 0x04, 0x4C, 0x45, 0x01,
    0x40, 0x52, 0x49, 0x01, 0x41,
];

/// A sheet without patterns.
fn sheet(left: &[u8], right: &[u8]) -> Vec<u8> {
    [&b"LE"[..], &[left.len() as u8], left, b"RI", &[right.len() as u8], right].concat()
}

/// Runs both modules and checks that they agree and what both buffers hold.
fn run(sheet: &[u8], room: usize, answer: u32) -> After {
    let work = (room * SITUATION_BYTES) as u32;
    let case = Case { work, answer, sheet: sheet.to_vec() };
    let after = case.run(second::answer);
    assert_eq!(after, case.run(second::scan::answer));
    let Outcome { number, written, .. } = after.outcome;
    if !(11..=17).contains(&number) {
        assert!(after.work.iter().all(|&byte| byte == 0));
    }
    assert!(after.answer[written..].iter().all(|&byte| byte == ANSWER_FILL));
    after
}

/// Checks number, count, place and the bytes written.
fn check(sheet: &[u8], room: usize, answer: u32, expected: (u8, usize, usize), records: &[u8]) {
    let After { outcome, answer, .. } = run(sheet, room, answer);
    assert_eq!((outcome.number, outcome.count, outcome.place), expected);
    assert_eq!(&answer[..outcome.written], records);
}

/// The same at the least room for it; with one situation less there is no room.
fn check_at_least_room(sheet: &[u8], number: u8, count: usize, records: &[u8]) {
    check(sheet, 356, 4096, (number, count, 0), records);
    check(sheet, count, 4096, (number, count, 0), records);
    check(sheet, count - 1, 4096, (18, count - 1, 0), &[]);
}

#[test]
fn both_sides_empty() {
    // h|k, |k, h|, h'|k', |
    check_at_least_room(&sheet(&[], &[]), 0, 5, &[]);
    check(&sheet(&[], &[]), 356, 0, (0, 5, 0), &[]);
}

#[test]
fn a_and_b() {
    check(&sheet(&[A], &[B]), 356, 4096, (1, 1, 0), &[]);
}

#[test]
fn x_and_a() {
    // xh|Ak, x'h|k, h|k, x'h|, x'h|k', |k, h|, h'|k', h|k', |
    let records = [b"VA", &[0, 1, 0, A][..]].concat();
    check_at_least_room(&sheet(&[X], &[A]), 0, 10, &records);
    check(&sheet(&[X], &[A]), 10, 6, (0, 10, 0), &records);
    check(&sheet(&[X], &[A]), 10, 5, (20, 10, 0), &[]);
    check(&sheet(&[X], &[A]), 2, 6, (18, 2, 0), &[]);
}

#[test]
fn x_and_the_empty_side() {
    // x is one space: xh|k, xh|, x'h|k', h|k', x'h|, |k', h|, h'|k', |
    check_at_least_room(&sheet(&[X], &[]), 0, 9, &record(&[SPACE]));
    let printed = run(&sheet(&[X], &[]), 356, 4096);
    assert_eq!(lines(FIRST, &printed.outcome, &printed.answer), "0 9 0\n0  \n");
    // h|xk, |xk, h'|x'k, |x'k, h'|k, |k, h'|, h'|k', |
    check_at_least_room(&sheet(&[], &[X]), 0, 9, &record(&[SPACE]));
}

#[test]
fn xa_and_bx() {
    // xAh|Bxk, x'Ah|Bx'k, which comes back after `B`
    check_at_least_room(&sheet(&[X, A], &[B, X]), 1, 2, &[]);
}

#[test]
fn xa_and_bx_with_a_pattern() {
    // xAh|Bxk, x'Ah|Bx'k
    let with_pattern = [b"PA", &[0, 4, 68, 65, 0, 42][..], &sheet(&[X, A], &[B, X])].concat();
    check(&with_pattern, 356, 4096, (1, 2, 0), &[]);
}

#[test]
fn xa_and_bx_without_room() {
    check(&sheet(&[X, A], &[B, X]), 0, 4096, (18, 0, 0), &[]);
    // 183 bytes are no room either, and end all zero.
    let case = Case { work: 183, answer: 9, sheet: sheet(&[X, A], &[B, X]) };
    for after in [case.run(second::answer), case.run(second::scan::answer)] {
        assert_eq!((after.outcome.number, after.outcome.count), (18, 0));
        assert_eq!(after.work, [0; 183]);
    }
}

/// "A situation then takes 184 bytes, so the program's 65,520 hold 356".
#[test]
fn whole_184_bytes_are_room_for_a_situation() {
    // xAh|Bxk, x'Ah|Bx'k
    let rows = [(183, 18, 0), (184, 18, 1), (185, 18, 1), (367, 18, 1), (368, 1, 2), (551, 1, 2)];
    for (work, number, count) in rows {
        let case = Case { work, answer: 9, sheet: sheet(&[X, A], &[B, X]) };
        for after in [case.run(second::answer), case.run(second::scan::answer)] {
            assert_eq!((after.outcome.number, after.outcome.count), (number, count), "{work}");
            assert!(after.work.iter().all(|&byte| byte == 0));
        }
    }
    // xA and Byx runs on.
    for (work, room) in [(65_503, 355), (65_504, 356), (65_520, 356), (65_687, 356), (65_688, 357)]
    {
        assert_eq!(second::room(work), room);
        let case = Case { work: work as u32, answer: 0, sheet: sheet(&[X, A], &[B, Y, X]) };
        for after in [case.run(second::answer), case.run(second::scan::answer)] {
            assert_eq!((after.outcome.number, after.outcome.count), (18, room), "{work}");
        }
    }
    assert_eq!(second::room(65_535 * 184 - 1), 65_534);
    assert_eq!(second::room(65_535 * 184), 65_535);
    assert_eq!(second::room(65_536 * 184), 65_535);
}

#[test]
fn xx_and_aa() {
    // xxh|AAk, x'Ax'h|Ak, h|k, x'AAx'h|k, |k, h|, h'|k', AAh|k, x'AAx'h|,
    // x'AA_x'h|k', |
    let records = [b"VA", &[0, 1, 0, A][..]].concat();
    check_at_least_room(&sheet(&[X, X], &[A, A]), 0, 11, &records);
}

#[test]
fn xx_and_a() {
    // xxh|Ak, x'Ax'h|k, Ah|k, x'Ax'h|. From there each space makes three:
    // x'A_..x'h|k', A_..h|k' and x'A_..x'h|, until the first has more than 48
    // tokens: x, A, 44 spaces, x and h are 48. So 4, and three for each of 44
    // spaces.
    check(&sheet(&[X, X], &[A]), 356, 4096, (19, 136, 0), &[]);
    check(&sheet(&[X, X], &[A]), 136, 4096, (19, 136, 0), &[]);
    check(&sheet(&[X, X], &[A]), 135, 4096, (18, 135, 0), &[]);
}

#[test]
fn abxb_and_xby() {
    let records = [b"VA", &[0, 1, 0, A][..], b"VA", &[1, 2, 0, A, B]].concat();
    // ABxBh|xByk, BAx'Bh|x'Byk, ABh|yk, ABx'Bh|x'Byk, Bh|y'k, Bh|k, h|y'k,
    // |y'k, h|k, h'|y'k, |k, h|, h'|k', h'|k, |
    check_at_least_room(&sheet(&[A, B, X, B], &[X, B, Y]), 0, 15, &records);
}

#[test]
fn xa_and_byx_runs_on() {
    check(&sheet(&[X, A], &[B, Y, X]), 356, 4096, (18, 356, 0), &[]);
}

#[test]
fn twenty_four_times_x_and_aa() {
    // x..h|AAk, x'(Ax')..h|Ak of 48 tokens, A..h|k, then 71 tokens
    check(&sheet(&[X; 24], &[A, A]), 356, 4096, (19, 3, 0), &[]);
    check(&sheet(&[X; 24], &[A, A]), 3, 4096, (19, 3, 0), &[]);
    check(&sheet(&[X; 24], &[A, A]), 2, 4096, (18, 2, 0), &[]);
}

/// "No storeroom means an open field to be struck to nothing."
#[test]
fn fields_without_a_pattern_alone() {
    // xh|xk, x'h|x'k, h|k, |k, h|, h'|k', |
    check_at_least_room(&sheet(&[X], &[X]), 0, 7, &record(&[0]));
    // xAh|xBk, x'Ah|x'Bk
    check_at_least_room(&sheet(&[X, A], &[X, B]), 1, 2, &[]);
    // xh|yk, x'h|y'k, h|y'k, x'h|k, |y'k, h|k, h'|y'k, x'h|, x'h|k', |k, h|,
    // h'|k', h'|k, h|k', |
    let zeros = [b"VA", &[0, 1, 0, 0][..], b"VA", &[1, 1, 0, 0]].concat();
    check_at_least_room(&sheet(&[X], &[Y]), 0, 15, &zeros);
    // yxh|ABk, y'xh|Bk, xh|Bk, y'xh|k, x'h|k, xh|k, y'xh|, y'xh|k', h|k, x'h|,
    // x'h|k', xh|, xh|k', |k, h|, h'|k', h|k', |
    let b_and_a = [b"VA", &[0, 1, 0, B][..], b"VA", &[1, 1, 0, A]].concat();
    check_at_least_room(&sheet(&[Y, X], &[A, B]), 0, 18, &b_and_a);
    // Each of 43 characters has children for each of 43.
    check(&sheet(&[X, Y], &[Y, X]), 356, 4096, (18, 356, 0), &[]);
}

#[test]
fn a_field_without_a_pattern_holds_a_character_or_more() {
    // A label of n characters is made by n fields, and not by one more, but for
    // spaces: B at the end lets none stand there.
    for length in 1..=7 {
        let fields: Vec<u8> = (X..X + length).collect();
        let made = |characters: u8| {
            let label = [vec![A; usize::from(characters)], vec![B]].concat();
            run(&sheet(&[&fields[..], &[B]].concat(), &label), 356, 4096).outcome.number
        };
        assert_eq!(made(length), 0);
        assert_eq!(made(length + 1), 0);
        assert_eq!(made(length - 1), 1);
    }
}

#[test]
fn empty_sheet() {
    check(&[], 356, 4096, (11, 0, 0), &[]);
}

#[test]
fn one_byte_more() {
    let one_more = [&sheet(&[], &[])[..], &[0]].concat();
    check(&one_more, 356, 4096, (12, 0, 6), &[]);
}

#[test]
fn sheet_s() {
    let records = [0x56, 0x41, 0x00, 0x01, 0x00, 0x04, 0x56, 0x41, 0x01, 0x01, 0x00, 0x04];
    // xh|yk, h|yk, x'h|y'k, |yk, h|y'k, x'h|k, |y'k, h|k, x'h|, |k, h|, h'|k',
    // |
    check_at_least_room(&SHEET_S, 0, 13, &records);
    check(&SHEET_S, 13, 12, (0, 13, 0), &records);
    check(&SHEET_S, 356, 11, (20, 13, 0), &[]);
    check(&SHEET_S, 12, 4096, (18, 12, 0), &[]);
}

#[test]
fn sheet_s_as_printed() {
    let After { outcome, answer, .. } = run(&SHEET_S, 356, 4096);
    assert_eq!(lines(FIRST, &outcome, &answer), "0 13 0\n0 4\n1 4\n");
}

#[test]
fn characters_as_printed() {
    let all: Vec<u8> = (19..43).collect();
    let After { outcome, answer, .. } = run(&sheet(&[X, Y], &all), 356, 4096);
    let printed = lines(FIRST, &outcome, &answer);
    // x is struck as soon as it may be, so y is the rest of the label.
    assert_eq!(printed, format!("0 {} 0\n0 J\n1 KLMNOPQRSTUVWXYZ-. $/+%\n", outcome.count));
}

// ----------------------------------------------------------- trailing spaces

/// So many spaces behind these tokens.
fn then_spaces(tokens: &[u8], spaces: usize) -> Vec<u8> {
    [tokens, &vec![SPACE; spaces]].concat()
}

/// `PA` with the right length byte.
fn pattern(field: u8, body: &[u8]) -> Vec<u8> {
    [b"PA", &[field, body.len() as u8][..], body].concat()
}

/// `VA` of field 0.
fn record(text: &[u8]) -> Vec<u8> {
    [b"VA", &[0, text.len() as u8, 0][..], text].concat()
}

#[test]
fn lt4_and_lt4_with_spaces() {
    let lt4 = [21, 29, 4];
    for spaces in 0..=21 {
        // h|_..k, then h'|_..k with a space less each time, down to h'|k; then
        // |k, h'|, h'|k', |. Without a space it is h|k from the start.
        let spaced = then_spaces(&lt4, spaces);
        check_at_least_room(&sheet(&lt4, &spaced), 0, 5 + spaces, &[]);
        check_at_least_room(&sheet(&spaced, &lt4), 0, 5 + spaces, &[]);
        // Spaces on both sides are trimmed as far as they are equal.
        let twice = then_spaces(&lt4, 21 - spaces);
        check(&sheet(&spaced, &twice), 356, 0, (0, 5 + spaces.abs_diff(21 - spaces), 0), &[]);
    }
}

#[test]
fn sides_of_spaces_alone() {
    for spaces in 0..=24 {
        check_at_least_room(&sheet(&[], &then_spaces(&[], spaces)), 0, 5 + spaces, &[]);
        check_at_least_room(&sheet(&then_spaces(&[], spaces), &[]), 0, 5 + spaces, &[]);
    }
}

#[test]
fn other_spaces_count() {
    // In front, and between characters: h|_..Bk, then h'|_..Bk with a space
    // less each time.
    check(&sheet(&[SPACE, A], &[A]), 356, 4096, (1, 1, 0), &[]);
    for spaces in 1..=22 {
        let inside = [then_spaces(&[A], spaces), vec![B]].concat();
        check_at_least_room(&sheet(&[A], &inside), 1, spaces + 1, &[]);
        check_at_least_room(&sheet(&inside, &[A]), 1, spaces + 1, &[]);
    }
    check(&sheet(&[A, SPACE, B], &[A, B, SPACE]), 356, 4096, (1, 1, 0), &[]);
    // Only spaces are dropped: `.` and `$` are the values beside.
    for other in [37, 39, 0, 42] {
        check(&sheet(&[A], &[A, other]), 356, 4096, (1, 1, 0), &[]);
        check(&sheet(&[A, other], &[A]), 356, 4096, (1, 1, 0), &[]);
    }
}

#[test]
fn x_and_a_label() {
    // xh|A..k, then for each `A` two: x'h|A..k and h|A..k with one less; then as
    // for x and `A` the seven from x'h| to the finish.
    for length in 1..=24 {
        let label = vec![A; length];
        check_at_least_room(&sheet(&[X], &label), 0, 2 * length + 8, &record(&label));
    }
}

#[test]
fn a_field_of_spaces_at_the_end() {
    // xh|k, h|k, xh|, x'h|k', |k, h|, h'|k', h|k', x'h|, |
    let spaces = pattern(0, &[68, SPACE]);
    let at_the_end = [&spaces[..], &sheet(&[A, X], &[A])].concat();
    check_at_least_room(&at_the_end, 0, 10, &record(&[]));
    // x is one space: xh|k, xh|, x'h|k', h|k', x'h|, |k', h|, h'|k', |
    let one_space = [&pattern(0, &[SPACE])[..], &sheet(&[A, X], &[A])].concat();
    check_at_least_room(&one_space, 0, 9, &record(&[SPACE]));
}

#[test]
fn a_text_that_ends_in_a_space() {
    // x is `A `: xh|Ak, x'h|k, x'h|, x''h|k', h|k', x''h|, |k', h|, h'|k', |
    let a_space = pattern(0, &[66, A, SPACE]);
    let with_a = [&a_space[..], &sheet(&[X], &[A])].concat();
    check_at_least_room(&with_a, 0, 10, &record(&[A, SPACE]));
    let printed = run(&with_a, 356, 4096);
    assert_eq!(lines(FIRST, &printed.outcome, &printed.answer), "0 10 0\n0 A \n");
    // It is no longer at the end: xBh|Ak, x'Bh|k, x'Bh|, x''Bh|k', Bh|k', x''Bh|
    check_at_least_room(&[&a_space[..], &sheet(&[X, B], &[A])].concat(), 1, 6, &[]);
}

#[test]
fn a_pattern_beside_the_space_takes_none() {
    let range = |lo, hi| [&pattern(0, &[65, lo, hi])[..], &sheet(&[A], &[A, X])].concat();
    // h|xk, |xk
    check_at_least_room(&range(0, 37), 1, 2, &[]);
    check_at_least_room(&range(39, 42), 1, 2, &[]);
    // h|xk, |xk, h'|x'k, |x'k, h'|k, |k, h'|, h'|k', |
    check_at_least_room(&range(38, 38), 0, 9, &record(&[SPACE]));
    check_at_least_room(&range(37, 38), 0, 9, &record(&[SPACE]));
    check_at_least_room(&range(38, 39), 0, 9, &record(&[SPACE]));
}

#[test]
fn the_limit_of_24_does_not_count_the_hidden_field() {
    check(&sheet(&[A; 24], &[A; 24]), 5, 0, (0, 5, 0), &[]);
    check(&sheet(&[A; 25], &[]), 5, 0, (14, 0, 2), &[]);
}

#[test]
fn the_limit_of_48_counts_the_hidden_field() {
    // x 16 times, B, AAA: x..Bh|AAAk, x'(Ax')..Bh|AAk of 33 tokens, A..Bh|k,
    // x'(AAx')..Bh|Ak of 48, A..Bh|k, then 63.
    let left = [vec![X; 16], vec![B]].concat();
    check(&sheet(&left, &[A; 3]), 356, 0, (19, 5, 0), &[]);
    check(&sheet(&[A; 3], &left), 356, 0, (19, 5, 0), &[]);
    // With one B more the 48 are 49.
    let left = [vec![X; 16], vec![B, B]].concat();
    check(&sheet(&left, &[A; 3]), 356, 0, (19, 3, 0), &[]);
    check(&sheet(&[A; 3], &left), 356, 0, (19, 3, 0), &[]);
}

#[test]
fn the_hidden_fields_tokens_are_none_in_a_sheet() {
    for token in [72, 73] {
        check(&sheet(&[A, token], &[]), 356, 0, (17, 0, 4), &[]);
        check(&sheet(&[A], &[A, token]), 356, 0, (17, 0, 8), &[]);
    }
    for field in [8, 9] {
        let hidden = [&pattern(field, &[68, SPACE])[..], &sheet(&[], &[])].concat();
        check(&hidden, 356, 0, (13, 0, 2), &[]);
    }
}

// ----------------------------------------------------------- longer patterns

/// A keypad maker's finishes: the letters that may follow each first one.
const FINISHES: [(&str, &str); 13] = [
    ("A", "BCN"),
    ("B", "BCKNRZ"),
    ("C", "BHP"),
    ("D", "BN"),
    ("G", "BDN"),
    ("M", "BCN"),
    ("N", "BK"),
    ("O", "BR"),
    ("P", "BCNW"),
    ("R", "BG"),
    ("S", "BCGNS"),
    ("W", "BH"),
    ("Z", "BNP"),
];

/// One of the finishes: 67 before all choices but the last, 66 before each first
/// letter.
fn one_finish() -> Vec<u8> {
    let mut bytes = Vec::new();
    for (number, (first, seconds)) in FINISHES.iter().enumerate() {
        bytes.extend((number + 1 < FINISHES.len()).then_some(67));
        bytes.extend([66, first.as_bytes()[0] - b'A' + 10]);
        for (number, second) in seconds.bytes().enumerate() {
            bytes.extend((number + 1 < seconds.len()).then_some(67));
            bytes.push(second - b'A' + 10);
        }
    }
    bytes
}

/// "A keypad maker lists 40 finish codes as one choice."
#[test]
fn forty_finishes() {
    assert_eq!(FINISHES.iter().map(|(_, seconds)| seconds.len()).sum::<usize>(), 40);
    let finish = one_finish();
    // 13 + 40 leaves, and an operator less
    assert_eq!(finish.len(), 105);
    assert_eq!(finish, by_first_letter(&second::storeroom::FINISHES));
    let keypad = |right: &[u8]| {
        let (left, right) =
            ([&tokens("KP")[..], &[X]].concat(), [&tokens("KP")[..], right].concat());
        [&pattern(0, &finish)[..], &sheet(&left, &right)].concat()
    };
    // `KP`x and `KPGD`: xh|GDk, x'h|Dk, x''h|k, h|k, x''h|, |k, h|, h'|k', |
    check_at_least_room(&keypad(&tokens("GD")), 0, 9, &record(&tokens("GD")));
    let printed = run(&keypad(&tokens("ZP")), 356, 4096);
    assert_eq!(lines(FIRST, &printed.outcome, &printed.answer), "0 9 0\n0 ZP\n");
    // `KP`x and `KPS`y, y open: xh|Syk, x'h|yk, then for each of five codes
    // x''h|y'k; h|y'k, five x''h|k, |y'k, h|k, h'|y'k, five x''h|, |k, h|,
    // h'|k', h'|k, |
    let texts = [&record(&tokens("SB"))[..], b"VA", &[1, 1, 0], &tokens("B")].concat();
    check_at_least_room(&keypad(&[28, Y]), 0, 26, &texts);
    // Of all codes of two letters just the 40 clash. Otherwise it is xh|GGk,
    // x'h|Gk, or the first letter is none.
    for (first, second) in (10..36).flat_map(|first| (10..36).map(move |second| (first, second))) {
        let letter = |value: u8| char::from(b'A' + value - 10);
        let seconds = FINISHES.iter().find(|(of, _)| of.starts_with(letter(first)));
        match seconds.map(|(_, seconds)| seconds.contains(letter(second))) {
            Some(true) => {
                check_at_least_room(&keypad(&[first, second]), 0, 9, &record(&[first, second]))
            }
            Some(false) => check_at_least_room(&keypad(&[first, second]), 1, 2, &[]),
            None => check_at_least_room(&keypad(&[first, second]), 1, 1, &[]),
        }
    }
}

/// `KP`x and `KP`y, both of the 40 finishes.
#[test]
fn forty_finishes_on_both_sides() {
    // xh|yk, then one for each of 13 first letters and of 40 codes: 54. Of each
    // code h|y''k and x''h|k: 134. Of each |y''k and x''h|, and once h|k: 215.
    // Then |k, h|, h'|k', and |.
    let patterns = [pattern(0, &one_finish()), pattern(1, &one_finish())].concat();
    let keypads = [patterns, sheet(&tokens("KPa"), &tokens("KPb"))].concat();
    let first = tokens("AB");
    let records = [&record(&first)[..], b"VA", &[1, 2, 0], &first].concat();
    check_at_least_room(&keypads, 0, 219, &records);
}

#[test]
fn the_last_of_63_leaves() {
    // x is one character, the 63rd leaf `A` and all others `B`: xh|Ak, x'h|k,
    // h|k, x'h|, |k, h|, h'|k', |
    let b_or_a = [[67, B].repeat(62), vec![A]].concat();
    let one = [&pattern(0, &b_or_a)[..], &sheet(&[X], &[A])].concat();
    check_at_least_room(&one, 0, 8, &record(&[A]));
    // x is `B` 62 times and `A`, and so is y, which has no pattern.
    let row = [[66, B].repeat(62), vec![A]].concat();
    let long = [&pattern(0, &row)[..], &sheet(&[X], &[Y])].concat();
    let text = [vec![B; 62], vec![A]].concat();
    let After { outcome, answer, .. } = run(&long, 356, 4096);
    assert_eq!(outcome.number, 0);
    let expected = [&record(&text)[..], b"VA", &[1, 63, 0], &text].concat();
    assert_eq!(&answer[..outcome.written], expected);
}

#[test]
fn the_limits_of_a_pattern() {
    let of = |body: &[u8]| [&pattern(0, body)[..], &sheet(&[A, X], &[B])].concat();
    let leaves = |number: usize| [vec![66; number - 1], vec![7; number]].concat();
    check(&of(&leaves(63)), 356, 0, (1, 1, 0), &[]);
    // The 64th leaf is the last byte.
    check(&of(&leaves(64)), 356, 0, (16, 0, 4 + 126), &[]);
    check(&of(&[vec![68; 191], vec![7]].concat()), 356, 0, (1, 1, 0), &[]);
    check(&of(&[vec![68; 192], vec![7]].concat()), 356, 0, (14, 0, 3), &[]);
}

/// A longest sheet has 1,622 bytes, and the program reads them all.
#[test]
fn the_longest_sheet() {
    let full = [vec![66; 62], vec![68; 67], vec![7; 63]].concat();
    let mut longest: Vec<u8> = (0..8).flat_map(|field| pattern(field, &full)).collect();
    let fields: Vec<u8> = (0..8).map(|field| X + field).collect();
    longest.extend(sheet(&[&[A; 16], &fields[..]].concat(), &[A; 24]));
    assert_eq!(longest.len(), 1_622);
    // No field begins with `A`.
    check(&longest, 356, 0, (1, 1, 0), &[]);
    let printed = |input: &[u8]| {
        let mut program = Command::new(env!("CARGO_BIN_EXE_second"))
            .stdin(Stdio::piped())
            .stdout(Stdio::piped())
            .spawn()
            .unwrap();
        program.stdin.take().unwrap().write_all(input).unwrap();
        String::from_utf8(program.wait_with_output().unwrap().stdout).unwrap()
    };
    assert_eq!(printed(&longest), "1 1 0\n");
    assert_eq!(printed(&longest[..1_621]), "11 0 1621\n");
    assert_eq!(printed(&[&longest[..], &[0; 600]].concat()), "12 0 1622\n");
}
