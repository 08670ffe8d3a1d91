//! Cases whose lines tell wrong printers apart: the stored cases of a part
//! of the crate `test_sheets`, and as the first one the stored sheet of `clash`;
//! and those of the second edition, whose texts are printed spelt.

use crate::cases::Case;
use crate::edition::SECOND;
use crate::pattern::{MOST_LEAVES, THEN};
use crate::sheet::MOST_PATTERN;
use crate::write::{field, many, patterns, row, sheet, text, values};
use crate::SITUATION_BYTES;

/// "the program's 65,520 hold 356", and 4,096 bytes of answer
const ROOM: usize = 356;
const ANSWER: u32 = 4_096;

const A: u8 = 10;
const B: u8 = 11;

pub fn cases() -> Vec<Case> {
    let seven: Vec<(u8, Vec<u8>)> = (0..7).map(|number| (number, full(0, 42))).collect();
    let eight: Vec<(u8, Vec<u8>)> = (0..8).map(|number| (number, full(0, 42))).collect();
    let fields: Vec<u8> = (0..8).map(field).collect();
    // Every second field holds a digit, the others the empty text.
    let holding = |number: u8| vec![[number, 64][usize::from(number % 2)]];
    let held: Vec<(u8, Vec<u8>)> = (0..8).map(|number| (number, holding(number))).collect();
    vec![
        plain(long_texts()),
        // sheet S
        plain(sheet(&[(0, vec![68, 65, 0, 9]), (1, vec![4])], &[field(0)], &[field(1)])),
        plain(every_sign()),
        // texts of 255 characters, and of 256
        plain(meeting(16, 15, 17, 0)),
        plain(meeting(16, 0, 17, 1)),
        // all fields, empty texts between the others and at the end
        plain(sheet(&held, &fields, &[0, 2, 4, 6])),
        // no field, and no field but the hidden ones, one of which holds a space
        plain(sheet(&[], &[], &[])),
        plain(sheet(&[], &values("LT4"), &values("LT4 "))),
        // texts that end in spaces, one of them of spaces alone
        plain(ending_in_spaces()),
        // no clash
        plain(sheet(&[], &[A], &[B])),
        // no room, after 356 situations and for the first
        plain(sheet(&[], &[field(0), A], &[B, field(1), field(0)])),
        case(0, ANSWER, sheet(&[], &[field(0), A], &[B, field(0)])),
        // a side above 48 tokens
        case(3, ANSWER, sheet(&[], &[field(0); 24], &[A, A])),
        // an answer buffer too short by one byte, and one just long enough
        case(ROOM, 11, sheet(&[], &[field(0), field(1)], &[A, B])),
        case(ROOM, 12, sheet(&[], &[field(0), field(1)], &[A, B])),
        // 11 at 0 and at 1,568
        plain(Vec::new()),
        plain(patterns(&eight)),
        // 12 behind `RI`, and at 1,372
        plain([sheet(&[], &[], &[]), vec![0]].concat()),
        plain([patterns(&seven), b"PE".to_vec()].concat()),
        // 13 at 1,570, 14 at 590, 15 at 11, 16 at 326, 17 at 202
        plain([patterns(&eight), b"PA\x03".to_vec(), vec![1, 0]].concat()),
        plain([patterns(&seven[..3]), b"LE".to_vec(), vec![25]].concat()),
        plain(sheet(&[(0, vec![64]), (1, vec![66, 1])], &[], &[])),
        plain(sheet(&[(0, full(0, 9)), (7, row(vec![vec![A]; 64]))], &[], &[])),
        plain(sheet(&seven[..1], &[], &[43])),
    ]
}

/// The same without a stray pattern: another sheet is the first one.
pub fn kept_cases() -> Vec<Case> {
    let mut cases = cases();
    cases[0] = plain(long_texts_kept());
    cases
}

/// The cases of the second edition.
pub fn second_cases() -> Vec<Case> {
    let of = |left: &[u8], right: &[u8]| second_sheet(&[], left, right);
    let x = SECOND.field(0);
    let mut cases = vec![
        // every character
        plain(every_character()),
        // texts with shift signs, small letters, control characters, spaces at their
        // ends, and the empty one
        plain(of(&[x], b"Part 7")),
        plain(of(&[x], b"$%/+")),
        plain(of(&[x], b"+A/B%C$D")),
        plain(of(&[x], b"\x00\x1b\x1f!:;?@[_`a{\x7e\x7f")),
        plain(second_sheet(&[(0, row_of(b"a  "))], &[x], b"a")),
        plain(second_sheet(&[(0, vec![SECOND.codes])], &[x, b'Z'], b"Z")),
        // two fields, the later one first
        plain(of(&[SECOND.field(7), b'#', x], b"h#i")),
        // no field; no clash; no room; too short an answer buffer
        plain(of(b"LT4", b"LT4 ")),
        plain(of(b"LT4", b"LT4&")),
        plain(of(&[x, b'A'], &[b'B', SECOND.field(1), x])),
        case(2, ANSWER, of(&[x], b"a")),
        case(ROOM, 5, of(&[x], b"a")),
        case(ROOM, 6, of(&[x], b"a")),
    ];
    // 11 at 1, 2 and 3; 12 at 3; 44; 15 at 7; 17 at 6
    let record = SECOND.record;
    for faulty in [&record[..1], &record[..2], record, b"ED\x02ED\x02", b"ED\x01LE\x00RI\x00"] {
        cases.push(plain(faulty.to_vec()));
    }
    cases.push(plain(second_sheet(&[(0, vec![128])], &[x], b"a")));
    cases.push(plain(of(&[200], b"a")));
    cases
}

fn second_sheet(patterns: &[(u8, Vec<u8>)], left: &[u8], right: &[u8]) -> Vec<u8> {
    [SECOND.record, &sheet(patterns, left, right)].concat()
}

/// The pattern of just these characters.
fn row_of(characters: &[u8]) -> Vec<u8> {
    let operators = vec![SECOND.codes + THEN; characters.len() - 1];
    [&operators[..], characters].concat()
}

/// Both sides are all characters one behind the other: on the left two fields have
/// as many as a pattern has leaves and the third has the rest, on the right the
/// first has the rest.
fn every_character() -> Vec<u8> {
    let all: Vec<u8> = (0..SECOND.characters).collect();
    let left = all.chunks(MOST_LEAVES);
    let right = all.rchunks(MOST_LEAVES).rev();
    let patterns: Vec<(u8, Vec<u8>)> = (0..).zip(left.chain(right).map(row_of)).collect();
    let fields: Vec<u8> = patterns.iter().map(|(field, _)| SECOND.field(*field)).collect();
    let (left, right) = fields.split_at(fields.len() / 2);
    second_sheet(&patterns, left, right)
}

/// x is `+` 39 times and `%`, any number of times, then 14 times `+`; w is
/// `-. $/`; y is `+` or `%` 31 times, any number of times, then 15 times more; z
/// is empty. w x z and `-. $/`y: both long texts have 294 characters, the
/// search enters the 356th situation at its end, and patterns of fields that
/// stand nowhere make the sheet longer than 1,024 bytes.
fn long_texts() -> Vec<u8> {
    let (x, w, y, z) = (0, 1, 3, 7);
    let [long, also_long] = two_long();
    let patterns = [
        (x, long),
        (w, text("-. $/")),
        (2, full(0, 9)),
        (y, also_long),
        (4, full(10, 35)),
        (5, full(36, 42)),
        (6, full(0, 42)),
        (z, vec![64]),
    ];
    sheet(&patterns, &[field(w), field(x), field(z)], &[values("-. $/"), vec![field(y)]].concat())
}

/// The same x, y and z; w, v and u are `-`, a space and `/`. w v u x z and `- /`y:
/// the texts and the count are the same, every field with a pattern stands, and
/// patterns filled up with empty texts make the sheet longer than 1,024 bytes.
fn long_texts_kept() -> Vec<u8> {
    let (x, w, v, y, u, z) = (0, 1, 2, 3, 4, 7);
    let [long, also_long] = two_long();
    let patterns = [
        (x, long),
        (w, filled_up(text("-"))),
        (v, filled_up(text(" "))),
        (y, also_long),
        (u, filled_up(text("/"))),
        (z, filled_up(vec![64])),
    ];
    let left = [w, v, u, x, z].map(field);
    sheet(&patterns, &left, &[values("- /"), vec![field(y)]].concat())
}

/// `+` 39 times and `%`, any number of times, then 14 times `+`; and `+` or `%` 31
/// times, any number of times, then 15 times more.
fn two_long() -> [Vec<u8>; 2] {
    let mut round = vec![values("+"); 39];
    round.push(values("%"));
    let either = || vec![65, 41, 42];
    [many_then(round, vec![values("+"); 14]), many_then(vec![either(); 31], vec![either(); 15])]
}

/// The pattern behind as many empty texts as a pattern has room for.
fn filled_up(pattern: Vec<u8>) -> Vec<u8> {
    let more = (MOST_PATTERN - pattern.len()) / 2;
    row([vec![vec![64]; more], vec![pattern]].concat())
}

/// x is `A` and two spaces, y is three spaces; x and `A`y.
fn ending_in_spaces() -> Vec<u8> {
    sheet(&[(0, text("A  ")), (1, text("   "))], &[field(0)], &[A, field(1)])
}

/// x is the first 41 characters, z the other 2; xz and y: y is all of them.
fn every_sign() -> Vec<u8> {
    let leaves: Vec<Vec<u8>> = (0..43).map(|value| vec![value]).collect();
    let patterns = [(0, row(leaves[..41].to_vec())), (2, row(leaves[41..].to_vec()))];
    sheet(&patterns, &[field(0), field(2)], &[field(1)])
}

/// x has any number of times p and then r times `A`, y the same with q and s.
fn meeting(p: usize, r: usize, q: usize, s: usize) -> Vec<u8> {
    let times = |n: usize| vec![vec![A]; n];
    let patterns = [(0, many_then(times(p), times(r))), (1, many_then(times(q), times(s)))];
    sheet(&patterns, &[field(0)], &[field(1)])
}

// ------------------------------------------------------------------ writing

fn plain(sheet: Vec<u8>) -> Case {
    case(ROOM, ANSWER, sheet)
}

fn case(room: usize, answer: u32, sheet: Vec<u8>) -> Case {
    Case { work: (room * SITUATION_BYTES) as u32, answer, sheet }
}

/// A row any number of times, and then another.
fn many_then(round: Vec<Vec<u8>>, end: Vec<Vec<u8>>) -> Vec<u8> {
    let rounds = many(row(round));
    if end.is_empty() {
        rounds
    } else {
        row(vec![rounds, row(end)])
    }
}

/// A pattern of 192 bytes: 48 characters of a range, any number of times.
fn full(lo: u8, hi: u8) -> Vec<u8> {
    many_then(vec![vec![65, lo, hi]; 48], Vec::new())
}
