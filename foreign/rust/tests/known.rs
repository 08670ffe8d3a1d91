//! The known sheets of the rules: the answer, the texts, and both buffers to the last byte.

use bradovusc::{clash, texts, Answer, Fault, SITUATION_BYTES};

const A: u8 = 10;
const B: u8 = 11;
const SPACE: u8 = 38;
const X: u8 = 64;
const Y: u8 = 65;

const SHEET_S: &[u8] = b"PA\x00\x04\x44\x41\x00\x09PA\x01\x01\x04LE\x01\x40RI\x01\x41";

const WORK_FILL: u8 = 90;
const ANSWER_FILL: u8 = 165;

/// A sheet without patterns.
fn sheet(left: &[u8], right: &[u8]) -> Vec<u8> {
    [&b"LE"[..], &[left.len() as u8], left, b"RI", &[right.len() as u8], right].concat()
}

/// Answers a sheet in two filled buffers. Hands back the answer and a text for each field, after
/// looking at every byte of both buffers that the answer does not settle.
fn answered(sheet: &[u8], work: usize, answer: usize) -> (Answer, Vec<(u8, String)>) {
    let mut work = vec![WORK_FILL; work];
    let mut answer = vec![ANSWER_FILL; answer];
    let given = clash(sheet, &mut work, &mut answer);
    let left_in_work = if let Answer::Refused { .. } = given { WORK_FILL } else { 0 };
    assert!(work.iter().all(|&byte| byte == left_in_work), "{given:?}");
    let (records, rest) = answer.split_at(given.written());
    assert!(rest.iter().all(|&byte| byte == ANSWER_FILL), "{given:?}");
    (given, texts(records).map(|text| (text.field, text.to_string())).collect())
}

/// In 356 situations and 4,096 bytes of answer.
fn as_usual(sheet: &[u8]) -> (Answer, Vec<(u8, String)>) {
    answered(sheet, 356 * SITUATION_BYTES, 4096)
}

/// A clash and its texts, by field from 0.
fn holds(count: usize, written: usize, texts: &[&str]) -> (Answer, Vec<(u8, String)>) {
    let texts = (0..).zip(texts).map(|(field, text)| (field, text.to_string())).collect();
    (Answer::Clash { count, written }, texts)
}

/// An answer that writes no text.
fn plain(answer: Answer) -> (Answer, Vec<(u8, String)>) {
    (answer, Vec::new())
}

#[test]
fn no_fields() {
    assert_eq!(as_usual(&sheet(&[], &[])), holds(5, 0, &[]));
    assert_eq!(as_usual(&sheet(&[A], &[B])), plain(Answer::NoClash { count: 1 }));
}

#[test]
fn one_field() {
    assert_eq!(as_usual(&sheet(&[X], &[A])), holds(10, 6, &["A"]));
    assert_eq!(as_usual(&sheet(&[X, A], &[B, X])), plain(Answer::NoClash { count: 2 }));
    assert_eq!(as_usual(&sheet(&[X, X], &[A, A])), holds(11, 6, &["A"]));
    assert_eq!(as_usual(&sheet(&[X, X], &[A])), plain(Answer::SideTooLong { count: 136 }));
}

/// A field without a pattern is never empty: beside the empty side it is a space.
#[test]
fn one_character_or_more() {
    assert_eq!(as_usual(&sheet(&[X], &[])), holds(9, 6, &[" "]));
    assert_eq!(as_usual(&sheet(&[X, A], &[A])).0.clashes(), Some(false));
    let may_be_empty = [b"PA\x00\x04\x44\x41\x00\x2A", &sheet(&[X, A], &[A])[..]].concat();
    assert_eq!(as_usual(&may_be_empty), holds(10, 5, &[""]));
}

#[test]
fn one_field_with_a_pattern() {
    let with_pattern = [b"PA\x00\x04\x44\x41\x00\x2A", &sheet(&[X, A], &[B, X])[..]].concat();
    assert_eq!(as_usual(&with_pattern), plain(Answer::NoClash { count: 2 }));
}

#[test]
fn two_fields() {
    assert_eq!(as_usual(&sheet(&[A, B, X, B], &[X, B, Y])), holds(15, 13, &["A", "AB"]));
    assert_eq!(as_usual(&sheet(&[X, A], &[B, Y, X])), plain(Answer::NoRoom { count: 356 }));
}

/// Spaces at the end are dropped, others are not.
#[test]
fn spaces() {
    let (none, one) = ([21, 29, 4], [21, 29, 4, SPACE]);
    assert_eq!(as_usual(&sheet(&none, &one)), holds(6, 0, &[]));
    assert_eq!(as_usual(&sheet(&one, &none)), holds(6, 0, &[]));
    assert_eq!(as_usual(&sheet(&one, &one)), holds(5, 0, &[]));
    assert_eq!(as_usual(&sheet(&[SPACE, SPACE], &[])), holds(7, 0, &[]));
    let between = sheet(&[A, SPACE, B], &[A, B]);
    assert_eq!(as_usual(&between), plain(Answer::NoClash { count: 1 }));
    let behind = sheet(&[A, SPACE, B], &[A]);
    assert_eq!(as_usual(&behind), plain(Answer::NoClash { count: 2 }));
    let in_front = sheet(&[SPACE, A], &[A]);
    assert_eq!(as_usual(&in_front), plain(Answer::NoClash { count: 1 }));
    // x leaves the space where it can, and has it where its pattern asks for it.
    assert_eq!(as_usual(&sheet(&[X], &[A, SPACE])), holds(14, 6, &["A"]));
    let with_space = [b"PA\x00\x03\x42\x0A\x26", &sheet(&[X], &[A])[..]].concat();
    assert_eq!(as_usual(&with_space), holds(10, 7, &["A "]));
}

#[test]
fn giving_up() {
    let long = sheet(&[X; 24], &[A, A]);
    let answer = answered(&long, 2 * SITUATION_BYTES, 4096);
    assert_eq!(answer, plain(Answer::NoRoom { count: 2 }));
    let answer = answered(&long, 3 * SITUATION_BYTES, 4096);
    assert_eq!(answer, plain(Answer::SideTooLong { count: 3 }));
    for no_room in [0, 1, SITUATION_BYTES - 1] {
        let answer = answered(&sheet(&[X, A], &[B, X]), no_room, 4096);
        assert_eq!(answer, plain(Answer::NoRoom { count: 0 }));
    }
}

#[test]
fn faults() {
    let refused = |sheet: &[u8], fault, place| {
        assert_eq!(as_usual(sheet), plain(Answer::Refused { fault, place }), "{sheet:?}");
    };
    refused(b"", Fault::CutShort, 0);
    refused(b"P", Fault::CutShort, 1);
    refused(b"PA\x00\x02\x2B", Fault::CutShort, 5);
    refused(b"LE\x00RI", Fault::CutShort, 5);
    refused(b"LE\x00RX\x00", Fault::WrongMark, 3);
    refused(&[&sheet(&[], &[])[..], &[0]].concat(), Fault::WrongMark, 6);
    refused(b"PA\x08\x01\x00", Fault::WrongField, 2);
    refused(b"PA\x02\x01\x00PA\x02\x01\x00", Fault::WrongField, 7);
    refused(b"PA\x00\x00", Fault::WrongLength, 3);
    refused(b"LE\x19", Fault::WrongLength, 2);
    refused(&sheet(&[X], &[43]), Fault::WrongToken, 7);
    refused(&sheet(&[A, B, 72, 43], &[]), Fault::WrongToken, 5);
    // the tokens of the hidden fields
    refused(&sheet(&[72], &[]), Fault::WrongToken, 3);
    refused(&sheet(&[], &[73]), Fault::WrongToken, 6);
}

/// A sheet with this pattern is refused; `at` counts from the pattern's first byte. More may stand
/// behind the pattern, or nothing.
fn refused_pattern(pattern: &[u8], fault: Fault, at: usize) {
    let record = [&b"PA\x00"[..], &[pattern.len() as u8], pattern].concat();
    for behind in [vec![], vec![0], sheet(&[X], &[])] {
        let refused = plain(Answer::Refused { fault, place: 4 + at });
        assert_eq!(as_usual(&[&record[..], &behind].concat()), refused, "{pattern:?}");
    }
}

#[test]
fn not_one_pattern() {
    let refused = |pattern: &[u8], at| refused_pattern(pattern, Fault::NotOnePattern, at);
    // A byte that is no code: alone, in a first part, in a second, under a star.
    refused(&[43], 0);
    refused(&[66, 43, 69], 1);
    refused(&[67, A, 69], 2);
    refused(&[66, 65, 0, 9, 68, 63], 5);
    // lo above 42, with a hi at fault, with a good one, with none.
    refused(&[65, 43, 43], 1);
    refused(&[65, 43, 42], 1);
    refused(&[65, 43], 1);
    // hi above 42, and below lo.
    refused(&[65, 0, 43], 2);
    refused(&[65, 2, 1], 2);
    // The code runs out.
    refused(&[65], 1);
    refused(&[65, 42], 2);
    refused(&[68], 1);
    refused(&[66, A], 2);
    // Bytes left over, a code and none.
    refused(&[A, A], 1);
    refused(&[A, 43, A], 1);
    refused(&[66, 64, 65, 0, 9, 68, A], 5);
}

#[test]
fn too_many_leaves() {
    let leaves = |operators: usize, behind: &[u8]| [&vec![66; operators][..], behind].concat();
    let many = Fault::TooManyLeaves;
    refused_pattern(&leaves(63, &[7; 64]), many, 126);
    // The 64th is not the last; it is a range; the empty text before it is no leaf.
    refused_pattern(&leaves(80, &[7; 81]), many, 143);
    refused_pattern(&leaves(63, &[&[7; 63][..], &[65, 0, 9]].concat()), many, 126);
    refused_pattern(&leaves(64, &[&[64][..], &[7; 64]].concat()), many, 128);
    // 15 is before 16: a byte left over, one that is no code, the code runs out.
    let not_one = Fault::NotOnePattern;
    refused_pattern(&leaves(63, &[7; 65]), not_one, 127);
    refused_pattern(&leaves(64, &[&[7; 64][..], &[43]].concat()), not_one, 128);
    refused_pattern(&leaves(64, &[7; 64]), not_one, 128);
}

/// A keypad maker's 40 finish codes: those with the same first letter together, it first.
const FINISHES: [&str; 13] = [
    "ABCN", "BBCKNRZ", "CBHP", "DBN", "GBDN", "MBCN", "NBK", "OBR", "PBCNW", "RBG", "SBCGNS",
    "WBH", "ZBNP",
];

/// One of these patterns.
fn choice(patterns: &[Vec<u8>]) -> Vec<u8> {
    [vec![67; patterns.len() - 1], patterns.concat()].concat()
}

fn letters(signs: &str) -> Vec<Vec<u8>> {
    signs.chars().map(|sign| vec![bradovusc::value(sign).unwrap()]).collect()
}

fn then(first: &[u8], second: &[u8]) -> Vec<u8> {
    [&[66], first, second].concat()
}

/// `KP` and a finish, and `KPS` and any text: 40 codes one by one have 80 leaves, and those of one
/// first letter together 53.
#[test]
fn forty_finishes() {
    let keypads = |finishes: &[u8]| {
        let record = [&b"PA\x00"[..], &[finishes.len() as u8], finishes].concat();
        as_usual(&[record, sheet(&[20, 25, X], &[20, 25, 28, Y])].concat())
    };
    let one_by_one: Vec<Vec<u8>> = FINISHES
        .iter()
        .flat_map(|group| {
            let letters = letters(group);
            letters[1..].iter().map(|second| then(&letters[0], second)).collect::<Vec<_>>()
        })
        .collect();
    assert_eq!(one_by_one.len(), 40);
    // The 64th leaf is the second letter of the 32nd code.
    let place = 4 + 39 + 31 * 3 + 2;
    let refused = plain(Answer::Refused { fault: Fault::TooManyLeaves, place });
    assert_eq!(keypads(&choice(&one_by_one)), refused);
    let by_first_letter: Vec<Vec<u8>> = FINISHES
        .iter()
        .map(|group| {
            let letters = letters(group);
            then(&letters[0], &choice(&letters[1..]))
        })
        .collect();
    let pattern = choice(&by_first_letter);
    assert_eq!(pattern.len(), 105);
    let (given, texts) = keypads(&pattern);
    assert_eq!(given.clashes(), Some(true));
    assert_eq!(texts, [(0, "SB".to_string()), (1, "B".to_string())]);
}

#[test]
fn sheet_s() {
    assert_eq!(as_usual(SHEET_S), holds(13, 12, &["4", "4"]));
    let exactly = answered(SHEET_S, 13 * SITUATION_BYTES, 12);
    assert_eq!(exactly, holds(13, 12, &["4", "4"]));
    let short = answered(SHEET_S, 13 * SITUATION_BYTES, 11);
    assert_eq!(short, plain(Answer::AnswerTooShort { count: 13 }));
    let no_room = answered(SHEET_S, 13 * SITUATION_BYTES - 1, 12);
    assert_eq!(no_room, plain(Answer::NoRoom { count: 12 }));
}

#[test]
fn sheet_s_in_bytes() {
    let mut work = [0; 13 * SITUATION_BYTES];
    let mut answer = [0; 12];
    clash(SHEET_S, &mut work, &mut answer);
    assert_eq!(&answer, b"VA\x00\x01\x00\x04VA\x01\x01\x00\x04");
}

#[test]
fn texts_as_characters() {
    let all: Vec<u8> = (19..43).collect();
    let (_, texts) = as_usual(&sheet(&[X, Y], &all));
    // x is struck as soon as it has a character, so y is the rest of the label.
    let texts: Vec<&str> = texts.iter().map(|(_, text)| text.as_str()).collect();
    assert_eq!(texts, ["J", "KLMNOPQRSTUVWXYZ-. $/+%"]);
}
