//! Sheets written by the program: each answer and what it leaves in the buffer,
//! held to what reading says of the sheet that would be written.

#[allow(dead_code)]
mod table;

use std::collections::BTreeMap;

use second::edition::{self, Edition, FIRST, SECOND};
use second::make::written::case;
use second::make::{self, kept, Dice};
use second::pattern::{Allowed, Pattern, Places};
use second::sheet::{read, Token};
use second::writer::{self, Case, ALWAYS_ENOUGH, MOST_SHEET};
use second::Outcome;

const FILL: u8 = 165;

fn told(number: u8, place: usize, written: usize) -> Outcome {
    Outcome { number, count: 0, place, written }
}

/// Patterns one behind the other, lengths, sides, and what they are written as.
fn writes(patterns: &[u8], lengths: &[u64], left: &[u8], right: &[u8], sheet: &[u8]) {
    for length in 0..sheet.len() + 3 {
        let mut output = vec![FILL; length];
        let outcome = writer::write(edition::NONE, patterns, lengths, left, right, &mut output);
        if length < sheet.len() {
            assert_eq!(outcome, told(41, 0, 0));
            assert!(output.iter().all(|&byte| byte == FILL));
        } else {
            assert_eq!(outcome, told(0, 0, sheet.len()));
            assert_eq!(output[..sheet.len()], *sheet);
            assert!(output[sheet.len()..].iter().all(|&byte| byte == FILL));
        }
    }
}

/// A refusal, whatever the buffer: not a byte changes.
fn refuses(patterns: &[u8], lengths: &[u64], sides: [&[u8]; 2], number: u8, place: usize) {
    for length in [0, 1, 30, 1_622, 2_000] {
        let mut output = vec![FILL; length];
        let outcome =
            writer::write(edition::NONE, patterns, lengths, sides[0], sides[1], &mut output);
        assert_eq!(outcome, told(number, place, 0), "{patterns:?} {lengths:?}");
        assert!(output.iter().all(|&byte| byte == FILL));
    }
}

const NONE: [&[u8]; 2] = [&[], &[]];

#[test]
fn known_sheets() {
    writes(&[], &[], &[], &[], b"LE\x00RI\x00");
    writes(&[], &[], &[10], &[64, 11], b"LE\x01\x0aRI\x02\x40\x0b");
    // sheet S
    let s = b"PA\x00\x04\x44\x41\x00\x09PA\x01\x01\x04LE\x01\x40RI\x01\x41";
    writes(&[68, 65, 0, 9, 4], &[4, 1], &[64], &[65], s);
    // zeros behind the last length, fields from 8 on among them
    writes(&[68, 65, 0, 9, 4], &[4, 1, 0, 0, 0, 0, 0, 0, 0, 0], &[64], &[65], s);
    // bytes behind the last pattern, no code among them
    writes(&[68, 65, 0, 9, 4, 4, 255], &[4, 1], &[64], &[65], s);
    writes(&[255, 255], &[0, 0], &[], &[], b"LE\x00RI\x00");
    // a field without a pattern between two
    writes(
        &[64, 7],
        &[0, 1, 0, 0, 0, 0, 0, 1],
        &[65],
        &[71],
        b"PA\x01\x01\x40PA\x07\x01\x07LE\x01\x41RI\x01\x47",
    );
}

#[test]
fn the_longest_sheet() {
    let pattern = [vec![68; 191], vec![0]].concat();
    let (patterns, lengths) = (pattern.repeat(8), [192; 8]);
    let left: Vec<u8> = (64..72).cycle().take(24).collect();
    let mut output = vec![FILL; MOST_SHEET];
    let outcome = writer::write(edition::NONE, &patterns, &lengths, &left, &[42; 24], &mut output);
    assert_eq!(outcome, told(0, 0, 1_622));
    assert!(read(&output).is_ok());
    output.fill(FILL);
    let short = &mut output[..1_621];
    let outcome = writer::write(edition::NONE, &patterns, &lengths, &left, &[42; 24], short);
    assert_eq!(outcome, told(41, 0, 0));
    assert!(output.iter().all(|&byte| byte == FILL));
}

#[test]
fn fields_from_8_on() {
    let with = |field: usize, length| [vec![0; field], vec![length]].concat();
    for field in [8, 9, 10, 63, 64, 72, 255, 256, 264, 1_000] {
        for length in [1, 192, 193, 256, 1 << 32, 1 << 63, u64::MAX] {
            // before 14, and before 11 and 15
            refuses(&[], &with(field, length), NONE, 13, 2);
            refuses(&[255; 300], &with(field, length), NONE, 13, 2);
        }
        // behind a record of five bytes, and before the sides
        let mut lengths = with(field, 1);
        lengths[3] = 1;
        refuses(&[4, 4], &lengths, [&[43], &[43]], 13, 7);
        // but a fault of an earlier field is met before
        refuses(&[43, 4], &lengths, NONE, 15, 4);
    }
}

#[test]
fn wrong_lengths() {
    let low = [193, 194, 255, 256, 257, 256 + 4, 1 << 16, (1 << 16) + 4];
    let high = [1 << 32, (1 << 32) + 4, 1 << 63, (1 << 63) + 4, u64::MAX, u64::MAX - 191];
    for length in low.into_iter().chain(high) {
        refuses(&[68, 65, 0, 9], &[length], NONE, 14, 3);
        refuses(&[], &[length], NONE, 14, 3);
        refuses(&[vec![68; 300], vec![0]].concat(), &[length], NONE, 14, 3);
        refuses(&[4, 68, 65, 0, 9], &[0, 1, length], NONE, 14, 8);
    }
    for length in [25, 26, 255, 256, 257, 280, 65_536] {
        let long = vec![43; length];
        refuses(&[], &[], [&long, &[43]], 14, 2);
        refuses(&[4], &[1], [&long, &[43]], 14, 7);
        refuses(&[4], &[1], [&[4, 4], &long], 14, 12);
        // the left side is met before
        refuses(&[4], &[1], [&[4, 43], &long], 17, 9);
    }
}

#[test]
fn missing_bytes() {
    for there in 0..4 {
        // 43 is no code, but is not judged
        refuses(&[43; 4][..there], &[4], NONE, 11, 4 + there);
        refuses(&[&[4], &[43; 4][..there]].concat(), &[1, 4], NONE, 11, 9 + there);
    }
    for there in [0, 1, 191] {
        refuses(&vec![68; there], &[192], NONE, 11, 4 + there);
    }
    refuses(&[4, 4], &[1, 1, 1, 1, 1], NONE, 11, 14);
    // before the sides
    refuses(&[4], &[2], [&[43], &[43; 30]], 11, 5);
}

#[test]
fn faults_of_patterns_and_tokens() {
    refuses(&[43], &[1], NONE, 15, 4);
    refuses(&[66, 10], &[2], NONE, 15, 6);
    refuses(&[4, 4], &[2], NONE, 15, 5);
    refuses(&[4, 65, 43], &[0, 1, 0, 2], NONE, 15, 10);
    let leaves = |number: usize| [vec![66; number - 1], vec![7; number]].concat();
    refuses(&leaves(64), &[127], NONE, 16, 4 + 126);
    refuses(&[&[4], &leaves(65)[..]].concat(), &[1, 129], NONE, 16, 9 + 127);
    refuses(&[], &[], [&[0, 42, 43], &[43]], 17, 5);
    refuses(&[], &[], [&[0, 42, 71], &[64, 72]], 17, 10);
    refuses(&[64], &[0, 0, 1], [&[63], &[]], 17, 8);
}

// ----------------------------------------------------------------- many cases

/// The sheet that would be written, put together without a look at it: it ends
/// where a pattern's bytes do; and a length that no byte holds is 255 there.
fn blindly(case: &Case) -> Vec<u8> {
    let mut sheet = match case.edition {
        0 => Vec::new(),
        edition => vec![b'E', b'D', edition.min(255) as u8],
    };
    let mut rest = &case.patterns[..];
    for (field, &length) in case.lengths.iter().enumerate().filter(|(_, &length)| length > 0) {
        sheet.extend_from_slice(b"PA");
        sheet.extend([field as u8, length.min(255) as u8]);
        let body = rest.len().min(length.min(1 << 20) as usize);
        sheet.extend_from_slice(&rest[..body]);
        rest = &rest[body..];
        if (body as u64) < length {
            return sheet;
        }
    }
    for (mark, side) in [(b"LE", &case.left), (b"RI", &case.right)] {
        sheet.extend_from_slice(mark);
        sheet.push(side.len().min(255) as u8);
        sheet.extend_from_slice(side);
    }
    sheet
}

#[test]
fn refused_as_reading_refuses_the_sheet() {
    [FIRST, SECOND].into_iter().for_each(refused_as_reading_refuses_the_sheet_of);
}

fn refused_as_reading_refuses_the_sheet_of(edition: Edition) {
    let mut dice = Dice::of(1, edition);
    let mut seen = BTreeMap::new();
    for number in 0..20_000 {
        let case = case(&mut dice);
        // Half of them without strays, which most of the good ones have.
        let case = if number % 2 == 0 { case } else { kept::written(case) };
        let (outcome, output) = case.run();
        let sheet = blindly(&case);
        let expected = match read(&sheet) {
            Err(fault) => told(fault.number, fault.place, 0),
            Ok(_) if sheet.len() > output.len() => told(41, 0, 0),
            Ok(_) => told(0, 0, sheet.len()),
        };
        assert_eq!(outcome, expected, "{case:?}");
        // By counting, too.
        let met = table::met(&sheet, &[], &[b"LE", b"RI"]);
        let faulty = matches!(outcome.number, 11..=17 | 22 | 44);
        assert_eq!(
            met.map(|met| (met.number, met.place)),
            faulty.then_some((outcome.number, outcome.place))
        );
        assert_eq!(output[..outcome.written], sheet[..outcome.written]);
        assert!(output[outcome.written..].iter().all(|&byte| byte == FILL));
        if let Some(met) = met {
            *seen.entry((format!("{:?}", met.shown), met.later)).or_insert(0) += 1;
        } else {
            let over = (outcome.number == 0).then(|| (output.len() - outcome.written).min(2));
            *seen.entry((format!("{} {over:?}", outcome.number), false)).or_insert(0) += 1;
        }
    }
    for shown in [
        "CutShort",
        "Field",
        "PatternLength",
        "SideLength",
        "NoCode",
        "LoAbove42",
        "LoAbove42WithoutHi",
        "HiAbove42",
        "HiBelowLo",
        "LeftOver",
        "LeftOverNoCode",
        "RunsOut",
        "BehindThe64thLeaf",
        "Character",
        "Range",
        "FirstToken",
        "LaterToken",
        "Stray",
    ] {
        for later in [false, true] {
            let times = seen.remove(&(shown.to_string(), later)).unwrap_or(0);
            assert!(times >= 8, "{shown} {later}: {times}");
        }
    }
    let editions = seen.remove(&("EditionByte".to_string(), false)).unwrap_or(0);
    assert!(if edition == FIRST { editions == 0 } else { editions > 500 });
    for number in ["41 None", "0 Some(0)", "0 Some(1)", "0 Some(2)"] {
        let times = seen.remove(&(number.to_string(), false)).unwrap_or(0);
        assert!(times >= 200, "{number}: {times}");
    }
    assert!(seen.is_empty(), "{seen:?}");
}

#[test]
fn lengths_and_fields_of_all_kinds_come_up() {
    let mut dice = Dice::new(2);
    let (mut lengths, mut above_7, mut zeros, mut longest) = (BTreeMap::new(), 0, 0, [0; 2]);
    for _ in 0..10_000 {
        let case = case(&mut dice);
        assert!(case.lengths.len() <= 255 && case.patterns.len() <= 2_048);
        assert!(case.left.len() <= 320 && case.right.len() <= 320 && case.output <= 2_048);
        for &length in &case.lengths {
            *lengths.entry(length).or_insert(0) += 1;
        }
        above_7 += usize::from(case.lengths.iter().skip(8).any(|&length| length > 0));
        let only_zeros =
            case.lengths.len() > 8 && case.lengths[8..].iter().all(|&length| length == 0);
        zeros += usize::from(only_zeros);
        // They have strays, so they are in `strays::written` too, without.
        let (outcome, _) = case.run();
        longest[0] += usize::from(outcome.number == 22 && case.output == 1_622);
        longest[1] += usize::from(outcome.number == 22 && case.output == 1_621);
    }
    for length in [0, 1, 191, 192, 193, 194, 255, 256, 1 << 16, 1 << 32, 1 << 63, u64::MAX] {
        assert!(lengths.get(&length).is_some_and(|&times| times >= 10), "{length}");
    }
    assert!(above_7 > 500 && zeros > 200 && longest.iter().all(|&times| times >= 10));
}

/// "Reading what it wrote gives the same question": the sides, and what each
/// field may hold.
#[test]
fn reading_gives_what_was_written() {
    [FIRST, SECOND].into_iter().for_each(reading_gives_what_was_written_in);
}

fn reading_gives_what_was_written_in(edition: Edition) {
    let mut dice = Dice::of(3, edition);
    let mut good = 0;
    for _ in 0..6_000 {
        let case = kept::written(case(&mut dice));
        let (Outcome { number: 0, written, .. }, output) = case.run() else { continue };
        let question = read(&output[..written]).unwrap();
        let edition = question.edition;
        assert_eq!(edition.number(), case.edition);
        let side = |tokens: &[u8], hidden| {
            let tokens = tokens.iter().map(|&byte| Token::of_byte(edition, byte).unwrap());
            tokens.chain([Token::Field(hidden)]).collect::<Vec<Token>>()
        };
        assert_eq!(question.left, side(&case.left, 8));
        assert_eq!(question.right, side(&case.right, 9));
        let mut rest = &case.patterns[..];
        for field in 0..8 {
            let length = case.lengths.get(field).map_or(0, |&length| length as usize);
            let (body, behind) = rest.split_at(length);
            rest = behind;
            let expected = match length {
                0 => Allowed::Open(edition.all()),
                _ => {
                    let pattern = Pattern::read(edition, body).unwrap();
                    Allowed::Pattern(Box::new(Places::of(&pattern)))
                }
            };
            assert_eq!(format!("{:?}", question.allowed[field]), format!("{expected:?}"));
        }
        good += 1;
    }
    assert!(good > 1_000, "{good}");
}

/// "writing what was read from a good sheet gives the same bytes"
#[test]
fn writing_what_was_read_gives_the_same_bytes() {
    [FIRST, SECOND].into_iter().for_each(writing_what_was_read_gives_the_same_bytes_in);
}

fn writing_what_was_read_gives_the_same_bytes_in(edition: Edition) {
    let mut dice = Dice::of(4, edition);
    let mut good = 0;
    for _ in 0..10_000 {
        let sheet = make::case(&mut dice).sheet;
        let Ok(question) = read(&sheet) else { continue };
        let records = &sheet[question.edition.record.len()..];
        let (mut patterns, mut lengths, mut rest) = (Vec::new(), [0; 8], records);
        while rest.starts_with(b"PA") {
            let (record, behind) = rest.split_at(4 + usize::from(rest[3]));
            patterns.extend_from_slice(&record[4..]);
            lengths[usize::from(record[2])] = u64::from(record[3]);
            rest = behind;
        }
        let (left, behind) = rest[3..].split_at(usize::from(rest[2]));
        let mut output = [FILL; ALWAYS_ENOUGH];
        let (number, right) = (question.edition.number(), &behind[3..]);
        let outcome = writer::write(number, &patterns, &lengths, left, right, &mut output);
        assert_eq!(outcome, told(0, 0, sheet.len()));
        assert_eq!(output[..sheet.len()], sheet);
        good += 1;
    }
    assert!(good > 5_000, "{good}");
}

#[test]
fn cases_are_read_as_written() {
    type Form = (fn(&Case, &mut Vec<u8>), fn(&[u8]) -> Option<(Case, &[u8])>);
    let forms: [(Edition, Form); 2] =
        [(FIRST, (Case::write, Case::read)), (SECOND, (Case::write_edition, Case::read_edition))];
    for (edition, (write, read)) in forms {
        let mut dice = Dice::of(5, edition);
        let cases: Vec<Case> = (0..300).map(|_| case(&mut dice)).collect();
        let mut stream = Vec::new();
        cases.iter().for_each(|case| write(case, &mut stream));
        let mut rest = &stream[..];
        for case in &cases {
            let (of_stream, behind) = read(rest).unwrap();
            assert_eq!(of_stream, *case);
            let used = rest.len() - behind.len();
            assert_eq!(read(&rest[..used - 1]), None);
            rest = behind;
        }
        assert!(rest.is_empty());
    }
}

#[test]
fn a_case_and_its_line() {
    let case = Case {
        edition: edition::NONE,
        lengths: vec![0, 1],
        patterns: vec![64, 255],
        left: vec![10],
        right: vec![65],
        output: 15,
    };
    let mut stream = Vec::new();
    case.write(&mut stream);
    let lengths = [&[2], &[0; 8][..], &[1, 0, 0, 0, 0, 0, 0, 0]].concat();
    let behind = [2, 0, 64, 255, 1, 0, 10, 1, 0, 65, 15, 0];
    assert_eq!(stream, [lengths, behind.to_vec()].concat());
    let written = "50 41 01 01 40 4c 45 01 0a 52 49 01 41";
    assert_eq!(case.line(), format!("0 0 0 13, written {written}, rest unchanged"));
    let short = Case { output: 12, ..case.clone() };
    assert_eq!(short.line(), "41 0 0 0, written, rest unchanged");
    let cut = Case { patterns: vec![], ..case.clone() };
    assert_eq!(cut.line(), "11 0 4 0, written, rest unchanged");
    // The edition in front, and the same bytes behind it.
    let other = Case { edition: 258, ..case };
    let mut with_edition = Vec::new();
    other.write_edition(&mut with_edition);
    assert_eq!(with_edition, [&[2, 1, 0, 0, 0, 0, 0, 0], &stream[..]].concat());
    assert_eq!(Case::read_edition(&with_edition), Some((other.clone(), &[][..])));
    assert_eq!(other.line(), "44 0 2 0, written, rest unchanged");
}
