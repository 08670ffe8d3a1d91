//! Sheets that are written: known ones to the byte, refusals, buffers that are too short; what is
//! read again; and many generated cases, on which the library and the crate `second` agree: number,
//! place, written length, and the buffer to the last byte.

use std::collections::BTreeMap;

use bradovusc::{clash, write, write_edition, Answer, Edition, Fault, Written, SHEET_BYTES};
use second::edition::{FIRST, SECOND};
use second::make::{self, written::case, Dice};
use second::Outcome;

const FILL: u8 = 165;

/// What is handed over.
#[derive(Clone, Copy)]
struct Parts<'a> {
    edition: Edition,
    patterns: &'a [u8],
    lengths: &'a [u64],
    left: &'a [u8],
    right: &'a [u8],
}

const NOTHING: Parts =
    Parts { edition: Edition::Code39, patterns: &[], lengths: &[], left: &[], right: &[] };

/// The answer in a filled buffer of this length, and what was written. Looks at every byte behind it.
fn written(parts: Parts, length: usize) -> (Written, Vec<u8>) {
    let Parts { edition, patterns, lengths, left, right } = parts;
    let mut out = vec![FILL; length];
    let given = write_edition(edition, patterns, lengths, left, right, &mut out);
    if edition == Edition::Code39 {
        let mut same = vec![FILL; length];
        assert_eq!(write(patterns, lengths, left, right, &mut same), given);
        assert_eq!(same, out);
    }
    let rest = out.split_off(given.written());
    assert!(rest.iter().all(|&byte| byte == FILL), "{given:?}");
    (given, out)
}

/// They become this sheet, in just enough bytes too, and not in one less.
fn known(parts: Parts, sheet: &[u8]) {
    for length in [sheet.len(), sheet.len() + 1, SHEET_BYTES] {
        let done = (Written::Sheet { bytes: sheet.len() }, sheet.to_vec());
        assert_eq!(written(parts, length), done);
    }
    for length in [0, sheet.len() - 1] {
        assert_eq!(written(parts, length), (Written::TooShort, Vec::new()));
    }
}

#[test]
fn sheets() {
    known(NOTHING, b"LE\x00RI\x00");
    known(Parts { left: &[10], right: &[64, 11], ..NOTHING }, b"LE\x01\x0ARI\x02\x40\x0B");
    let sheet = b"PA\x00\x04\x44\x41\x00\x09PA\x01\x01\x04LE\x01\x40RI\x01\x41";
    let four = Parts {
        patterns: &[68, 65, 0, 9, 4],
        lengths: &[4, 1],
        left: &[64],
        right: &[65],
        ..NOTHING
    };
    known(four, sheet);
    // zeros behind the last length, those of fields that no sheet has among them
    known(Parts { lengths: &[4, 1, 0, 0, 0, 0, 0, 0, 0, 0, 0], ..four }, sheet);
    // bytes behind the last pattern, no code among them
    known(Parts { patterns: &[68, 65, 0, 9, 4, 255, 255], ..four }, sheet);
    known(Parts { patterns: &[255], lengths: &[0, 0], ..NOTHING }, b"LE\x00RI\x00");
    // fields without a pattern between two that have one
    let far = Parts { patterns: &[64, 7], lengths: &[0, 1, 0, 0, 0, 0, 0, 1], ..NOTHING };
    let sheet = b"PA\x01\x01\x40PA\x07\x01\x07LE\x01\x41RI\x01\x47";
    known(Parts { left: &[65], right: &[71], ..far }, sheet);
}

/// One slice for several parts: they are only read.
#[test]
fn parts_that_are_the_same() {
    // the pattern of the empty text, and field 0
    let same = [64];
    let parts = Parts { patterns: &same, lengths: &[1], left: &same, right: &same, ..NOTHING };
    known(parts, b"PA\x00\x01\x40LE\x01\x40RI\x01\x40");
}

#[test]
fn the_longest_sheet() {
    let patterns = [vec![68; 191], vec![0]].concat().repeat(8);
    let fields = |first: u8| (first..first + 8).collect::<Vec<u8>>().repeat(3);
    let (lengths, left) = (&[192; 8], fields(64));
    let parts = Parts { patterns: &patterns, lengths, left: &left, right: &[42; 24], ..NOTHING };
    assert_eq!(written(parts, SHEET_BYTES).0, Written::Sheet { bytes: SHEET_BYTES - 3 });
    assert_eq!(written(parts, SHEET_BYTES - 4).0, Written::TooShort);
    let patterns = [vec![196; 191], vec![0]].concat().repeat(8);
    let (edition, left) = (Edition::FullAscii, fields(192));
    let parts = Parts { edition, patterns: &patterns, left: &left, ..parts };
    assert_eq!(written(parts, SHEET_BYTES).0, Written::Sheet { bytes: SHEET_BYTES });
    assert_eq!(written(parts, SHEET_BYTES - 1).0, Written::TooShort);
}

/// Behind `ED` 64 to 68 are characters, and every place is three bytes further on.
#[test]
fn in_full_ascii() {
    let ascii = Parts { edition: Edition::FullAscii, ..NOTHING };
    known(ascii, b"ED\x02LE\x00RI\x00");
    known(
        Parts {
            patterns: b"@\xC4D",
            lengths: &[1, 0, 2],
            left: b"A\xC2",
            right: b"\0\x7F\xC0",
            ..ascii
        },
        b"ED\x02PA\x00\x01@PA\x02\x02\xC4DLE\x02A\xC2RI\x03\0\x7F\xC0",
    );
    let refused = |parts, fault, place| {
        assert_eq!(written(parts, SHEET_BYTES).0, Written::Refused { fault, place });
    };
    refused(Parts { patterns: &[68, 4], lengths: &[2], ..ascii }, Fault::NotOnePattern, 8);
    refused(Parts { patterns: &[197], lengths: &[1], ..ascii }, Fault::NotOnePattern, 7);
    refused(Parts { patterns: &[193, 0, 128], lengths: &[3], ..ascii }, Fault::NotOnePattern, 9);
    refused(Parts { left: &[128], ..ascii }, Fault::WrongToken, 6);
    refused(Parts { right: &[200], ..ascii }, Fault::WrongToken, 9);
    refused(Parts { left: &[192], ..NOTHING }, Fault::WrongToken, 3);
    refused(Parts { patterns: b"@", lengths: &[0, 1], ..ascii }, Fault::StrayPattern, 3);
    for (sheet, edition) in [(&b"ED\x02LE"[..], Edition::FullAscii), (b"ED\x03", Edition::Code39)] {
        assert_eq!(Edition::of(sheet), edition);
    }
    let wrong = clash(b"ED\x03LE\x00RI\x00", &mut [], &mut []);
    assert_eq!(wrong, Answer::Refused { fault: Fault::WrongEdition, place: 2 });
}

/// The first fault that the sheet would meet, before 41.
#[test]
fn faults() {
    fn refused(parts: Parts, fault: Fault, place: usize) {
        for length in [0, SHEET_BYTES] {
            assert_eq!(written(parts, length), (Written::Refused { fault, place }, Vec::new()));
        }
    }
    fn of<'a>(patterns: &'a [u8], lengths: &'a [u64]) -> Parts<'a> {
        Parts { patterns, lengths, left: &[43], right: &[43], ..NOTHING }
    }
    let leaves = [[66; 63].to_vec(), [7; 64].to_vec()].concat();
    // behind a record of five bytes; 13 before 14 and before the sides
    refused(of(&[4, 4], &[0, 1, 0, 0, 0, 0, 0, 0, 1]), Fault::WrongField, 7);
    refused(of(&[], &[0, 0, 0, 0, 0, 0, 0, 0, 0, u64::MAX]), Fault::WrongField, 2);
    refused(of(&[4; 300], &[193]), Fault::WrongLength, 3);
    for low_byte_4 in [256 + 4, (1 << 32) + 4, (1 << 63) + 4, u64::MAX] {
        refused(of(&[68, 65, 0, 9], &[low_byte_4]), Fault::WrongLength, 3);
    }
    refused(of(&[4, 43, 43], &[1, 4]), Fault::CutShort, 11);
    refused(of(&[], &[1]), Fault::CutShort, 4);
    refused(of(&[4, 65, 2, 1], &[1, 3]), Fault::NotOnePattern, 11);
    refused(of(&[66, 4], &[2]), Fault::NotOnePattern, 6);
    refused(of(&leaves, &[127]), Fault::TooManyLeaves, 130);
    refused(of(&[4], &[1]), Fault::WrongToken, 8);
    refused(Parts { left: &[4; 25], ..of(&[4], &[1]) }, Fault::WrongLength, 7);
    refused(Parts { left: &[4], right: &[43; 280], ..NOTHING }, Fault::WrongLength, 6);
    refused(Parts { left: &[4], right: &[71, 72], ..NOTHING }, Fault::WrongToken, 8);
    // a pattern of a field that doesn't stand: behind all others, and the first of two
    let stray = Parts { left: &[4], right: &[66], ..of(&[4, 4, 4, 4], &[0, 0, 1, 2, 1]) };
    refused(stray, Fault::NotOnePattern, 10);
    refused(Parts { lengths: &[0, 0, 1, 1, 0, 0, 0, 1], ..stray }, Fault::StrayPattern, 5);
    refused(Parts { lengths: &[1], right: &[72], ..stray }, Fault::WrongToken, 12);
}

/// The edition with this number.
fn edition(number: u64) -> Option<Edition> {
    [Edition::Code39, Edition::FullAscii].into_iter().find(|each| each.number() as u64 == number)
}

/// 12 and 44 never come, and each of the other answers does.
#[test]
fn generated_cases() {
    let mut dice = [FIRST, SECOND].map(|edition| Dice::of(39, edition));
    let mut seen = BTreeMap::new();
    for number in 0..4000 {
        let case = case(&mut dice[number % 2]);
        let (told, theirs) = case.run();
        let mut ours = vec![FILL; case.output.into()];
        let Some(edition) = edition(case.edition) else {
            assert_eq!(told.number, 44);
            continue;
        };
        let write = |out: &mut [u8]| {
            write_edition(edition, &case.patterns, &case.lengths, &case.left, &case.right, out)
        };
        let given = write(&mut ours);
        let (number, place, written) = (given.number() as u8, given.place(), given.written());
        assert_eq!(Outcome { number, count: 0, place, written }, told, "{case:?}");
        assert_eq!(ours, theirs, "{case:?}");
        *seen.entry(number).or_insert(0) += 1;
        // The sheet that is written has no fault; the longest buffer is long enough.
        if written > 0 {
            let answer = clash(&ours[..written], &mut [], &mut []);
            assert!(matches!(answer, Answer::NoRoom { .. }), "{case:?}: {answer}");
        }
        let mut longest = [FILL; SHEET_BYTES];
        assert_ne!(write(&mut longest), Written::TooShort, "{case:?}");
    }
    assert!(seen.keys().eq(&[0, 11, 13, 14, 15, 16, 17, 22, 41]));
    assert!(seen.values().all(|&times| times > 100), "{seen:?}");
}

/// Writing what stands in a good sheet gives the same bytes.
#[test]
fn sheets_written_again() {
    let mut dice = [FIRST, SECOND].map(|edition| Dice::of(41, edition));
    let mut good = 0;
    for number in 0..4000 {
        let sheet = make::case(&mut dice[number % 2]).sheet;
        if matches!(clash(&sheet, &mut [], &mut []), Answer::Refused { .. }) {
            continue;
        }
        let edition = Edition::of(&sheet);
        let front = edition.record().len();
        let (mut patterns, mut lengths, mut rest) = (Vec::new(), [0; 8], &sheet[front..]);
        while rest.starts_with(b"PA") {
            let (record, behind) = rest.split_at(4 + usize::from(rest[3]));
            patterns.extend_from_slice(&record[4..]);
            lengths[usize::from(record[2])] = u64::from(record[3]);
            rest = behind;
        }
        let (left, behind) = rest[3..].split_at(usize::from(rest[2]));
        let (patterns, lengths, right) = (&patterns[..], &lengths[..], &behind[3..]);
        known(Parts { edition, patterns, lengths, left, right }, &sheet);
        good += 1;
    }
    assert!(good > 2000, "{good}");
}
