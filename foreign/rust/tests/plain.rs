//! The small engine for plain rules: known sheets, each refusal, bit buffers around the right
//! length; and many generated cases, on which the library and the crate `second` agree: number,
//! place, bytes needed, and the buffer to the last byte.

use std::collections::BTreeMap;

use bradovusc::{clash, plain, plain_bytes, Fault, Plain, PlainBytes, PLAIN_BYTES};
use second::edition::{FIRST, SECOND};
use second::make::{pairs, plainly, Dice};
use second::plain::{Needs, Told};

const FILL: u8 = 90;

/// The answer in a filled buffer of this length. Looks at every byte of it: as it was after a fault
/// of the sheet, else all zero.
fn asked(sheet: &[u8], length: usize) -> Plain {
    let mut bits = vec![FILL; length];
    let given = plain(sheet, &mut bits);
    let left = if matches!(given, Plain::Refused { .. }) { FILL } else { 0 };
    assert!(bits.iter().all(|&byte| byte == left), "{given:?}");
    given
}

/// The sheet needs so many bytes, and is answered so with them and with more.
fn known(sheet: &[u8], bytes: usize, answer: Plain) {
    assert_eq!(plain_bytes(sheet), PlainBytes::Needed { bytes });
    for length in [bytes, bytes + 1, PLAIN_BYTES] {
        assert_eq!(asked(sheet, length), answer);
    }
    for length in [0, bytes - 1] {
        assert_eq!(asked(sheet, length), Plain::BitsTooShort);
    }
}

#[test]
fn sheets() {
    // 3 standings each: the end, and two of the hidden field
    known(b"LE\x00RI\x00", 2, Plain::Clash);
    known(b"LE\x01\x0ARI\x01\x0B", 2, Plain::NoClash);
    // 4 standings and 6: a field without a pattern has two
    known(b"LE\x01\x0ARI\x02\x40\x0B", 3, Plain::NoClash);
    // any digits, and the digit 4
    let sheet = b"PA\x00\x04\x44\x41\x00\x09PA\x01\x01\x04LE\x01\x40RI\x01\x41";
    known(sheet, 4, Plain::Clash);
    // spaces at the end are dropped; the pattern of the empty text has one place
    known(b"LE\x01\x0ARI\x03\x0A\x26\x26", 3, Plain::Clash);
    known(b"PA\x00\x01\x40LE\x02\x40\x0ARI\x01\x0A", 3, Plain::Clash);
}

#[test]
fn refusals() {
    let refused = |sheet: &[u8], fault: Fault, place: usize| {
        for length in [0, 1, PLAIN_BYTES] {
            assert_eq!(asked(sheet, length), Plain::Refused { fault, place });
        }
        assert_eq!(plain_bytes(sheet), PlainBytes::Refused { fault, place });
    };
    refused(b"", Fault::CutShort, 0);
    refused(b"LE\x00RI\x00X", Fault::WrongMark, 6);
    refused(b"PA\x08\x01\x40LE\x00RI\x00", Fault::WrongField, 2);
    refused(b"LE\x19", Fault::WrongLength, 2);
    refused(b"PA\x00\x01\x42LE\x00RI\x00", Fault::NotOnePattern, 5);
    // before 42
    refused(b"LE\x02\x40\x40RI\x01\x48", Fault::WrongToken, 8);
    refused(b"PA\x01\x01\x0ALE\x02\x40\x40RI\x00", Fault::StrayPattern, 0);
    // before 43, which these lengths would give
    for sheet in
        [&b"LE\x02\x40\x40RI\x00"[..], b"LE\x01\x47RI\x01\x47", b"LE\x00RI\x03\x40\x0A\x40"]
    {
        for length in [0, 1, PLAIN_BYTES] {
            assert_eq!(asked(sheet, length), Plain::NotPlain);
        }
        assert_eq!(plain_bytes(sheet), PlainBytes::NotPlain);
    }
}

#[test]
fn the_most_bits() {
    let mut sheet = Vec::new();
    for field in 0..8 {
        sheet.extend([b'P', b'A', field, 125]);
        sheet.extend([vec![66; 62], vec![10; 63]].concat());
    }
    for (mark, first) in [(b"LE", 64), (b"RI", 68)] {
        sheet.extend([mark[0], mark[1], 24]);
        sheet.extend(first..first + 4);
        sheet.extend([10; 20]);
    }
    known(&sheet, PLAIN_BYTES, Plain::Clash);
}

/// Each answer comes, and the buffer that is always enough is.
#[test]
fn generated_cases() {
    let mut dice = [FIRST, SECOND].map(|edition| Dice::of(39, edition));
    let mut seen = BTreeMap::new();
    for number in 0..4000 {
        let mut case = plainly::case(&mut dice[number % 2]);
        // by chance 44 is rare
        if let (1, [b'E', b'D', byte, ..]) = (number % 80, &mut case.sheet[..]) {
            *byte = 3 + (number / 80) as u8;
        }
        let (told, theirs) = case.plain();
        let mut ours = vec![FILL; case.work as usize];
        let given = plain(&case.sheet, &mut ours);
        let (number, place) = (given.number() as u8, given.place());
        assert_eq!(Told { number, count: 0, place }, told, "{case:?}");
        assert_eq!(ours, theirs, "{case:?}");
        *seen.entry(number).or_insert(0) += 1;
        let needs = plain_bytes(&case.sheet);
        let (number, place, bytes) = (needs.number() as u8, needs.place(), needs.bytes());
        assert_eq!(Needs { number, place, bytes }, second::plain::plain_bytes(&case.sheet));
        assert!(bytes <= PLAIN_BYTES);
        assert_ne!(asked(&case.sheet, PLAIN_BYTES), Plain::BitsTooShort, "{case:?}");
    }
    assert!(seen.keys().eq(&[0, 1, 11, 12, 13, 14, 15, 16, 17, 22, 42, 43, 44]));
    assert!(seen.values().all(|&times| times > 20), "{seen:?}");
}

/// It says what the search says, wherever that decides.
#[test]
fn as_the_search() {
    let mut dice = [FIRST, SECOND].map(|edition| Dice::of(41, edition));
    let (mut work, mut decided) = (vec![0; 65_520], 0);
    for number in 0..2000 {
        let sheet = pairs::plain_case(&mut dice[number % 2]).sheet;
        let given = asked(&sheet, PLAIN_BYTES);
        if let Some(clashes) = clash(&sheet, &mut work, &mut []).clashes() {
            assert_eq!(given.clashes(), Some(clashes), "{sheet:?}");
            decided += 1;
        }
        assert!(given.clashes().is_some());
    }
    assert!(decided > 1_900, "{decided}");
}
