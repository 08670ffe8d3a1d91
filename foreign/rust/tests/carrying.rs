//! Sheets, rules and catalogues carried over: known ones to the byte, refusals, buffers that are too
//! short; and many generated sheets and rules, on which the library and the crate `second` agree:
//! number, place, written length, and the buffer to the last byte.

use std::collections::BTreeSet;

use bradovusc::{
    add, catalogue_bytes, clash, spell_open, spell_open_catalogue, spell_open_rule, Added, Answer,
    CarriedOver, Fault, SpeltOpen, MOST_RULES, RULE_BYTES, SHEET_BYTES, SITUATION_BYTES,
};
use second::catalogue::RULE;
use second::edition::{FIRST, SECOND};
use second::make::{spelt::case, Dice};
use second::spell_open::{rule_into, sheet_into, Spelt};

const FILL: u8 = 165;

type Speller = fn(&[u8], &mut [u8]) -> SpeltOpen;

/// The answer in a filled buffer of this length, and what was written. Looks at every byte behind it.
fn written(spell: Speller, old: &[u8], length: usize) -> (SpeltOpen, Vec<u8>) {
    let mut out = vec![FILL; length];
    let given = spell(old, &mut out);
    let rest = out.split_off(given.written());
    assert!(rest.iter().all(|&byte| byte == FILL), "{given:?}");
    (given, out)
}

/// The old one becomes the new one, in just enough bytes too, and not in one less. To the new one
/// there is nothing to add.
fn known(spell: Speller, old: &[u8], new: &[u8]) {
    let done = (SpeltOpen::Written { bytes: new.len() }, new.to_vec());
    for length in [new.len(), new.len() + 1, SHEET_BYTES] {
        assert_eq!(written(spell, old, length), done);
        assert_eq!(written(spell, new, length), done);
    }
    for length in [0, new.len() - 1] {
        assert_eq!(written(spell, old, length), (SpeltOpen::TooShort, Vec::new()));
        assert_eq!(written(spell, new, length), (SpeltOpen::TooShort, Vec::new()));
    }
}

/// The record of this field, with 68 65 0 42.
fn any(field: u8) -> Vec<u8> {
    [b"PA", &[field, 4, 68, 65, 0, 42][..]].concat()
}

/// Fields 1 and 3 stand and have no pattern; fields 0 and 2 have one.
#[test]
fn a_sheet() {
    let (digit, letter) = (&b"PA\x00\x03\x41\x00\x09"[..], &b"PA\x02\x01\x0A"[..]);
    let sides = b"LE\x03\x40\x41\x24RI\x03\x40\x43\x42";
    let new = [digit, &any(1), letter, &any(3), sides].concat();
    known(spell_open, &[digit, letter, sides].concat(), &new);
    known(spell_open, b"LE\x00RI\x00", b"LE\x00RI\x00");
}

/// Field 3 stands twice; field 1 doesn't stand.
#[test]
fn a_rule() {
    let (letter, side) = (&b"PA\x02\x01\x0A"[..], &b"LE\x04\x43\x42\x43\x40"[..]);
    let new = [&RULE[..], &any(0), letter, &any(3), side].concat();
    known(spell_open_rule, &[RULE, letter, side].concat(), &new);
    known(spell_open_rule, b"RULE\x00", b"RULE\x00");
}

/// A field and then `A`, and `A` alone: they clash if the field may be empty.
#[test]
fn the_old_meaning() {
    let old = b"LE\x02\x40\x0ARI\x01\x0A";
    let (_, new) = written(spell_open, old, SHEET_BYTES);
    let (mut work, mut answer) = ([0; 40 * SITUATION_BYTES], [0; 20]);
    assert!(matches!(clash(old, &mut work, &mut answer), Answer::NoClash { .. }));
    let given = clash(&new, &mut work, &mut answer);
    assert!(matches!(given, Answer::Clash { .. }));
    assert_eq!(answer[..given.written()], *b"VA\x00\x00\x00");
}

/// The refusals of a sheet come before 41.
#[test]
fn faults_of_a_sheet() {
    for length in [0, SHEET_BYTES] {
        let refused = |sheet: &[u8], fault, place| {
            let expected = (SpeltOpen::Refused { fault, place }, Vec::new());
            assert_eq!(written(spell_open, sheet, length), expected, "{sheet:?}");
        };
        refused(b"", Fault::CutShort, 0);
        refused(b"LE\x00RI\x00\x00", Fault::WrongMark, 6);
        refused(b"RULE\x01\x40", Fault::WrongMark, 0);
        refused(b"PA\x08\x01\x00", Fault::WrongField, 2);
        refused(b"LE\x19", Fault::WrongLength, 2);
        refused(b"PA\x00\x03\x41\x02\x01LE\x00RI\x00", Fault::NotOnePattern, 6);
        refused(b"LE\x01\x48RI\x00", Fault::WrongToken, 3);
        let leaves = [&b"PA\x00\x7F"[..], &[66; 63], &[7; 64]].concat();
        refused(&leaves, Fault::TooManyLeaves, 130);
        refused(b"PA\x00\x01\x04PA\x02\x01\x04LE\x01\x40RI\x01\x41", Fault::StrayPattern, 5);
        refused(b"PA\x00\x01\x04LE\x00RI\x00\x00", Fault::WrongMark, 11);
    }
}

/// Those of a rule come before 31, and 31 before 41. A stray pattern of field 4 is both.
#[test]
fn faults_of_a_rule() {
    for length in [0, RULE_BYTES] {
        let refused = |rule: &[u8], expected| {
            assert_eq!(written(spell_open_rule, rule, length), (expected, Vec::new()), "{rule:?}");
        };
        let fault = |fault, place| SpeltOpen::Refused { fault, place };
        refused(b"", fault(Fault::CutShort, 0));
        refused(b"LE\x00RI\x00", fault(Fault::WrongMark, 0));
        refused(b"RULE\x02\x44\x48", fault(Fault::WrongToken, 6));
        refused(b"RULE\x01\x44\x00", fault(Fault::WrongMark, 6));
        refused(b"RULE\x01\x44", SpeltOpen::ForeignField);
        refused(b"RUPA\x04\x01\x0ALE\x01\x44", SpeltOpen::ForeignField);
        refused(b"RUPA\x04\x01\x0ALE\x01\x40", fault(Fault::StrayPattern, 2));
        refused(b"RUPA\x04\x01\x0ALE\x01\x40\x00", fault(Fault::WrongMark, 11));
    }
}

/// A rule of one open field, and the rule `A`, in a buffer that is just long enough and in others.
#[test]
fn a_catalogue() {
    let new = [&RULE[..], &any(0), b"LE\x01\x40RULE\x01\x0A"].concat();
    let buffer = |front: &[u8], length: usize| {
        let mut buffer = front.to_vec();
        buffer.resize(length, 0);
        buffer
    };
    let old = |length| buffer(b"RULE\x01\x40RULE\x01\x0A", length);
    for length in [new.len(), new.len() + 1, catalogue_bytes(MOST_RULES)] {
        let mut catalogue = old(length);
        // To the new one there is nothing to add.
        for _ in 0..2 {
            assert_eq!(spell_open_catalogue(&mut catalogue), CarriedOver::Done);
            assert_eq!(catalogue, buffer(&new, length));
        }
    }
    for length in [12, new.len() - 1] {
        let mut catalogue = old(length);
        assert_eq!(spell_open_catalogue(&mut catalogue), CarriedOver::Full);
        assert_eq!(catalogue, old(length));
    }
    for none in [&b"RULE\x01\x40RULE\x01"[..], b"RULE\x01\x40RUPA\x01\x01\x04LE\x01\x40"] {
        let mut catalogue = none.to_vec();
        assert_eq!(spell_open_catalogue(&mut catalogue), CarriedOver::NoCatalogue);
        assert_eq!(catalogue, none);
    }
    assert_eq!(spell_open_catalogue(&mut []), CarriedOver::Done);
}

/// A field and then `A` is kept. A rule that makes `A` is refused once the catalogue is carried over.
#[test]
fn a_catalogue_that_is_not_carried_over() {
    for carried in [false, true] {
        let mut catalogue = [0; 40];
        catalogue[..7].copy_from_slice(b"RULE\x02\x40\x0A");
        if carried {
            assert_eq!(spell_open_catalogue(&mut catalogue), CarriedOver::Done);
        }
        let added = add(&mut catalogue, b"RULE\x01\x0A", &mut [0; 40 * SITUATION_BYTES]);
        if carried {
            assert!(matches!(added, Added::NotApart { rule: 0, pair: Answer::Clash { .. } }));
        } else {
            assert_eq!(added, Added::Entered);
        }
    }
}

#[test]
fn generated_sheets_and_rules() {
    let mut dice = [FIRST, SECOND].map(|edition| Dice::of(39, edition));
    let mut seen = BTreeSet::new();
    for number in 0..4000 {
        let case = case(&mut dice[number % 2]);
        let rule = case.sheet.starts_with(RULE);
        let mut ours = vec![FILL; case.answer as usize];
        let mut theirs = ours.clone();
        let (given, told) = if rule {
            (spell_open_rule(&case.sheet, &mut ours), rule_into(&case.sheet, &mut theirs))
        } else {
            (spell_open(&case.sheet, &mut ours), sheet_into(&case.sheet, &mut theirs))
        };
        let (number, place, written) = (given.number() as u8, given.place(), given.written());
        assert_eq!(Spelt { number, place, written }, told, "{case:?}");
        assert_eq!(ours, theirs, "{case:?}");
        seen.insert((rule, number));
    }
    let sheets = [0, 11, 12, 13, 14, 15, 16, 17, 22, 41, 44].map(|number| (false, number));
    let rules = [0, 11, 12, 13, 14, 15, 16, 17, 22, 31, 41].map(|number| (true, number));
    assert_eq!(seen, sheets.into_iter().chain(rules).collect());
}

#[test]
fn buffers_that_are_always_long_enough() {
    let mut dice = [FIRST, SECOND].map(|edition| Dice::of(41, edition));
    for number in 0..4000 {
        let old = case(&mut dice[number % 2]).sheet;
        assert_ne!(written(spell_open, &old, SHEET_BYTES).0, SpeltOpen::TooShort, "{old:?}");
        assert_ne!(written(spell_open_rule, &old, RULE_BYTES).0, SpeltOpen::TooShort, "{old:?}");
    }
    // Patterns of the greatest length for all fields but the last, and all of them stand.
    let pattern = [&[68][..], &[67; 47], &[65, 0, 42].repeat(48)].concat();
    let record = |field: u8| [b"PA", &[field, 192][..], &pattern].concat();
    let side = |mark: &[u8], fields: u8| {
        let tokens: Vec<u8> = (64..64 + fields).cycle().take(24).collect();
        [mark, &[24], &tokens].concat()
    };
    let patterns = |fields: u8| (0..fields).flat_map(record).collect::<Vec<u8>>();
    let sheet = [patterns(7), side(b"LE", 8), side(b"RI", 8)].concat();
    assert_eq!(written(spell_open, &sheet, SHEET_BYTES).0.written(), SHEET_BYTES - 3 - 188);
    let rule = [&RULE[..], &patterns(3), &side(b"LE", 4)].concat();
    assert_eq!(written(spell_open_rule, &rule, RULE_BYTES).0.written(), RULE_BYTES - 188);
}
