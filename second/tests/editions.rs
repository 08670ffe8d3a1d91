//! The second edition: known sheets, worked out by hand from the rules; each byte
//! on both sides of each limit; and that a sheet without `ED`, and a rule, are read
//! as ever.

#[allow(dead_code)]
mod table;

use std::collections::BTreeMap;

use second::calls::Calls;
use second::cases::Case;
use second::catalogue::{add, HASHING};
use second::decide::{few, least_alike};
use second::edition::{Edition, FIRST, SECOND};
use second::fault::Fault;
use second::make::editions::{self, Tried};
use second::make::{spelt, strays, Dice};
use second::pattern::characters;
use second::plain::plain_bytes;
use second::sheet::read;
use second::smt::{compare::says, write::script};
use second::steps::{self, play, Handed};
use second::{decide, printed, spell_open, storeroom, writer, CODE_39, SITUATION_BYTES};

/// Bytes in hexadecimal, one space between them.
fn hex(bytes: &str) -> Vec<u8> {
    bytes.split_whitespace().map(|byte| u8::from_str_radix(byte, 16).unwrap()).collect()
}

fn in_room(sheet: &[u8], room: usize, answer: u32) -> Case {
    Case { work: (room * SITUATION_BYTES) as u32, answer, sheet: sheet.to_vec() }
}

/// What `clash` prints, and the answer's bytes, the same from both modules; in
/// just the room and the answer buffer that are needed, too.
#[track_caller]
fn clash(sheet: &str, lines: &str, answer: &str) {
    let sheet = hex(sheet);
    let after = in_room(&sheet, 356, 4_096).run(second::answer);
    assert_eq!(after, in_room(&sheet, 356, 4_096).run(second::scan::answer));
    assert_eq!(after.lines(), lines);
    assert_eq!(after.answer[..after.outcome.written], hex(answer));
    if after.outcome.number == 0 {
        let (count, written) = (after.outcome.count, after.outcome.written);
        let just = in_room(&sheet, count, written as u32).run(second::answer);
        assert_eq!(just.outcome, after.outcome);
        let less = in_room(&sheet, count - 1, written as u32).run(second::answer).outcome;
        assert_eq!((less.number, less.count), (18, count - 1));
        if written > 0 {
            let short = in_room(&sheet, count, written as u32 - 1).run(second::answer).outcome;
            assert_eq!((short.number, short.count), (20, count));
        }
    }
}

// ----------------------------------------------------------- known sheets

#[test]
fn known_sheets() {
    // both empty
    clash("45 44 02 4C 45 00 52 49 00", "0 5 0\n", "");
    // `A` and `B`
    clash("45 44 02 4C 45 01 41 52 49 01 42", "1 1 0\n", "");
    // x and `A`; x and `a`, whose spelling has two signs
    clash("45 44 02 4C 45 01 C0 52 49 01 41", "0 10 0\n0 A\n", "56 41 00 01 00 41");
    clash("45 44 02 4C 45 01 C0 52 49 01 61", "0 10 0\n0 +A\n", "56 41 00 01 00 61");
    // x`A` and `B`x; the same, x with the pattern 196 193 0 127
    clash("45 44 02 4C 45 02 C0 41 52 49 02 42 C0", "1 2 0\n", "");
    let any = "45 44 02 50 41 00 04 C4 C1 00 7F 4C 45 02 C0 41 52 49 02 42 C0";
    clash(any, "1 2 0\n", "");
    // xx and `AA`
    clash("45 44 02 4C 45 02 C0 C0 52 49 02 41 41", "0 11 0\n0 A\n", "56 41 00 01 00 41");
    // `AB`x`B` and x`B`y
    clash(
        "45 44 02 4C 45 04 41 42 C0 42 52 49 03 C0 42 C1",
        "0 15 0\n0 A\n1 AB\n",
        "56 41 00 01 00 41 56 41 01 02 00 41 42",
    );
    // sheet S: x any digits, y the digit 4
    clash(
        "45 44 02 50 41 00 04 C4 C1 30 39 50 41 01 01 34 4C 45 01 C0 52 49 01 C1",
        "0 13 0\n0 4\n1 4\n",
        "56 41 00 01 00 34 56 41 01 01 00 34",
    );
}

/// "the hidden space is 32"
#[test]
fn the_space_is_32() {
    // `LT4`, and `LT4` with a space
    clash("45 44 02 4C 45 03 4C 54 34 52 49 04 4C 54 34 20", "0 6 0\n", "");
    // with 38, which is `&`
    clash("45 44 02 4C 45 03 4C 54 34 52 49 04 4C 54 34 26", "1 1 0\n", "");
    // x and the empty side: x is one space
    clash("45 44 02 4C 45 01 C0 52 49 00", "0 9 0\n0  \n", "56 41 00 01 00 20");
    // two spaces, and the empty side; two of 38
    clash("45 44 02 4C 45 02 20 20 52 49 00", "0 7 0\n", "");
    clash("45 44 02 4C 45 02 26 26 52 49 00", "1 1 0\n", "");
    // The least ones alike are the space and one for all the others.
    let both_empty = read(&hex("45 44 02 4C 45 00 52 49 00")).unwrap();
    assert_eq!(characters(least_alike(&both_empty)).collect::<Vec<u8>>(), [0, 32]);
    // Each other character of `LT0` and `LT4` is fixed.
    let sheet = read(&hex("45 44 02 4C 45 03 4C 54 30 52 49 03 4C 54 34")).unwrap();
    let least = least_alike(&sheet);
    assert_eq!(characters(least).collect::<Vec<u8>>(), [0, 32, b'0', b'4', b'L', b'T']);
    // The hidden leaf alone wants one.
    assert_eq!(characters(few(&sheet, least)).collect::<Vec<u8>>(), [32]);
}

/// "Behind `ED`, 64 to 68 are characters, in patterns too."
#[test]
fn old_codes_are_characters() {
    // `@` and `@`; `@` to `G` and the same
    clash("45 44 02 4C 45 01 40 52 49 01 40", "0 5 0\n", "");
    let row = "40 41 42 43 44 45 46 47";
    clash(&format!("45 44 02 4C 45 08 {row} 52 49 08 {row}"), "0 5 0\n", "");
    // x is `D`, 68: one leaf
    let d = "45 44 02 50 41 00 01 44 4C 45 01 C0 52 49 01 44";
    clash(d, "0 8 0\n0 D\n", "56 41 00 01 00 44");
    // and not any number of anything: the right hidden field is struck, x never
    clash("45 44 02 50 41 00 01 44 4C 45 01 C0 52 49 00", "1 2 0\n", "");
    // x is one of `@` to `D`, 64 to 68, and `C`; and `E`
    clash(
        "45 44 02 50 41 00 03 C1 40 44 4C 45 01 C0 52 49 01 43",
        "0 8 0\n0 C\n",
        "56 41 00 01 00 43",
    );
    clash("45 44 02 50 41 00 03 C1 40 44 4C 45 01 C0 52 49 01 45", "1 1 0\n", "");
    // `A` then `B` as 194 65 66; as 66 65 66 the second byte is left over
    clash(
        "45 44 02 50 41 00 03 C2 41 42 4C 45 01 C0 52 49 02 41 42",
        "0 9 0\n0 AB\n",
        "56 41 00 02 00 41 42",
    );
    clash("45 44 02 50 41 00 03 42 41 42 4C 45 01 C0 52 49 02 41 42", "15 0 8\n", "");
    // 68 65 0 42 is the character 68 and three bytes more
    clash("45 44 02 50 41 00 04 44 41 00 2A 4C 45 01 C0 52 49 00", "15 0 8\n", "");
}

/// "A field without a pattern holds characters of its edition."
#[test]
fn an_open_field_holds_each_of_128() {
    for character in 0..128 {
        let sheet = [b"ED\x02LE\x01\xc0RI\x01", &[character][..]].concat();
        let after = in_room(&sheet, 356, 6).run(second::answer);
        assert_eq!((after.outcome.number, after.outcome.count), (0, 10), "{character}");
        assert_eq!(after.answer, [86, 65, 0, 1, 0, character]);
    }
    // x and y: the first character of all is put before both
    clash(
        "45 44 02 4C 45 01 C0 52 49 01 C1",
        "0 15 0\n0 %U\n1 %U\n",
        "56 41 00 01 00 00 56 41 01 01 00 00",
    );
    // x and x
    clash("45 44 02 4C 45 01 C0 52 49 01 C0", "0 7 0\n0 %U\n", "56 41 00 01 00 00");
}

/// What is printed is plain Code 39, each text by the table.
#[test]
fn texts_are_printed_spelt() {
    let printed = |characters: &[u8]| {
        let length = [characters.len() as u8];
        let sheet = [b"ED\x02LE\x01\xc0RI", &length[..], characters].concat();
        let lines = in_room(&sheet, 356, 100).run(second::answer).lines();
        lines.lines().nth(1).unwrap().to_string()
    };
    assert_eq!(printed(b"Part 7"), "0 P+A+R+T 7");
    assert_eq!(printed(b"$%/+"), "0 /D/E/O/K");
    assert_eq!(printed(b"-.Z9"), "0 -.Z9");
    assert_eq!(printed(&[0, 1, 27, 127]), "0 %U$A%A%T");
    assert_eq!(printed(b"@`~\"\\"), "0 %V%W%S/B%L");
    // A sheet without `ED` is printed as ever: 41 and 10 are `+` and `A`.
    let first = hex("4C 45 01 40 52 49 02 29 0A");
    assert!(in_room(&first, 356, 100).run(second::answer).lines().ends_with("\n0 +A\n"));
    // So do `decide` and `steps`, and each step its character.
    let sheet = hex("45 44 02 4C 45 01 C0 52 49 01 61");
    assert_eq!(in_room(&sheet, 356, 100).decide(decide::HASHING).lines(), "0 10 0 1\n0 +A\n");
    let case = steps::Case { case: in_room(&sheet, 356, 100), steps: 100 };
    let lines = case.run(steps::steps).lines();
    assert_eq!(lines, "0 10 0\n0 +A\nput +A\nleft\nleft\nright\n");
}

/// What is printed of the stored cases: every character, each fault's place.
#[test]
fn the_printed_cases() {
    let lines: Vec<String> =
        printed::second_cases().iter().map(|case| case.run(second::answer).lines()).collect();
    let all: Vec<u8> = (0..128).collect();
    let spelt = |text: &[u8]| {
        let values = second::full_ascii::spelt(text).unwrap();
        values.iter().map(|&value| char::from(CODE_39[usize::from(value)])).collect::<String>()
    };
    let parts = [&all[..63], &all[63..126], &all[126..], &all[..2], &all[2..65], &all[65..]];
    let texts: Vec<String> =
        (0..).zip(parts).map(|(of, text): (u8, _)| format!("{of} {}", spelt(text))).collect();
    assert_eq!(lines[0].lines().skip(1).collect::<Vec<&str>>(), texts);
    assert!(lines[0].starts_with("0 "));
    assert_eq!(lines[3], "0 24 0\n0 /KA/OB/EC/DD\n");
    assert!(lines[7].ends_with("\n0 +I\n7 +H\n"));
    let faults =
        ["11 0 1\n", "11 0 2\n", "11 0 3\n", "12 0 3\n", "44 0 2\n", "15 0 7\n", "17 0 6\n"];
    assert_eq!(lines[lines.len() - faults.len()..], faults);
}

#[test]
fn known_decisions() {
    let decided = |sheet: &str, room: usize, answer: u32| {
        let case = in_room(&hex(sheet), room, answer);
        assert_eq!(case.decide(decide::HASHING), case.decide(decide::SCANNING));
        case.decide(decide::HASHING).lines()
    };
    // x`4` and xx, x one of `A` to `G`: 2 situations, and no 4 on the right
    let range = "45 44 02 50 41 00 03 C1 41 47 4C 45 02 C0 34 52 49 02 C0 C0";
    assert_eq!(decided(range, 2, 8), "1 2 0 2\n");
    // x`A` and xx: 8, and 7 with an A alone: the start, the A read, x struck, and the
    // two hidden fields with a space, either of them struck, and both
    let clash = "45 44 02 50 41 00 03 C1 41 47 4C 45 02 C0 41 52 49 02 C0 C0";
    assert_eq!(decided(clash, 8, 8), "0 15 0 4\n0 A\n");
    assert_eq!(decided(clash, 8, 5), "20 15 0 4\n");
    // `A` and x`4`x: no 4 on the left
    let letters = "45 44 02 4C 45 01 41 52 49 03 C0 34 C0";
    assert_eq!(decided(letters, 6, 8), "1 6 0 2\n");
    // xx`A` and y`B`: each standing apart
    let apart = "45 44 02 4C 45 03 C0 C0 41 52 49 02 C1 42";
    assert_eq!(decided(apart, 1, 8), "1 1 0 3\n");
    // `AA` and x: 3, 3, 3, 3 and 1
    assert_eq!(decided("45 44 02 4C 45 02 41 41 52 49 01 C0", 3, 8), "18 13 0 0\n");
}

// ------------------------------------------------------------------ faults

#[track_caller]
fn refused(sheet: &str, number: u8, place: usize) {
    let sheet = hex(sheet);
    assert_eq!(read(&sheet).err(), Some(Fault { number, place }));
    let case = in_room(&sheet, 3, 20);
    let after = case.run(second::answer);
    assert_eq!(after, case.run(second::scan::answer));
    assert_eq!(after.lines(), format!("{number} 0 {place}\n"));
    assert!(after.work.iter().all(|&byte| byte == 90));
    assert!(after.answer.iter().all(|&byte| byte == 165));
    assert_eq!(script(&sheet), Err(Fault { number, place }));
    assert_eq!(spell_open::sheet(&sheet), Err(Fault { number, place }));
    assert_eq!(play(&sheet, b"X", &mut []).number, number);
}

#[test]
fn every_damage_of_the_record() {
    refused("45", 11, 1);
    refused("45 44", 11, 2);
    refused("45 44 02", 11, 3);
    refused("45 44 02 45", 11, 4);
    refused("45 58", 12, 0);
    refused("45 58 02 4C 45 00 52 49 00", 12, 0);
    refused("44 45 02 4C 45 00 52 49 00", 12, 0);
    for byte in (0..=255).filter(|&byte| byte != 2) {
        refused(&format!("45 44 {byte:02X}"), 44, 2);
        refused(&format!("45 44 {byte:02X} 4C 45 00 52 49 00"), 44, 2);
        refused(&format!("45 44 {byte:02X} 58 58"), 44, 2);
    }
    // twice, behind a pattern, behind each side
    refused("45 44 02 45 44 02 4C 45 00 52 49 00", 12, 3);
    refused("50 41 00 01 05 45 44 02 4C 45 00 52 49 00", 12, 5);
    refused("45 44 02 50 41 00 01 05 45 44 02 4C 45 00 52 49 00", 12, 8);
    refused("4C 45 00 45 44 02 52 49 00", 12, 3);
    refused("45 44 02 4C 45 00 45 44 02 52 49 00", 12, 6);
    refused("4C 45 00 52 49 00 45 44 02", 12, 6);
    refused("45 44 02 4C 45 00 52 49 00 45 44 02", 12, 9);
    // the other faults, with places from the first byte of the sheet on
    refused("45 44 02 52 49 00", 12, 3);
    refused("45 44 02 50 41 08 01 05", 13, 5);
    refused("45 44 02 50 41 00 00", 14, 6);
    refused("45 44 02 4C 45 19", 14, 5);
    refused("45 44 02 50 41 00 02 C4", 11, 8);
    refused("45 44 02 50 41 00 01 C4", 15, 8);
    refused("45 44 02 50 41 00 02 05 05", 15, 8);
    refused("45 44 02 50 41 00 02 C1 80", 15, 8);
    refused("45 44 02 50 41 00 03 C1 00 80", 15, 9);
    refused("45 44 02 50 41 00 03 C1 42 41", 15, 9);
    refused("45 44 02 4C 45 02 7F 80 52 49 00", 17, 7);
    // hidden fields
    refused("45 44 02 4C 45 01 C8 52 49 00", 17, 6);
    refused("45 44 02 4C 45 00 52 49 01 C9", 17, 9);
    // 64 leaves, of the 64 characters from 64 on
    let leaves: Vec<String> = (64..128).map(|byte| format!("{byte:02X}")).collect();
    let body = format!("{} {}", "C3 ".repeat(63), leaves.join(" "));
    refused(&format!("45 44 02 50 41 00 7F {body}"), 16, 7 + 63 + 63);
}

/// A byte is a character, a field's token or nothing; a code, a leaf or nothing;
/// a range's end or nothing.
#[test]
fn each_byte_in_each_edition() {
    for (edition, last, codes) in [(FIRST, 42, 64), (SECOND, 127, 192)] {
        let front = edition.record;
        for byte in 0..=255u8 {
            let at = front.len();
            let side = [front, b"LE\x01", &[byte], b"RI\x00"].concat();
            let is_token = byte <= last || (codes..codes + 8).contains(&byte);
            let fault = Fault { number: 17, place: at + 3 };
            assert_eq!(read(&side).err(), (!is_token).then_some(fault), "{byte}");
            let leaf = [front, b"PA\x00\x01", &[byte], b"LE\x01", &[codes], b"RI\x00"].concat();
            let place = match byte {
                _ if byte <= last || byte == codes => None,
                _ if (codes + 1..=codes + 4).contains(&byte) => Some(at + 5),
                _ => Some(at + 4),
            };
            let fault = place.map(|place| Fault { number: 15, place });
            assert_eq!(read(&leaf).err(), fault, "{byte}");
            let range = |lo: u8, hi: u8| {
                let body = [codes + 1, lo, hi];
                [front, b"PA\x00\x03", &body, b"LE\x01", &[codes], b"RI\x00"].concat()
            };
            let fault = |place: usize| Fault { number: 15, place };
            let over = byte > last;
            assert_eq!(read(&range(byte, byte)).err(), over.then_some(fault(at + 5)), "{byte}");
            assert_eq!(read(&range(0, byte)).err(), over.then_some(fault(at + 6)), "{byte}");
            let low = if over { Some(at + 5) } else { (byte > 3).then_some(at + 6) };
            assert_eq!(read(&range(byte, 3)).err(), low.map(fault), "{byte}");
        }
    }
}

#[test]
fn the_stored_cases_are_judged_as_by_counting() {
    let cases = editions::cases(Tried::All);
    assert!(editions::cases(Tried::AtLimits).iter().all(|case| cases.contains(case)));
    let mut seen = [0; 64];
    for case in &cases {
        let after = case.run(second::answer);
        assert_eq!(after, case.run(second::scan::answer), "{case:?}");
        let met = table::met(&case.sheet, b"", &[b"LE", b"RI"]);
        let fault = met.map(|met| Fault { number: met.number, place: met.place });
        assert_eq!(read(&case.sheet).err(), fault, "{case:?}");
        seen[usize::from(after.outcome.number)] += 1;
        // Where there is an answer the engine for plain rules has the same.
        let needs = plain_bytes(&case.sheet);
        if needs.number == 0 && matches!(after.outcome.number, 0 | 1) {
            let told = second::plain::plain(&case.sheet, &mut vec![0; needs.bytes]);
            assert_eq!(told.number, after.outcome.number, "{case:?}");
        }
        if let Ok(question) = read(&case.sheet) {
            let script = script(&case.sheet).unwrap();
            assert_eq!(says(script.as_bytes(), &question), Ok(()), "{script}");
        }
    }
    for number in [0, 1, 11, 12, 15, 17, 44] {
        assert!(seen[number] > 50, "{number}: {seen:?}");
    }
}

// ---------------------------------------------------------- the first edition

/// A sheet without `ED` has no byte of the second edition, and a rule neither.
#[test]
fn without_the_record_nothing_is_new() {
    assert_eq!(read(b"LE\x01\xc0RI\x00").err(), Some(Fault { number: 17, place: 3 }));
    assert_eq!(read(b"LE\x01\x2bRI\x00").err(), Some(Fault { number: 17, place: 3 }));
    let range = b"PA\x00\x03\xc1\x00\x7fLE\x00RI\x00";
    assert_eq!(read(range).err(), Some(Fault { number: 15, place: 4 }));
    assert_eq!(read(b"LE\x01\x40RI\x01\x0a").unwrap().edition, FIRST);
    assert_eq!(read(b"ED\x02LE\x01\x40RI\x01\x0a").unwrap().edition, SECOND);
}

/// "a rule never has `ED` (12, place 2)"
#[test]
fn a_rule_has_no_edition() {
    let added = |rule: &[u8]| {
        let told = add(&mut [0; 64], rule, &mut [0; 65_520], HASHING);
        (told.number, told.place)
    };
    assert_eq!(added(b"RUED\x02LE\x01A"), (12, 2));
    assert_eq!(added(b"RUED\x03LE\x01A"), (12, 2));
    assert_eq!(added(b"RUED"), (12, 2));
    assert_eq!(added(b"RUE"), (11, 3));
    assert_eq!(added(b"ED\x02RULE\x01\x05"), (12, 0));
    assert_eq!(added(b"RUPA\x00\x01\x05ED\x02LE\x01\x40"), (12, 7));
    assert_eq!(added(b"RULE\x01\xc0"), (17, 5));
    assert_eq!(added(b"RULE\x01\x40"), (0, 0));
    let fault = Fault { number: 12, place: 2 };
    assert_eq!(spell_open::rule(b"RUED\x02LE\x01\xc0"), Err(fault));
    // The operations that are stored: what has the record is refused with 12, a
    // catalogue that has one with 34.
    let mut calls = Calls::new(HASHING);
    let lines: Vec<String> = editions::calls()
        .iter()
        .filter_map(|operation| calls.run(operation))
        .map(|after| after.numbers())
        .collect();
    assert!(lines.iter().filter(|line| line.contains("add 12 0 2")).count() > 3, "{lines:#?}");
    for line in ["add 34 0 0 0 0", "withdraw 34", "recheck 34 0 0", "carry 34"] {
        assert!(lines.iter().any(|of| of == line), "{line} {lines:#?}");
    }
    assert!(storeroom::stream().windows(2).all(|bytes| bytes != b"ED"));
}

// ------------------------------------------------------------ what else reads

/// "K5's carry-over behind `ED` writes 196 193 0 127"
#[test]
fn carried_over() {
    let carried = |old: &str, new: &str| {
        let (old, new) = (hex(old), hex(new));
        assert_eq!(spell_open::sheet(&old), Ok(new.clone()));
        assert_eq!(spell_open::sheet(&new), Ok(new.clone()));
        for length in 0..new.len() + 2 {
            let mut output = vec![7; length];
            let told = spell_open::sheet_into(&old, &mut output);
            let fits = length >= new.len();
            assert_eq!(told.number, if fits { 0 } else { 41 });
            assert_eq!(output.starts_with(&new), fits);
        }
    };
    carried(
        "45 44 02 4C 45 01 C0 52 49 01 41",
        "45 44 02 50 41 00 04 C4 C1 00 7F 4C 45 01 C0 52 49 01 41",
    );
    // fields 0 and 3 stand without a pattern, field 1 has one; 64 is a character
    carried(
        "45 44 02 50 41 01 01 40 4C 45 03 C0 C1 40 52 49 01 C3",
        "45 44 02 50 41 00 04 C4 C1 00 7F 50 41 01 01 40 50 41 03 04 C4 C1 00 7F \
         4C 45 03 C0 C1 40 52 49 01 C3",
    );
    carried("45 44 02 4C 45 01 40 52 49 01 41", "45 44 02 4C 45 01 40 52 49 01 41");
}

/// Put together once more: the record in front, each pattern that was there, and
/// one for each field that stands without.
#[test]
fn carried_over_by_chance() {
    let mut dice = Dice::of(51, SECOND);
    let (mut sheets, mut added) = (0, 0);
    for _ in 0..6_000 {
        let old = spelt::case(&mut dice).sheet;
        let Some(records) = old.strip_prefix(b"ED\x02") else { continue };
        let Ok(new) = spell_open::sheet(&old) else { continue };
        let (mut patterns, mut rest) = (BTreeMap::new(), records);
        while let [b'P', b'A', field, length, behind @ ..] = rest {
            let (body, behind) = behind.split_at(usize::from(*length));
            patterns.insert(*field, body);
            rest = behind;
        }
        let left = usize::from(rest[2]);
        let tokens = rest[3..3 + left].iter().chain(&rest[6 + left..]);
        for field in tokens.filter_map(|token| token.checked_sub(192)) {
            added += usize::from(!patterns.contains_key(&field));
            patterns.entry(field).or_insert(&[196, 193, 0, 127]);
        }
        let mut expected = b"ED\x02".to_vec();
        for (field, body) in patterns {
            expected.extend([b'P', b'A', field, body.len() as u8]);
            expected.extend_from_slice(body);
        }
        expected.extend_from_slice(rest);
        assert_eq!(new, expected);
        sheets += 1;
    }
    assert!(sheets > 1_000 && added > 1_000, "{sheets} {added}");
}

/// "44 at place 2 for any other than 2", first of all.
#[test]
fn written() {
    let write = |edition: u64, lengths: &[u64], patterns: &[u8], left: &[u8], output: &mut [u8]| {
        let told = writer::write(edition, patterns, lengths, left, &[65], output);
        (told.number, told.count, told.place, told.written)
    };
    let mut output = [9; 20];
    assert_eq!(write(2, &[1], &[64], &[192], &mut output), (0, 0, 0, 16));
    assert_eq!(output[..16], hex("45 44 02 50 41 00 01 40 4C 45 01 C0 52 49 01 41"));
    assert_eq!(output[16..], [9; 4]);
    assert_eq!(write(2, &[1], &[64], &[192], &mut [9; 16]), (0, 0, 0, 16));
    assert_eq!(write(2, &[1], &[64], &[192], &mut [9; 15]), (41, 0, 0, 0));
    assert_eq!(write(0, &[1], &[64], &[64], &mut [9; 13]), (0, 0, 0, 13));
    // the places have the record before them
    assert_eq!(write(2, &[1], &[200], &[192], &mut []), (15, 0, 7, 0));
    assert_eq!(write(2, &[], &[], &[1, 200], &mut []), (17, 0, 7, 0));
    assert_eq!(write(2, &[193], &[], &[], &mut []), (14, 0, 6, 0));
    assert_eq!(write(2, &[0, 0, 0, 0, 0, 0, 0, 0, 1], &[5], &[], &mut []), (13, 0, 5, 0));
    assert_eq!(write(2, &[3], &[5], &[], &mut []), (11, 0, 8, 0));
    for edition in [1, 3, 255, 256, 258, 1 << 32, (1 << 32) + 2, u64::MAX] {
        assert_eq!(write(edition, &[1], &[64], &[192], &mut output), (44, 0, 2, 0));
        assert_eq!(write(edition, &[193; 12], &[], &[255; 99], &mut []), (44, 0, 2, 0));
    }
    assert_eq!(writer::ALWAYS_ENOUGH, 1_625);
    // The longest ones have strays; those of `strays::written` have none.
    for cases in [editions::written(), strays::written(SECOND)] {
        assert!(cases.iter().any(|case| case.run().0.number == 22 && case.output == 1_625));
        assert!(cases.iter().any(|case| case.edition == 2 && case.output == 1_624));
    }
    assert!(strays::written(SECOND).iter().any(|case| case.run().0.written == 1_625));
}

/// "47 for .. a value that is no character"
#[test]
fn ways() {
    let sheet = hex("45 44 02 4C 45 01 C0 52 49 01 C1");
    let told = |value: u8| {
        let steps = [b"ST\x02", &[value][..], b"ST\x00ST\x00ST\x01ST\x01"].concat();
        let played = Handed { case: in_room(&sheet, 0, 12), bytes: steps };
        played.run(play).0.number
    };
    for value in 0..=255 {
        assert_eq!(told(value), if value < 128 { 0 } else { 47 }, "{value}");
    }
    let first = hex("4C 45 01 40 52 49 01 41");
    for value in 0..=255 {
        let steps = [b"ST\x02", &[value][..]].concat();
        let number = play(&first, &steps, &mut [0; 20]).number;
        assert_eq!(number, if value < 43 { 49 } else { 47 }, "{value}");
    }
}

/// The engine takes every character of the edition, and its standings are those of
/// the first one.
#[test]
fn plain_sheets() {
    let asked = |sheet: &str, bits: usize| {
        let case = Case { work: bits as u32, answer: 0, sheet: hex(sheet) };
        case.plain_line()
    };
    let x_and_del = "45 44 02 4C 45 01 C0 52 49 01 7F";
    assert_eq!(asked(x_and_del, 3), "0 0 0, work all zero, needs 0 0 3");
    assert_eq!(asked(x_and_del, 2), "43 0 0, work all zero, needs 0 0 3");
    let and_38 = "45 44 02 4C 45 03 4C 54 34 52 49 04 4C 54 34 26";
    assert_eq!(asked(and_38, 6), "1 0 0, work all zero, needs 0 0 6");
    let and_32 = "45 44 02 4C 45 03 4C 54 34 52 49 04 4C 54 34 20";
    assert_eq!(asked(and_32, 6), "0 0 0, work all zero, needs 0 0 6");
    let twice = "45 44 02 4C 45 01 C0 52 49 01 C0";
    assert_eq!(asked(twice, 6), "42 0 0, work all zero, needs 42 0 0");
    let wrong = "45 44 01 4C 45 00 52 49 00";
    assert_eq!(asked(wrong, 6), "44 0 2, work unchanged, needs 44 2 0");
}

// ----------------------------------------------------------------- scripts

fn assertions(sheet: &str) -> Vec<String> {
    let script = script(&hex(sheet)).unwrap();
    let question = read(&hex(sheet)).unwrap();
    assert_eq!(says(script.as_bytes(), &question), Ok(()));
    let lines = script.lines().filter(|line| line.starts_with("(assert"));
    lines.map(|line| line["(assert ".len()..line.len() - 1].to_string()).collect()
}

const SPACES: [&str; 2] =
    ["(str.in_re f8 (re.* (str.to_re \" \")))", "(str.in_re f9 (re.* (str.to_re \" \")))"];

#[test]
fn scripts_of_the_second_edition() {
    // x and `a`
    let any = r#"(re.range "\u{0}" "\u{7f}")"#;
    assert_eq!(
        assertions("45 44 02 4C 45 01 C0 52 49 01 61"),
        [
            &format!("(str.in_re f0 (re.++ {any} (re.* {any})))"),
            SPACES[0],
            SPACES[1],
            r#"(= (str.++ f0 f8) (str.++ "a" f9))"#,
        ]
    );
    // a quotation mark, and the backslash, `u` and `{41}` side by side
    assert_eq!(
        assertions("45 44 02 4C 45 02 22 22 52 49 06 5C 75 7B 34 31 7D"),
        [SPACES[0], SPACES[1], r#"(= (str.++ """""" f8) (str.++ "\u{5c}u{41}" f9))"#]
    );
    // what is no printable ASCII: 0, 31, 127; what is: the space and `~`
    assert_eq!(
        assertions("45 44 02 4C 45 05 00 1F 20 7E 7F 52 49 00"),
        [SPACES[0], SPACES[1], r#"(= (str.++ "\u{0}\u{1f} ~\u{7f}" f8) f9)"#]
    );
    // ranges: from a quotation mark to a backslash, of one character, and single
    // characters beside them
    let body = "C3 C1 22 5C C2 C1 22 22 C4 C3 5C C0";
    assert_eq!(
        assertions(&format!("45 44 02 50 41 00 0C {body} 4C 45 01 C0 52 49 00"))[0],
        concat!(
            r#"(str.in_re f0 (re.union (re.range """" "\u{5c}") "#,
            r#"(re.++ (str.to_re """") (re.* (re.union (str.to_re "\u{5c}") (str.to_re ""))))))"#,
        )
    );
}

/// The script of RULES, section 13, byte for byte, and the same of the other
/// editions' bytes.
#[test]
fn scripts_of_the_first_edition() {
    let sheet = hex("50 41 00 02 44 04 4C 45 02 1D 40 52 49 02 40 04");
    let expected = "\
; Do two label rules clash? sat: they do. unsat: they don't.
; Fields 8 and 9 are the spaces at the end of the left and the right label.
(set-logic QF_S)
; field 0
(declare-const f0 String)
(assert (str.in_re f0 (re.* (str.to_re \"4\"))))
; field 8
(declare-const f8 String)
(assert (str.in_re f8 (re.* (str.to_re \" \"))))
; field 9
(declare-const f9 String)
(assert (str.in_re f9 (re.* (str.to_re \" \"))))
(assert (= (str.++ \"T\" f0 f8) (str.++ f0 \"4\" f9)))
(check-sat)
";
    assert_eq!(script(&sheet).unwrap(), expected);
    let second = hex("45 44 02 50 41 00 02 C4 34 4C 45 02 54 C0 52 49 02 C0 34");
    assert_eq!(script(&second).unwrap(), expected);
    // A range is a choice of single characters there.
    let range = hex("50 41 00 03 41 22 26 4C 45 01 40 52 49 00");
    let choice = "(re.union (str.to_re \"Y\") (str.to_re \"Z\") (str.to_re \"-\") \
                  (str.to_re \".\") (str.to_re \" \"))";
    assert!(script(&range).unwrap().contains(choice));
    let open = script(&hex("4C 45 01 40 52 49 00")).unwrap();
    assert!(!open.contains("re.range"));
    assert_eq!(open.matches("(str.to_re").count(), 2 * 43 + 2);
    // The longest sign stands plainly: none of the 43 is escaped.
    assert!(CODE_39.iter().all(|&sign| (32..127).contains(&sign) && !b"\"\\".contains(&sign)));
}

// ------------------------------------------------------------- the same texts

/// A sheet of the first edition and the same signs in the second one have the same
/// texts: where both are answered, the answers are the same, sign by sign.
#[test]
fn the_same_signs_in_both_editions() {
    let said = |edition: Edition, signs: &str, field: u8| -> Vec<u8> {
        let token = |sign: u8| match sign {
            b'x' => edition.field(field),
            sign => edition.of_ascii(sign).unwrap(),
        };
        signs.bytes().map(token).collect()
    };
    let sides = ["x", "xA", "Ax", "xx", "A", "AB", "B x", "x ", " x", "", "A ", "x-x", "xBA"];
    for left in sides {
        for right in sides {
            let sheets = [FIRST, SECOND].map(|edition| {
                let (left, right) = (said(edition, left, 0), said(edition, right, 1));
                let lengths = [left.len() as u8, right.len() as u8];
                let parts: [&[u8]; 7] =
                    [edition.record, b"LE", &lengths[..1], &left, b"RI", &lengths[1..], &right];
                parts.concat()
            });
            let [first, second] = sheets.map(|sheet| in_room(&sheet, 2_000, 100));
            let [one, other] = [&first, &second].map(|case| case.run(second::answer).outcome);
            assert!(one.number == other.number || one.number.max(other.number) >= 18);
        }
    }
}
