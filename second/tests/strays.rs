//! Stray patterns, those of fields that stand in neither side: refused with 22 behind
//! all other checks, and dropped. What was said of a sheet by the old rule is said by
//! the new one of the sheet without them.

#[allow(dead_code)]
mod table;

use std::collections::{BTreeMap, BTreeSet};
use std::io::Write;
use std::process::{Command, Stdio};

use second::calls::{After, Call, Calls, Operation};
use second::cases::Case;
use second::catalogue::{self, recheck_by, recheck_decided_by, Added, Rule};
use second::catalogue::{add_by, add_decided, once, recheck, recheck_decided, withdraw};
use second::catalogue::{HASHING, SCANNING};
use second::decide::{self, decide_by};
use second::edition::{Edition, FIRST, SECOND};
use second::fault::Fault;
use second::make::calls::{operations, strays_operations, strays_stream};
use second::make::{self, decided, kept, plainly, spelt, strays, ways, written, Dice};
use second::plain::{plain, plain_by, plain_bytes, plain_bytes_by};
use second::sheet::{read, Reading};
use second::smt::compare::says;
use second::smt::write::script;
use second::spell_open::{self, Spelt};
use second::steps::{self, play_by, steps_by};
use second::{answer, answer_by, drop_strays, scan, storeroom, writer, Outcome};

const FILL: u8 = 165;
const EDITIONS: [Edition; 2] = [FIRST, SECOND];

fn hex(bytes: &str) -> Vec<u8> {
    bytes.split(' ').map(|byte| u8::from_str_radix(byte, 16).unwrap()).collect()
}

fn pattern(field: u8, body: &[u8]) -> Vec<u8> {
    [b"PA", &[field, body.len() as u8][..], body].concat()
}

fn sheet(patterns: &[Vec<u8>], left: &[u8], right: &[u8]) -> Vec<u8> {
    let sides = [b"LE", &[left.len() as u8][..], left, b"RI", &[right.len() as u8], right];
    [patterns.concat(), sides.concat()].concat()
}

fn rule(patterns: &[Vec<u8>], side: &[u8]) -> Vec<u8> {
    [&b"RU"[..], &patterns.concat(), b"LE", &[side.len() as u8], side].concat()
}

/// All that reads a sheet refuses it so, and leaves every buffer as it was.
fn refused(sheet: &[u8], number: u8, place: usize) {
    let fault = Fault { number, place };
    let outcome = Outcome { number, count: 0, place, written: 0 };
    assert_eq!(read(sheet).err(), Some(fault), "{sheet:?}");
    let (mut work, mut output, mut row) = ([FILL; 600], [FILL; 90], [FILL; 60]);
    for answer in [answer, scan::answer] {
        assert_eq!(answer(sheet, &mut work, &mut output), outcome);
    }
    for by in [decide::HASHING, decide::SCANNING] {
        let decided = decide::decide(sheet, &mut work, &mut output, by);
        assert_eq!((decided.outcome, decided.search), (outcome, 0));
    }
    for steps in [steps::steps, scan::steps] {
        let told = steps(sheet, &mut work, &mut output, &mut row);
        assert_eq!((told.outcome, told.bytes), (outcome, 0));
    }
    assert_eq!(steps::play(sheet, b"ST\x00", &mut output), outcome);
    let told = plain(sheet, &mut work);
    assert_eq!((told.number, told.count, told.place), (number, 0, place));
    let needs = plain_bytes(sheet);
    assert_eq!((needs.number, needs.place, needs.bytes), (number, place, 0));
    assert_eq!(script(sheet).err(), Some(fault));
    assert_eq!(spell_open::sheet(sheet), Err(fault));
    for length in [0, 90] {
        let told = spell_open::sheet_into(sheet, &mut output[..length]);
        assert_eq!(told, Spelt { number, place, written: 0 });
    }
    let unchanged = |bytes: &[u8]| bytes.iter().all(|&byte| byte == FILL);
    assert!(unchanged(&work) && unchanged(&output) && unchanged(&row));
}

/// 22 at this place, and the sheet without its strays.
fn strays_at(sheet: &[u8], place: usize, dropped: &[u8]) {
    refused(sheet, 22, place);
    assert!(Reading::Old.sheet(sheet).is_ok());
    drops(sheet, dropped);
}

/// The sheet without its strays, in every length of buffer.
fn drops(sheet: &[u8], dropped: &[u8]) {
    assert!(read(dropped).is_ok());
    for length in 0..dropped.len() + 3 {
        let mut output = vec![FILL; length];
        let told = drop_strays::sheet_into(sheet, &mut output);
        let (number, written) = if length < dropped.len() { (41, 0) } else { (0, dropped.len()) };
        assert_eq!(told, Spelt { number, place: 0, written }, "{sheet:?}");
        assert_eq!(output[..written], dropped[..written]);
        assert!(output[written..].iter().all(|&byte| byte == FILL));
    }
    assert_eq!(drop_strays::sheet(dropped).as_deref(), Ok(dropped));
}

// -------------------------------------------------------------- sheets by hand

#[test]
fn known_sheets() {
    // field 0 is `A`, and no field stands
    strays_at(&hex("50 41 00 01 0A 4C 45 00 52 49 00"), 0, &hex("4C 45 00 52 49 00"));
    // and of sheet S with field 7, which is empty
    let s = "50 41 00 04 44 41 00 09 50 41 01 01 04";
    let sides = "4C 45 01 40 52 49 01 41";
    let with_7 = hex(&format!("{s} 50 41 07 01 40 {sides}"));
    strays_at(&with_7, 13, &hex(&format!("{s} {sides}")));
    // behind `ED` the places count it
    let of = |pattern: &str| hex(&format!("45 44 02 {pattern}4C 45 01 C3 52 49 01 43"));
    strays_at(&of("50 41 00 01 41 50 41 03 01 C0 "), 3, &of("50 41 03 01 C0 "));
    strays_at(&of("50 41 03 01 C0 50 41 04 01 41 "), 8, &of("50 41 03 01 C0 "));
}

#[test]
fn before_between_and_behind() {
    let of = |fields: &[u8]| {
        let patterns: Vec<Vec<u8>> = fields.iter().map(|&of| pattern(of, &[of])).collect();
        sheet(&patterns, &[66], &[69])
    };
    let kept = of(&[2, 5]);
    drops(&kept, &kept);
    strays_at(&of(&[0, 2, 5]), 0, &kept);
    strays_at(&of(&[2, 3, 5]), 5, &kept);
    strays_at(&of(&[2, 4, 5]), 5, &kept);
    strays_at(&of(&[2, 5, 7]), 10, &kept);
    // the first of several
    strays_at(&of(&[0, 1, 2, 3, 4, 5, 6, 7]), 0, &kept);
    strays_at(&of(&[2, 4, 5, 6]), 5, &kept);
    strays_at(&of(&[2, 5, 6, 7]), 10, &kept);
    // those that stand have no pattern
    strays_at(&of(&[3]), 0, &of(&[]));
    strays_at(&of(&[5, 6]), 5, &of(&[5]));
}

/// A field stands wherever its token does, once or often, and nowhere else.
#[test]
fn which_fields_stand() {
    for field in 0..8 {
        let own = [pattern(field, &[4])];
        for (left, right) in [(&[64 + field][..], &[][..]), (&[], &[10, 64 + field])] {
            let sheet = sheet(&own, left, right);
            drops(&sheet, &sheet);
        }
        // A character with its number is no field, and another field neither.
        let other = 64 + (field + 1) % 8;
        strays_at(&sheet(&own, &[field], &[other]), 0, &sheet(&[], &[field], &[other]));
        // Behind `ED` its token of the first edition is a character.
        let second = |patterns: &[Vec<u8>], left: &[u8]| {
            [b"ED\x02", &sheet(patterns, left, &[64 + field])[..]].concat()
        };
        strays_at(&second(&own, &[field]), 3, &second(&[], &[field]));
        let stands = second(&own, &[192 + field]);
        drops(&stands, &stands);
    }
    // The hidden fields hold spaces, whatever the fields are.
    strays_at(&sheet(&[pattern(0, &[38])], &[38], &[]), 0, &sheet(&[], &[38], &[]));
}

/// Long records before it: the place has two bytes.
#[test]
fn a_late_stray() {
    let full = [vec![68; 191], vec![7]].concat();
    let patterns: Vec<Vec<u8>> = (0..8).map(|field| pattern(field, &full)).collect();
    let left: Vec<u8> = (64..71).collect();
    strays_at(&sheet(&patterns, &left, &[]), 1_372, &sheet(&patterns[..7], &left, &[]));
    let left: Vec<u8> = (65..72).collect();
    strays_at(&sheet(&patterns, &left, &[]), 0, &sheet(&patterns[1..], &left, &[]));
}

/// "after all other checks on the sheet"
#[test]
fn every_other_fault_comes_first() {
    let stray = pattern(0, &[4]);
    let at_fault = |sheet: &[u8], number: u8, place: usize| {
        refused(sheet, number, place);
        assert_eq!(drop_strays::sheet(sheet), Err(Fault { number, place }));
    };
    let good = sheet(&[stray.clone(), pattern(1, &[4])], &[65], &[]);
    strays_at(&good, 0, &sheet(&[pattern(1, &[4])], &[65], &[]));
    // cut short behind each byte
    for length in 0..good.len() {
        at_fault(&good[..length], 11, length);
    }
    // bytes behind `RI`, a stray among them
    at_fault(&[&good[..], &[0]].concat(), 12, good.len());
    at_fault(&[&good[..], &stray].concat(), 12, good.len());
    // another mark in place of each
    for (place, mark) in [(5, b"LA"), (5, b"RI"), (10, b"RI"), (14, b"LE"), (14, b"PA")] {
        let mut other = good.clone();
        other[place..place + 2].copy_from_slice(mark);
        at_fault(&other, 12, place);
    }
    // field, length, pattern, leaves and token behind it
    at_fault(&sheet(&[stray.clone(), pattern(0, &[4])], &[], &[]), 13, 7);
    at_fault(&sheet(&[stray.clone(), pattern(8, &[4])], &[], &[]), 13, 7);
    at_fault(&sheet(&[stray.clone(), pattern(1, &[])], &[], &[]), 14, 8);
    at_fault(&sheet(std::slice::from_ref(&stray), &[], &[1; 25]), 14, 10);
    at_fault(&sheet(&[stray.clone(), pattern(1, &[66, 4])], &[], &[]), 15, 11);
    let leaves = [vec![66; 63], vec![4; 64]].concat();
    at_fault(&sheet(&[stray.clone(), pattern(1, &leaves)], &[], &[]), 16, 9 + 126);
    at_fault(&sheet(std::slice::from_ref(&stray), &[43], &[72]), 17, 8);
    at_fault(&sheet(std::slice::from_ref(&stray), &[], &[4, 72]), 17, 12);
    // its own pattern is judged
    at_fault(&sheet(&[pattern(0, &[4, 4])], &[], &[]), 15, 5);
    at_fault(&sheet(&[pattern(0, &leaves)], &[], &[]), 16, 4 + 126);
    // another edition
    at_fault(&[b"ED\x03", &good[..]].concat(), 44, 2);
    at_fault(&[b"ED\x02ED\x02", &good[..]].concat(), 12, 3);
    at_fault(&[&good[..5], b"ED\x02", &good[5..]].concat(), 12, 5);
}

// --------------------------------------------------------------- rules by hand

/// What adding says of a rule, carrying it over and reading it; and of a catalogue
/// that holds it.
fn rule_refused(rule: &[u8], number: u8, place: usize) {
    let fault = Fault { number, place };
    assert_eq!(Rule::read_own(rule).err(), Some(fault), "{rule:?}");
    assert_eq!(spell_open::rule(rule), Err(fault));
    for search in [HASHING, SCANNING] {
        let (mut catalogue, mut work) = (vec![0; 3], vec![FILL; 400]);
        // A buffer that is too short is told later.
        let told = catalogue::add(&mut catalogue, rule, &mut work, search);
        assert_eq!(told, Added { number, place, ..Added::default() });
        let told = add_decided(&mut catalogue, rule, &mut work, search);
        assert_eq!((told.added.number, told.added.place, told.search), (number, place, 0));
        assert!(catalogue == [0; 3] && work.iter().all(|&byte| byte == FILL));
    }
    holds_no_catalogue(rule);
}

/// 34, and nothing changes.
fn holds_no_catalogue(bytes: &[u8]) {
    let before = [bytes, &[0; 9]].concat();
    let mut catalogue = before.clone();
    let (mut work, mut list) = ([FILL; 400], [FILL; 40]);
    let good = rule(&[], &[4]);
    assert_eq!(catalogue::add(&mut catalogue, &good, &mut work, HASHING).number, 34);
    assert_eq!(add_decided(&mut catalogue, &good, &mut work, HASHING).added.number, 34);
    assert_eq!(recheck(&catalogue, &mut work, &mut list, HASHING).number, 34);
    assert_eq!(recheck_decided(&catalogue, &mut work, &mut list, HASHING).number, 34);
    assert_eq!(withdraw(&mut catalogue, 0), 34);
    assert_eq!(withdraw(&mut catalogue, 40), 34);
    assert_eq!(spell_open::catalogue(&mut catalogue), 34);
    assert_eq!(catalogue, before);
    assert!(work == [FILL; 400] && list == [FILL; 40]);
}

#[test]
fn rules() {
    let own = |field: u8| pattern(field, &[4]);
    let kept = rule(&[own(1)], &[65]);
    for (fields, place) in [(&[0, 1][..], 2), (&[1, 2], 7), (&[1, 3], 7), (&[0, 1, 2, 3], 2)] {
        let strays = rule(&fields.iter().map(|&field| own(field)).collect::<Vec<_>>(), &[65]);
        rule_refused(&strays, 22, place);
        assert!(Rule::read_own_by(Reading::Old, &strays).is_ok());
        assert_eq!(drop_strays::rule(&strays).as_deref(), Ok(&kept[..]));
    }
    assert_eq!(drop_strays::rule(&kept).as_deref(), Ok(&kept[..]));
    assert_eq!(drop_strays::rule(&rule(&[own(2)], &[])), Ok(rule(&[], &[])));
    // "between 17 and 31": bytes behind `LE` come before it
    let stray = rule(&[own(0)], &[65]);
    rule_refused(&[&stray[..], &[0]].concat(), 12, stray.len());
    rule_refused(&stray[..stray.len() - 1], 11, stray.len() - 1);
    rule_refused(&rule(&[own(0)], &[65, 43]), 17, 11);
    rule_refused(&rule(&[own(0), own(0)], &[65]), 13, 9);
    rule_refused(&rule(&[own(0), pattern(1, &[4, 4])], &[65]), 15, 12);
    // and 31 behind it
    rule_refused(&rule(&[own(0)], &[69]), 22, 2);
    rule_refused(&rule(&[own(0), own(5)], &[69]), 22, 2);
    rule_refused(&rule(&[own(5)], &[69]), 31, 0);
    rule_refused(&rule(&[own(5)], &[4]), 22, 2);
    rule_refused(&rule(&[own(5), own(6)], &[69]), 22, 7);
}

/// "then 31 in a rule (a stray pattern's field above 3 too, as before), then 41"
#[test]
fn dropping_from_a_refused_rule() {
    let own = |field: u8| pattern(field, &[4]);
    let refuses = |rule: &[u8], number: u8, place: usize| {
        for length in [0, 100] {
            let mut output = vec![FILL; length];
            let told = drop_strays::rule_into(rule, &mut output);
            assert_eq!(told, Spelt { number, place, written: 0 }, "{rule:?}");
            assert!(output.iter().all(|&byte| byte == FILL));
        }
    };
    refuses(&rule(&[own(5)], &[4]), 31, 0);
    refuses(&rule(&[own(0), own(5)], &[4]), 31, 0);
    refuses(&rule(&[own(5)], &[69]), 31, 0);
    refuses(&rule(&[own(0)], &[69]), 31, 0);
    let stray = rule(&[own(0)], &[65]);
    refuses(&[&stray[..], b"R"].concat(), 12, stray.len());
    refuses(&rule(&[own(0), own(5)], &[72]), 17, 15);
    refuses(&stray[1..], 12, 0);
    // A sheet is no rule, and a rule no sheet.
    refuses(&sheet(&[own(0)], &[], &[]), 12, 0);
    assert_eq!(drop_strays::sheet(&stray), Err(Fault { number: 12, place: 0 }));
    for (length, number, written) in [(5, 41, 0), (6, 0, 6), (7, 0, 6)] {
        let told = drop_strays::rule_into(&stray, &mut vec![FILL; length]);
        assert_eq!(told, Spelt { number, place: 0, written });
    }
}

// ---------------------------------------------------------- catalogues by hand

#[test]
fn catalogues() {
    let own = |field: u8| pattern(field, &[4]);
    let rules = [
        rule(&[own(0)], &[10]),
        rule(&[own(1)], &[11, 65]),
        rule(&[own(0), own(2), own(3)], &[12, 66]),
        rule(&[], &[13]),
    ];
    let dropped = rules.each_ref().map(|rule| drop_strays::rule(rule).unwrap()).concat();
    let front = rules.concat();
    assert_eq!(front.len() - dropped.len(), 15);
    for zeros in [0, 1, 40] {
        let before = [&front[..], &vec![0; zeros]].concat();
        holds_no_catalogue(&before);
        let mut after = before.clone();
        assert_eq!(drop_strays::catalogue(&mut after), 0);
        assert_eq!(after, [&dropped[..], &vec![0; zeros + 15]].concat());
        assert_eq!(catalogue::read(&after).unwrap().len(), rules.len());
        // Again, there is nothing to drop.
        let mut again = after.clone();
        assert_eq!((drop_strays::catalogue(&mut again), again), (0, after));
    }
    for empty in [vec![], vec![0; 9]] {
        let mut after = empty.clone();
        assert_eq!((drop_strays::catalogue(&mut after), after), (0, empty));
    }
    // No catalogue by the old rule: nothing changes.
    let above_3 = rule(&[own(5)], &[4]);
    for behind in [&b"\0\0R"[..], b"RU", b"\x01", b"RULE\x01", &above_3] {
        let before = [&front[..], behind].concat();
        let mut after = before.clone();
        assert_eq!((drop_strays::catalogue(&mut after), after), (34, before));
    }
    // 32 rules, and one too many.
    for (number, told) in [(32, 0), (33, 34)] {
        let rules: Vec<Vec<u8>> = (0..number).map(|of| rule(&[own(0)], &[of])).collect();
        let before = rules.concat();
        let mut after = before.clone();
        assert_eq!(drop_strays::catalogue(&mut after), told);
        let zeros = if told == 0 { 5 * rules.len() } else { 0 };
        assert!(after[after.len() - zeros..].iter().all(|&byte| byte == 0));
        assert_eq!(told == 34, after == before);
    }
}

/// The operation `DS` and its line.
#[test]
fn the_operation() {
    assert_eq!(Operation::read(b"DS"), Some((Operation::Drop, &b""[..])));
    assert_eq!(Operation::read(b"DSWI\x00"), Some((Operation::Drop, &b"WI\x00"[..])));
    for other in [&b"D"[..], b"dS", b"SD", b"DT"] {
        assert_eq!(Operation::read(other), None);
    }
    let mut stream = Vec::new();
    Operation::Drop.write(&mut stream);
    assert_eq!(stream, b"DS");
    let mut calls = Calls::new(HASHING);
    let front = rule(&[pattern(0, &[4])], &[10]);
    calls.run(&Operation::Catalogue { length: 14, front: front.clone() });
    let mut line = |operation: &Operation| calls.run(operation).unwrap().line();
    let held = "52 55 50 41 00 01 04 4c 45 01 0a, zeros 3";
    assert_eq!(line(&Operation::Withdraw(0)), format!("withdraw 34, catalogue {held}"));
    assert_eq!(line(&Operation::Drop), "drop 0, catalogue 52 55 4c 45 01 0a, zeros 8");
    assert_eq!(line(&Operation::Withdraw(0)), "withdraw 0, catalogue, zeros 14");
    assert_eq!(line(&Operation::Drop), "drop 0, catalogue, zeros 14");
    calls.run(&Operation::Catalogue { length: 2, front: b"R".to_vec() });
    let after = calls.run(&Operation::Drop).unwrap();
    assert_eq!(after.line(), "drop 34, catalogue 52, zeros 1");
    assert_eq!(after.numbers(), "drop 34");
}

/// The lines of a part `DS`, and the program for one sheet or rule.
#[test]
fn the_lines() {
    let of = |answer: u32, sheet: &[u8]| Case { work: 0, answer, sheet: sheet.to_vec() }.dropped();
    let stray = sheet(&[pattern(0, &[4])], &[10], &[]);
    assert_eq!(of(9, &stray), "0 0 7, written 4c 45 01 0a 52 49 00, rest unchanged");
    assert_eq!(of(6, &stray), "41 0 0, written, rest unchanged");
    assert_eq!(of(9, &stray[1..]), "12 0 0, written, rest unchanged");
    let stray = rule(&[pattern(3, &[4])], &[10]);
    assert_eq!(of(6, &stray), "0 0 6, written 52 55 4c 45 01 0a, rest unchanged");
    assert_eq!(of(6, &rule(&[pattern(4, &[4])], &[])), "31 0 0, written, rest unchanged");
    let run = |word: &str, input: &[u8]| {
        let mut program = Command::new(env!("CARGO_BIN_EXE_second"))
            .arg(word)
            .stdin(Stdio::piped())
            .stdout(Stdio::piped())
            .stderr(Stdio::piped())
            .spawn()
            .unwrap();
        program.stdin.take().unwrap().write_all(input).unwrap();
        let output = program.wait_with_output().unwrap();
        (output.stdout, String::from_utf8(output.stderr).unwrap())
    };
    assert_eq!(run("--drop-strays-rule", &stray), (b"RULE\x01\x0a".to_vec(), String::new()));
    assert_eq!(run("--drop-strays", &stray), (vec![], "12 0\n".to_string()));
    let mut stream = Vec::new();
    Case { work: 7, answer: 6, sheet: stray }.write(&mut stream);
    let line = b"0 0 6, written 52 55 4c 45 01 0a, rest unchanged\n";
    assert_eq!(run("--drop", &stream).0, line);
}

// ------------------------------------------------------------- many, by counting

/// The bytes without the records of patterns whose field stands nowhere, cut out of
/// a sheet or a rule without another fault.
fn cut(bytes: &[u8]) -> Vec<u8> {
    let (front, codes) = match bytes {
        [b'E', b'D', ..] => (3, 192),
        [b'R', b'U', ..] => (2, 64),
        _ => (0, 64),
    };
    let mut sides = front;
    while bytes[sides] == b'P' {
        sides += 4 + usize::from(bytes[sides + 3]);
    }
    let left = &bytes[sides + 3..][..usize::from(bytes[sides + 2])];
    let right = bytes[sides + 3 + left.len()..].get(3..).unwrap_or(&[]);
    let mut kept = bytes[..front].to_vec();
    let mut at = front;
    while at < sides {
        let record = &bytes[at..at + 4 + usize::from(bytes[at + 3])];
        let token = codes + record[2];
        if left.contains(&token) || right.contains(&token) {
            kept.extend_from_slice(record);
        }
        at += record.len();
    }
    [&kept, &bytes[sides..]].concat()
}

/// What is met by counting is what is told; and what is dropped is what is cut out.
/// A rule with a field above 3 is 31, which is not met. The number by the new rule.
fn judged(bytes: &[u8]) -> u8 {
    let is_rule = bytes.starts_with(b"RU");
    let met = match is_rule {
        true => table::met(bytes, b"RU", &[b"LE"]),
        false => table::met(bytes, b"", &[b"LE", b"RI"]),
    };
    let met = met.map(|met| Fault { number: met.number, place: met.place });
    let (now, old) = match is_rule {
        true => (Rule::read_own(bytes).err(), Rule::read_own_by(Reading::Old, bytes).err()),
        false => (read(bytes).err(), Reading::Old.sheet(bytes).err()),
    };
    let above_3 = Fault { number: 31, place: 0 };
    let dropped = if is_rule { drop_strays::rule(bytes) } else { drop_strays::sheet(bytes) };
    match met {
        Some(Fault { number: 22, .. }) => {
            assert_eq!(now, met, "{bytes:?}");
            assert!(old.is_none() || is_rule && old == Some(above_3), "{bytes:?}");
        }
        Some(_) => assert_eq!([now, old], [met, met], "{bytes:?}"),
        None => assert!(now == old && now.is_none_or(|fault| is_rule && fault == above_3)),
    }
    match old {
        Some(fault) => assert_eq!(dropped, Err(fault)),
        None => {
            let dropped = dropped.unwrap();
            assert_eq!(dropped, cut(bytes), "{bytes:?}");
            assert_eq!(dropped == bytes, met.is_none());
            // What comes out has none.
            let again = if is_rule { Rule::read_own(&dropped).err() } else { read(&dropped).err() };
            assert_eq!(again, None, "{bytes:?}");
            assert_eq!(cut(&dropped), dropped);
        }
    }
    now.map_or(0, |fault| fault.number)
}

/// What the makers make, one by one and from a seed.
#[test]
fn all_that_is_made_is_judged_as_by_counting() {
    for edition in EDITIONS {
        let one_by_one = [strays::each(edition), strays::each_dropped(edition)];
        let mut dice = Dice::of(1, edition);
        let by_chance = [
            (0..6_000).map(|_| strays::case(&mut dice)).collect(),
            (0..6_000).map(|_| strays::dropped(&mut dice)).collect(),
            (0..4_000).map(|_| make::case(&mut dice)).collect(),
            (0..4_000).map(|_| spelt::case(&mut dice)).collect::<Vec<Case>>(),
        ];
        for (stream, cases) in one_by_one.into_iter().chain(by_chance).enumerate() {
            let mut seen = BTreeMap::new();
            for case in &cases {
                *seen.entry(judged(&case.sheet)).or_insert(0) += 1;
            }
            for number in [0, 11, 12, 13, 14, 15, 16, 17, 22] {
                let times = if number == 0 { 5 } else { 4 };
                assert!(seen.get(&number).is_some_and(|&seen| seen >= times), "{stream}: {seen:?}");
            }
            let has_44 = stream < 2 || edition == SECOND;
            assert_eq!(seen.contains_key(&44), has_44, "{stream}: {seen:?}");
            if stream < 4 {
                assert!(3 * seen[&22] > cases.len(), "{stream}: {seen:?}");
            }
        }
    }
}

/// In which place the first stray stands, how many there are, and which fields they
/// have.
#[test]
fn strays_in_every_place_are_made() {
    for edition in EDITIONS {
        let mut dice = Dice::of(2, edition);
        let (mut places, mut numbers, mut fields) = (BTreeMap::new(), BTreeMap::new(), [0; 8]);
        let (mut in_one_side, mut lengths) = ([0; 2], BTreeSet::new());
        for _ in 0..6_000 {
            let sheet = strays::case(&mut dice).sheet;
            let Ok(old) = second::sheet::Sheet::read(&sheet) else { continue };
            let of_strays = old.patterns.strays(&old.sides());
            let records: Vec<_> = old.patterns.records.iter().flatten().cloned().collect();
            let is_stray: Vec<bool> =
                records.iter().map(|record| of_strays.contains(record)).collect();
            let standing = is_stray.iter().filter(|&&stray| !stray).count();
            *numbers.entry((of_strays.len(), standing.min(2))).or_insert(0) += 1;
            for (at, record) in records.iter().enumerate().filter(|(at, _)| is_stray[*at]) {
                let before = is_stray[..at].contains(&false);
                let behind = is_stray[at..].contains(&false);
                *places.entry((before, behind)).or_insert(0) += 1;
                fields[usize::from(sheet[record.start + 2])] += 1;
                lengths.insert(record.len());
            }
            if of_strays.is_empty() && standing > 0 {
                for (side, token) in [(0, &old.left), (1, &old.right)] {
                    let other = &old.sides()[1 - side];
                    let alone = token.iter().any(|token| !other.contains(token));
                    in_one_side[side] += usize::from(alone);
                }
            }
        }
        assert!(places.len() == 4 && places.values().all(|&times| times > 200), "{places:?}");
        assert!(fields.iter().all(|&times| times > 200), "{fields:?}");
        for strays in 0..4 {
            for standing in 0..3 {
                assert!(numbers.get(&(strays, standing)).is_some_and(|&times| times > 20));
            }
        }
        assert!(numbers.keys().any(|(strays, _)| *strays >= 7), "{numbers:?}");
        assert!(in_one_side.iter().all(|&times| times > 100), "{in_one_side:?}");
        assert!(lengths.contains(&5) && lengths.contains(&196));
    }
}

#[test]
fn the_makers_are_deterministic() {
    let made = |seed: u64, number: usize| -> Vec<Case> {
        let mut dice = Dice::new(seed);
        (0..number).flat_map(|_| [strays::case(&mut dice), strays::dropped(&mut dice)]).collect()
    };
    assert_eq!(made(3, 50), made(3, 200)[..100]);
    assert_ne!(made(3, 5), made(4, 5));
}

// ------------------------------------------------------- what was said is said

/// Old sheets that were good, many of them with strays.
fn old_sheets(edition: Edition, seed: u64, number: usize) -> Vec<Case> {
    let mut dice = Dice::of(seed, edition);
    let mut cases = Vec::new();
    for of in 0..number {
        let case = match of % 8 {
            0 => make::case(&mut dice),
            1 => plainly::case(&mut dice),
            2 if of % 5 == 0 => decided::case(&mut dice),
            2 => ways::case(&mut dice).case,
            _ => strays::case(&mut dice),
        };
        if Reading::Old.sheet(&case.sheet).is_ok() {
            cases.push(case);
        }
    }
    cases
}

/// "the outcome of the old sheet by the old rule is the outcome of the new sheet by
/// the new one, in every number and byte"
#[test]
fn the_outcome_stays() {
    for edition in EDITIONS {
        let (mut with_strays, mut seen) = (0, BTreeMap::new());
        for Case { work, answer: length, sheet: old } in old_sheets(edition, 4, 9_000) {
            let new = drop_strays::sheet(&old).unwrap();
            with_strays += usize::from(new != old);
            let lent = || (vec![FILL; work as usize], vec![90; length as usize]);
            let (mut before, mut after) = (lent(), lent());
            let outcome = answer_by(Reading::Old, &old, &mut before.0, &mut before.1);
            assert_eq!(outcome, answer(&new, &mut after.0, &mut after.1), "{old:?}");
            assert_eq!(before, after);
            let mut after = lent();
            assert_eq!(outcome, scan::answer(&new, &mut after.0, &mut after.1), "{old:?}");
            assert_eq!(before, after);
            let question = Reading::Old.sheet(&old).unwrap();
            let mut before = lent();
            assert_eq!(outcome, scan::asked(&question, &mut before.0, &mut before.1));
            assert_eq!(before, after);
            *seen.entry(outcome.number).or_insert(0) += usize::from(new != old);
            // deciding
            for by in [decide::HASHING, decide::SCANNING] {
                let (mut before, mut after) = (lent(), lent());
                let decided = decide_by(Reading::Old, &old, &mut before.0, &mut before.1, by);
                let now = decide::decide(&new, &mut after.0, &mut after.1, by);
                assert_eq!(decided, now, "{old:?}");
                assert_eq!(before, after);
            }
            // the engine for plain rules, in the working buffer and in what it needs
            let needs = plain_bytes(&new);
            assert_eq!(plain_bytes_by(Reading::Old, &old), needs, "{old:?}");
            for length in [work as usize, needs.bytes, needs.bytes.saturating_sub(1)] {
                let (mut before, mut after) = (vec![FILL; length], vec![FILL; length]);
                let told = plain_by(Reading::Old, &old, &mut before);
                assert_eq!(told, plain(&new, &mut after), "{old:?}");
                assert_eq!(before, after);
            }
        }
        assert!(with_strays > 2_000, "{with_strays}");
        for number in [0, 1, 18, 19, 20] {
            assert!(seen.get(&number).is_some_and(|&times| times > 20), "{seen:?}");
        }
    }
}

/// The same of the steps, of the player and of a script.
#[test]
fn steps_and_scripts_stay() {
    for edition in EDITIONS {
        let mut dice = Dice::of(5, edition);
        let (mut with_strays, mut played_through) = (0, 0);
        for of in 0..2_500 {
            let case =
                if of % 2 == 0 { ways::case(&mut dice).case } else { ways::played(&mut dice).case };
            let Ok(question) = Reading::Old.sheet(&case.sheet) else { continue };
            let (old, new) = (&case.sheet, drop_strays::sheet(&case.sheet).unwrap());
            with_strays += usize::from(new != *old);
            let lent = || (vec![FILL; 60_000], vec![90; case.answer as usize], vec![7; 300]);
            let (mut before, mut after) = (lent(), lent());
            let told = steps_by(Reading::Old, old, &mut before.0, &mut before.1, &mut before.2);
            let now = steps::steps(&new, &mut after.0, &mut after.1, &mut after.2);
            assert_eq!(told, now, "{old:?}");
            assert_eq!(before, after);
            let row = &after.2[..now.bytes];
            let (mut before, mut after) = (vec![FILL; 300], vec![FILL; 300]);
            let told = play_by(Reading::Old, old, row, &mut before);
            assert_eq!(told, steps::play(&new, row, &mut after));
            assert_eq!(before, after);
            played_through += usize::from(told.number == 0 && new != *old);
            if of % 5 == 0 {
                says(script(&new).unwrap().as_bytes(), &question).unwrap();
            }
        }
        assert!(with_strays > 100 && played_through > 50, "{with_strays} {played_through}");
    }
}

/// The pairs of a catalogue keep their answers and counts, and what is told of a new
/// rule stays, where it fits.
#[test]
fn pairs_stay() {
    let mut calls = Calls::new(HASHING);
    let (mut catalogues, mut listed, mut added, mut refused) = (0, 0, 0, 0);
    for operation in strays_operations(&mut Dice::new(6), 5_000) {
        calls.run(&operation);
        let (new_rule, front) = match operation {
            Operation::Catalogue { front, .. } => (rule(&[], &[10]), front),
            Operation::Add(rule) => (rule, calls.catalogue.clone()),
            _ => continue,
        };
        let Some(present) = catalogue::read_by(Reading::Old, &front) else { continue };
        let old = [&front[..], &[0; 900]].concat();
        let mut new = old.clone();
        assert_eq!(drop_strays::catalogue(&mut new), 0);
        let rules = catalogue::read(&new).unwrap();
        assert_eq!(rules.len(), present.len());
        for (rule, before) in rules.iter().zip(&present) {
            assert_eq!(new[rule.bytes.clone()], cut(&old[before.bytes.clone()]));
        }
        catalogues += usize::from(new != old);
        let lent = || (vec![FILL; 60 * 184], vec![90; 3_500]);
        let (mut before, mut after) = (lent(), lent());
        let told = recheck_by(Reading::Old, &old, &mut before.0, &mut before.1, HASHING);
        assert_eq!(told, recheck(&new, &mut after.0, &mut after.1, HASHING));
        assert_eq!(before, after);
        listed += usize::from(new != old) * told.pairs;
        let (mut before, mut after) = (lent(), lent());
        let told = recheck_decided_by(Reading::Old, &old, &mut before.0, &mut before.1, HASHING);
        assert_eq!(told, recheck_decided(&new, &mut after.0, &mut after.1, HASHING));
        assert_eq!(before, after);
        // A new rule, with its strays and without.
        let Ok(kept) = drop_strays::rule(&new_rule) else { continue };
        let (mut old_after, mut new_after) = (old.clone(), new.clone());
        let (mut work, mut same) = (lent().0, lent().0);
        let told = add_by(Reading::Old, &mut old_after, &new_rule, &mut work, HASHING, once).added;
        assert_eq!(told, catalogue::add(&mut new_after, &kept, &mut same, HASHING));
        assert_eq!(work, same);
        assert_eq!(drop_strays::catalogue(&mut old_after), 0);
        assert_eq!(old_after, new_after);
        added += usize::from(told.number == 0 && (kept != new_rule || new != old));
        refused += usize::from(told.number == 30 && (kept != new_rule || new != old));
    }
    let seen = [catalogues, listed, added, refused];
    assert!(seen.iter().all(|&times| times > 50), "{seen:?}");
}

// ------------------------------------------------------------------ the streams

#[test]
fn operations_with_strays() {
    let operations = strays_operations(&mut Dice::new(7), 4_000);
    let run = |search| {
        let mut calls = Calls::new(search);
        operations.iter().filter_map(|operation| calls.run(operation)).collect::<Vec<After>>()
    };
    let hashed = run(HASHING);
    assert_eq!(hashed, run(SCANNING));
    assert_eq!(hashed.len(), 4_000);
    let mut seen = BTreeMap::new();
    let mut see = |what, number| *seen.entry((what, number)).or_insert(0) += 1;
    let mut mended = 0;
    let mut before = Vec::new();
    for After { call, catalogue } in hashed {
        match call {
            Call::Add { told, .. } => see("add", told.number),
            Call::AddDecided { told, .. } => see("add", told.added.number),
            Call::Withdraw { number } => see("withdraw", number),
            Call::Carry { number } => see("carry", number),
            Call::Recheck { told, .. } | Call::RecheckDecided { told, .. } => {
                see("recheck", told.number)
            }
            Call::Drop { number } => {
                see("drop", number);
                mended += usize::from(catalogue != before);
            }
        }
        before = catalogue;
    }
    for number in [0, 11, 12, 13, 14, 15, 16, 17, 22, 30, 31, 32, 34] {
        assert!(seen[&("add", number)] >= 10, "{number}: {seen:?}");
    }
    for (what, numbers) in [
        ("withdraw", &[0, 33, 34][..]),
        ("carry", &[0, 32, 34]),
        ("recheck", &[0, 34, 35]),
        ("drop", &[0, 34]),
    ] {
        for &number in numbers {
            assert!(seen[&(what, number)] >= 10, "{what} {number}: {seen:?}");
        }
    }
    assert!(seen.keys().all(|key| *key != ("drop", 32)) && mended > 100, "{mended}");
    // Read as they are written.
    for seed in 0..20 {
        let operations = strays_operations(&mut Dice::new(seed), 50);
        let stream = strays_stream(&mut Dice::new(seed), 50);
        let mut rest = &stream[..];
        for operation in &operations {
            let (read, behind) = Operation::read(rest).unwrap();
            assert_eq!(read, *operation);
            rest = behind;
        }
        assert_eq!(Operation::read(rest), None);
    }
}

/// Those one by one: both modules agree, and each rule is judged as by counting.
#[test]
fn operations_one_by_one() {
    let operations = strays::calls();
    let [mut hashed, mut scanned] = [HASHING, SCANNING].map(Calls::new);
    let mut dropped = [0; 2];
    for operation in &operations {
        let after = hashed.run(operation);
        assert_eq!(after, scanned.run(operation));
        match (operation, after.map(|after| after.call)) {
            (Operation::Add(rule), Some(Call::Add { told, .. })) if told.number < 30 => {
                assert_eq!(judged(rule), told.number);
            }
            (_, Some(Call::Drop { number })) => dropped[usize::from(number == 34)] += 1,
            _ => {}
        }
    }
    assert!(dropped.iter().all(|&times| times > 100), "{dropped:?}");
}

/// What other makers make, once the strays are taken out: nothing is 22, and all else
/// is as it was.
#[test]
fn kept_streams() {
    for edition in EDITIONS {
        let mut dice = Dice::of(8, edition);
        let mut strays = [0; 5];
        for _ in 0..1_500 {
            let case = make::case(&mut dice);
            let kept = kept::case(case.clone());
            let before =
                case.run(|sheet, work, answer| answer_by(Reading::Old, sheet, work, answer));
            assert_eq!(kept.run(answer), before);
            strays[0] += usize::from(kept != case);
            let case = ways::case(&mut dice);
            let kept = kept::stepped(case.clone());
            assert_ne!(kept.run(steps::steps).told.outcome.number, 22);
            strays[1] += usize::from(kept != case);
            let played = ways::played(&mut dice);
            let kept = kept::handed(played.clone());
            assert_ne!(kept.run(steps::play).0.number, 22);
            strays[2] += usize::from(kept != played);
            // A rule with a stray above 3 was 31 before.
            let case = spelt::case(&mut dice);
            let kept = kept::spelt(case.clone());
            let is_rule = case.sheet.starts_with(b"RU");
            let spell = if is_rule { spell_open::rule_by } else { spell_open::sheet_by };
            let [old, new] = [&case, &kept].map(|case| {
                let spelt = spell(Reading::Old, &case.sheet);
                spelt.map(|spelt| i64::from(case.answer) - spelt.len() as i64)
            });
            assert!(new == old || kept.answer == 0, "{case:?}");
            strays[3] += usize::from(kept != case);
            let case = written::case(&mut dice);
            let kept = kept::written(case.clone());
            let number = kept.run().0.number;
            assert_ne!(number, 22);
            if kept == case {
                assert_eq!(number, case.run().0.number);
            } else {
                assert_eq!(case.run().0.number, 22);
                assert!(number == 0 || number == 41);
                strays[4] += 1;
            }
        }
        assert!(strays.iter().all(|&times| times > 50), "{strays:?}");
    }
    // None of the calls of a storeroom has a stray but the one that is refused.
    let rows = storeroom::rows().into_iter().filter(|row| row.line == Some("add 22 0 2 0 0"));
    assert_eq!(rows.count(), 1);
    // The calls from a seed go by the old rule while they are made.
    let strays = operations(&mut Dice::new(9), 2_000)
        .into_iter()
        .filter(|operation| matches!(operation, Operation::Add(rule) if judged(rule) == 22));
    assert!(strays.count() > 20);
}

// ------------------------------------------------------------------- the writer

/// "22 where reading would say it, before 41"
#[test]
fn the_writer() {
    for edition in EDITIONS {
        let mut seen = BTreeMap::new();
        for case in strays::written(edition) {
            let (told, output) = case.run();
            let writer::Case { patterns, lengths, left, right, .. } = &case;
            let old = writer::sheet_by(Reading::Old, case.edition, patterns, lengths, left, right);
            let expected = match &old {
                Err(fault) => (fault.number, fault.place, 0),
                Ok(sheet) => match read(sheet) {
                    Err(fault) => (fault.number, fault.place, 0),
                    Ok(_) if sheet.len() > output.len() => (41, 0, 0),
                    Ok(_) => (0, 0, sheet.len()),
                },
            };
            assert_eq!((told.number, told.place, told.written), expected, "{case:?}");
            assert_eq!(told.count, 0);
            assert!(output[told.written..].iter().all(|&byte| byte == FILL));
            if told.number == 0 {
                assert_eq!(output[..told.written], old.unwrap());
            }
            let short = case.output == 0;
            *seen.entry((told.number, short)).or_insert(0) += 1;
        }
        for number in [11, 13, 14, 15, 17, 22, 44] {
            assert!(seen.contains_key(&(number, true)) && seen.contains_key(&(number, false)));
        }
        assert!(seen[&(0, false)] >= 3 && seen.contains_key(&(41, false)), "{seen:?}");
    }
    // by hand: lengths 1 1, the fields `A` and `B`, and only field 1 stands
    let write = |left: &[u8], right: &[u8], output: &mut [u8]| {
        let told = writer::write(0, &[10, 11], &[1, 1], left, right, output);
        (told.number, told.count, told.place, told.written)
    };
    assert_eq!(write(&[65], &[], &mut []), (22, 0, 0, 0));
    assert_eq!(write(&[], &[64], &mut [0; 99]), (22, 0, 5, 0));
    assert_eq!(write(&[], &[0, 1], &mut [0; 99]), (22, 0, 0, 0));
    assert_eq!(write(&[65, 64], &[], &mut []), (41, 0, 0, 0));
    assert_eq!(write(&[65], &[64], &mut [0; 18]), (0, 0, 0, 18));
    assert_eq!(write(&[65], &[43], &mut []), (17, 0, 17, 0));
    let told = writer::write(2, &[10, 65], &[1, 0, 1], &[64, 192], &[66], &mut []);
    assert_eq!((told.number, told.place), (22, 8));
}
