//! The steps on paper: every way of the search is played, each refusal of the
//! player in its order, damaged records, and buffers around the right lengths.

#[allow(dead_code)]
mod plain;

use std::collections::BTreeMap;

use plain::{parts, takes};
use second::edition::{Edition, FIRST, SECOND};
use second::make::{pairs, ways, Dice};
use second::steps::{enough, play, steps, Case, Handed, Record, Told, MOST_STEPS};
use second::write::{many, row, sheet, tokens};
use second::{answer, room, scan, Outcome, SITUATION_BYTES};

use Record::{Character as Put, LeftStruck as Left, RightStruck as Right};

const FILL: u8 = 165;

fn records(records: &[Record]) -> Vec<u8> {
    let mut bytes = Vec::new();
    records.iter().for_each(|record| record.write(&mut bytes));
    bytes
}

/// Sides as texts, fields as small letters from `a` on, and patterns.
fn of(patterns: &[(u8, &[u8])], left: &str, right: &str) -> Vec<u8> {
    let patterns: Vec<(u8, Vec<u8>)> =
        patterns.iter().map(|(field, body)| (*field, body.to_vec())).collect();
    sheet(&patterns, &tokens(left), &tokens(right))
}

/// The way of the sheet's search in room for 356 situations.
#[track_caller]
fn way(sheet: &[u8]) -> Vec<u8> {
    let mut bytes = vec![0; enough(356)];
    let mut work = vec![1; 356 * SITUATION_BYTES];
    let told = steps(sheet, &mut work, &mut [0; 4_096], &mut bytes);
    assert_eq!(told.outcome.number, 0);
    assert!(work.iter().all(|&byte| byte == 0));
    bytes.truncate(told.bytes);
    bytes
}

/// The player gives this number, writes nothing, and tells no count and no
/// place, whatever the answer buffer.
#[track_caller]
fn refuses(sheet: &[u8], steps: &[u8], number: u8) {
    for length in [0, 9, 4_096] {
        let mut answer = vec![FILL; length];
        let told = play(sheet, steps, &mut answer);
        assert_eq!(told, Outcome { number, count: 0, place: 0, written: 0 });
        assert!(answer.iter().all(|&byte| byte == FILL));
    }
}

/// The player writes these records, in a buffer that holds them, and gives 20 in
/// each that does not.
#[track_caller]
fn accepts(sheet: &[u8], steps: &[u8], values: &[u8]) {
    for length in 0..values.len() {
        let mut answer = vec![FILL; length];
        assert_eq!(play(sheet, steps, &mut answer).number, 20);
        assert!(answer.iter().all(|&byte| byte == FILL));
    }
    let mut answer = vec![FILL; values.len() + 3];
    let told = play(sheet, steps, &mut answer);
    assert_eq!(told, Outcome { number: 0, count: 0, place: 0, written: values.len() });
    assert_eq!(answer, [values, &[FILL; 3]].concat());
}

const DIGITS: &[u8] = &[68, 65, 0, 9];

/// Sheet S: any digits, and the digit 4.
fn sheet_s() -> Vec<u8> {
    of(&[(0, DIGITS), (1, &[4])], "a", "b")
}

#[test]
fn known_ways() {
    // Both take 4; then each is struck, and the two hidden fields.
    let whole = records(&[Put(4), Left, Left, Right, Right]);
    let way_of_s = way(&sheet_s());
    accepts(&sheet_s(), &way_of_s, b"VA\x00\x01\x00\x04VA\x01\x01\x00\x04");
    accepts(&sheet_s(), &whole, b"VA\x00\x01\x00\x04VA\x01\x01\x00\x04");
    assert_eq!(way_of_s.len(), whole.len());
    // nothing but the hidden fields
    assert_eq!(way(&of(&[], "", "")), records(&[Left, Right]));
    accepts(&of(&[], "", ""), &records(&[Right, Left]), b"");
    // an open field holds one character or more
    assert_eq!(way(&of(&[], "a", "A")), records(&[Put(10), Left, Left, Right]));
    // xx and AA: the second A is trimmed
    assert_eq!(way(&of(&[], "aa", "AA")), records(&[Put(10), Left, Left, Right]));
    // a field that is struck leads to its own hidden field
    let spaces = records(&[Put(38), Left, Left, Right]);
    accepts(&of(&[], "a", ""), &spaces, b"VA\x00\x01\x00\x26");
}

/// The story of docs/RULES.md: two storekeepers' latches.
#[test]
fn the_latches() {
    let sheet = ways::latches();
    // two digits; size and set are struck; C and H; finish, turn and the hidden fields are struck
    let digits = [Put(0), Put(0), Left, Right];
    let letters = [Put(12), Put(17), Left, Left, Right, Right];
    assert_eq!(way(&sheet), records(&[&digits[..], &letters].concat()));
    let texts =
        b"VA\x00\x02\x00\x00\x00VA\x01\x02\x00\x0C\x11VA\x04\x02\x00\x00\x00VA\x05\x01\x00\x11";
    accepts(&sheet, &way(&sheet), texts);
}

#[test]
fn every_refusal() {
    let s = sheet_s();
    // the sheet's own, with its place, before anything of the records
    for (wrong, number, place) in
        [(&b""[..], 11, 0), (b"LE\x00RI\x00L", 12, 6), (b"LE\x01\x48RI\x00", 17, 3)]
    {
        for bytes in [&b""[..], b"ST", b"XX"] {
            let told = play(wrong, bytes, &mut []);
            assert_eq!(told, Outcome { number, count: 0, place, written: 0 });
        }
    }
    // 47: cut short, another mark, a kind above 2, a value that is no character
    for wrong in [&b"S"[..], b"ST", b"ST\x02", b"TS\x00", b"Sx\x00", b"ST\x03", b"ST\xff\x00"] {
        refuses(&s, wrong, 47);
    }
    refuses(&s, b"ST\x02\x2b", 47);
    refuses(&s, b"ST\x02\xff", 47);
    // 48: no digit; y may not end; a step behind the finish
    refuses(&s, &records(&[Put(10)]), 48);
    refuses(&s, &records(&[Right]), 48);
    let whole = way(&s);
    for more in [Left, Right, Put(0), Put(38)] {
        refuses(&s, &[&whole[..], &records(&[more])].concat(), 48);
    }
    refuses(&s, &[&whole[..], b"ST\x02\x2b"].concat(), 47);
    refuses(&s, &[&whole[..], b"S"].concat(), 47);
    // 49: before the finish, and with no record at all
    refuses(&s, b"", 49);
    refuses(&s, &records(&[Put(4)]), 49);
    refuses(&of(&[], "A", "B"), b"", 49);
    // a dead start has no children
    refuses(&of(&[], "A", "B"), &records(&[Left]), 48);
    refuses(&of(&[], "A", "B"), &records(&[Put(10)]), 48);
    // the first record that is wrong decides
    refuses(&s, &[&records(&[Put(10)])[..], b"X"].concat(), 48);
    refuses(&s, &[b"X", &records(&[Put(10)])[..]].concat(), 47);
}

#[test]
fn what_a_front_allows() {
    // no field in front
    refuses(&of(&[], "A", "a"), &records(&[Left]), 48);
    refuses(&of(&[], "a", "A"), &records(&[Right]), 48);
    // a set that may not end
    refuses(&of(&[], "a", ""), &records(&[Left]), 48);
    refuses(&of(&[(0, &[66, 10, 11])], "a", "b"), &records(&[Put(10), Left]), 48);
    // one field in both fronts
    let both = of(&[(0, DIGITS)], "a", "a");
    refuses(&both, &records(&[Right]), 48);
    accepts(&both, &records(&[Left, Left, Right]), b"VA\x00\x00\x00");
    accepts(&both, &records(&[Put(4), Put(4), Left, Right, Left]), b"VA\x00\x02\x00\x04\x04");
    // a character that one of the fronts does not take
    refuses(&of(&[(0, DIGITS)], "a", "b"), &records(&[Put(10)]), 48);
    refuses(&of(&[(1, DIGITS)], "a", "b"), &records(&[Put(10)]), 48);
    refuses(&of(&[], "a", "A"), &records(&[Put(11)]), 48);
    // one side is empty
    refuses(&of(&[], "", ""), &records(&[Left, Put(38)]), 48);
    accepts(&of(&[], "", ""), &records(&[Put(38), Put(38), Left, Right]), b"");
    // a dead child
    refuses(&of(&[(0, DIGITS)], "aB", "A"), &records(&[Left]), 48);
    refuses(&of(&[(1, DIGITS)], "A", "bB"), &records(&[Right]), 48);
    refuses(&of(&[(0, DIGITS)], "aA", ""), &records(&[Right]), 49);
    refuses(&of(&[(0, DIGITS)], "aA", ""), &records(&[Right, Left]), 48);
}

/// No child is both dead and long: a strike makes no side longer, and behind a
/// character that was put a field is in front. So 19 comes of a put alone.
#[test]
fn a_long_side() {
    // 24 times x and the hidden field: 49 tokens, of which one is trimmed
    let left = "a".repeat(24);
    let long = of(&[(0, DIGITS)], &left, "b");
    refuses(&long, &records(&[Put(4)]), 49);
    refuses(&long, &records(&[Put(4), Put(4)]), 19);
    // a record behind it is not read, nor is a finish asked for
    refuses(&long, &[&records(&[Put(4), Put(4)])[..], b"X"].concat(), 19);
    // what is not allowed comes first
    refuses(&long, &records(&[Put(4), Put(10)]), 48);
    // the same on the right, where one more token makes 49
    refuses(&of(&[(0, DIGITS)], "b", &left), &records(&[Put(4)]), 49);
    refuses(&of(&[(0, DIGITS)], "b4", &format!("{}B", &left[1..])), &records(&[Put(4)]), 49);
    refuses(&of(&[(0, DIGITS)], "b", &left), &records(&[Put(4), Put(4)]), 19);
}

#[test]
fn the_most_steps() {
    // x and y, open: the same situation again and again
    let endless = of(&[], "a", "b");
    let puts = |number: usize, rest: &[Record]| {
        let mut bytes = b"ST\x02\x0a".repeat(number);
        rest.iter().for_each(|record| record.write(&mut bytes));
        bytes
    };
    let number = |bytes: &[u8]| play(&endless, bytes, &mut []).number;
    assert_eq!(number(&puts(MOST_STEPS, &[])), 49);
    assert_eq!(number(&puts(MOST_STEPS + 1, &[])), 50);
    // also where what comes is no record
    assert_eq!(number(&[&puts(MOST_STEPS, &[])[..], b"S"].concat()), 50);
    assert_eq!(number(&[&puts(MOST_STEPS - 1, &[])[..], b"XX\x09"].concat()), 47);
    // as many as there may be, to the finish, and one more behind it
    let end = [Left, Right, Left, Right];
    let whole = puts(MOST_STEPS - 4, &end);
    let mut answer = vec![FILL; 200_000];
    let told = play(&endless, &whole, &mut answer);
    let length = 2 * (5 + MOST_STEPS - 4);
    assert_eq!(told, Outcome { number: 0, count: 0, place: 0, written: length });
    assert_eq!(answer[..5], *b"VA\x00\xfa\xff");
    assert_eq!(number(&[&whole[..], b"ST\x00"].concat()), 50);
}

/// The steps as `steps::steps` and as `scan::steps` write them.
fn both(case: &Case) -> Told {
    let after = case.run(steps);
    assert_eq!(after, case.run(scan::steps), "{case:?}");
    let told = after.told;
    let unchanged = |bytes: &[u8], fill: u8| bytes.iter().all(|&byte| byte == fill);
    assert!(unchanged(&after.answer[told.outcome.written..], FILL));
    assert!(unchanged(&after.steps[told.bytes..], second::steps::STEPS_FILL));
    let fault = matches!(told.outcome.number, 11..=17 | 22 | 44);
    assert!(unchanged(&after.work, if fault { 90 } else { 0 }));
    told
}

#[test]
fn every_way_is_played() {
    [FIRST, SECOND].into_iter().for_each(every_way_is_played_in);
}

fn every_way_is_played_in(edition: Edition) {
    let mut dice = Dice::of(33, edition);
    let (mut ways_played, mut longest) = (0, 0);
    for number in 0..3_000 {
        let case = match number % 3 {
            0 => pairs::case(&mut dice, false, 356),
            1 => second::make::case(&mut dice),
            _ => ways::case(&mut dice).case,
        };
        let mut answer_buffer = vec![FILL; case.answer as usize];
        let mut given = vec![0; case.work as usize];
        let plain = answer(&case.sheet, &mut given, &mut answer_buffer);
        let mut bytes = vec![0; enough(room(case.work as usize))];
        let mut own = vec![FILL; case.answer as usize];
        let mut work = vec![1; case.work as usize];
        let told = steps(&case.sheet, &mut work, &mut own, &mut bytes);
        // so many bytes are always enough, and all else is as without steps
        assert_eq!((told.outcome, &own), (plain, &answer_buffer));
        if plain.number == 0 {
            let mut played = vec![FILL; case.answer as usize];
            let by_player = play(&case.sheet, &bytes[..told.bytes], &mut played);
            assert_eq!(by_player, Outcome { count: 0, ..plain });
            assert_eq!(played, own);
            ways_played += 1;
            longest = longest.max(told.bytes);
        }
    }
    assert!(ways_played > 600 && longest > 60, "{ways_played} {longest}");
}

#[test]
fn the_lines_of_the_program() {
    let lines = |answer: u32, lent: u16| {
        let case = second::cases::Case { work: 65_520, answer, sheet: sheet_s() };
        Case { case, steps: lent }.run(steps).lines()
    };
    assert_eq!(lines(12, 16), "0 13 0\n0 4\n1 4\nput 4\nleft\nleft\nright\nright\n");
    assert_eq!(lines(12, 15), "51 13 0\n");
    assert_eq!(lines(11, 16), "20 13 0\n");
}

#[test]
fn the_order_of_20_and_51() {
    let s = sheet_s();
    let needed = way(&s).len();
    for answer in 0..14 {
        for lent in [0, 1, needed - 1, needed, needed + 1] {
            let case = second::cases::Case { work: 65_520, answer, sheet: s.clone() };
            let told = both(&Case { case, steps: lent as u16 });
            let number = match (answer < 12, lent < needed) {
                (true, _) => 20,
                (false, true) => 51,
                (false, false) => 0,
            };
            let (written, bytes) = if number == 0 { (12, needed) } else { (0, 0) };
            let outcome = Outcome { number, count: 13, place: 0, written };
            assert_eq!(told, Told { outcome, bytes });
        }
    }
}

#[test]
fn the_cases_of_the_steps_have_everything() {
    [FIRST, SECOND].into_iter().for_each(the_cases_of_the_steps_in);
}

fn the_cases_of_the_steps_in(edition: Edition) {
    let mut dice = Dice::of(10, edition);
    let mut by_number: BTreeMap<u8, usize> = BTreeMap::new();
    let (mut just, mut one_less) = (0, 0);
    for _ in 0..800 {
        let case = ways::case(&mut dice);
        let mut stream = Vec::new();
        case.write(&mut stream);
        assert_eq!(Case::read(&stream), Some((case.clone(), &[][..])));
        assert_eq!(Case::read(&stream[..stream.len() - 1]), None);
        let told = both(&case);
        *by_number.entry(told.outcome.number).or_insert(0) += 1;
        just += usize::from(told.outcome.number == 0 && told.bytes == usize::from(case.steps));
        one_less += usize::from(told.outcome.number == 51);
    }
    for number in [0, 1, 11, 12, 18, 20, 51] {
        assert!(by_number.get(&number).is_some_and(|&times| times > 3), "{by_number:?}");
    }
    assert!(just > 40 && one_less > 80, "{just} {one_less}");
}

#[test]
fn the_cases_of_the_player_have_everything() {
    [FIRST, SECOND].into_iter().for_each(the_cases_of_the_player_in);
}

fn the_cases_of_the_player_in(edition: Edition) {
    let mut dice = Dice::of(11, edition);
    let mut cases: Vec<Handed> = (0..600).map(|_| ways::played(&mut dice)).collect();
    let each = ways::each(edition);
    println!("{} one by one", each.len());
    assert!((250..=450).contains(&each.len()));
    cases.extend(each);
    let mut by_number: BTreeMap<u8, usize> = BTreeMap::new();
    for case in &cases {
        let mut stream = Vec::new();
        case.write(&mut stream);
        assert_eq!(Handed::read(&stream), Some((case.clone(), &[][..])));
        if !case.bytes.is_empty() {
            assert_eq!(Handed::read(&stream[..stream.len() - 1]), None);
        }
        assert!(case.bytes.len() <= ways::MOST_STEPS_BYTES);
        let (told, buffer) = case.run(play);
        assert!(buffer[told.written..].iter().all(|&byte| byte == FILL));
        *by_number.entry(told.number).or_insert(0) += 1;
    }
    println!("{by_number:?}");
    for number in [0, 12, 19, 20, 47, 48, 49] {
        assert!(by_number.get(&number).is_some_and(|&times| times > 8), "{by_number:?}");
    }
    assert!(!by_number.contains_key(&50));
}

/// What a side becomes with these texts, without the spaces at its end.
fn label(edition: Edition, side: &[u8], texts: &BTreeMap<u8, Vec<u8>>) -> Vec<u8> {
    let mut label = Vec::new();
    for &token in side {
        match token.checked_sub(edition.codes) {
            None => label.push(token),
            // the hidden fields, which hold spaces
            Some(8 | 9) => {}
            Some(field) => label.extend_from_slice(&texts[&field]),
        }
    }
    let end = label.iter().rposition(|&value| value != edition.space).map_or(0, |last| last + 1);
    label.truncate(end);
    label
}

/// "then the texts meet demand 2": of every way that is accepted, from wherever
/// it is.
#[test]
fn texts_of_any_way_solve_the_question() {
    [FIRST, SECOND].into_iter().for_each(texts_of_any_way_solve_the_question_in);
}

fn texts_of_any_way_solve_the_question_in(edition: Edition) {
    let mut dice = Dice::of(12, edition);
    let (mut accepted, mut not_its_own) = (0, 0);
    for _ in 0..4_000 {
        let mut case = ways::played(&mut dice);
        case.case.answer = 4_096;
        let (told, answer) = case.run(play);
        if told.number != 0 {
            continue;
        }
        accepted += 1;
        let mut texts = BTreeMap::new();
        let mut rest = &answer[..told.written];
        while !rest.is_empty() {
            let length = usize::from(u16::from_le_bytes([rest[3], rest[4]]));
            assert!(rest.starts_with(b"VA"));
            texts.insert(rest[2], rest[5..5 + length].to_vec());
            rest = &rest[5 + length..];
        }
        let parts = parts(&case.case.sheet);
        let [left, right] =
            [&parts.left, &parts.right].map(|side| label(parts.edition, side, &texts));
        assert_eq!(left, right, "{case:?}");
        for (field, text) in &texts {
            let may_hold = match parts.patterns.get(field) {
                Some(pattern) => takes(pattern, text),
                None => !text.is_empty(),
            };
            assert!(may_hold, "{case:?}");
        }
        let mut own = vec![0; enough(356)];
        let mut work = vec![0; 356 * SITUATION_BYTES];
        let found = steps(&case.case.sheet, &mut work, &mut [0; 4_096], &mut own);
        not_its_own += usize::from(own[..found.bytes] != case.bytes);
    }
    assert!(accepted > 800 && not_its_own > 20, "{accepted} {not_its_own}");
}

/// A way of many steps: a text of all characters, many times over.
#[test]
fn a_longer_way() {
    let all: Vec<u8> = (0..24).collect();
    let body = many(row(vec![vec![65, 0, 42]; 2]));
    let sheet = sheet(&[(0, body)], &[64], &all);
    let found = way(&sheet);
    assert_eq!(found.len(), 4 * 24 + 3 * 3);
    accepts(&sheet, &found, &[&b"VA\x00\x18\x00"[..], &all].concat());
}
