//! The old meaning of fields without a pattern, written out: each sheet, rule
//! and catalogue by its bytes, and the question that it asks.

use std::collections::{BTreeMap, BTreeSet};
use std::io::Write;
use std::process::{Command, Stdio};

use second::calls::{Calls, Operation};
use second::cases::{Case, ANSWER_FILL};
use second::catalogue::{recheck, HASHING};
use second::edition::FIRST;
use second::fault::Fault;
use second::make::calls::operations;
use second::make::{case, kept, spelt, Dice};
use second::pattern::{Allowed, Pattern, Places};
use second::search::{search, Ending};
use second::sheet::Reading;
use second::spell_open::{self, rule_into, sheet_into, Spelt};
use second::{sheet, storeroom, SITUATION_BYTES};

const A: u8 = 10;
const B: u8 = 11;
const X: u8 = 64;
const Y: u8 = 65;

/// `PA` with the right length byte.
fn pattern(field: u8, body: &[u8]) -> Vec<u8> {
    [b"PA", &[field, body.len() as u8][..], body].concat()
}

/// The record that is added.
fn added(field: u8) -> Vec<u8> {
    pattern(field, &[68, 65, 0, 42])
}

/// A sheet whose `PA` records are these.
fn with(patterns: &[Vec<u8>], left: &[u8], right: &[u8]) -> Vec<u8> {
    let sides = [b"LE", &[left.len() as u8][..], left, b"RI", &[right.len() as u8], right];
    [patterns.concat(), sides.concat()].concat()
}

fn rule(patterns: &[Vec<u8>], side: &[u8]) -> Vec<u8> {
    [&b"RU"[..], &patterns.concat(), b"LE", &[side.len() as u8], side].concat()
}

fn cases(seed: u64, number: usize) -> Vec<Case> {
    let mut dice = Dice::new(seed);
    (0..number).map(|_| case(&mut dice)).collect()
}

/// Sheets and rules to carry over.
fn spelt_cases(seed: u64, number: usize) -> Vec<Case> {
    let mut dice = Dice::new(seed);
    (0..number).map(|_| spelt::case(&mut dice)).collect()
}

fn good(seed: u64, number: usize) -> Vec<Vec<u8>> {
    let sheets = cases(seed, number).into_iter().map(|case| case.sheet);
    sheets.filter(|bytes| sheet::read(bytes).is_ok()).collect()
}

// ------------------------------------------------------------ sheets by hand

/// What is written for these patterns and sides, with these records in place of
/// the patterns.
fn spells(patterns: &[Vec<u8>], left: &[u8], right: &[u8], expected: &[Vec<u8>]) {
    let old = with(patterns, left, right);
    let new = with(expected, left, right);
    assert_eq!(spell_open::sheet(&old), Ok(new.clone()), "{old:?}");
    // Again, there is nothing to add.
    assert_eq!(spell_open::sheet(&new), Ok(new));
}

#[test]
fn each_byte_of_a_sheet() {
    let old = b"LE\x01\x40RI\x01\x0a";
    let new = b"PA\x00\x04\x44\x41\x00\x2aLE\x01\x40RI\x01\x0a";
    assert_eq!(spell_open::sheet(old), Ok(new.to_vec()));
}

#[test]
fn standing_fields_without_a_pattern() {
    spells(&[], &[X], &[A], &[added(0)]);
    spells(&[], &[A], &[X], &[added(0)]);
    // Once for a field, wherever it stands and however often.
    spells(&[], &[X, X, A, X], &[B, X], &[added(0)]);
    spells(&[], &[X, A], &[B, Y, X], &[added(0), added(1)]);
    spells(&[], &[Y], &[X], &[added(0), added(1)]);
    let all: Vec<u8> = (64..72).rev().collect();
    let all_added: Vec<Vec<u8>> = (0..8).map(added).collect();
    spells(&[], &all[..3], &all[3..], &all_added);
    spells(&[], &all, &[], &all_added);
    spells(&[], &[], &all, &all_added);
    for field in 0..8 {
        spells(&[], &[A, 64 + field], &[], &[added(field)]);
    }
}

#[test]
fn nothing_to_add() {
    spells(&[], &[], &[], &[]);
    spells(&[], &[A, 42, 0], &[B; 24], &[]);
    // The field has a pattern, be it this one.
    for body in [&[4][..], &[64], &[68, 65, 0, 42], &[68, 68, 65, 0, 42]] {
        spells(&[pattern(0, body)], &[X, X], &[A], &[pattern(0, body)]);
    }
    let every: Vec<Vec<u8>> = (0..8).map(|field| pattern(field, &[field])).collect();
    spells(&every, &[X, Y, 70, 67], &[71, 66, 68, 69], &every);
}

#[test]
fn a_field_that_does_not_stand_gets_nothing() {
    spells(&[], &[66], &[A], &[added(2)]);
    // Patterns of fields that stand nowhere are refused; by the old rule they stay.
    let stray = [pattern(1, &[4]), pattern(5, &[65, 0, 9])];
    let refused = |old: &[u8], place| {
        assert_eq!(spell_open::sheet(old), Err(Fault { number: 22, place }));
    };
    let old = with(&stray, &[A], &[B]);
    refused(&old, 0);
    assert_eq!(spell_open::sheet_by(Reading::Old, &old), Ok(old));
    let old = with(&stray, &[66, 67, Y], &[A]);
    refused(&old, 5);
    let all = [stray[0].clone(), added(2), added(3), stray[1].clone()];
    assert_eq!(spell_open::sheet_by(Reading::Old, &old), Ok(with(&all, &[66, 67, Y], &[A])));
}

#[test]
fn rising_among_the_others() {
    let (two, five) = (pattern(2, &[66, 1, 2]), pattern(5, &[4]));
    let old = [two.clone(), five.clone()];
    // before, between, behind, and all of these
    spells(&old, &[66, 69, 65], &[], &[added(1), two.clone(), five.clone()]);
    spells(&old, &[68, 66], &[69], &[two.clone(), added(4), five.clone()]);
    spells(&old, &[66, 69, 71], &[], &[two.clone(), five.clone(), added(7)]);
    let all = [added(0), added(1), two, added(3), added(4), five, added(6), added(7)];
    spells(&old, &[71, 70, 69, 68], &[67, 66, 65, 64], &all);
}

#[test]
fn bytes_that_look_like_a_record() {
    // A pattern's bytes and a side's are not taken for records: 80 and 65 are
    // `PA`, but 80 is no code and no token, so only `A` of it can stand there.
    let looks = [pattern(0, &[65, 0, 4]), pattern(1, &[66, 68, 65, 0, 42, 65, 1, 4])];
    spells(&looks, &[X, Y, 65, 66], &[65, 3, 4], &[&looks[..], &[added(2)]].concat());
}

#[test]
fn a_refused_sheet() {
    let told = |number, place| Err(Fault { number, place });
    assert_eq!(spell_open::sheet(b""), told(11, 0));
    assert_eq!(spell_open::sheet(b"LE\x01\x40RI"), told(11, 6));
    assert_eq!(spell_open::sheet(b"RI\x00"), told(12, 0));
    assert_eq!(spell_open::sheet(b"LE\x01\x40RI\x00\x00"), told(12, 7));
    assert_eq!(spell_open::sheet(&rule(&[], &[X])), told(12, 0));
    let falling = [pattern(1, &[4]), pattern(0, &[4])];
    assert_eq!(spell_open::sheet(&with(&falling, &[X], &[])), told(13, 7));
    assert_eq!(spell_open::sheet(b"LE\x19"), told(14, 2));
    assert_eq!(spell_open::sheet(&with(&[pattern(0, &[43])], &[X], &[])), told(15, 4));
    let leaves = [vec![66; 63], vec![7; 64]].concat();
    assert_eq!(spell_open::sheet(&with(&[pattern(0, &leaves)], &[Y], &[])), told(16, 130));
    assert_eq!(spell_open::sheet(&with(&[], &[X, 72], &[])), told(17, 4));
}

#[test]
fn the_longest_sheet() {
    // Seven patterns of 192 bytes, a field without one, and full sides.
    let full = [vec![66; 62], vec![68; 67], vec![7; 63]].concat();
    let seven: Vec<Vec<u8>> = (0..7).map(|field| pattern(field, &full)).collect();
    let left = [&[71][..], &[A; 23]].concat();
    let right: Vec<u8> = (64..71).cycle().take(24).collect();
    let new = [&seven[..], &[added(7)]].concat();
    spells(&seven, &left, &right, &new);
    assert!(with(&new, &left, &right).len() <= 2_048);
}

// ----------------------------------------------------- known sheets carried over

/// Number and count of the sheet, and of what is written for it.
fn counts(left: &[u8], right: &[u8]) -> [(u8, usize); 2] {
    let old = with(&[], left, right);
    let new = spell_open::sheet(&old).unwrap();
    [old, new].map(|sheet| {
        let case = Case { work: 65_520, answer: 4_096, sheet };
        let after = case.run(second::answer);
        assert_eq!(after, case.run(second::scan::answer));
        (after.outcome.number, after.outcome.count)
    })
}

#[test]
fn known_sheets() {
    // x and `A` spelt: xh|Ak, h|Ak, x'h|k, h|k, x'h|, x'h|k', |k, h|, h'|k',
    // h|k', |
    assert_eq!(counts(&[X], &[A]), [(0, 10), (0, 11)]);
    // "the same, x with pattern 68 65 0 42"
    assert_eq!(counts(&[X, A], &[B, X]), [(1, 2), (1, 2)]);
    // x and the empty side spelt: xh|k, h|k, xh|, x'h|k', |k, h|, h'|k', h|k',
    // x'h|, |
    assert_eq!(counts(&[X], &[]), [(0, 9), (0, 10)]);
    // Only the old meaning has a clash: `AB` from `A`x`B`.
    assert_eq!(counts(&[A, X, B], &[A, B]), [(1, 6), (0, 10)]);
    assert_eq!(counts(&[X, Y, B], &[A, B]).map(|(number, _)| number), [1, 0]);
    // No field, nothing to carry over.
    assert_eq!(counts(&[A], &[A]), [(0, 5), (0, 5)]);
}

// ------------------------------------------------------------- many sheets

/// The `PA` records of a good sheet or of a rule's records, and what is behind.
fn records(bytes: &[u8]) -> (Vec<(u8, Vec<u8>)>, &[u8]) {
    let mut records = Vec::new();
    let mut rest = bytes;
    while rest.starts_with(b"PA") {
        let (record, behind) = rest.split_at(4 + usize::from(rest[3]));
        records.push((record[2], record.to_vec()));
        rest = behind;
    }
    (records, rest)
}

/// The fields that stand in the sides, which follow each other.
fn standing(sides: &[u8]) -> BTreeSet<u8> {
    let mut fields = BTreeSet::new();
    let mut rest = sides;
    while !rest.is_empty() {
        let (side, behind) = rest.split_at(3 + usize::from(rest[2]));
        fields.extend(side[3..].iter().filter(|&&token| token >= 64).map(|token| token - 64));
        rest = behind;
    }
    fields
}

/// How many records are added. The field numbers rise, the old records are all
/// there and no others but those of standing fields without a pattern.
fn carried_over(old: &[u8], new: &[u8]) -> usize {
    let ((before, sides), (after, same_sides)) = (records(old), records(new));
    assert_eq!(sides, same_sides);
    assert!(after.windows(2).all(|pair| pair[0].0 < pair[1].0), "{new:?}");
    let had: BTreeSet<u8> = before.iter().map(|(field, _)| *field).collect();
    let more: BTreeSet<u8> = standing(sides).difference(&had).copied().collect();
    let (new_ones, kept): (Vec<_>, Vec<_>) =
        after.into_iter().partition(|(field, _)| more.contains(field));
    assert_eq!(kept, before);
    let expected: Vec<(u8, Vec<u8>)> = more.iter().map(|&field| (field, added(field))).collect();
    assert_eq!(new_ones, expected);
    expected.len()
}

#[test]
fn many_sheets_by_their_bytes() {
    let mut seen = BTreeMap::new();
    for old in good(21, 8_000) {
        let new = spell_open::sheet(&old).unwrap();
        let added = carried_over(&old, &new);
        assert_eq!(new == old, added == 0);
        assert_eq!(new.len(), old.len() + 8 * added);
        assert_eq!(spell_open::sheet(&new).unwrap(), new);
        let (patterns, sides) = records(&old);
        assert!(patterns.iter().all(|(field, _)| standing(sides).contains(field)));
        *seen.entry((added.min(3), !patterns.is_empty())).or_insert(0) += 1;
    }
    // None to three and more added, without patterns and with them.
    for added in 0..4 {
        for patterns in [false, true] {
            let times = seen.get(&(added, patterns)).copied().unwrap_or(0);
            assert!(times >= 20, "{added} {patterns}: {seen:?}");
        }
    }
}

#[test]
fn refusals_are_the_sheets() {
    let mut refused = 0;
    for case in cases(22, 6_000) {
        match (sheet::read(&case.sheet), spell_open::sheet(&case.sheet)) {
            (Err(fault), Err(told)) => {
                assert_eq!(told, fault);
                refused += 1;
            }
            (Ok(_), Ok(_)) => {}
            other => panic!("{other:?} for {:?}", case.sheet),
        }
    }
    assert!(refused > 1_000);
}

/// The old meaning: every field without a pattern has this one.
fn old_question(sheet: &[u8]) -> sheet::Question {
    let mut question = sheet::read(sheet).unwrap();
    let any = Pattern::AnyTimes(Box::new(Pattern::Leaf { lo: 0, hi: 42 }));
    assert_eq!(Pattern::read(FIRST, &[68, 65, 0, 42]), Ok(any.clone()));
    for allowed in &mut question.allowed {
        if matches!(allowed, Allowed::Open(_)) {
            *allowed = Allowed::Pattern(Box::new(Places::of(&any)));
        }
    }
    question
}

/// The old sheet's question and the new one's have the same answer, count and
/// texts.
#[test]
fn the_new_sheet_asks_the_old_question() {
    let mut seen = BTreeMap::new();
    for old in good(23, 6_000) {
        let new = spell_open::sheet(&old).unwrap();
        let asked = sheet::read(&new).unwrap();
        let before = old_question(&old);
        assert_eq!((&asked.left, &asked.right), (&before.left, &before.right));
        for room in [0, 7, 40, 356] {
            let found = search(&asked, room);
            assert_eq!(found, search(&before, room), "{old:?}");
            let mut work = vec![9; room * SITUATION_BYTES];
            let told = second::scan::searched(&asked, &mut work);
            assert_eq!(told, (found.ending.number(), found.count), "{old:?}");
            if room == 356 && new != old {
                *seen.entry(found.ending.number()).or_insert(0) += 1;
            }
        }
    }
    for number in [0, 1, 18, 19] {
        assert!(seen.get(&number).is_some_and(|&times| times > 40), "{number}: {seen:?}");
    }
}

/// What the fields hold now they held before: a clash stays one, and where there
/// was none there is none.
#[test]
fn the_old_meaning_has_more_clashes() {
    let mut seen = BTreeMap::new();
    for old in good(24, 8_000) {
        let new = spell_open::sheet(&old).unwrap();
        if new == old {
            continue;
        }
        let [now, before] = [&old, &new].map(|sheet| search(&sheet::read(sheet).unwrap(), 356));
        let numbers = (now.ending.number(), before.ending.number());
        assert!(numbers != (0, 1), "{old:?}");
        // Where only the old meaning has a clash, a field without a pattern is
        // empty in it.
        if let (Ending::NoClash, Ending::Clash(way)) = (&now.ending, &before.ending) {
            let (patterns, _) = records(&old);
            let open = |field: u8| patterns.iter().all(|(with, _)| *with != field);
            let empty = |(field, text): &(u8, Vec<u8>)| open(*field) && text.is_empty();
            assert!(way.texts.iter().any(empty), "{old:?}");
        }
        *seen.entry(numbers).or_insert(0) += 1;
    }
    for (kind, times) in [((0, 0), 100), ((1, 1), 100), ((1, 0), 50)] {
        assert!(seen.get(&kind).is_some_and(|&seen| seen > times), "{kind:?}: {seen:?}");
    }
}

/// Every sheet of short sides over two fields and two characters: the old meaning
/// by trying its short texts.
#[test]
fn small_sheets_have_the_old_meaning() {
    let texts: Vec<Vec<u8>> =
        vec![vec![], vec![A], vec![B], vec![A, A], vec![A, B], vec![B, A], vec![B, B]];
    let longer = |sides: &[Vec<u8>]| -> Vec<Vec<u8>> {
        let longer = |side: &Vec<u8>| [A, B, X, Y].map(|token| [&side[..], &[token]].concat());
        sides.iter().flat_map(longer).collect()
    };
    let one = longer(&[vec![]]);
    let two = longer(&one);
    let three = longer(&two);
    let shorter = [vec![vec![]], one, two].concat();
    let sides = [&shorter[..], &three].concat();
    let label = |side: &[u8], x: &[u8], y: &[u8]| {
        let part = |&token: &u8| match token {
            X => x.to_vec(),
            Y => y.to_vec(),
            _ => vec![token],
        };
        side.iter().flat_map(part).collect::<Vec<u8>>()
    };
    let mut only_old = 0;
    for left in &sides {
        for right in &shorter {
            // A clash of texts of at most two characters, the empty one among
            // them or not.
            let clash = |shortest: usize| {
                let some = || texts.iter().filter(move |text| text.len() >= shortest);
                some().any(|x| some().any(|y| label(left, x, y) == label(right, x, y)))
            };
            let [(now, _), (before, _)] = counts(left, right);
            assert!(now != 1 || !clash(1), "{left:?} {right:?}");
            assert!(before != 1 || !clash(0), "{left:?} {right:?}");
            only_old += usize::from(now == 1 && before == 0);
        }
    }
    assert!(only_old > 50, "{only_old}");
}

// --------------------------------------------------------------- into a buffer

#[test]
fn a_buffer_too_short() {
    let old = with(&[], &[X, A], &[Y]);
    let new = with(&[added(0), added(1)], &[X, A], &[Y]);
    for length in 0..60 {
        let mut output = vec![ANSWER_FILL; length];
        let told = sheet_into(&old, &mut output);
        let fits = length >= new.len();
        let (number, written) = if fits { (0, new.len()) } else { (41, 0) };
        assert_eq!(told, Spelt { number, place: 0, written });
        assert_eq!(output[..written], new[..written]);
        assert!(output[written..].iter().all(|&byte| byte == ANSWER_FILL));
    }
    // The sheet's own refusals come first.
    let mut output = [ANSWER_FILL; 3];
    let told = sheet_into(b"LE\x01\x2bRI\x00", &mut output);
    assert_eq!(told, Spelt { number: 17, place: 3, written: 0 });
    assert_eq!(sheet_into(b"", &mut []), Spelt { number: 11, place: 0, written: 0 });
    assert_eq!(output, [ANSWER_FILL; 3]);
    // A sheet that comes out unchanged needs its own length.
    let plain = with(&[], &[A], &[B]);
    let mut output = vec![0; plain.len()];
    assert_eq!(sheet_into(&plain, &mut output[1..]).number, 41);
    assert_eq!(sheet_into(&plain, &mut output).number, 0);
    assert_eq!(output, plain);
}

#[test]
fn a_buffer_too_short_for_a_rule() {
    let (old, new) = (rule(&[], &[A, Y]), rule(&[added(1)], &[A, Y]));
    for length in 0..30 {
        let mut output = vec![ANSWER_FILL; length];
        let told = rule_into(&old, &mut output);
        let (number, written) = if length >= new.len() { (0, new.len()) } else { (41, 0) };
        assert_eq!(told, Spelt { number, place: 0, written });
        assert_eq!(output[..written], new[..written]);
        assert!(output[written..].iter().all(|&byte| byte == ANSWER_FILL));
    }
    // 11 to 17, then 31, then 41.
    let mut output = [ANSWER_FILL; 3];
    let told = |number, place| Spelt { number, place, written: 0 };
    assert_eq!(rule_into(&rule(&[], &[68, 72]), &mut output), told(17, 6));
    assert_eq!(rule_into(&rule(&[], &[68, X]), &mut output), told(31, 0));
    assert_eq!(rule_into(&rule(&[], &[67, X]), &mut output), told(41, 0));
    assert_eq!(output, [ANSWER_FILL; 3]);
}

#[test]
fn lines_of_a_stream() {
    let line = |answer, sheet: &[u8]| Case { work: 0, answer, sheet: sheet.to_vec() }.spelt();
    let refused = |numbers: &str| format!("{numbers}, written, rest unchanged");
    for answer in [16, 17, 4_096] {
        assert_eq!(
            line(answer, b"LE\x01\x40RI\x01\x0a"),
            "0 0 16, written 50 41 00 04 44 41 00 2a 4c 45 01 40 52 49 01 0a, rest unchanged"
        );
    }
    assert_eq!(line(15, b"LE\x01\x40RI\x01\x0a"), refused("41 0 0"));
    assert_eq!(line(6, b"LE\x00RI\x00"), "0 0 6, written 4c 45 00 52 49 00, rest unchanged");
    assert_eq!(line(0, b"LE\x00RI\x00"), refused("41 0 0"));
    assert_eq!(line(0, b"LE\x00RI\x00\x00"), refused("12 6 0"));
    assert_eq!(line(99, b"LE\x00RI\x01\x48"), refused("17 6 0"));
    assert_eq!(line(99, b""), refused("11 0 0"));
    // A rule, by its mark.
    assert_eq!(
        line(14, b"RULE\x01\x41"),
        "0 0 14, written 52 55 50 41 01 04 44 41 00 2a 4c 45 01 41, rest unchanged"
    );
    assert_eq!(line(13, b"RULE\x01\x41"), refused("41 0 0"));
    assert_eq!(line(5, b"RULE\x00"), "0 0 5, written 52 55 4c 45 00, rest unchanged");
    assert_eq!(line(0, b"RULE\x01\x44"), refused("31 0 0"));
    assert_eq!(line(0, b"RULE\x02\x44\x48"), refused("17 6 0"));
    assert_eq!(line(99, b"RULE\x00RI\x00"), refused("12 5 0"));
    assert_eq!(line(99, b"RU"), refused("11 2 0"));
    assert_eq!(line(99, b"R"), refused("11 1 0"));
    assert_eq!(line(99, b"RILE\x00"), refused("12 0 0"));
}

/// The part of a line of `--many` that tells the answer buffer is the same.
#[test]
fn the_buffer_is_told_as_the_answer_buffer_is() {
    let sheet = b"LE\x01\x40RI\x01\x0a".to_vec();
    let case = Case { work: 0, answer: 20, sheet };
    let line = case.spelt();
    let mut after = case.run(second::answer);
    let (from, spelt) = (line.find(", written").unwrap(), spell_open::sheet(&case.sheet).unwrap());
    after.outcome.written = spelt.len();
    after.answer[..spelt.len()].copy_from_slice(&spelt);
    let many = after.line();
    let (many_from, to) = (many.find(", written").unwrap(), many.find(", work").unwrap());
    assert_eq!(line[from..], many[many_from..to]);
}

#[test]
fn many_lines() {
    let mut seen = BTreeMap::new();
    for case in cases(25, 6_000) {
        *seen.entry(line_of(&case)).or_insert(0) += 1;
    }
    // Just long enough, and one byte too short.
    for (number, by) in [(0, 0), (0, 2), (41, -1), (41, -2)] {
        let kind = (number, Some(by));
        assert!(seen.get(&kind).is_some_and(|&times| times > 100), "{kind:?}: {seen:?}");
    }
}

/// Number of the line, and by how much the buffer is longer than what is
/// written, at most two bytes more or less.
fn line_of(case: &Case) -> (u8, Option<i64>) {
    let is_rule = case.sheet.starts_with(b"RU");
    let new = if is_rule { spell_open::rule(&case.sheet) } else { spell_open::sheet(&case.sheet) };
    let (number, place, bytes, by) = match new {
        Err(Fault { number, place }) => (number, place, vec![], None),
        Ok(new) => {
            let by = i64::from(case.answer) - new.len() as i64;
            let (number, bytes) = if by < 0 { (41, vec![]) } else { (0, new) };
            (number, 0, bytes, Some(by.clamp(-2, 2)))
        }
    };
    let hex: String = bytes.iter().map(|byte| format!(" {byte:02x}")).collect();
    let numbers = format!("{number} {place} {}", bytes.len());
    assert_eq!(case.spelt(), format!("{numbers}, written{hex}, rest unchanged"));
    (number, by)
}

/// What the maker makes: a third of it has strays, and all kinds are there once they
/// are taken out.
#[test]
fn all_kinds_are_made() {
    let (mut seen, mut added_to, mut patterned) =
        (BTreeMap::new(), BTreeMap::new(), BTreeMap::new());
    let (mut none, mut both_sides, mut strays) = (0, 0, [0; 2]);
    for case in spelt_cases(30, 8_000) {
        let is_rule = case.sheet.starts_with(b"RU");
        strays[usize::from(is_rule)] += usize::from(line_of(&case).0 == 22);
        let case = kept::spelt(case);
        let (number, by) = line_of(&case);
        *seen.entry((is_rule, number, by)).or_insert(0) += 1;
        none += usize::from(case.answer == 0 && number == 41);
        if by.is_none() {
            continue;
        }
        let bytes = if is_rule { &case.sheet[2..] } else { &case.sheet[..] };
        let (patterns, sides) = records(bytes);
        let fields = standing(sides);
        let has: BTreeSet<u8> = patterns.iter().map(|(field, _)| *field).collect();
        let open = fields.difference(&has).count();
        assert!(has.is_subset(&fields));
        *added_to.entry((is_rule, open)).or_insert(0) += 1;
        *patterned.entry((is_rule, fields.len() > open, open > 0)).or_insert(0) += 1;
        // One without a pattern on the right alone.
        let left = standing(&sides[..3 + usize::from(sides[2])]);
        both_sides += usize::from(!is_rule && fields.difference(&left).any(|of| !has.contains(of)));
    }
    for is_rule in [false, true] {
        for number in 11..18 {
            let kind = (is_rule, number, None);
            assert!(seen.get(&kind).is_some_and(|&times| times >= 20), "{kind:?}: {seen:?}");
        }
        // Just long enough, a byte more, one less, more and less.
        for (number, by) in [(0, 0), (0, 1), (0, 2), (41, -1), (41, -2)] {
            let kind = (is_rule, number, Some(by));
            assert!(seen.get(&kind).is_some_and(|&times| times >= 60), "{kind:?}: {seen:?}");
        }
        for open in 0..if is_rule { 5 } else { 8 } {
            let kind = (is_rule, open);
            assert!(added_to.get(&kind).is_some_and(|&times| times >= 5), "{added_to:?}");
        }
        // Patterns of fields that stand, and fields without one, in each way
        // together.
        for of in 0..4 {
            let kind = (is_rule, of & 1 > 0, of & 2 > 0);
            assert!(patterned.get(&kind).is_some_and(|&times| times >= 20), "{patterned:?}");
        }
        assert!(strays[usize::from(is_rule)] >= 1_000, "{strays:?}");
    }
    let above_3 = seen.get(&(true, 31, None)).copied().unwrap_or(0);
    assert!(above_3 >= 100 && !seen.contains_key(&(false, 31, None)), "{seen:?}");
    assert!(none >= 50 && both_sides >= 100, "{none} {both_sides}");
    assert_eq!(spelt_cases(30, 100), spelt_cases(30, 8_000)[..100]);
    assert_ne!(spelt_cases(30, 10), spelt_cases(31, 10));
}

// ---------------------------------------------------------- rules and catalogues

#[test]
fn each_byte_of_a_rule() {
    let old = b"RULE\x02\x0a\x43";
    let new = b"RUPA\x03\x04\x44\x41\x00\x2aLE\x02\x0a\x43";
    assert_eq!(spell_open::rule(old), Ok(new.to_vec()));
    assert_eq!(spell_open::rule(new), Ok(new.to_vec()));
}

#[test]
fn rules() {
    let one = [pattern(1, &[4])];
    let spells = |patterns: &[Vec<u8>], side: &[u8], expected: &[Vec<u8>]| {
        assert_eq!(spell_open::rule(&rule(patterns, side)), Ok(rule(expected, side)));
        assert_eq!(spell_open::rule(&rule(expected, side)), Ok(rule(expected, side)));
    };
    spells(&[], &[], &[]);
    spells(&[], &[A, B], &[]);
    spells(&[], &[67, 64, 66, 65], &[added(0), added(1), added(2), added(3)]);
    spells(&one, &[67, 64, 65], &[added(0), one[0].clone(), added(3)]);
    spells(&one, &[65, 65], &one);
}

#[test]
fn a_refused_rule() {
    let told = |number, place| Err(Fault { number, place });
    assert_eq!(spell_open::rule(b""), told(11, 0));
    assert_eq!(spell_open::rule(b"RULE\x01"), told(11, 5));
    assert_eq!(spell_open::rule(&with(&[], &[X], &[])), told(12, 0));
    assert_eq!(spell_open::rule(b"RULE\x01\x40\x00"), told(12, 6));
    assert_eq!(spell_open::rule(&rule(&[pattern(8, &[4])], &[X])), told(13, 4));
    assert_eq!(spell_open::rule(b"RULE\x19"), told(14, 4));
    assert_eq!(spell_open::rule(&rule(&[pattern(0, &[4, 4])], &[X])), told(15, 7));
    let leaves = [vec![66; 63], vec![7; 64]].concat();
    assert_eq!(spell_open::rule(&rule(&[pattern(0, &leaves)], &[X])), told(16, 132));
    assert_eq!(spell_open::rule(&rule(&[], &[X, 43])), told(17, 6));
    // A field above 3, behind 11 to 17.
    for field in 4..8 {
        assert_eq!(spell_open::rule(&rule(&[], &[A, 64 + field])), told(31, 0));
        let of_field = |side: &[u8]| rule(&[pattern(field, &[4])], side);
        assert_eq!(spell_open::rule(&of_field(&[64 + field])), told(31, 0));
        assert_eq!(spell_open::rule(&of_field(&[A])), told(22, 2));
        assert_eq!(spell_open::rule(&rule(&[], &[64 + field, 72])), told(17, 6));
    }
}

/// Catalogues of the form come out with each rule spelt.
#[test]
fn catalogues() {
    let old = [rule(&[], &[X]), rule(&[pattern(0, &[4])], &[X]), rule(&[], &[A, 66, 0])];
    let new = old.clone().map(|rule| spell_open::rule(&rule).unwrap()).concat();
    let old = old.concat();
    assert_eq!(new.len(), old.len() + 16);
    for length in old.len()..new.len() + 20 {
        let mut before = old.clone();
        before.resize(length, 0);
        let mut after = before.clone();
        let number = spell_open::catalogue(&mut after);
        if length < new.len() {
            // The records no longer fit, and the buffer is unchanged.
            assert_eq!((number, after), (32, before));
        } else {
            assert_eq!(number, 0);
            assert_eq!(after[..new.len()], new);
            assert!(after[new.len()..].iter().all(|&byte| byte == 0));
            // Again, there is nothing to add.
            let mut again = after.clone();
            assert_eq!((spell_open::catalogue(&mut again), again), (0, after));
        }
    }
    for empty in [vec![], vec![0; 9], rule(&[], &[A, B])] {
        let mut after = empty.clone();
        assert_eq!((spell_open::catalogue(&mut after), after), (0, empty));
    }
}

#[test]
fn a_catalogue_of_another_form() {
    let good = rule(&[], &[X]);
    let wrong: [Vec<u8>; 7] = [
        b"R".to_vec(),
        b"RULE\x01".to_vec(),
        [&good[..], &[0, 1]].concat(),
        [&[0][..], &good].concat(),
        [&good[..], &rule(&[], &[43])].concat(),
        [&good[..], &rule(&[], &[68])].concat(),
        good.repeat(33),
    ];
    for before in wrong {
        for zeros in [0, 400] {
            let before = [&before[..], &vec![0; zeros]].concat();
            // A zero more is a rule's last character.
            if before.starts_with(b"RULE\x01\x00") {
                continue;
            }
            let mut after = before.clone();
            assert_eq!((spell_open::catalogue(&mut after), after), (34, before));
        }
    }
}

#[test]
fn many_catalogues() {
    let mut seen = BTreeMap::new();
    let mut calls = Calls::new(HASHING);
    for operation in operations(&mut Dice::new(26), 4_000) {
        // No pair is searched here: catalogues come as they are.
        if !matches!(operation, Operation::Catalogue { .. }) {
            continue;
        }
        calls.run(&operation);
        let before = calls.catalogue.clone();
        let mut after = before.clone();
        let number = spell_open::catalogue(&mut after);
        let expected = match second::catalogue::read(&before) {
            None => (34, before.clone()),
            Some(present) => {
                let spelt = present.iter().map(|rule| {
                    let old = &before[rule.bytes.clone()];
                    let new = spell_open::rule(old).unwrap();
                    assert_eq!(&new[..2], b"RU");
                    carried_over(&old[2..], &new[2..]);
                    new
                });
                let mut spelt = spelt.collect::<Vec<_>>().concat();
                if spelt.len() > before.len() {
                    (32, before.clone())
                } else {
                    spelt.resize(before.len(), 0);
                    (0, spelt)
                }
            }
        };
        *seen.entry((number, after != before)).or_insert(0) += 1;
        assert_eq!((number, after), expected);
    }
    for kind in [(0, false), (0, true), (32, false), (34, false)] {
        assert!(seen.get(&kind).is_some_and(|&times| times >= 5), "{kind:?}: {seen:?}");
    }
}

// -------------------------------------------- pairs of a catalogue carried over

/// The sheet of two rules: the right one has its fields as 4 to 7.
fn pair(left: &[u8], right: &[u8]) -> Vec<u8> {
    let ((patterns, left), (others, right)) = (records(&left[2..]), records(&right[2..]));
    let mut bytes: Vec<u8> = patterns.into_iter().flat_map(|(_, record)| record).collect();
    for (_, mut record) in others {
        record[2] += 4;
        bytes.extend(record);
    }
    bytes.extend_from_slice(left);
    bytes.extend_from_slice(b"RI");
    bytes.push(right[2]);
    bytes.extend(right[3..].iter().map(|&token| if token < 64 { token } else { token + 4 }));
    bytes
}

/// The pairs of the rules that the old meaning doesn't answer with 1, as a
/// recheck lists them.
fn old_list(rules: &[Vec<u8>], room: usize) -> Vec<u8> {
    let mut list = Vec::new();
    for (lower, left) in rules.iter().enumerate() {
        for (higher, right) in rules.iter().enumerate().skip(lower + 1) {
            let found = search(&old_question(&pair(left, right)), room);
            if found.ending != Ending::NoClash {
                list.extend([lower as u8, higher as u8, found.ending.number()]);
                list.extend((found.count as u16).to_le_bytes());
            }
        }
    }
    list
}

/// What a recheck lists.
fn list(kept: &[u8], room: usize) -> Vec<u8> {
    let mut list = vec![0; 2_560];
    let mut work = vec![0; room * SITUATION_BYTES];
    let told = recheck(kept, &mut work, &mut list, HASHING);
    assert_eq!(told.number, 0);
    list[..told.written].to_vec()
}

/// The recheck of a catalogue that is carried over lists the pairs that the old
/// meaning would.
fn rechecked(before: &[u8], room: usize) -> Option<(Vec<u8>, Vec<u8>)> {
    let mut after = before.to_vec();
    if spell_open::catalogue(&mut after) != 0 {
        return None;
    }
    let present = second::catalogue::read(before)?.into_iter();
    let rules: Vec<Vec<u8>> = present.map(|rule| before[rule.bytes].to_vec()).collect();
    let carried = list(&after, room);
    assert_eq!(carried, old_list(&rules, room), "{before:?}");
    Some((list(before, room), carried))
}

#[test]
fn pairs_are_answered_by_the_old_meaning() {
    let (mut different, mut same) = (0, 0);
    let mut calls = Calls::new(HASHING);
    for operation in operations(&mut Dice::new(27), 3_000) {
        if !matches!(operation, Operation::Catalogue { .. }) {
            continue;
        }
        calls.run(&operation);
        if let Some((now, carried)) = rechecked(&calls.catalogue, 60) {
            *(if now == carried { &mut same } else { &mut different }) += 1;
        }
    }
    assert!(different > 20 && same > 20, "{different} {same}");
}

#[test]
fn a_kept_catalogue() {
    // `AB` and `A`x`B`, entered by the present meaning; by the old one they
    // clash: Bh|yBk, h|k, h|y'Bk, |k, h|, h'|k', |y'Bk, h|Bk, h'|y'Bk, |
    let rules = [rule(&[], &[A, B]), rule(&[], &[A, X, B])].concat();
    let kept = [&rules[..], &[0; 20]].concat();
    let (now, carried) = rechecked(&kept, 356).unwrap();
    assert_eq!((now, carried), (vec![], vec![0, 1, 0, 10, 0]));
}

#[test]
fn the_storerooms_catalogues() {
    let mut carried = 0;
    let mut calls = Calls::new(HASHING);
    for storeroom::Row { operation, .. } in storeroom::rows() {
        calls.run(&operation);
        if matches!(operation, Operation::Add(_) | Operation::Withdraw(_)) {
            carried += usize::from(rechecked(&calls.catalogue, 40).is_some());
        }
    }
    assert!(carried > 20, "{carried}");
}

// --------------------------------------------------------------- the program

/// What the program writes, what it writes to standard error, and its status.
fn program(mode: &str, input: &[u8]) -> (Vec<u8>, String, Option<i32>) {
    let mut child = Command::new(env!("CARGO_BIN_EXE_second"))
        .arg(mode)
        .stdin(Stdio::piped())
        .stdout(Stdio::piped())
        .stderr(Stdio::piped())
        .spawn()
        .unwrap();
    child.stdin.take().unwrap().write_all(input).unwrap();
    let output = child.wait_with_output().unwrap();
    (output.stdout, String::from_utf8(output.stderr).unwrap(), output.status.code())
}

#[test]
fn the_program_writes_the_sheet_or_the_rule() {
    for old in good(28, 40) {
        let new = spell_open::sheet(&old).unwrap();
        assert_eq!(program("--spell-open", &old), (new, String::new(), Some(0)));
    }
    let (old, new) = (rule(&[], &[A, 66]), rule(&[added(2)], &[A, 66]));
    assert_eq!(program("--spell-open-rule", &old), (new, String::new(), Some(0)));
    let refused = |line: &str| (Vec::new(), line.to_string(), Some(1));
    assert_eq!(program("--spell-open", b"LE\x01\x2b"), refused("17 3\n"));
    assert_eq!(program("--spell-open", b""), refused("11 0\n"));
    assert_eq!(program("--spell-open", &old), refused("12 0\n"));
    assert_eq!(program("--spell-open-rule", &rule(&[], &[68])), refused("31 0\n"));
    assert_eq!(program("--spell-open-rule", b"RULE\x02\x44"), refused("11 6\n"));
}

#[test]
fn the_program_reads_a_stream() {
    let cases = [cases(29, 60), spelt_cases(29, 60)].concat();
    let mut stream = Vec::new();
    cases.iter().for_each(|case| case.write(&mut stream));
    let lines: String = cases.iter().map(|case| case.spelt() + "\n").collect();
    assert_eq!(program("--spelt", &stream), (lines.into_bytes(), String::new(), Some(0)));
}

/// What a maker writes for these arguments.
fn sheets(arguments: &[&str]) -> (Vec<u8>, Option<i32>) {
    let output = Command::new(env!("CARGO_BIN_EXE_sheets")).args(arguments).output().unwrap();
    (output.stdout, output.status.code())
}

#[test]
fn the_maker_writes_a_stream() {
    let mut stream = Vec::new();
    spelt_cases(6, 70).iter().for_each(|case| case.write(&mut stream));
    assert_eq!(sheets(&["--spelt", "6", "70"]), (stream, Some(0)));
    assert_eq!(sheets(&["--spelt", "6"]), (vec![], Some(2)));
    assert_eq!(sheets(&["--spelt", "6", "x"]), (vec![], Some(2)));
}
