//! Sheets and rules with stray patterns, from a seed and one by one: before, between
//! and behind the patterns of fields that stand, alone and several, and beside every
//! other fault, so that the order of the checks is seen. Some have none, or just
//! don't: their fields stand in one side alone.

use std::ops::Range;

use super::damages::{damaged, wrong_tokens};
use super::said::Said;
use super::spelt::{around, field_above_3, records};
use super::written::full;
use super::{alphabet, any_answer_length, any_room, exactly, good, pattern, plainly, said};
use super::{with_chosen_buffers, work_length, write_out, Dice, Record, MOST_SIDE};
use crate::calls::Operation;
use crate::cases::Case;
use crate::catalogue::{MOST_RULES, RULE, RULE_FIELDS};
use crate::edition::{Edition, FIRST, SECOND};
use crate::pattern::{MANY, MOST_LEAVES, OR, RANGE, THEN};
use crate::sheet::{read, FIELDS, LEFT, MOST_PATTERN, PATTERN, PATTERN_HEAD, RIGHT, SIDE_HEAD};
use crate::write::{self, values};
use crate::{drop_strays, writer, SITUATION_BYTES};

// --------------------------------------------------------------- from a seed

/// One case, a sheet. Where it is refused, its answer buffer is mostly around the
/// length that it has without its strays.
pub fn case(dice: &mut Dice) -> Case {
    let sheet = sheet(dice);
    if read(&sheet).is_ok() && !dice.one_in(4) {
        return with_chosen_buffers(dice, sheet);
    }
    let room = if dice.one_in(2) { dice.below(3) } else { any_room(dice) };
    let answer = if dice.one_in(4) { any_answer_length(dice) } else { length(dice, &sheet) };
    Case { work: work_length(dice, room), answer, sheet }
}

/// One case to drop the strays of; its bytes are a rule's where they begin with
/// `RU`.
pub fn dropped(dice: &mut Dice) -> Case {
    let bytes = if dice.one_in(2) { sheet(dice) } else { rule(dice) };
    // Nothing is searched, so the work is never used.
    let room = dice.below(3);
    Case { work: work_length(dice, room), answer: length(dice, &bytes), sheet: bytes }
}

/// A length of the output buffer around the one that is needed.
fn length(dice: &mut Dice, bytes: &[u8]) -> u32 {
    let needed = without(bytes).map_or(bytes.len(), |dropped| dropped.len());
    around(dice, needed, bytes)
}

/// The sheet or the rule without its strays; none for one at fault.
fn without(bytes: &[u8]) -> Option<Vec<u8>> {
    let drop = if bytes.starts_with(RULE) { drop_strays::rule } else { drop_strays::sheet };
    drop(bytes).ok()
}

fn sheet(dice: &mut Dice) -> Vec<u8> {
    let mut made = match dice.below(8) {
        0 | 1 => records(dice, FIELDS, &[LEFT, RIGHT]),
        2 | 3 => plainly::any(dice),
        _ => good(dice),
    };
    let wrong = any_wrong(dice, 2, 0..FIELDS as u8, &mut made);
    match wrong {
        Wrong::Nothing => said(dice, &made),
        Wrong::Anything => damaged(dice, &[], 2, made),
        Wrong::Late => {
            late(dice, 2, &mut made);
            let sheet = said(dice, &made);
            with_a_late_end(dice, sheet)
        }
    }
}

fn rule(dice: &mut Dice) -> Vec<u8> {
    let mut made = records(dice, RULE_FIELDS, &[LEFT]);
    let above_3 = dice.one_in(8);
    let fields = 0..if dice.one_in(8) { FIELDS } else { RULE_FIELDS } as u8;
    let wrong = any_wrong(dice, 1, fields, &mut made);
    if above_3 {
        // No other one, so that the fields are still rising.
        made.retain(|record| record.field.is_none_or(|field| usize::from(field) < RULE_FIELDS));
        field_above_3(dice, &mut made);
    }
    match wrong {
        // A rule never has an edition's record.
        Wrong::Nothing => {
            let other = dice.edition != FIRST && dice.one_in(8);
            let edition = if other { dice.edition } else { FIRST };
            [RULE, &Said::by_sign(edition).records(&made)[..]].concat()
        }
        Wrong::Anything => damaged(dice, RULE, 1, made),
        Wrong::Late => {
            late(dice, 1, &mut made);
            let rule = [RULE, &write_out(&made)[..]].concat();
            with_a_late_end(dice, rule)
        }
    }
}

/// What is wrong beside the strays.
enum Wrong {
    Nothing,
    Anything,
    /// Behind all patterns.
    Late,
}

/// Strays for some of the records, no stray for others, and what else is wrong.
fn any_wrong(dice: &mut Dice, sides: usize, fields: Range<u8>, made: &mut Vec<Record>) -> Wrong {
    let kind = dice.below(20);
    if kind < 4 || dice.one_in(2) {
        keep_standing(sides, made);
    }
    if kind >= 4 {
        add(dice, sides, fields, made);
    }
    match kind {
        0..12 => Wrong::Nothing,
        12..17 => Wrong::Anything,
        _ => Wrong::Late,
    }
}

/// The tokens of the sides, which stand behind the patterns.
fn tokens_of(sides: usize, made: &[Record]) -> Vec<u8> {
    made[made.len() - sides..].iter().flat_map(|side| side.body.clone()).collect()
}

/// Takes the strays out again.
fn keep_standing(sides: usize, made: &mut Vec<Record>) {
    let tokens = tokens_of(sides, made);
    made.retain(|record| record.field.is_none_or(|field| tokens.contains(&write::field(field))));
}

/// One to three strays, now and then as many as there can be, each in its place
/// among the other patterns; often the first field or the last one.
pub(super) fn add(dice: &mut Dice, sides: usize, fields: Range<u8>, made: &mut Vec<Record>) {
    let tokens = tokens_of(sides, made);
    let has_none = |field: &u8| made.iter().all(|record| record.field != Some(*field));
    let mut free: Vec<u8> = fields.clone().filter(has_none).collect();
    free.retain(|&field| !tokens.contains(&write::field(field)));
    dice.shuffle(&mut free);
    if dice.one_in(3) {
        free.sort_by_key(|&field| field != fields.start && field + 1 != fields.end);
    }
    free.truncate(dice.pick(&[1, 1, 1, 2, 2, 3, FIELDS]));
    for field in free {
        let at = made.iter().filter(|record| record.field.is_some_and(|of| of < field)).count();
        made.insert(at, Record::pattern(field, stray(dice)));
    }
}

/// A good pattern: small, of 192 bytes, or a text that would be a mark.
fn stray(dice: &mut Dice) -> Vec<u8> {
    match dice.below(12) {
        0 => full(dice, MOST_PATTERN),
        1 => exactly(&values(dice.pick(&["PA", "LE", "RI", "ED", "RU"]))),
        2 => vec![64],
        _ => {
            let (alphabet, budget) = (alphabet(dice), dice.between(1, 5));
            pattern(dice, &alphabet, budget)
        }
    }
}

/// A side with another mark, length or token.
fn late(dice: &mut Dice, sides: usize, made: &mut [Record]) {
    let at = made.len() - 1 - dice.below(sides);
    let side = &mut made[at];
    match dice.below(6) {
        0 => side.mark = *dice.pick(&[PATTERN, LEFT, RIGHT, b"ED", b"RU", b"le"]),
        1 => side.length = dice.pick(&[MOST_SIDE as u8 + 1, 255, side.length + 1]),
        2 | 3 => wrong_tokens(dice, side),
        _ => {}
    }
}

/// Bytes left over behind the last side, or a few bytes missing.
fn with_a_late_end(dice: &mut Dice, mut bytes: Vec<u8>) -> Vec<u8> {
    match dice.below(4) {
        0 => bytes.truncate(bytes.len() - dice.between(1, SIDE_HEAD).min(bytes.len())),
        1 | 2 => bytes.extend((0..dice.between(1, 3)).map(|_| dice.pick(b"PALERI\0"))),
        _ => {}
    }
    bytes
}

/// A good rule, with strays among its fields, and seldom above them.
pub(super) fn into_rule(dice: &mut Dice, rule: &[u8]) -> Vec<u8> {
    let mut made = records_of(&rule[RULE.len()..]);
    let fields = 0..if dice.one_in(20) { FIELDS } else { RULE_FIELDS } as u8;
    add(dice, 1, fields, &mut made);
    [RULE, &write_out(&made)[..]].concat()
}

/// The records of a good rule or sheet, without what stands in front.
fn records_of(bytes: &[u8]) -> Vec<Record> {
    let mut made = Vec::new();
    let mut rest = bytes;
    while !rest.is_empty() {
        let is_pattern = rest.starts_with(PATTERN);
        let head = if is_pattern { PATTERN_HEAD } else { SIDE_HEAD };
        let (record, behind) = rest.split_at(head + usize::from(rest[head - 1]));
        let (mark, field) = ([record[0], record[1]], is_pattern.then(|| record[2]));
        made.push(Record { mark, field, length: record[head - 1], body: record[head..].to_vec() });
        rest = behind;
    }
    made
}

// ----------------------------------------------------------------- one by one

/// Room for so many situations.
const ROOM: usize = 40;

/// Sheets of an edition, each with an answer buffer that holds it without its
/// strays.
pub fn each(edition: Edition) -> Vec<Case> {
    let case = |sheet: Vec<u8>| {
        let needed = without(&sheet).unwrap_or_default().len();
        Case { work: (ROOM * SITUATION_BYTES) as u32, answer: needed as u32, sheet }
    };
    sheets(edition).into_iter().map(case).collect()
}

/// The same sheets and as many rules, each with an output buffer that is just long
/// enough and with one that is not.
pub fn each_dropped(edition: Edition) -> Vec<Case> {
    let mut cases = Vec::new();
    for bytes in sheets(edition).into_iter().chain(rules()) {
        let lengths = match without(&bytes) {
            Some(dropped) => vec![dropped.len(), dropped.len() - 1],
            // A refusal comes before a short buffer.
            None => vec![0, bytes.len()],
        };
        let case = |length| Case { work: 0, answer: length as u32, sheet: bytes.clone() };
        cases.extend(lengths.into_iter().map(case));
    }
    cases
}

/// A field's own pattern, of one, two or three bytes.
fn own(edition: Edition, field: u8) -> Vec<u8> {
    let Edition { codes, .. } = edition;
    match field % 3 {
        0 => vec![codes + MANY, field],
        1 => vec![field],
        _ => vec![codes + RANGE, 0, field],
    }
}

/// The patterns of these fields, rising.
fn own_patterns(edition: Edition, fields: &[u8]) -> Vec<Record> {
    let mut fields = fields.to_vec();
    fields.sort_unstable();
    fields.into_iter().map(|field| Record::pattern(field, own(edition, field))).collect()
}

/// Characters that are field numbers, and such that are tokens of fields in the
/// first edition: they are no fields that stand.
fn no_fields(edition: Edition) -> Vec<u8> {
    let numbers = [0, 1, 3, 4, 6, 7];
    let tokens = numbers.map(|field| FIRST.field(field));
    numbers.into_iter().chain(tokens).filter(|&byte| edition.has(byte)).collect()
}

/// All subsets of these fields.
fn subsets(of: &[u8]) -> Vec<Vec<u8>> {
    let subset = |mask: usize| {
        let chosen = of.iter().enumerate().filter(|(at, _)| mask & (1 << at) != 0);
        chosen.map(|(_, &field)| field).collect()
    };
    (0..1 << of.len()).map(subset).collect()
}

fn sides(left: Vec<u8>, right: Vec<u8>) -> Vec<Record> {
    vec![Record::side(LEFT, left), Record::side(RIGHT, right)]
}

fn sheets(edition: Edition) -> Vec<Vec<u8>> {
    let sheet = |records: Vec<Record>| [edition.record, &write_out(&records)].concat();
    let field = |number: u8| edition.field(number);
    let all: Vec<u8> = (0..FIELDS as u8).collect();
    let mut made: Vec<Vec<Record>> = Vec::new();
    // Field 2 stands on the left and field 5 on the right; each set of strays
    // before, between and behind them.
    let apart = || {
        let with = |number: u8| [&[field(number)][..], &no_fields(edition)].concat();
        sides(with(2), with(5))
    };
    for strays in subsets(&[0, 1, 3, 4, 6, 7]) {
        let patterns = own_patterns(edition, &[&strays[..], &[2, 5]].concat());
        made.push([patterns, apart()].concat());
    }
    // The fields that stand have no pattern.
    for stray in [0, 1, 3, 4, 6, 7] {
        made.push([own_patterns(edition, &[stray]), apart()].concat());
    }
    // No field stands.
    for strays in all.iter().map(|&field| vec![field]).chain([all.clone(), Vec::new()]) {
        let none = sides(no_fields(edition), no_fields(edition));
        made.push([own_patterns(edition, &strays), none].concat());
    }
    // Every field has a pattern, and all stand, or all but one: on both sides, on
    // the left alone, on the right alone.
    for missing in (0..FIELDS as u8).map(Some).chain([None]) {
        let standing: Vec<u8> = all.iter().copied().filter(|&of| Some(of) != missing).collect();
        let (first, last) = standing.split_at(4);
        for [left, right] in [[first, last], [&standing, &[]], [&[], &standing]] {
            let [left, right] = [left, right].map(|of| of.iter().map(|&of| field(of)).collect());
            made.push([own_patterns(edition, &all), sides(left, right)].concat());
        }
    }
    // A field stands twice, in one side and in both.
    for [left, right] in [[vec![3, 3], vec![]], [vec![3], vec![3]], [vec![3, 4], vec![4, 3]]] {
        let [left, right] = [left, right].map(|of| of.into_iter().map(field).collect());
        made.push([own_patterns(edition, &[2, 3, 4, 5]), sides(left, right)].concat());
    }
    made.extend(longest(edition));
    made.extend(like_marks(edition));
    let mut bytes: Vec<Vec<u8>> = made.into_iter().map(sheet).collect();
    // Every other fault, with a stray before, between and behind.
    let patterns = own_patterns(edition, &[0, 2, 4, 5, 7]);
    let whole = [patterns, apart()].concat();
    bytes.extend(faults(edition, edition.record, &whole));
    for front in [&b"E"[..], b"ED", b"ED\0", b"ED\x01", b"ED\x02", b"ED\x03", b"ED\xff", RULE] {
        bytes.push([front, &write_out(&whole)].concat());
        bytes.push([front, edition.record, &write_out(&whole)].concat());
    }
    bytes
}

/// Patterns of 192 bytes: all fields but one stand, each of them in turn, and the
/// record of the stray begins as late as it can.
fn longest(edition: Edition) -> Vec<Vec<Record>> {
    let body = [vec![edition.codes + MANY; MOST_PATTERN - 1], vec![1]].concat();
    let patterns: Vec<Record> =
        (0..FIELDS as u8).map(|field| Record::pattern(field, body.clone())).collect();
    let without = |stray: Option<u8>| {
        let standing = (0..FIELDS as u8).filter(|&field| Some(field) != stray);
        let left: Vec<u8> = standing.map(|field| edition.field(field)).collect();
        [patterns.clone(), sides([&left[..], &[1; 16]].concat(), vec![1; MOST_SIDE])].concat()
    };
    [None, Some(0), Some(3), Some(7)].map(without).to_vec()
}

/// Strays with bytes that would be a record, behind `ED` alone, and with nothing but
/// the empty text.
fn like_marks(edition: Edition) -> Vec<Vec<Record>> {
    let Edition { codes, .. } = edition;
    let mut bodies = vec![vec![codes], vec![codes + OR, codes, 0]];
    for text in [&b"PA"[..], b"LE\0RI\0", b"RI", b"ED\x02", b"PA\0\x01\0"] {
        if edition == SECOND {
            bodies.push([&vec![codes + THEN; text.len() - 1], text].concat());
        }
    }
    let behind = |body: Vec<u8>| {
        let patterns = vec![Record::pattern(1, body.clone()), Record::pattern(6, body)];
        let one = |stands: u8| sides(vec![edition.field(stands), 9], vec![9]);
        [[patterns.clone(), one(1)].concat(), [patterns.clone(), one(6)].concat()]
    };
    bodies.into_iter().flat_map(behind).collect()
}

/// Each fault of each record, and what may stand behind them all.
fn faults(edition: Edition, front: &[u8], whole: &[Record]) -> Vec<Vec<u8>> {
    let bytes = |records: &[Record]| [front, &write_out(records)].concat();
    let good = bytes(whole);
    let mut all: Vec<Vec<u8>> = (0..good.len()).map(|length| good[..length].to_vec()).collect();
    for behind in [&b"\0"[..], b"P", b"PA", b"PA\x07\x01\0", b"LE\0", b"RI\0", b"ED\x02", b"RU"] {
        all.push([&good, behind].concat());
    }
    for at in 0..whole.len() {
        let mut other = whole.to_vec();
        other.remove(at);
        all.push(bytes(&other));
        other.insert(at, whole[at].clone());
        other.insert(at, whole[at].clone());
        all.push(bytes(&other));
        if at + 1 < whole.len() {
            let mut other = whole.to_vec();
            other.swap(at, at + 1);
            all.push(bytes(&other));
        }
        for damaged in damages(edition, &whole[at]) {
            let mut other = whole.to_vec();
            other[at] = damaged;
            all.push(bytes(&other));
        }
    }
    all
}

/// One thing is wrong with a record, or nearly.
fn damages(edition: Edition, record: &Record) -> Vec<Record> {
    let Edition { codes, characters, .. } = edition;
    let mut all = Vec::new();
    for mark in [b"XA", b"PX", b"PA", b"LE", b"RI", b"ED", b"RU", b"\0\0"] {
        all.push(Record { mark: *mark, ..record.clone() });
    }
    let least = if record.field.is_some() { 0 } else { 255 };
    let most = if record.field.is_some() { MOST_PATTERN } else { MOST_SIDE } as u8;
    for length in [least, record.length - 1, record.length + 1, most, most + 1, 255] {
        all.push(Record { length, ..record.clone() });
    }
    let with = |body: Vec<u8>| {
        let mut other = record.clone();
        other.set(body);
        other
    };
    if record.field.is_some() {
        for field in [0, 1, 3, 6, 7, 8, 64, 255] {
            all.push(Record { field: Some(field), ..record.clone() });
        }
        let range = codes + RANGE;
        for body in [&[codes + 5][..], &[characters], &[range, 1, 0], &[range, 1], &[1, 1]] {
            all.push(with(body.to_vec()));
        }
        let leaves = |number: usize| [vec![codes + THEN; number - 1], vec![1; number]].concat();
        all.extend([MOST_LEAVES, MOST_LEAVES + 1].map(|number| with(leaves(number))));
    } else {
        let tokens = &record.body;
        for byte in [characters, codes - 1, codes + 8, codes + 9, 255] {
            all.push(with([&tokens[..], &[byte]].concat()));
            all.push(with([&[byte][..], tokens].concat()));
        }
        all.push(with([&tokens[..], &vec![1; MOST_SIDE + 1 - tokens.len()]].concat()));
        // Other fields stand there: fewer strays, or others.
        for field in 0..FIELDS as u8 {
            all.push(with([&tokens[..], &[edition.field(field)]].concat()));
        }
        all.push(with(tokens[1..].to_vec()));
    }
    all
}

/// Rules: field 1 stands; each set of strays, those with a field above 3 too; and
/// every other fault beside strays.
fn rules() -> Vec<Vec<u8>> {
    let rule = |patterns: &[u8], tokens: Vec<u8>| {
        let records = [own_patterns(FIRST, patterns), vec![Record::side(LEFT, tokens)]].concat();
        [RULE, &write_out(&records)[..]].concat()
    };
    let tokens = || vec![FIRST.field(1), 0, 2, 3];
    let mut bytes = Vec::new();
    for strays in subsets(&[0, 2, 3, 4, 7]) {
        bytes.push(rule(&[&strays[..], &[1]].concat(), tokens()));
    }
    for stray in 0..FIELDS as u8 {
        // None with a pattern stands, and one with a field above 3.
        bytes.push(rule(&[stray], vec![0, 1, 2]));
        bytes.push(rule(&[stray], vec![FIRST.field(5)]));
        bytes.push(rule(&[0, 1, 2, 3, 4, 5, 6, 7], vec![FIRST.field(stray)]));
        let others = (0..RULE_FIELDS as u8).filter(|&field| field != stray);
        bytes.push(rule(&[0, 1, 2, 3], others.map(|field| FIRST.field(field)).collect()));
    }
    let whole = [own_patterns(FIRST, &[0, 1, 3]), vec![Record::side(LEFT, tokens())]].concat();
    bytes.extend(faults(FIRST, RULE, &whole));
    bytes.push([RULE, SECOND.record, &write_out(&whole)].concat());
    bytes
}

// ------------------------------------------------------------------ the writer

/// The same for the writer: each set of strays, in buffers that hold the sheet and in
/// shorter ones, every other fault beside them, and the longest sheets.
pub fn written(edition: Edition) -> Vec<writer::Case> {
    let field = |number: u8| edition.field(number);
    let case = |records: &[Record], left: &[u8], right: &[u8]| {
        let mut lengths = vec![0; FIELDS];
        for Record { field, body, .. } in records {
            lengths[usize::from(field.unwrap_or(0))] = body.len() as u64;
        }
        let patterns = records.iter().flat_map(|record| record.body.clone()).collect();
        let (left, right) = (left.to_vec(), right.to_vec());
        writer::Case { edition: edition.number(), lengths, patterns, left, right, output: 100 }
    };
    let (left, right) = ([field(2), 0, 1, 3], [4, field(5), 6]);
    let of = |strays: &[u8]| own_patterns(edition, &[strays, &[2, 5]].concat());
    let mut cases = Vec::new();
    for strays in subsets(&[0, 1, 3, 4, 6, 7]) {
        let good = case(&of(&strays), &left, &right);
        for output in [0, 20, 100] {
            cases.push(writer::Case { output, ..good.clone() });
        }
    }
    // Beside every other fault, in no buffer and in plenty.
    let good = case(&of(&[0, 4, 7]), &left, &right);
    let with = |change: &dyn Fn(&mut writer::Case)| {
        let mut other = good.clone();
        change(&mut other);
        other
    };
    let mut wrong = vec![with(&|case| case.edition = 3), with(&|case| case.edition = 258)];
    for at in [0, 2, 4, 5, 7] {
        wrong.push(with(&|case| case.lengths[at] += 1));
        wrong.push(with(&|case| case.lengths[at] = 193));
        wrong.push(with(&|case| case.lengths[at] = 256));
        wrong.push(with(&|case| case.lengths[at] = 0));
    }
    wrong.push(with(&|case| case.lengths.push(1)));
    wrong.push(with(&|case| case.lengths.extend([0, 1])));
    for cut in 0..good.patterns.len() {
        wrong.push(with(&|case| case.patterns.truncate(cut)));
        wrong.push(with(&|case| case.patterns[cut] = 255));
    }
    wrong.push(with(&|case| case.patterns.push(255)));
    for byte in [edition.characters, edition.codes + 8, 255] {
        wrong.push(with(&|case| case.left.push(byte)));
        wrong.push(with(&|case| case.right.push(byte)));
    }
    wrong.push(with(&|case| case.left.resize(25, 1)));
    wrong.push(with(&|case| case.right.resize(25, 1)));
    for number in 0..FIELDS as u8 {
        wrong.push(with(&|case| case.left.push(field(number))));
        wrong.push(with(&|case| case.right.push(field(number))));
    }
    for other in wrong {
        cases.push(writer::Case { output: 0, ..other.clone() });
        cases.push(other);
    }
    // The longest sheet, and with a stray in it, in just enough and in a byte less.
    for records in longest(edition) {
        let (patterns, sides) = records.split_at(FIELDS);
        let longest = case(patterns, &sides[0].body, &sides[1].body);
        let bytes = (edition.record.len() + write_out(&records).len()) as u16;
        for output in [bytes - 1, bytes, bytes + 1] {
            cases.push(writer::Case { output, ..longest.clone() });
        }
    }
    cases
}

// --------------------------------------------------------------- a catalogue

/// Operations on a catalogue: each of the rules added, standing alone and between
/// two others, and dropped there; and catalogues of many rules.
pub fn calls() -> Vec<Operation> {
    let label = |character: u8| write::rule(&[], &[character]);
    let (first, last) = (label(20), label(21));
    let mut operations = Vec::new();
    for rule in rules() {
        let anew = || Operation::Catalogue { length: 64, front: first.clone() };
        operations.extend([anew(), Operation::Add(rule.clone())]);
        operations.extend([anew(), Operation::AddDecided(rule.clone())]);
        let between = [&first[..], &rule, &last].concat();
        for front in [rule, between] {
            let length = front.len() + front.len() % 3;
            let catalogue = || Operation::Catalogue { length, front: front.clone() };
            operations.push(catalogue());
            operations.extend(asked(&first));
            operations.extend([catalogue(), Operation::Drop]);
            operations.extend(asked(&first));
            operations.push(Operation::Drop);
        }
    }
    operations.extend(many_rules());
    operations
}

/// All that reads a catalogue.
fn asked(rule: &[u8]) -> Vec<Operation> {
    vec![
        Operation::Recheck(20),
        Operation::RecheckDecided(28),
        Operation::Add(rule.to_vec()),
        Operation::AddDecided(rule.to_vec()),
        Operation::Carry,
        Operation::Withdraw(1),
    ]
}

/// As many rules as there can be, each with strays, one of them with strays, and one
/// too many; no byte left, zeros behind, and a byte behind those.
fn many_rules() -> Vec<Operation> {
    let rule = |character: u8, strays: &[u8]| {
        let patterns = own_patterns(FIRST, &[strays, &[1]].concat());
        let side = Record::side(LEFT, vec![character, FIRST.field(1)]);
        [RULE, &write_out(&[patterns, vec![side]].concat())[..]].concat()
    };
    let full = |number: usize, strays: &dyn Fn(usize) -> Vec<u8>| {
        let rules = (0..number).map(|of| rule(of as u8, &strays(of)));
        rules.collect::<Vec<Vec<u8>>>().concat()
    };
    let one = |of: usize| move |at: usize| if at == of { vec![0, 3] } else { vec![] };
    let fronts = [
        full(MOST_RULES, &|_| vec![0, 2, 3]),
        full(MOST_RULES, &|at| subsets(&[0, 2, 3])[at % 8].clone()),
        full(MOST_RULES, &one(0)),
        full(MOST_RULES, &one(MOST_RULES - 1)),
        full(MOST_RULES, &|_| vec![]),
        full(MOST_RULES + 1, &|_| vec![0]),
        full(MOST_RULES + 1, &one(MOST_RULES)),
        full(3, &|_| vec![0, 2]),
        full(0, &|_| vec![]),
    ];
    let mut operations = Vec::new();
    for front in fronts {
        let with = |behind: &[u8]| [&front[..], behind].concat();
        for front in [with(b""), with(&[0; 9]), with(b"\0\0R"), with(b"RU"), with(b"\x01")] {
            operations.push(Operation::Catalogue { length: front.len(), front });
            operations.extend([Operation::Recheck(20), Operation::Drop, Operation::Recheck(20)]);
            operations.extend([Operation::Withdraw(1), Operation::Add(rule(42, &[]))]);
            operations.push(Operation::Drop);
        }
    }
    operations
}
