//! Makes cases from a seed: good sheets of all kinds, damaged sheets, rooms
//! and answer buffers near their bounds. `spaces` makes the ends of labels,
//! `calls` operations on a catalogue with the same parts, `spelt` sheets and
//! rules to carry over, `damages` the faults of them all. `pairs` makes pairs of
//! rules as storerooms write them, `decided` cases to decide, with `uneven`,
//! `standings` and `lengths` for one attempt each, `written` what is handed to the
//! writer of sheets, `plainly` sheets for the engine for plain rules, `ascii` texts
//! to be spelt and read back, `ways` cases of the steps and of the player, `given`
//! texts whose way is asked for, `fronts` sides to be told apart. `said` says what is
//! made in the second edition. `strays` makes sheets and rules with stray patterns.
//!
//! Others have some too, as they had before those were refused. What is looked up
//! while such a case is made goes by the old rule, so that its stream stays as it
//! was; `kept` takes the strays out.

pub mod ascii;
pub mod calls;
mod damages;
pub mod decided;
pub mod editions;
pub mod fronts;
pub mod given;
pub mod kept;
mod lengths;
pub mod pairs;
pub mod plainly;
mod said;
mod spaces;
pub mod spelt;
mod standings;
pub mod strays;
mod uneven;
pub mod ways;
pub mod written;

use std::ops::Range;

use self::damages::{damaged, random_bytes};
use self::said::said;
use crate::cases::Case;
use crate::edition::{Edition, FIRST};
use crate::pattern::MOST_LEAVES;
use crate::sheet::{Reading, FIELDS, LEFT, MOST_PATTERN, MOST_SIDE, PATTERN, RIGHT};
use crate::storeroom::{by_first_letter, FINISHES};
use crate::write::{self, choice, field, row, tokens};
use crate::{spell_open, ANSWER_BUFFER_TOO_SHORT, CLASH, SITUATION_BYTES};

/// All is made in the bytes of the first edition; `said` says it in another.
const CHARACTERS: u8 = FIRST.characters;
const SPACE: u8 = FIRST.space;

/// A small deterministic generator (xorshift with a multiplication), and the
/// edition of the sheets that are made with it.
pub struct Dice {
    state: u64,
    edition: Edition,
}

impl Dice {
    /// For sheets of the first edition.
    pub fn new(seed: u64) -> Dice {
        Dice::of(seed, FIRST)
    }

    pub fn of(seed: u64, edition: Edition) -> Dice {
        let state = seed.wrapping_mul(0x9E37_79B9_7F4A_7C15) ^ 0x2545_F491_4F6C_DD1D;
        let mut dice = Dice { state: state.max(1), edition };
        for _ in 0..4 {
            dice.next();
        }
        dice
    }

    fn next(&mut self) -> u64 {
        self.state ^= self.state >> 12;
        self.state ^= self.state << 25;
        self.state ^= self.state >> 27;
        self.state.wrapping_mul(0x2545_F491_4F6C_DD1D) >> 16
    }

    /// A number below n.
    fn below(&mut self, n: usize) -> usize {
        (self.next() % n as u64) as usize
    }

    /// A number from lo to hi, both included.
    fn between(&mut self, lo: usize, hi: usize) -> usize {
        lo + self.below(hi - lo + 1)
    }

    fn one_in(&mut self, n: usize) -> bool {
        self.below(n) == 0
    }

    fn byte(&mut self) -> u8 {
        self.below(256) as u8
    }

    fn pick<T: Copy>(&mut self, list: &[T]) -> T {
        list[self.below(list.len())]
    }

    fn shuffle<T>(&mut self, list: &mut [T]) {
        for last in (1..list.len()).rev() {
            list.swap(last, self.below(last + 1));
        }
    }
}

/// A record before it is written out. The length byte is kept apart from the
/// body, so that it can be damaged.
#[derive(Clone)]
struct Record {
    mark: [u8; 2],
    field: Option<u8>,
    length: u8,
    body: Vec<u8>,
}

impl Record {
    fn pattern(field: u8, body: Vec<u8>) -> Record {
        Record { mark: *PATTERN, field: Some(field), length: body.len() as u8, body }
    }

    fn side(mark: &[u8; 2], body: Vec<u8>) -> Record {
        Record { mark: *mark, field: None, length: body.len() as u8, body }
    }

    /// Another body, and the length byte that is right for it.
    fn set(&mut self, body: Vec<u8>) {
        self.length = body.len() as u8;
        self.body = body;
    }
}

fn write_out(records: &[Record]) -> Vec<u8> {
    let mut sheet = Vec::new();
    for record in records {
        sheet.extend_from_slice(&record.mark);
        sheet.extend(record.field);
        sheet.push(record.length);
        sheet.extend_from_slice(&record.body);
    }
    sheet
}

/// One case.
pub fn case(dice: &mut Dice) -> Case {
    if dice.one_in(30) {
        let sheet = random_bytes(dice);
        return with_any_buffers(dice, sheet);
    }
    let records = good(dice);
    if dice.below(20) < 7 {
        let sheet = damaged(dice, &[], 2, records);
        return with_any_buffers(dice, sheet);
    }
    let sheet = said(dice, &records);
    with_chosen_buffers(dice, sheet)
}

// ---------------------------------------------------------------- buffers

/// A length of the working buffer for so many situations: mostly exact, else
/// one byte less, one more, or just below the next.
fn work_length(dice: &mut Dice, room: usize) -> u32 {
    let exact = room * SITUATION_BYTES;
    let length = match dice.below(8) {
        0 => exact.saturating_sub(1),
        1 => exact + 1,
        2 => exact + SITUATION_BYTES - 1,
        _ => exact,
    };
    length as u32
}

fn any_room(dice: &mut Dice) -> usize {
    match dice.below(40) {
        0..=3 => 356,
        4..=6 => dice.below(4),
        7..=16 => dice.between(41, 150),
        _ => dice.between(5, 40),
    }
}

fn any_answer_length(dice: &mut Dice) -> u32 {
    if dice.one_in(40) {
        4096
    } else {
        dice.below(65) as u32
    }
}

fn with_any_buffers(dice: &mut Dice, sheet: Vec<u8>) -> Case {
    let room = if dice.one_in(2) { dice.below(3) } else { any_room(dice) };
    Case { work: work_length(dice, room), answer: any_answer_length(dice), sheet }
}

/// The length of the sheet with the old meaning of its fields without a pattern
/// written out; 0 for a sheet with a fault.
fn spelt_length(sheet: &[u8]) -> usize {
    spell_open::sheet_by(Reading::Old, sheet).map_or(0, |spelt| spelt.len())
}

/// Buffers for a good sheet: often exactly what is needed, or one less.
fn with_chosen_buffers(dice: &mut Dice, sheet: Vec<u8>) -> Case {
    let mut room = any_room(dice);
    let (mut work, mut answer) = (vec![0; room * SITUATION_BYTES], [0; 4096]);
    let found = crate::answer_by(Reading::Old, &sheet, &mut work, &mut answer);
    if dice.one_in(3) {
        room = found.count.saturating_sub(dice.below(2));
    }
    let answer = match dice.below(5) {
        0 if found.number == CLASH => found.written as u32,
        1 if found.number == CLASH => found.written.saturating_sub(1) as u32,
        2 if found.number == ANSWER_BUFFER_TOO_SHORT => 4096,
        3 => spelt_length(&sheet).saturating_sub(dice.below(2)) as u32,
        _ => any_answer_length(dice),
    };
    Case { work: work_length(dice, room), answer, sheet }
}

// ------------------------------------------------------------ good sheets

/// A good sheet written out.
fn good_sheet(dice: &mut Dice) -> Vec<u8> {
    let records = good(dice);
    said(dice, &records)
}

/// A good sheet.
fn good(dice: &mut Dice) -> Vec<Record> {
    if dice.one_in(50) {
        return keypads(dice);
    }
    let alphabet = alphabet(dice);
    let fields = some_fields(dice, FIELDS as u8);
    let (left, right, texts) = sides(dice, &alphabet, &fields);
    let standing = [&left[..], &right].concat();
    let mut records = patterns(dice, &alphabet, 0..FIELDS as u8, &standing, &texts);
    records.push(Record::side(LEFT, left));
    records.push(Record::side(RIGHT, right));
    records
}

/// A keypad maker's rule, `KP` and one of 40 finishes, and a label or a rule
/// that is much like it.
fn keypads(dice: &mut Dice) -> Vec<Record> {
    let (x, y) = (dice.between(0, 3) as u8, dice.between(4, 7) as u8);
    let mut patterns = vec![Record::pattern(x, by_first_letter(&FINISHES))];
    let finish = tokens(dice.pick(&FINISHES));
    let then = |rest: &[u8]| [&tokens("KP")[..], rest].concat();
    let mut sides = match dice.below(8) {
        // a finish, and two letters that may be one
        0 | 1 => [then(&[field(x)]), then(&finish)],
        2 => {
            let letters = [dice.pick(&finish), dice.between(10, 35) as u8];
            [then(&[field(x)]), then(&letters)]
        }
        // one that stands twice
        3 => [
            then(&[field(x), field(x)]),
            then(&[&finish[..], &tokens(dice.pick(&FINISHES))].concat()),
        ],
        4 => [then(&[field(x), field(y)]), then(&finish)],
        // the last letter is another
        5 => [[then(&[field(x)]), tokens("L")].concat(), [then(&[field(y)]), tokens("R")].concat()],
        _ => [then(&[field(x)]), then(&[field(y)])],
    };
    // A few of the finishes one by one, all of them, or any two letters.
    match dice.below(5) {
        0 | 1 => {
            let mut some: Vec<Vec<u8>> = FINISHES.map(write::text).to_vec();
            dice.shuffle(&mut some);
            some.truncate(dice.between(1, MOST_LEAVES / 2));
            patterns.push(Record::pattern(y, choice(some)));
        }
        2 => patterns.push(Record::pattern(y, by_first_letter(&FINISHES))),
        3 => patterns.push(Record::pattern(y, row(vec![vec![65, 10, 35]; 2]))),
        _ => {}
    }
    dice.shuffle(&mut sides);
    let [left, right] = sides;
    patterns.extend([Record::side(LEFT, left), Record::side(RIGHT, right)]);
    patterns
}

/// A few of the fields below this one, in any order.
fn some_fields(dice: &mut Dice, below: u8) -> Vec<u8> {
    let mut fields: Vec<u8> = (0..below).collect();
    dice.shuffle(&mut fields);
    let number = if dice.one_in(20) { 0 } else { dice.pick(&[1, 1, 2, 2, 2, 2, 3, 3, 4, 8]) };
    fields.truncate(number);
    fields
}

/// Two sides with these fields, often with something at their ends.
fn sides(dice: &mut Dice, alphabet: &[u8], fields: &[u8]) -> Sides {
    let (mut left, mut right, texts) = match dice.below(11) {
        0 | 1 => plain(dice, alphabet, fields),
        2..=4 => mixed(dice, alphabet, fields),
        5..=8 => planted(dice, alphabet, fields),
        9 => struck_to_nothing(dice, alphabet, fields),
        _ => many_times(dice, alphabet, fields),
    };
    // Often a field comes to the front, so that there is something to search.
    for side in [&mut left, &mut right] {
        if texts.is_empty() && dice.one_in(3) {
            if let Some(at) = side.iter().position(|&token| token >= 64) {
                side.swap(0, at);
            }
        }
        spaces::end(dice, side, &texts);
    }
    (left, right, texts)
}

/// Patterns for no, for some or for all of the fields that stand; sometimes
/// for fields that do not stand.
fn patterns(
    dice: &mut Dice,
    alphabet: &[u8],
    fields: Range<u8>,
    standing: &[u8],
    texts: &[(u8, Vec<u8>)],
) -> Vec<Record> {
    let some = dice.pick(if texts.is_empty() { &[0, 0, 1, 1, 2, 2] } else { &[0, 1, 2, 2, 2] });
    let mut patterns = Vec::new();
    for field in fields {
        let wanted = match some {
            0 => false,
            1 => dice.one_in(2),
            _ => true,
        };
        let wanted = if standing.contains(&(64 + field)) { wanted } else { dice.one_in(60) };
        if wanted {
            let text = texts.iter().find(|(of, _)| *of == field).map(|(_, text)| &text[..]);
            patterns.push(Record::pattern(field, field_pattern(dice, alphabet, text)));
        }
    }
    patterns
}

/// A few characters, so that clashes and no clashes both come up, often with the
/// space; now and then all of them.
fn alphabet(dice: &mut Dice) -> Vec<u8> {
    if dice.one_in(12) {
        return (0..CHARACTERS).collect();
    }
    let first = dice.below(43) as u8;
    let number = dice.pick(&[1, 2, 2, 2, 3, 3]);
    let mut alphabet: Vec<u8> = (0..number).map(|step| (first + step) % CHARACTERS).collect();
    if dice.one_in(4) && !alphabet.contains(&SPACE) {
        alphabet.push(SPACE);
    }
    alphabet
}

fn side_length(dice: &mut Dice) -> usize {
    match dice.below(12) {
        0 => dice.between(5, 24),
        1..=4 => dice.between(3, 8),
        5 => dice.below(2),
        _ => dice.between(1, 5),
    }
}

/// Left tokens, right tokens, and texts that make a clash where they are
/// known.
type Sides = (Vec<u8>, Vec<u8>, Vec<(u8, Vec<u8>)>);

/// No field stands twice.
fn plain(dice: &mut Dice, alphabet: &[u8], fields: &[u8]) -> Sides {
    let mut sides = [Vec::new(), Vec::new()];
    for side in &mut sides {
        for _ in 0..side_length(dice) {
            side.push(dice.pick(alphabet));
        }
    }
    for &field in fields {
        let side = &mut sides[dice.below(2)];
        let at = if dice.one_in(3) { 0 } else { dice.below(side.len() + 1) };
        side.insert(at, 64 + field);
        side.truncate(24);
    }
    let [left, right] = sides;
    (left, right, Vec::new())
}

/// Characters and fields mixed, a field standing as often as it comes.
fn mixed(dice: &mut Dice, alphabet: &[u8], fields: &[u8]) -> Sides {
    let mut sides = [Vec::new(), Vec::new()];
    for side in &mut sides {
        for _ in 0..side_length(dice) {
            let field = !fields.is_empty() && dice.one_in(2);
            side.push(if field { 64 + dice.pick(fields) } else { dice.pick(alphabet) });
        }
    }
    let [left, right] = sides;
    (left, right, Vec::new())
}

/// Both sides made from one label, so that there is a clash, unless a field that
/// gets no pattern has the empty text; one of them now and then without the
/// spaces at the label's end.
fn planted(dice: &mut Dice, alphabet: &[u8], fields: &[u8]) -> Sides {
    let texts: Vec<(u8, Vec<u8>)> = fields
        .iter()
        .map(|&field| {
            let length = dice.pick(&[0, 1, 1, 2, 2, 3]);
            let mut text: Vec<u8> = (0..length).map(|_| dice.pick(alphabet)).collect();
            if dice.one_in(6) {
                text.truncate(dice.below(2));
                text.resize(dice.between(1, 3), SPACE);
            }
            (field, text)
        })
        .collect();
    let (mut left, _, _) = mixed(dice, alphabet, fields);
    if !fields.is_empty() && left.len() < 24 {
        left.insert(dice.below(left.len().min(2) + 1), 64 + dice.pick(fields));
    }
    // The label has at most 24 characters, so that the right side has no more.
    let mut label = loop {
        let mut label = Vec::new();
        for &token in &left {
            match texts.iter().find(|(field, _)| 64 + field == token) {
                Some((_, text)) => label.extend_from_slice(text),
                None => label.push(token),
            }
        }
        if label.len() <= 24 {
            break label;
        }
        left.pop();
    };
    if dice.one_in(2) {
        spaces::drop(&mut label);
    }
    // The right side: walk along the label, taking a field wherever its text
    // stands and the dice say so.
    let mut right = Vec::new();
    let mut at = 0;
    while at < label.len() {
        let (field, text) = match texts.len() {
            0 => (0, &[][..]),
            n => {
                let (field, text) = &texts[dice.below(n)];
                (*field, &text[..])
            }
        };
        if !text.is_empty() && label[at..].starts_with(text) && !dice.one_in(4) {
            right.push(64 + field);
            at += text.len();
        } else {
            right.push(label[at]);
            at += 1;
        }
    }
    if dice.one_in(2) {
        std::mem::swap(&mut left, &mut right);
    }
    (left, right, texts)
}

/// A label, and the same one with fields in it that stand for nothing: no field
/// without a pattern can, but at the end it may be a space.
fn struck_to_nothing(dice: &mut Dice, alphabet: &[u8], fields: &[u8]) -> Sides {
    let label: Vec<u8> = (0..dice.between(1, 6)).map(|_| dice.pick(alphabet)).collect();
    let mut sides = [label.clone(), label];
    for &field in fields {
        let at = dice.below(sides[0].len() + 1);
        sides[0].insert(at, 64 + field);
    }
    dice.shuffle(&mut sides);
    let [left, right] = sides;
    (left, right, fields.iter().map(|&field| (field, Vec::new())).collect())
}

/// One field standing many times on a side.
fn many_times(dice: &mut Dice, alphabet: &[u8], fields: &[u8]) -> Sides {
    let field = 64 + if fields.is_empty() { 0 } else { dice.pick(fields) };
    let times = if dice.one_in(3) { dice.between(12, 24) } else { dice.between(2, 12) };
    let mut left = vec![field; times];
    if dice.one_in(2) {
        left[dice.below(times)] = dice.pick(alphabet);
    }
    let (mut right, _, _) = mixed(dice, alphabet, fields);
    right.truncate(8);
    if dice.one_in(2) {
        std::mem::swap(&mut left, &mut right);
    }
    (left, right, Vec::new())
}

// --------------------------------------------------------------- patterns

/// A pattern for a field; where its text is known, mostly one that takes it.
fn field_pattern(dice: &mut Dice, alphabet: &[u8], text: Option<&[u8]>) -> Vec<u8> {
    if dice.one_in(20) {
        return big_pattern(dice, alphabet);
    }
    if dice.one_in(30) {
        return codes(dice, alphabet, text);
    }
    if dice.one_in(8) {
        return spaces::pattern(dice, alphabet, text);
    }
    let all = || vec![68, 65, *alphabet.iter().min().unwrap(), *alphabet.iter().max().unwrap()];
    match (text, dice.below(5)) {
        (Some(_), 0) => all(),
        (Some(text), 1) => exactly(text),
        (Some(text), 2) => {
            let budget = dice.between(1, 3);
            let other = pattern(dice, alphabet, budget);
            let (a, b) =
                if dice.one_in(2) { (exactly(text), other) } else { (other, exactly(text)) };
            [&[67], &a[..], &b].concat()
        }
        (Some(text), 3) => [&[68], &exactly(text)[..]].concat(),
        _ => {
            let budget = dice.pick(&[1, 2, 2, 3, 4, 6]);
            pattern(dice, alphabet, budget)
        }
    }
}

/// The pattern that takes just this text.
fn exactly(text: &[u8]) -> Vec<u8> {
    match text {
        [] => vec![64],
        [only] => vec![*only],
        [first, rest @ ..] => [&[66, *first], &exactly(rest)[..]].concat(),
    }
}

/// Any pattern with about so many parts.
fn pattern(dice: &mut Dice, alphabet: &[u8], budget: usize) -> Vec<u8> {
    if budget <= 1 {
        return match dice.below(8) {
            0 => vec![64],
            1 | 2 => range(dice, alphabet),
            _ => vec![dice.pick(alphabet)],
        };
    }
    match dice.below(4) {
        0 => [&[68], &pattern(dice, alphabet, budget - 1)[..]].concat(),
        operator => {
            let first = dice.between(1, budget - 1);
            let a = pattern(dice, alphabet, first);
            let b = pattern(dice, alphabet, budget - first);
            [&[if operator == 1 { 67 } else { 66 }], &a[..], &b].concat()
        }
    }
}

fn range(dice: &mut Dice, alphabet: &[u8]) -> Vec<u8> {
    let one = dice.pick(alphabet);
    match dice.below(4) {
        0 => vec![65, 0, 42],
        1 => vec![65, one, one],
        2 => vec![65, one, dice.between(usize::from(one), 42) as u8],
        _ => vec![65, dice.below(usize::from(one) + 1) as u8, one],
    }
}

/// A pattern with exactly 63 leaves, with 64 or with more, or with 32 to 62; its
/// length is left as it comes, or filled up to 192 bytes, now and then to 193.
fn big_pattern(dice: &mut Dice, alphabet: &[u8]) -> Vec<u8> {
    let leaves = match dice.below(12) {
        0 | 1 => MOST_LEAVES,
        2 => MOST_LEAVES - 1,
        3 => MOST_LEAVES + 1,
        4 => MOST_LEAVES + 2,
        5 => dice.between(MOST_LEAVES + 1, MOST_PATTERN / 2),
        6 => dice.between(1, 31),
        7 => dice.pick(&[31, 32, 33]),
        _ => dice.between(32, MOST_LEAVES - 1),
    };
    let parts = parts(dice, alphabet, leaves, MOST_PATTERN);
    let body = joined(dice, parts);
    if dice.one_in(8) {
        let stars = vec![68; MOST_PATTERN + 1 - body.len()];
        return [stars, body].concat();
    }
    body
}

/// One of many codes of two characters, 32 to 64 leaves; where the text is known
/// it is mostly one of them, with other codes before it.
fn codes(dice: &mut Dice, alphabet: &[u8], text: Option<&[u8]>) -> Vec<u8> {
    let mut codes = vec![exactly(text.unwrap_or(&[]))];
    let mut leaves = text.map_or(0, <[u8]>::len);
    let most = if dice.one_in(6) { MOST_LEAVES + 1 } else { dice.between(32, MOST_LEAVES) };
    while leaves + 2 <= most {
        // Those with the same first character stand together, or each alone.
        let seconds = if dice.one_in(2) { 1 } else { dice.between(1, most - leaves - 1).min(6) };
        let second: Vec<Vec<u8>> = (0..seconds).map(|_| vec![dice.pick(alphabet)]).collect();
        let first = dice.below(CHARACTERS.into()) as u8;
        codes.push(row(vec![vec![first], choice(second)]));
        leaves += 1 + seconds;
    }
    if !dice.one_in(4) {
        codes.rotate_left(1);
    }
    choice(codes)
}

/// Parts with so many leaves in all, characters and ranges mixed; joined they
/// have at most this many bytes.
fn parts(dice: &mut Dice, alphabet: &[u8], leaves: usize, most: usize) -> Vec<Vec<u8>> {
    let mut spare = most - (2 * leaves - 1);
    // A range has two bytes more than a character.
    let most_ranges = leaves.min(spare / 2);
    let some_ranges = dice.below(most_ranges + 1);
    let ranges = dice.pick(&[0, some_ranges, most_ranges]);
    spare -= 2 * ranges;
    let mut parts: Vec<Vec<u8>> = (0..ranges).map(|_| range(dice, alphabet)).collect();
    parts.resize_with(leaves, || vec![dice.pick(alphabet)]);
    dice.shuffle(&mut parts);
    // The empty text adds two bytes, its operator's and its own, and no leaf.
    while spare >= 2 && dice.one_in(4) {
        parts.insert(dice.below(parts.len() + 1), vec![64]);
        spare -= 2;
    }
    // "68 A" adds one byte and no leaf.
    let full = dice.one_in(2);
    while spare > 0 && (full || dice.one_in(6)) {
        let part = dice.below(parts.len());
        parts[part].insert(0, 68);
        spare -= 1;
    }
    parts
}

/// Joins neighbours until one pattern is left.
fn joined(dice: &mut Dice, mut parts: Vec<Vec<u8>>) -> Vec<u8> {
    while parts.len() > 1 {
        let at = if dice.one_in(2) { parts.len() - 2 } else { dice.below(parts.len() - 1) };
        let b = parts.remove(at + 1);
        let operator = if dice.one_in(3) { 67 } else { 66 };
        parts[at] = [&[operator], &parts[at][..], &b].concat();
    }
    parts.remove(0)
}

// ------------------------------------------------------------- long ones

/// Cases whose search fills the whole room and then finds no more of it.
pub fn long(room: u32) -> Vec<Case> {
    const A: u8 = 10;
    const B: u8 = 11;
    const X: u8 = 64;
    const Y: u8 = 65;
    let case = |patterns: &[(u8, Vec<u8>)], left: &[u8], right: &[u8]| {
        let patterns = patterns.iter().map(|(field, body)| Record::pattern(*field, body.clone()));
        let mut records: Vec<Record> = patterns.collect();
        records.push(Record::side(b"LE", left.to_vec()));
        records.push(Record::side(b"RI", right.to_vec()));
        Case { work: room * SITUATION_BYTES as u32, answer: 4096, sheet: write_out(&records) }
    };

    // Long token lists that differ at the end of the right one only.
    let mut late_left = vec![A; 23];
    late_left.insert(0, X);
    let mut late_right = vec![B; 22];
    late_right.insert(0, Y);
    late_right.push(X);

    // Equal token lists and different place sets: x is 0s and 1s with a 1 at
    // the 21st place from the end.
    let twenty_first = twenty_first_from_the_end();

    vec![
        // x`A` and `B`yx, open: short lists that differ in the right one.
        case(&[], &[X, A], &[B, Y, X]),
        // xx`A` and yy`B`, open: the lists differ early, in the left one.
        case(&[], &[X, X, A], &[Y, Y, B]),
        case(&[], &late_left, &late_right),
        case(&[(0, twenty_first.clone())], &[X, A], &[Y, B]),
        // The same, and the places that differ stand behind 32 others.
        case(&[(0, behind_32_leaves(twenty_first))], &[X, A], &[Y, B]),
    ]
}

/// A choice of a text that begins with `Z` and this pattern.
fn behind_32_leaves(pattern: Vec<u8>) -> Vec<u8> {
    choice(vec![row(vec![vec![35]; 32]), pattern])
}

/// 0s and 1s with a 1 at the 21st place from the end: 22 leaves.
fn twenty_first_from_the_end() -> Vec<u8> {
    let mut bytes = vec![66, 68, 65, 0, 1];
    bytes.extend([66; 20]);
    bytes.push(1);
    for _ in 0..20 {
        bytes.extend([65, 0, 1]);
    }
    bytes
}
