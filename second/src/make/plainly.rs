//! Sheets for the engine for plain rules, from a seed: in most of them no field
//! stands twice, in some one does, and some are refused; and bit buffers around
//! the length that is needed.

use super::damages::{damaged, random_bytes};
use super::{alphabet, codes, exactly, field_pattern, good, joined, pairs, parts, pattern, spaces};
use super::{said, write_out, Dice, Record, MOST_SIDE, SPACE};
use crate::cases::Case;
use crate::edition::FIRST;
use crate::pattern::{Pattern, MOST_LEAVES};
use crate::plain::plain_bytes_by;
use crate::sheet::{Reading, FIELDS, LEFT, MOST_PATTERN, RIGHT};
use crate::write::{choice, many, row};

/// The bytes that are always enough.
pub const MOST_BITS: usize = 9_731;

/// One case: its working buffer is the bit buffer, of at most 65,687 bytes, and
/// it has no answer buffer.
pub fn case(dice: &mut Dice) -> Case {
    let sheet = match dice.below(60) {
        0 => random_bytes(dice),
        1..=9 => {
            let records = if dice.one_in(2) { good(dice) } else { any(dice) };
            damaged(dice, &[], 2, records)
        }
        10..=13 => {
            let records = good(dice);
            said(dice, &records)
        }
        14..=17 => once_more(dice),
        18 => pairs::with_a_field_twice(dice),
        19..=27 => pairs::pair(dice),
        28 | 29 => {
            let records = large(dice);
            said(dice, &records)
        }
        _ => {
            let records = any(dice);
            said(dice, &records)
        }
    };
    let work = bits(dice, &sheet);
    Case { work, answer: 0, sheet }
}

/// A sheet in which no field stands twice.
pub(super) fn any(dice: &mut Dice) -> Vec<Record> {
    match dice.below(16) {
        0..=3 => by_chance(dice),
        4..=9 => planted(dice),
        10 | 11 => at_the_end(dice),
        12 | 13 => small(dice),
        _ => long_patterns(dice),
    }
}

/// A field stands once more, on its own side or on the other.
fn once_more(dice: &mut Dice) -> Vec<u8> {
    loop {
        let mut records = any(dice);
        let sides = records.len() - 2;
        let standing: Vec<u8> =
            records[sides..].iter().flat_map(|side| side.body.clone()).collect();
        let Some(at) = standing.iter().position(|&token| token >= 64) else { continue };
        let side = &mut records[sides + dice.below(2)];
        let mut tokens = side.body.clone();
        tokens.insert(dice.below(tokens.len() + 1), standing[at]);
        if tokens.len() <= MOST_SIDE {
            side.set(tokens);
            return said(dice, &records);
        }
    }
}

// ------------------------------------------------------------------- sheets

/// Two sides and the texts by which they make one label, where they are known.
struct Sides {
    sides: [Vec<u8>; 2],
    texts: Vec<(u8, Vec<u8>)>,
}

/// The records, with a pattern for most of the fields that stand, and now and
/// then for one that does not.
fn with_patterns(dice: &mut Dice, alphabet: &[u8], made: Sides) -> Vec<Record> {
    let mut records = Vec::new();
    let open = dice.pick(&[2, 6, 30]);
    for field in 0..FIELDS as u8 {
        let stands = made.sides.iter().flatten().any(|&token| token == 64 + field);
        let text = made.texts.iter().find(|(of, _)| *of == field).map(|(_, text)| &text[..]);
        if stands && !dice.one_in(open) {
            records.push(Record::pattern(field, one(dice, alphabet, text)));
        } else if !stands && dice.one_in(40) {
            records.push(Record::pattern(field, one(dice, alphabet, None)));
        }
    }
    let [left, right] = made.sides;
    records.extend([Record::side(LEFT, left), Record::side(RIGHT, right)]);
    records
}

/// A good pattern: as for other sheets, or one without a leaf.
fn one(dice: &mut Dice, alphabet: &[u8], text: Option<&[u8]>) -> Vec<u8> {
    if dice.one_in(16) {
        return dice
            .pick(&[&[64][..], &[64], &[64], &[66, 64, 64], &[67, 64, 64], &[68, 64]])
            .to_vec();
    }
    loop {
        let made = match dice.below(12) {
            0 => codes(dice, alphabet, text),
            _ => field_pattern(dice, alphabet, text),
        };
        if is_good(&made) {
            return made;
        }
    }
}

/// The fields in any order, so many of them.
fn fields(dice: &mut Dice, number: usize) -> Vec<u8> {
    let mut fields: Vec<u8> = (0..FIELDS as u8).collect();
    dice.shuffle(&mut fields);
    fields.truncate(number);
    fields
}

/// Characters and fields by chance.
fn by_chance(dice: &mut Dice) -> Vec<Record> {
    let alphabet = alphabet(dice);
    let number = dice.between(0, FIELDS);
    let fields = fields(dice, number);
    let (left, right, texts) = super::plain(dice, &alphabet, &fields);
    let mut sides = [left, right];
    for side in &mut sides {
        spaces::end(dice, side, &[]);
    }
    with_patterns(dice, &alphabet, Sides { sides, texts })
}

/// Both sides made from one label, cut at other places for the right one, and now
/// and then with one character changed; one of them often without the spaces at
/// the label's end.
fn planted(dice: &mut Dice) -> Vec<Record> {
    let alphabet = alphabet(dice);
    let length = dice.pick(&[0, 1, 2, 3, 4, 5, 6, 8, 10, 14]);
    let mut label: Vec<u8> = (0..length).map(|_| dice.pick(&alphabet)).collect();
    if dice.one_in(3) {
        label.extend(vec![SPACE; dice.between(1, 3)]);
    }
    let number = dice.between(1, FIELDS);
    let mut fields = fields(dice, number);
    let for_left = dice.below(fields.len() + 1);
    let for_right = fields.split_off(for_left);
    let mut texts = Vec::new();
    let left = cut(dice, &label, fields, &mut texts);
    if dice.one_in(3) {
        spaces::drop(&mut label);
    }
    let right = cut(dice, &label, for_right, &mut texts);
    let mut sides = [left, right];
    dice.shuffle(&mut sides);
    let side = &mut sides[dice.below(2)];
    if dice.one_in(4) && !side.is_empty() {
        let at = dice.below(side.len());
        if side[at] < 64 {
            side[at] = dice.pick(&alphabet);
        }
    }
    with_patterns(dice, &alphabet, Sides { sides, texts })
}

/// The sheet of such sides.
pub(super) fn planted_sheet(dice: &mut Dice) -> Vec<u8> {
    let records = planted(dice);
    said(dice, &records)
}

/// A side that makes this label: the fields hold parts of it, often of no or of
/// one character.
fn cut(dice: &mut Dice, label: &[u8], fields: Vec<u8>, texts: &mut Vec<(u8, Vec<u8>)>) -> Vec<u8> {
    let mut side = Vec::new();
    let mut rest = label;
    for field in fields {
        let before = dice.pick(&[0, 0, 1, 2]).min(rest.len());
        side.extend_from_slice(&rest[..before]);
        rest = &rest[before..];
        let held = dice.pick(&[0, 1, 1, 2, 3, 5]).min(rest.len());
        side.push(64 + field);
        texts.push((field, rest[..held].to_vec()));
        rest = &rest[held..];
    }
    side.extend_from_slice(rest);
    side.truncate(MOST_SIDE);
    side
}

/// The ends decide: spaces, fields of spaces, and fields that may not end there.
fn at_the_end(dice: &mut Dice) -> Vec<Record> {
    let alphabet = [dice.pick(&[0, 10, 37, 39]), SPACE];
    let label: Vec<u8> = (0..dice.below(4)).map(|_| dice.pick(&alphabet)).collect();
    let number = dice.between(1, 4);
    let mut sides = [label.clone(), label];
    let mut texts = Vec::new();
    for field in fields(dice, number) {
        let side = &mut sides[dice.below(2)];
        let text = vec![SPACE; dice.below(3)];
        side.push(64 + field);
        side.extend(vec![SPACE; dice.pick(&[0, 0, 1, 2])]);
        texts.push((field, text));
    }
    for side in &mut sides {
        spaces::end(dice, side, &[]);
    }
    let mut records = with_patterns(dice, &alphabet, Sides { sides, texts });
    for record in &mut records {
        if record.field.is_some() && dice.one_in(2) {
            record.set(spaces::pattern(dice, &alphabet, None));
        }
    }
    records
}

/// No, one or two tokens a side.
fn small(dice: &mut Dice) -> Vec<Record> {
    let alphabet = alphabet(dice);
    let number = dice.below(4);
    let mut sides = [Vec::new(), Vec::new()];
    for side in &mut sides {
        side.extend((0..dice.pick(&[0, 0, 1, 2])).map(|_| dice.pick(&alphabet)));
    }
    for field in fields(dice, number) {
        let side = &mut sides[dice.below(2)];
        side.insert(dice.below(side.len() + 1), 64 + field);
    }
    with_patterns(dice, &alphabet, Sides { sides, texts: Vec::new() })
}

/// One or two fields a side whose patterns have up to 63 leaves, and texts that
/// they take.
fn long_patterns(dice: &mut Dice) -> Vec<Record> {
    let alphabet = alphabet(dice);
    let mut patterns: Vec<(u8, Vec<u8>)> = Vec::new();
    let mut sides = [Vec::new(), Vec::new()];
    let text: Vec<u8> = (0..dice.between(1, 8)).map(|_| dice.pick(&alphabet)).collect();
    for side in &mut sides {
        for _ in 0..dice.pick(&[0, 1, 1, 2]) {
            let field = patterns.len() as u8;
            side.push(64 + field);
            patterns.push((field, long_pattern(dice, &alphabet, &text)));
        }
        if side.is_empty() {
            side.extend_from_slice(&text);
        }
        let more = dice.pick(&[0, 0, 1, 2]);
        for _ in 0..more {
            side.insert(dice.below(side.len() + 1), dice.pick(&alphabet));
        }
        spaces::end(dice, side, &[]);
    }
    let [left, right] = sides;
    let mut records: Vec<Record> =
        patterns.into_iter().map(|(field, body)| Record::pattern(field, body)).collect();
    records.extend([Record::side(LEFT, left), Record::side(RIGHT, right)]);
    records
}

/// A pattern with any number of leaves up to 63: by chance, or a choice of texts
/// with this one among them, or this text again and again.
fn long_pattern(dice: &mut Dice, alphabet: &[u8], text: &[u8]) -> Vec<u8> {
    let leaves = dice.pick(&[1, 2, 30, 31, 32, 33, 61, 62, MOST_LEAVES, MOST_LEAVES]);
    let made = match dice.below(4) {
        0 => {
            let parts = parts(dice, alphabet, leaves, MOST_PATTERN);
            joined(dice, parts)
        }
        1 => codes(dice, alphabet, Some(text)),
        2 => many(row(text.iter().cycle().take(leaves).map(|&value| vec![value]).collect())),
        _ => {
            // Any number of other characters before the text, so that it may stand
            // at every place.
            let leaf = pattern(dice, alphabet, 2);
            row(vec![many(leaf), exactly(text)])
        }
    };
    if is_good(&made) {
        made
    } else {
        exactly(text)
    }
}

/// It is not too long, and has not too many leaves.
fn is_good(pattern: &[u8]) -> bool {
    pattern.len() <= MOST_PATTERN && Pattern::read(FIRST, pattern).is_ok()
}

/// Up to four fields a side, most of them with 63 leaves, and characters up to
/// what a side holds: with all of them the largest bit buffer of all.
fn large(dice: &mut Dice) -> Vec<Record> {
    // With one character alone nearly every pair of standings is met.
    let alphabet = dice.pick(&[&[10][..], &[10], &[10, 10, 10, 10, 11], &[10, 11, 12]]);
    let other = dice.pick(&[10, 10, 11]);
    let largest = dice.one_in(4);
    let mut patterns = Vec::new();
    let sides = [0, 1].map(|side| {
        let number = if largest { 4 } else { dice.pick(&[1, 2, 3, 4]) };
        let most = MOST_SIDE - number;
        let characters = if largest { most } else { dice.pick(&[0, 1, 5, most]) };
        let mut tokens: Vec<u8> = (0..characters).map(|_| dice.pick(alphabet)).collect();
        if side == 0 && characters > 0 {
            tokens[characters - 1] = other;
        }
        for of in 0..number {
            let field = (4 * side + of) as u8;
            let fewer = dice.pick(&[0, 40, MOST_LEAVES, MOST_LEAVES, MOST_LEAVES]);
            let leaves = if largest { MOST_LEAVES } else { fewer };
            let body = match leaves {
                0 => vec![64],
                _ => many(row((0..leaves).map(|_| vec![dice.pick(alphabet)]).collect())),
            };
            patterns.push(Record::pattern(field, body));
            tokens.insert(dice.below(tokens.len() + 1), 64 + field);
        }
        tokens
    });
    let [left, right] = sides;
    patterns.extend([Record::side(LEFT, left), Record::side(RIGHT, right)]);
    patterns
}

// ------------------------------------------------------------------ the buffer

/// A length of the bit buffer: just what is needed, or a few bytes less or more,
/// none, plenty.
fn bits(dice: &mut Dice, sheet: &[u8]) -> u32 {
    let needed = match plain_bytes_by(Reading::Old, sheet).bytes {
        // A refused sheet needs none, and must leave or clear what there is.
        0 => dice.between(1, 60),
        needed => needed,
    };
    let length = match dice.below(20) {
        0..=7 => needed,
        8..=10 => needed.saturating_sub(1),
        11 => needed.saturating_sub(dice.between(2, 8)),
        12 | 13 => needed + 1,
        14 => needed + dice.between(2, 40),
        15 => dice.below(needed + 1),
        16 => 0,
        17 => dice.below(200),
        18 => dice.pick(&[MOST_BITS - 1, MOST_BITS, MOST_BITS + 1]),
        _ => dice.pick(&[1, 2, 2_048, 65_520, 65_687]),
    };
    length as u32
}

// -------------------------------------------------------------- growing sheets

/// Sheets that grow: 1 to 4 fields of 63 leaves a side, 0 to 20 characters, in
/// the bit buffer that is always enough. There is no clash, and nearly every pair
/// of standings is met before that is known.
pub fn growing() -> Vec<Case> {
    let sizes = (1..=4).flat_map(|number| [0, 5, 10, 20].map(|characters| (number, characters)));
    sizes.map(|(number, characters)| grown(number, characters)).collect()
}

/// So many fields a side, each with its share of the characters behind it, all
/// of them `A`. The last field of the left side ends in `B`, that of the right
/// one in `C`.
fn grown(number: usize, characters: usize) -> Case {
    const A: u8 = 10;
    let mut patterns = Vec::new();
    let sides = [0, 1].map(|side| {
        let mut tokens = Vec::new();
        for of in 0..number {
            let field = (4 * side + of) as u8;
            let end = if of + 1 == number { A + 1 + side as u8 } else { A };
            patterns.push(Record::pattern(field, again_and_again(side, A, end)));
            tokens.push(64 + field);
            let share = characters / number + usize::from(of < characters % number);
            tokens.extend(vec![A; share]);
        }
        tokens
    });
    let [left, right] = sides;
    patterns.extend([Record::side(LEFT, left), Record::side(RIGHT, right)]);
    Case { work: MOST_BITS as u32, answer: 0, sheet: write_out(&patterns) }
}

/// 63 leaves: 62 times the character again and again, or on the right 61 times,
/// and one at the end. The two numbers have no divisor in common, so each place
/// of one field is met with each place of the other.
fn again_and_again(side: usize, character: u8, end: u8) -> Vec<u8> {
    let leaf = || vec![character];
    let turn = match side {
        0 => vec![leaf(); MOST_LEAVES - 1],
        _ => [vec![choice(vec![leaf(), leaf()])], vec![leaf(); MOST_LEAVES - 3]].concat(),
    };
    row(vec![many(row(turn)), vec![end]])
}
