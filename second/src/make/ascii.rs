//! Texts of Full ASCII to be spelt and spelt texts to be read back: those that
//! are stored, and others from a seed. None has more than 1,024 bytes or 2,304
//! bytes of output.

use super::Dice;
use crate::full_ascii::Done::{Read, Spell};
use crate::full_ascii::{read_back, spelling, spelt, Case, Done, ASCII};

/// The values that stand in pairs: all 43, those around their end, and the last
/// byte.
const VALUES: [u8; 46] = {
    let mut values = [255; 46];
    let mut value = 0;
    while value < 45 {
        values[value] = value as u8;
        value += 1;
    }
    values
};

/// The letter `A` and the sign `%` by value.
const LETTER: u8 = 10;
const PERCENT: u8 = 42;

fn case(done: Done, bytes: &[u8], output: usize) -> Case {
    Case { done, bytes: bytes.to_vec(), output: output as u16 }
}

/// The stored cases.
pub fn stored() -> Vec<Case> {
    let all: Vec<u8> = (0..ASCII).collect();
    let all_spelt = spelt(&all).expect("all of them are characters");
    let mut cases = Vec::new();
    // Each byte alone, in plenty and in the least room.
    for byte in 0..=255 {
        cases.push(case(Spell, &[byte], 4));
        cases.push(case(Spell, &[byte], spelling(byte).map_or(0, |values| values.len())));
    }
    // Each value alone, and at the end: a shift sign waits there.
    for value in 0..=255 {
        cases.push(case(Read, &[value], 4));
        cases.push(case(Read, &[LETTER, value], 4));
        cases.push(case(Read, &[PERCENT, LETTER, value], 4));
    }
    // Every pair of values.
    for first in VALUES {
        cases.extend(VALUES.map(|second| case(Read, &[first, second], 2)));
    }
    // Every length around the right one, of all characters and of short texts.
    let texts: [&[u8]; 7] = [&all, b"", b"A", b"a", b"Part 7", b"$%/+", b"\x00\x7f~{"];
    for text in texts {
        let values = spelt(text).expect("all of them are characters");
        around(&mut cases, Spell, text, values.len());
        around(&mut cases, Read, &values, text.len());
    }
    // A byte above 127 at each place, and what the table doesn't give, in no room
    // and in plenty: 45 comes before 46.
    let wrong: [&[u8]; 7] = [&[40, 22], &[40, 34], &[42, 33], &[42, 35], &[41], &[43], &[255]];
    for output in [0, 1, 300] {
        for at in 0..4 {
            for byte in [128, 129, 191, 192, 255] {
                let mut text = b"aB$".to_vec();
                text.insert(at, byte);
                cases.push(case(Spell, &text, output));
            }
        }
        for values in wrong {
            cases.push(case(Read, &[&all_spelt[..], values].concat(), output));
            cases.push(case(Read, &[values, &all_spelt].concat(), output));
        }
    }
    cases
}

fn around(cases: &mut Vec<Case>, done: Done, bytes: &[u8], needed: usize) {
    let lengths = needed.saturating_sub(3)..=needed + 2;
    cases.extend(lengths.map(|length| case(done, bytes, length)));
    cases.push(case(done, bytes, 0));
    cases.push(case(done, bytes, 2 * bytes.len()));
}

/// One case from a seed.
pub fn made(dice: &mut Dice) -> Case {
    let length = dice.pick(&[0, 1, 2, 3, 4, 7, 12, 40, 300]);
    let length = dice.between(0, length);
    let mut text: Vec<u8> = (0..length).map(|_| character(dice)).collect();
    let (done, bytes, needed) = if dice.one_in(2) {
        if dice.one_in(5) {
            text.insert(dice.below(length + 1), dice.between(128, 255) as u8);
        }
        let needed = spelt(&text).map_or(2 * text.len(), |values| values.len());
        (Spell, text, needed)
    } else {
        let mut values = spelt(&text).expect("all of them are characters");
        for _ in 0..dice.pick(&[0, 0, 1, 2]) {
            damage(dice, &mut values);
        }
        let needed = read_back(&values).map_or(text.len(), |text| text.len());
        (Read, values, needed)
    };
    let output = match dice.below(8) {
        0 => needed.saturating_sub(1),
        1 => dice.below(needed + 1),
        2 => 0,
        3 => needed + 1,
        4 => needed + dice.between(2, 40),
        _ => needed,
    };
    case(done, &bytes, output)
}

/// Any character, or one of those that have no shift sign or are one.
fn character(dice: &mut Dice) -> u8 {
    match dice.below(4) {
        0 => dice.pick(b"$/+%-. A0Z9"),
        1 => dice.between(b'A'.into(), b'Z'.into()) as u8,
        _ => dice.below(ASCII.into()) as u8,
    }
}

/// A value more, or less, or another, a shift sign often.
fn damage(dice: &mut Dice, values: &mut Vec<u8>) {
    let value = match dice.below(4) {
        0 | 1 => dice.between(39, 42) as u8,
        2 => dice.below(43) as u8,
        _ => dice.pick(&[42, 43, 44, 64, 127, 128, 255]),
    };
    let at = dice.below(values.len() + 1);
    match dice.below(3) {
        0 if at < values.len() => values[at] = value,
        1 if at < values.len() => {
            values.remove(at);
        }
        _ => values.insert(at, value),
    }
}
