//! Cases to decide: pairs of rules, other good sheets, sheets made for one attempt
//! and damaged ones, with rooms and answer buffers near the bounds of the attempt
//! that decides.

use super::{any_answer_length, good_sheet, lengths, pairs, standings, uneven};
use super::{with_any_buffers, work_length, Dice};
use crate::cases::Case;
use crate::decide::{decide_by, Asks, Attempt, ATTEMPTS, HASHING};
use crate::sheet::{Question, Reading};
use crate::{plain, search, CLASH, SITUATION_BYTES};

/// One case.
pub fn case(dice: &mut Dice) -> Case {
    let sheet = match dice.below(20) {
        0 | 1 => {
            // Refused ones among them.
            let sheet = super::case(dice).sheet;
            return with_any_buffers(dice, sheet);
        }
        2 | 3 => good_sheet(dice),
        4 => pairs::pair(dice),
        5 | 6 => pairs::with_a_field_twice(dice),
        7 | 8 => uneven::sheet(dice),
        9 => lengths::sheet(dice),
        _ => return decided_later(dice),
    };
    let room = any_room(dice);
    with_room(dice, sheet, room)
}

/// A case whose letters just come out even, or just don't.
pub fn uneven_case(dice: &mut Dice) -> Case {
    let sheet = uneven::sheet(dice);
    let room = any_room(dice);
    Case { work: (room * SITUATION_BYTES) as u32, answer: 4096, sheet }
}

/// A case that a later attempt decides, or just doesn't: with exactly the room
/// that it needs, one less, or the most in which none before it decides.
fn decided_later(dice: &mut Dice) -> Case {
    let wanted = dice.between(2, ATTEMPTS.len());
    loop {
        let sheet = match (ATTEMPTS[wanted - 1], dice.below(4)) {
            (Attempt::Letters, 0 | 1) => uneven::sheet(dice),
            (Attempt::Apart, 0 | 1) => standings::sheet(dice),
            (Attempt::Texts(_), 0..=2) => lengths::sheet(dice),
            (_, 0) => good_sheet(dice),
            (_, 1) => pairs::pair(dice),
            _ => pairs::with_a_field_twice(dice),
        };
        if let Some((from, to)) = rooms(&sheet, wanted) {
            let room = match dice.below(6) {
                0 | 1 => from,
                2 => from.saturating_sub(1),
                3 => to,
                _ => dice.between(from, to),
            };
            return with_room(dice, sheet, room);
        }
    }
}

/// The two rules of a pair, and a room in which one of the attempts decides it,
/// or just doesn't.
pub(super) fn two_rules(dice: &mut Dice) -> ([Vec<u8>; 2], usize) {
    let wanted = dice.between(1, ATTEMPTS.len());
    loop {
        let sheet = match (ATTEMPTS[wanted - 1], dice.below(4)) {
            (Attempt::Apart, 0 | 1) => standings::sheet(dice),
            (Attempt::Texts(_), 0..=2) => lengths::sheet(dice),
            (_, 0 | 1) => pairs::pair(dice),
            _ => pairs::with_a_field_twice(dice),
        };
        let Some(rules) = pairs::rules_of(&sheet) else { continue };
        if let Some((from, to)) = rooms(&sheet, wanted) {
            let room = match dice.below(6) {
                0..=2 => from,
                3 => from.saturating_sub(1),
                4 => to,
                _ => dice.between(from, to),
            };
            return (rules, room);
        }
    }
}

/// Buffers for a good sheet: the answer buffer often exactly as long as the
/// records, or one less.
fn with_room(dice: &mut Dice, sheet: Vec<u8>, room: usize) -> Case {
    let (mut work, mut answer) = (vec![0; room * SITUATION_BYTES], [0; 4096]);
    let decided = decide_by(Reading::Old, &sheet, &mut work, &mut answer, HASHING);
    let written = decided.outcome.written;
    let answer = match (decided.outcome.number, dice.below(4)) {
        (CLASH, 0) => written as u32,
        (CLASH, 1) => written.saturating_sub(1) as u32,
        (CLASH, 2) => 4096,
        _ => any_answer_length(dice),
    };
    Case { work: work_length(dice, room), answer, sheet }
}

fn any_room(dice: &mut Dice) -> usize {
    match dice.below(16) {
        0 => 356,
        1 => dice.below(5),
        2..=5 => dice.between(61, 200),
        _ => dice.between(5, 60),
    }
}

/// The most room that is tried.
const MOST_TRIED: usize = 150;

/// The rooms in which the attempt with this number decides and none before it
/// does: the least and the greatest of them.
fn rooms(sheet: &[u8], wanted: usize) -> Option<(usize, usize)> {
    let question = Reading::Old.sheet(sheet).ok()?;
    let mut to = MOST_TRIED;
    for &attempt in &ATTEMPTS[..wanted - 1] {
        if let Some(from) = least_room(&question, attempt, to) {
            // In less room than that it does not decide.
            to = from.checked_sub(1)?;
        }
    }
    let from = least_room(&question, ATTEMPTS[wanted - 1], to)?;
    Some((from, to))
}

/// The least room in which the attempt decides, if it does in this one.
fn least_room(question: &Question, attempt: Attempt, room: usize) -> Option<usize> {
    if matches!(attempt, Attempt::Texts(_)) && !plain::stands_twice(question) {
        // The first search once more.
        return None;
    }
    match attempt.asks(question, room) {
        Asks::Search(asked) => {
            let found = search::search(&asked, room);
            attempt.decides(found.ending.number()).then_some(found.count)
        }
        Asks::Test(no_clash) => {
            // Letters need no room, and apart the bits alone.
            let bits = if attempt == Attempt::Apart { plain::pairs(question) } else { 0 };
            no_clash.then_some(bits.div_ceil(8 * SITUATION_BYTES))
        }
    }
}
