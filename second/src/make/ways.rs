//! Cases of the steps and of the player, from a seed: ways of clashes, with
//! buffers around the lengths that are needed; ways with a record damaged, left
//! out, doubled, exchanged or one more behind the finish; other ways through the
//! same situations, to the finish, to a long side, or to no end.

use super::damages::{damaged, random_bytes};
use super::said::{said_sheet, Said};
use super::{any_answer_length, any_room, good, good_sheet, pairs, plainly, work_length, Dice};
use crate::cases;
use crate::edition::Edition;
use crate::search::{search, Ending};
use crate::sheet::{read, Reading, LEFT, RIGHT};
use crate::situation::{Situation, State};
use crate::steps::{child, play_by, steps_by, written, Case, Handed, Record, A_CHARACTER, STEP};
use crate::write::{choice, many, row, sheet, text, tokens};
use crate::{printed, records, SITUATION_BYTES};

/// Room enough for most ways.
const ROOM: usize = 356;

/// The most bytes of steps, lent or to be played.
pub const MOST_STEPS_BYTES: usize = 2_048;

// ----------------------------------------------------------------- the steps

/// One case of the steps.
pub fn case(dice: &mut Dice) -> Case {
    let sheet = match dice.below(200) {
        0 => said_sheet(dice, &long_way()),
        1..=25 => any(dice),
        _ => clashing(dice),
    };
    let tried = |room: usize| {
        let (mut work, mut answer) = (vec![0; room * SITUATION_BYTES], vec![0; 65_536]);
        steps_by(Reading::Old, &sheet, &mut work, &mut answer, &mut [0; MOST_STEPS_BYTES])
    };
    let found = tried(ROOM);
    let room = match dice.below(10) {
        0 => found.outcome.count.saturating_sub(1),
        1..=3 => found.outcome.count,
        4 => any_room(dice),
        _ => ROOM,
    };
    let answer = match dice.below(12) {
        0 => any_answer_length(dice) as usize,
        1 => 4_096,
        2 => 0,
        number => around(dice, found.outcome.written, number < 6),
    };
    let lent = match dice.below(12) {
        0 => dice.below(100),
        1 => MOST_STEPS_BYTES,
        2 => 0,
        // a record less, and most of it
        3 => found.bytes.saturating_sub(dice.between(2, 4)),
        // as many as are always enough
        4 => crate::steps::enough(room).min(MOST_STEPS_BYTES),
        number => around(dice, found.bytes, number < 8),
    };
    let answer = answer.min(4_096) as u32;
    let case = cases::Case { work: work_length(dice, room), answer, sheet };
    Case { case, steps: lent.min(MOST_STEPS_BYTES) as u16 }
}

/// A length around the one that is needed: often just that, or a byte less.
pub(super) fn around(dice: &mut Dice, needed: usize, less: bool) -> usize {
    if less {
        return needed.saturating_sub(1);
    }
    needed + dice.pick(&[0, 0, 0, 1, 2, 20])
}

// ---------------------------------------------------------------- the player

/// One case of the player.
pub fn played(dice: &mut Dice) -> Handed {
    let (sheet, steps) = match dice.below(20) {
        0 => (any(dice), Vec::new()),
        1 => {
            let sheet = any(dice);
            let steps = random_records(dice);
            (sheet, steps)
        }
        2..=6 => wandering(dice),
        // a good way of another sheet
        7 => (clashing(dice), join(&good_way(dice).1)),
        _ => {
            let (sheet, way) = good_way(dice);
            let steps = if dice.one_in(2) { join(&way) } else { spoilt(dice, way) };
            (sheet, steps)
        }
    };
    with_answer(dice, sheet, steps)
}

/// The case with an answer buffer around the length that is needed.
fn with_answer(dice: &mut Dice, sheet: Vec<u8>, mut steps: Vec<u8>) -> Handed {
    steps.truncate(MOST_STEPS_BYTES);
    let case = |answer: usize| cases::Case { work: 0, answer: answer as u32, sheet: sheet.clone() };
    let told = play_by(Reading::Old, &sheet, &steps, &mut [0; 4_096]);
    let answer = match dice.below(10) {
        0 => 0,
        1 => any_answer_length(dice) as usize,
        number => around(dice, told.written, number < 5),
    };
    Handed { case: case(answer.min(4_096)), bytes: steps }
}

/// A sheet and its search's way, a record each.
fn good_way(dice: &mut Dice) -> (Vec<u8>, Vec<Vec<u8>>) {
    loop {
        let sheet = clashing(dice);
        if let Some(way) = way(&sheet) {
            if way.len() < MOST_STEPS_BYTES / 5 {
                return (sheet, way);
            }
        }
    }
}

/// The records of the search's way, one by one.
fn way(sheet: &[u8]) -> Option<Vec<Vec<u8>>> {
    match search(&Reading::Old.sheet(sheet).ok()?, ROOM).ending {
        Ending::Clash(way) => {
            Some(way.steps.iter().map(|step| written(std::slice::from_ref(step))).collect())
        }
        _ => None,
    }
}

/// One thing is wrong with a record.
fn spoilt(dice: &mut Dice, way: Vec<Vec<u8>>) -> Vec<u8> {
    let at = dice.below(way.len());
    let all = damages(dice.edition, &way, at);
    let kind = dice.below(all.len());
    all.into_iter().nth(kind).unwrap_or_default()
}

/// All that is tried with one record of a way: cut short behind each of its
/// bytes, another mark, kind or value, the record left out, doubled, exchanged
/// with the next one or made another, and one more behind the finish.
fn damages(edition: Edition, way: &[Vec<u8>], at: usize) -> Vec<Vec<u8>> {
    let Edition { characters, codes, space, .. } = edition;
    let (before, own, behind) = (join(&way[..at]), &way[at], join(&way[at + 1..]));
    let with = |record: &[u8]| [&before[..], record, &behind].concat();
    let mut all: Vec<Vec<u8>> = Vec::new();
    // The bytes end there, or those behind go on.
    for length in 0..own.len() {
        all.push([&before[..], &own[..length]].concat());
        all.push(with(&own[..length]));
    }
    for (offset, byte) in [(0, b's'), (0, b'V'), (1, b'S'), (1, 0), (2, 3), (2, 255)] {
        let mut other = own.clone();
        other[offset] = byte;
        all.push(with(&other));
    }
    for value in [characters, codes, 255] {
        all.push(with(&[STEP[0], STEP[1], A_CHARACTER, value]));
    }
    // Records that are good by themselves.
    for kind in [0, 1] {
        all.push(with(&[STEP[0], STEP[1], kind]));
    }
    let value = own.get(3).copied().unwrap_or(0);
    for value in [value, (value + 1) % characters, (value + characters - 1) % characters, space] {
        all.push(with(&[STEP[0], STEP[1], A_CHARACTER, value]));
    }
    all.push(with(&[&own[..], own].concat()));
    if let Some(next) = way.get(at + 1) {
        all.push([&before[..], next, own, &join(&way[at + 2..])].concat());
    }
    // Behind the finish: the record once more, a byte of it, a wrong one.
    let whole = join(way);
    all.push([&whole[..], own].concat());
    all.push([&whole[..], &own[..own.len() - 1]].concat());
    all.push([&whole[..], &[STEP[0], STEP[1], 3]].concat());
    all
}

fn join(records: &[Vec<u8>]) -> Vec<u8> {
    records.concat()
}

/// Steps by chance, mostly allowed ones, until the finish or for so many; a
/// sheet on which sides grow, now and then.
fn wandering(dice: &mut Dice) -> (Vec<u8>, Vec<u8>) {
    let sheet = match dice.below(4) {
        0 => growing(dice),
        1 => clashing(dice),
        _ => good_sheet(dice),
    };
    let Ok(question) = Reading::Old.sheet(&sheet) else {
        return (sheet, random_records(dice));
    };
    let mut situation = Situation::of(&question).trimmed();
    let mut steps = Vec::new();
    let (most, puts) = (dice.between(1, 60), dice.pick(&[1, 2, 6, 20]));
    for _ in 0..most {
        let open = situation.state() == State::Open;
        let children = if open { situation.children(&question) } else { Vec::new() };
        let mut allowed: Vec<Record> = children.iter().map(|(_, step)| Record::of(step)).collect();
        // A strike ends the way soon, so it is taken seldom.
        if allowed.len() > 1 && !dice.one_in(puts) {
            allowed.retain(|record| matches!(record, Record::Character(_)));
        }
        if allowed.is_empty() || dice.one_in(60) {
            break;
        }
        let record = dice.pick(&allowed);
        record.write(&mut steps);
        match child(&question, &situation, record) {
            Some((next, _)) => situation = next,
            None => break,
        }
    }
    (sheet, steps)
}

/// A field that stands many times grows a side above 48 tokens.
fn growing(dice: &mut Dice) -> Vec<u8> {
    let times = dice.between(8, 24);
    let digits = many(vec![65, 0, 1]);
    let sides = [vec![64; times], vec![65, dice.pick(&[0, 1, 10]), 64]];
    let [left, right] = if dice.one_in(2) { sides } else { [sides[1].clone(), sides[0].clone()] };
    said_sheet(dice, &sheet(&[(0, digits)], &left, &right))
}

fn random_records(dice: &mut Dice) -> Vec<u8> {
    let mut bytes = Vec::new();
    for _ in 0..dice.below(6) {
        match dice.below(6) {
            0 => Record::LeftStruck.write(&mut bytes),
            1 => Record::RightStruck.write(&mut bytes),
            2 => bytes.push(dice.byte()),
            _ => Record::Character(dice.below(dice.edition.characters.into()) as u8)
                .write(&mut bytes),
        }
    }
    bytes
}

// -------------------------------------------------------------------- sheets

/// A sheet whose search finds a clash in room for 356 situations.
pub(super) fn clashing(dice: &mut Dice) -> Vec<u8> {
    loop {
        let sheet = match dice.below(8) {
            0..=2 => pairs::pair(dice),
            3 | 4 => plainly::planted_sheet(dice),
            _ => good_sheet(dice),
        };
        if way(&sheet).is_some() {
            return sheet;
        }
    }
}

/// A sheet whose way takes most of the room of the programs.
fn long_way() -> Vec<u8> {
    printed::cases().swap_remove(0).sheet
}

/// Any sheet, refused ones among them.
pub(super) fn any(dice: &mut Dice) -> Vec<u8> {
    match dice.below(6) {
        0 => random_bytes(dice),
        1 | 2 => {
            let records = good(dice);
            damaged(dice, &[], 2, records)
        }
        3 => pairs::pair(dice),
        _ => good_sheet(dice),
    }
}

// ----------------------------------------------------------------- one by one

/// Every damage of every record of a few short ways, each with an answer buffer
/// of just the right length, and what else is not allowed.
pub fn each(edition: Edition) -> Vec<Handed> {
    let said = Said::by_sign(edition);
    let mut cases = Vec::new();
    for sheet in [latches(), sheet_s(), on_both_sides()] {
        let sheet = said.sheet(&sheet);
        let way = way(&sheet).expect("a way");
        let answer = match search(&read(&sheet).unwrap(), ROOM).ending {
            Ending::Clash(way) => records(&way.texts).len() as u32,
            _ => 0,
        };
        let whole = join(&way);
        let mut all = vec![whole.clone()];
        for at in 0..way.len() {
            for steps in damages(edition, &way, at) {
                if !all.contains(&steps) {
                    all.push(steps);
                }
            }
        }
        let case = |answer: u32| cases::Case { work: 0, answer, sheet: sheet.clone() };
        cases.extend(all.into_iter().map(|bytes| Handed { case: case(answer), bytes }));
        for answer in [0, answer.saturating_sub(1), answer + 1] {
            cases.push(Handed { case: case(answer), bytes: whole.clone() });
        }
    }
    cases.extend(not_allowed(&said));
    cases
}

/// `LT`, two digits and a finish; `LT`, digits, `C` and how it is turned.
pub fn latches() -> Vec<u8> {
    let digit = || vec![65, 0, 9];
    let finish = choice(["BR", "CH", "SS"].map(text).to_vec());
    let turn = choice(["H", "K", "T"].map(text).to_vec());
    let set = row(vec![digit(), many(digit())]);
    let patterns = [(0, row(vec![digit(), digit()])), (1, finish), (4, set), (5, turn)];
    sheet(&patterns, &tokens("LTab"), &tokens("LTeCf"))
}

/// x any digits, y the digit 4: x and y.
pub(super) fn sheet_s() -> Vec<u8> {
    sheet(&[(0, many(vec![65, 0, 9])), (1, vec![4])], &tokens("a"), &tokens("b"))
}

/// x, and x: one field is in both fronts.
pub(super) fn on_both_sides() -> Vec<u8> {
    sheet(&[(0, many(vec![65, 10, 11]))], &tokens("aA"), &tokens("aA"))
}

/// Single steps that are not allowed, and a sheet that is dead or refused.
fn not_allowed(said: &Said) -> Vec<Handed> {
    let one = |sheet: Vec<u8>, records: &[Record]| {
        let mut steps = Vec::new();
        records.iter().for_each(|record| record.write(&mut steps));
        Handed { case: cases::Case { work: 0, answer: 64, sheet }, bytes: steps }
    };
    let of = |patterns: &[(u8, &[u8])], left: &str, right: &str| {
        let patterns: Vec<(u8, Vec<u8>)> =
            patterns.iter().map(|(field, body)| (*field, body.to_vec())).collect();
        said.sheet(&sheet(&patterns, &tokens(left), &tokens(right)))
    };
    let (left, right) = (Record::LeftStruck, Record::RightStruck);
    let put = |character: u8| Record::Character(said.character(character));
    let many_times = "a".repeat(24);
    let grown = [put(10); 3];
    vec![
        // no field is in front
        one(of(&[], "A", "a"), &[left]),
        one(of(&[], "a", "A"), &[right]),
        // an open field may not end at its start, nor one that wants a character
        one(of(&[], "a", ""), &[left]),
        one(of(&[], "", "a"), &[right]),
        one(of(&[(0, &[10])], "a", ""), &[left]),
        // one field in both fronts: the left one is struck, not the right one
        one(of(&[(0, &[64])], "a", "a"), &[right]),
        one(of(&[(0, &[64])], "a", "a"), &[left, left, right]),
        one(of(&[(0, &[64])], "a", "a"), &[left, right, left]),
        // a character that a front does not take
        one(of(&[], "A", "a"), &[put(11)]),
        one(of(&[(0, &[10])], "a", "b"), &[put(11)]),
        one(of(&[(1, &[10])], "a", "b"), &[put(11)]),
        one(of(&[(0, &[10]), (1, &[10])], "a", "b"), &[put(10), put(10)]),
        // the hidden fields take spaces alone
        one(of(&[], "", ""), &[put(38), left, right]),
        one(of(&[], "", ""), &[put(37)]),
        // a dead child: two characters, or one before nothing
        one(of(&[(0, &[68, 10])], "aB", "A"), &[left]),
        one(of(&[(0, &[68, 10])], "aB", "bC"), &[left]),
        one(of(&[(1, &[68, 10])], "A", "bB"), &[right]),
        one(of(&[(0, &[68, 10])], "aA", "a"), &[left]),
        // a dead start, and one that is refused
        one(of(&[], "A", "B"), &[left]),
        one(of(&[], "A", "B"), &[put(10)]),
        one(of(&[], "A", "B"), &[]),
        one([&of(&[], "A", "B")[..], b"L"].concat(), &[put(10)]),
        one(Vec::new(), &[left]),
        one([&LEFT[..], &[0], RIGHT, &[25]].concat(), &[left]),
        // neither side may be empty for a character
        one(of(&[(0, &[68, 10])], "", ""), &[left, right]),
        one(of(&[(0, &[68, 10])], "", ""), &[right, left]),
        one(of(&[(0, &[68, 10])], "", ""), &[left, put(38)]),
        // 48 tokens, and more
        one(of(&[], &many_times, "AAb"), &grown[..1]),
        one(of(&[], &many_times, "AAAb"), &grown[..2]),
        one(of(&[], &many_times, "AAAb"), &grown),
        one(of(&[], &many_times, "bBa"), &grown[..2]),
        one(of(&[], &many_times, "bABa"), &[put(10), put(10), put(11)]),
        one(of(&[(1, &[68, 10])], &many_times, "bABC"), &[put(10), right, put(11)]),
        // an earlier entry does not count: the same situation again and again
        one(of(&[], "a", "b"), &[put(10), put(10), put(10), left, put(38), right]),
        one(of(&[], "a", "b"), &[put(10), put(10), put(10), left, right, left, right]),
        one(of(&[], "a", "b"), &[put(10), put(10), put(10), left, put(38), right, left, right]),
    ]
}
