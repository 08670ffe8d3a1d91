//! The steps on paper: known ways, each refusal of the player, buffers around the right lengths; and
//! many generated cases, on which the library and the crate `second` agree: every number, and the
//! buffers to the last byte. Every way that the library writes is played, those of given texts too.

use std::collections::BTreeMap;

use bradovusc::{
    answer_bytes, clash, decide, find_way, play, steps, steps_bytes, way, Answer, Fault, Played,
    Step, Stepped, WayFound, MOST_STEPS, SITUATION_BYTES,
};
use second::edition::{FIRST, SECOND};
use second::make::{given, pairs, ways, Dice};
use second::steps::STEPS_FILL;
use second::Outcome;

const ANSWER_FILL: u8 = 165;

/// Field 0, any digits, is the left side; field 1, the digit 4, the right one.
const SHEET: &[u8] = b"PA\x00\x04\x44\x41\x00\x09PA\x01\x01\x04LE\x01\x40RI\x01\x41";
const TEXTS: &[u8] = b"VA\x00\x01\x00\x04VA\x01\x01\x00\x04";
/// Field 0 has a pattern and stands in neither side.
const STRAY: &[u8] = b"PA\x00\x01\x04LE\x00RI\x00";
const WAY: &[u8] = b"ST\x02\x04ST\x00ST\x00ST\x01ST\x01";

fn records(steps: &[Step]) -> Vec<u8> {
    let mut records = Vec::new();
    steps.iter().for_each(|step| step.write(&mut records));
    records
}

/// What is answered in buffers of these lengths, and what they then hold.
fn stepped(room: usize, answer: usize, lent: usize) -> (Stepped, Vec<u8>, Vec<u8>) {
    let mut work = vec![90; room * SITUATION_BYTES];
    let mut answer = vec![ANSWER_FILL; answer];
    let mut lent = vec![STEPS_FILL; lent];
    let given = steps(SHEET, &mut work, &mut answer, &mut lent);
    assert!(work.iter().all(|&byte| byte == 0));
    (given, answer, lent)
}

#[test]
fn a_way() {
    let (given, answer, lent) = stepped(13, 15, 20);
    let clash = Answer::Clash { count: 13, written: 12 };
    assert_eq!(given, Stepped::Answered { answer: clash, steps: 16 });
    assert_eq!(answer, [TEXTS, &[ANSWER_FILL; 3]].concat());
    assert_eq!(lent, [WAY, &[STEPS_FILL; 4]].concat());
    let (left, right) = (Step::StrikeLeft, Step::StrikeRight);
    assert!(way(WAY).eq([Step::Put(4), left, left, right, right]));
    assert_eq!(records(&[Step::Put(4), left, left, right, right]), WAY);
}

#[test]
fn short_buffers() {
    for answer in 0..14 {
        for lent in 0..18 {
            let (given, answered, kept) = stepped(13, answer, lent);
            match (answer < 12, lent < 16) {
                (true, _) => {
                    let answer = Answer::AnswerTooShort { count: 13 };
                    assert_eq!(given, Stepped::Answered { answer, steps: 0 });
                }
                (false, true) => assert_eq!(given, Stepped::StepsTooShort { count: 13 }),
                (false, false) => assert_eq!((given.written(), given.steps()), (12, 16)),
            }
            assert!(answered[given.written()..].iter().all(|&byte| byte == ANSWER_FILL));
            assert!(kept[given.steps()..].iter().all(|&byte| byte == STEPS_FILL));
        }
    }
    let answer = Answer::NoRoom { count: 12 };
    assert_eq!(stepped(12, 12, 16).0, Stepped::Answered { answer, steps: 0 });
    let refused = steps(b"LE\x00RI\x00X", &mut [], &mut [], &mut []);
    let answer = Answer::Refused { fault: Fault::WrongMark, place: 6 };
    assert_eq!(refused, Stepped::Answered { answer, steps: 0 });
    let refused = steps(STRAY, &mut [], &mut [], &mut []);
    let answer = Answer::Refused { fault: Fault::StrayPattern, place: 0 };
    assert_eq!(refused, Stepped::Answered { answer, steps: 0 });
}

/// Played into a filled buffer of this length, which is unchanged behind what is written.
fn played(sheet: &[u8], records: &[u8], length: usize) -> (Played, Vec<u8>) {
    let mut answer = vec![ANSWER_FILL; length];
    let given = play(sheet, records, &mut answer);
    assert!(answer[given.written()..].iter().all(|&byte| byte == ANSWER_FILL));
    answer.truncate(given.written());
    (given, answer)
}

#[test]
fn the_player() {
    assert_eq!(played(SHEET, WAY, 12), (Played::Finished { written: 12 }, TEXTS.to_vec()));
    for length in 0..12 {
        assert_eq!(played(SHEET, WAY, length).0, Played::AnswerTooShort);
    }
    let refused = |records: &[u8], answer: Played| {
        for length in [0, 12, 40] {
            assert_eq!(played(SHEET, records, length).0, answer);
        }
    };
    refused(b"", Played::NotFinished);
    refused(&WAY[..4], Played::NotFinished);
    refused(&WAY[..5], Played::WrongStep);
    for wrong in [&b"SU\x00"[..], b"ST\x03", b"ST\x02\x2b", b"X", b"ST\x02"] {
        refused(wrong, Played::WrongStep);
        refused(&[WAY, wrong].concat(), Played::WrongStep);
    }
    for wrong in [&b"ST\x01"[..], b"ST\x02\x0a"] {
        refused(wrong, Played::StepNotAllowed);
    }
    refused(&[WAY, b"ST\x00"].concat(), Played::StepNotAllowed);
    let (fault, place) = (Fault::CutShort, 0);
    assert_eq!(played(b"", b"X", 9).0, Played::Refused { fault, place });
    let fault = Fault::StrayPattern;
    assert_eq!(played(STRAY, b"X", 9).0, Played::Refused { fault, place });
    // 24 times field 0, which has no pattern
    let long = [&b"LE\x18"[..], &[64; 24], b"RI\x01\x41"].concat();
    let puts = records(&[Step::Put(10), Step::Put(10)]);
    assert_eq!(played(&long, &puts[..4], 9).0, Played::NotFinished);
    assert_eq!(played(&long, &puts, 9).0, Played::SideTooLong);
}

/// The way of these texts, into a filled buffer of this length, which is unchanged behind what is
/// written.
fn way_of(sheet: &[u8], texts: &[u8], length: usize) -> (WayFound, Vec<u8>) {
    let mut lent = vec![STEPS_FILL; length];
    let given = find_way(sheet, texts, &mut lent);
    assert!(lent[given.written()..].iter().all(|&byte| byte == STEPS_FILL));
    lent.truncate(given.written());
    (given, lent)
}

#[test]
fn the_way_of_given_texts() {
    assert_eq!(way_of(SHEET, TEXTS, 16), (WayFound::Steps { written: 16 }, WAY.to_vec()));
    for length in 0..16 {
        assert_eq!(way_of(SHEET, TEXTS, length).0, WayFound::StepsTooShort);
    }
    let refused = |texts: &[u8], answer: WayFound| {
        for length in [0, 16, 40] {
            assert_eq!(way_of(SHEET, texts, length).0, answer);
        }
    };
    for length in 0..TEXTS.len() {
        refused(&TEXTS[..length], WayFound::WrongTexts);
        let mut other = TEXTS.to_vec();
        other[length] = 43;
        refused(&other, WayFound::WrongTexts);
    }
    refused(&[TEXTS, &[0]].concat(), WayFound::WrongTexts);
    refused(b"VA\x00\x01\x00\x05VA\x01\x01\x00\x04", WayFound::NoSolution);
    refused(b"VA\x00\x01\x00\x05VA\x01\x01\x00\x05", WayFound::NoSolution);
    let (fault, place) = (Fault::CutShort, 0);
    assert_eq!(way_of(b"", TEXTS, 9).0, WayFound::Refused { fault, place });
    let fault = Fault::StrayPattern;
    assert_eq!(way_of(STRAY, b"X", 9).0, WayFound::Refused { fault, place });
    // `A`, and `A` with a space: the left hidden field holds it
    let spaced = b"LE\x01\x0aRI\x02\x0a\x26";
    let (left, right) = (Step::StrikeLeft, Step::StrikeRight);
    let expected = records(&[Step::Put(38), left, right]);
    assert_eq!(way_of(spaced, b"", 16), (WayFound::Steps { written: 10 }, expected));
    // 24 times field 0, which has no pattern, and two `A`
    let long = [&b"LE\x18"[..], &[64; 24], b"RI\x01\x41"].concat();
    let texts = [&b"VA\x00\x02\x00\x0a\x0aVA\x01\x30\x00"[..], &[10; 48]].concat();
    assert_eq!(way_of(&long, &texts, 400).0, WayFound::SideTooLong);
}

/// Decides the sheet in room for 356 situations: of a clash, the attempt that found it, and the way of
/// its texts, which the player gives back.
fn decided(sheet: &[u8]) -> Option<(u8, Vec<u8>)> {
    let mut work = vec![0; 356 * SITUATION_BYTES];
    let mut answer = vec![0; answer_bytes(356)];
    let decision = decide(sheet, &mut work, &mut answer);
    let Answer::Clash { written, .. } = decision.answer else { return None };
    let (given, lent) = way_of(sheet, &answer[..written], steps_bytes(356));
    assert_eq!(given, WayFound::Steps { written: lent.len() });
    let (played, texts) = played(sheet, &lent, written);
    assert_eq!((played, &texts[..]), (Played::Finished { written }, &answer[..written]));
    Some((decision.search, lent))
}

/// `KP{n}-{n}` twice, n a number, on the right one that ends in 0.
#[test]
fn the_way_of_a_field_that_stands_twice() {
    let (one, other) =
        (b"PA\x00\x08\x42\x41\x00\x09\x44\x41\x00\x09", b"PA\x01\x06\x42\x44\x41\x00\x09\x00");
    let (left, right) = (b"LE\x05\x14\x19\x40\x24\x40", b"RI\x05\x14\x19\x41\x24\x41");
    let (strike_left, strike_right) = (Step::StrikeLeft, Step::StrikeRight);
    let way = records(&[Step::Put(0), strike_left, strike_right, strike_left, strike_right]);
    assert_eq!(decided(&[&one[..], other, left, right].concat()), Some((4, way)));
}

/// Every clash that is decided has a way, whichever attempt has found it.
#[test]
fn ways_of_what_is_decided() {
    let mut dice = [FIRST, SECOND].map(|edition| Dice::of(42, edition));
    let (mut by_first, mut by_another) = (0, 0);
    for number in 0..1_500 {
        let sheet = pairs::case(&mut dice[number % 2], number % 3 == 0, 356).sheet;
        match decided(&sheet) {
            Some((1, _)) => by_first += 1,
            Some(_) => by_another += 1,
            None => (),
        }
    }
    assert!(by_first > 200 && by_another > 20, "{by_first} {by_another}");
}

#[test]
fn the_most_steps() {
    let endless = b"LE\x01\x40RI\x01\x41";
    let puts = b"ST\x02\x0a".repeat(MOST_STEPS + 1);
    let most = &puts[..4 * MOST_STEPS];
    assert_eq!(played(endless, most, 0).0, Played::NotFinished);
    assert_eq!(played(endless, &puts, 0).0, Played::TooManySteps);
    assert_eq!(played(endless, &[most, b"X"].concat(), 0).0, Played::TooManySteps);
    let (left, right) = (Step::StrikeLeft, Step::StrikeRight);
    let end = records(&[left, right, left, right]);
    let whole = [&puts[..4 * (MOST_STEPS - 4)], &end].concat();
    let written = 2 * (5 + MOST_STEPS - 4);
    let (given, texts) = played(endless, &whole, written);
    assert_eq!(given, Played::Finished { written });
    // the same way by its texts, and one with a character more
    let (given, again) = way_of(endless, &texts, whole.len());
    assert_eq!((given.written(), again.len()), (whole.len(), whole.len()));
    let text = |field: u8| [&b"VA"[..], &[field, 251, 255], &[10; MOST_STEPS - 3]].concat();
    let longer = [text(0), text(1)].concat();
    assert_eq!(way_of(endless, &longer, 0).0, WayFound::TooManySteps);
}

#[test]
fn generated_steps() {
    let mut dice = [FIRST, SECOND].map(|edition| Dice::of(39, edition));
    let mut seen = BTreeMap::new();
    for number in 0..2000 {
        let case = ways::case(&mut dice[number % 2]);
        let theirs = case.run(second::steps::steps);
        let mut work = vec![90; case.case.work as usize];
        let mut answer = vec![ANSWER_FILL; case.case.answer as usize];
        let mut lent = vec![STEPS_FILL; case.steps.into()];
        let given = steps(&case.case.sheet, &mut work, &mut answer, &mut lent);
        let Outcome { number, count, written, .. } = theirs.told.outcome;
        assert_eq!((given.number() as u8, given.count()), (number, count), "{case:?}");
        assert_eq!((given.written(), given.steps()), (written, theirs.told.bytes), "{case:?}");
        assert_eq!((work, answer, lent), (theirs.work, theirs.answer, theirs.steps), "{case:?}");
        *seen.entry(number).or_insert(0) += 1;
    }
    for number in [0, 1, 11, 12, 18, 20, 51] {
        assert!(seen.get(&number).is_some_and(|&times| times > 8), "{seen:?}");
    }
}

#[test]
fn generated_ways_that_are_played() {
    let mut dice = [FIRST, SECOND].map(|edition| Dice::of(40, edition));
    let mut seen = BTreeMap::new();
    let made = (0..2000).map(|number| ways::played(&mut dice[number % 2]));
    for case in made.chain([FIRST, SECOND].into_iter().flat_map(ways::each)) {
        let (told, theirs) = case.run(second::steps::play);
        let mut ours = vec![ANSWER_FILL; case.case.answer as usize];
        let given = play(&case.case.sheet, &case.bytes, &mut ours);
        let (number, place) = (given.number() as u8, given.place());
        assert_eq!(Outcome { number, count: 0, place, written: given.written() }, told, "{case:?}");
        assert_eq!(ours, theirs, "{case:?}");
        *seen.entry(number).or_insert(0) += 1;
    }
    for number in [0, 12, 19, 20, 47, 48, 49] {
        assert!(seen.get(&number).is_some_and(|&times| times > 8), "{seen:?}");
    }
}

#[test]
fn generated_texts_with_their_ways() {
    let mut dice = [FIRST, SECOND].map(|edition| Dice::of(43, edition));
    let mut seen = BTreeMap::new();
    let made = (0..800).map(|number| given::case(&mut dice[number % 2]));
    for case in made.chain([FIRST, SECOND].into_iter().flat_map(given::each)) {
        let (told, theirs) = case.run(second::way::way);
        let mut ours = vec![ANSWER_FILL; case.case.answer as usize];
        let found = find_way(&case.case.sheet, &case.bytes, &mut ours);
        let (number, place) = (found.number() as u8, found.place());
        assert_eq!(Outcome { number, count: 0, place, written: found.written() }, told, "{case:?}");
        assert_eq!(ours, theirs, "{case:?}");
        *seen.entry(number).or_insert(0) += 1;
    }
    for number in [0, 12, 19, 47, 48, 51] {
        assert!(seen.get(&number).is_some_and(|&times| times > 8), "{seen:?}");
    }
}

/// Each way that the search writes is played, with the same answer buffer, and gives the same bytes;
/// and all else is as without the steps.
#[test]
fn ways_of_the_search() {
    let mut dice = [FIRST, SECOND].map(|edition| Dice::of(41, edition));
    let mut ways_found = 0;
    for number in 0..1000 {
        let sheet = pairs::case(&mut dice[number % 2], false, 356).sheet;
        let mut work = vec![0; 356 * SITUATION_BYTES];
        let (mut plain, mut answer) = (vec![0; answer_bytes(356)], vec![0; answer_bytes(356)]);
        let mut lent = vec![0; steps_bytes(356)];
        let given = steps(&sheet, &mut work, &mut answer, &mut lent);
        let clash = clash(&sheet, &mut work, &mut plain);
        let found = given.steps();
        assert_eq!(given, Stepped::Answered { answer: clash, steps: found });
        assert_eq!(answer, plain);
        if given.clashes() == Some(true) {
            let mut all = way(&lent[..found]);
            let number = all.by_ref().count();
            assert!(all.rest().is_empty() && number < given.count());
            let (by_player, texts) = played(&sheet, &lent[..found], answer.len());
            assert_eq!(by_player, Played::Finished { written: given.written() });
            assert_eq!(texts, answer[..given.written()]);
            ways_found += 1;
        }
    }
    assert!(ways_found > 100, "{ways_found}");
}

#[test]
fn records_that_are_none() {
    for end in 0..WAY.len() {
        let whole = (0..=end).rev().find(|&end| end == 0 || (end >= 4 && (end - 4) % 3 == 0));
        let mut part = way(&WAY[..end]);
        part.by_ref().count();
        assert_eq!(part.rest(), &WAY[whole.unwrap()..end]);
    }
    for wrong in [&b"SU\x00"[..], b"ST\x03", b"ST\x02\x80", b"ST\x02", b"X", b""] {
        assert_eq!(way(wrong).next(), None);
    }
    assert_eq!(way(b"ST\x02\x7F").next(), Some(Step::Put(127)));
    assert_eq!([0, 1, 2, 356].map(steps_bytes), [0, 0, 4, 1_420]);
    assert_eq!(steps_bytes(65_535), 4 * MOST_STEPS);
}
