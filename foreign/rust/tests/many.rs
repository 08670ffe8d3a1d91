//! The library and the crate `second` agree on many generated cases: number, count, place, written
//! length, and both buffers to the last byte.

use std::collections::BTreeSet;

use bradovusc::{answer_bytes, clash, Answer, SITUATION_BYTES};
use second::edition::{FIRST, SECOND};
use second::make::{case, long, Dice};
use second::Outcome;

/// The library in the form of `second::answer`.
fn library(sheet: &[u8], work: &mut [u8], answer: &mut [u8]) -> Outcome {
    let given = clash(sheet, work, answer);
    let place = if let Answer::Refused { place, .. } = given { place } else { 0 };
    let (number, count, written) = (given.number() as u8, given.count(), given.written());
    Outcome { number, count, place, written }
}

#[test]
fn generated_cases() {
    let mut dice = [FIRST, SECOND].map(|edition| Dice::of(39, edition));
    let mut seen = BTreeSet::new();
    for number in 0..4000 {
        let case = case(&mut dice[number % 2]);
        let after = case.run(library);
        assert_eq!(after, case.run(second::answer), "{case:?}");
        seen.insert(after.outcome.number);
    }
    assert!(seen.into_iter().eq([0, 1, 11, 12, 13, 14, 15, 16, 17, 18, 19, 20, 22, 44]));
}

#[test]
fn an_answer_buffer_that_is_always_long_enough() {
    let mut dice = [FIRST, SECOND].map(|edition| Dice::of(41, edition));
    let mut too_short = 0;
    for number in 0..4000 {
        let mut case = case(&mut dice[number % 2]);
        let given = case.run(library).outcome.number;
        case.answer = answer_bytes(case.work as usize / SITUATION_BYTES) as u32;
        let now = case.run(library).outcome.number;
        assert_eq!(now, if given == 20 { 0 } else { given }, "{case:?}");
        too_short += usize::from(given == 20);
    }
    assert!(too_short > 40);
}

#[test]
fn long_searches() {
    for case in long(356) {
        assert_eq!(case.run(library), case.run(second::answer), "{case:?}");
    }
}
