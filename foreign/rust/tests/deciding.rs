//! `decide` beside `clash`: where `clash` decides, or refuses the sheet, it says the same in every
//! number and byte; otherwise it says no less.

use bradovusc::{answer_bytes, clash, decide, Answer, SITUATION_BYTES};
use second::edition::{FIRST, SECOND};
use second::make::{case, Dice};
use second::Outcome;

fn outcome(answer: Answer) -> Outcome {
    let place = if let Answer::Refused { place, .. } = answer { place } else { 0 };
    let (number, count, written) = (answer.number() as u8, answer.count(), answer.written());
    Outcome { number, count, place, written }
}

#[test]
fn generated_cases() {
    let mut dice = [FIRST, SECOND].map(|edition| Dice::of(43, edition));
    for number in 0..4000 {
        let case = case(&mut dice[number % 2]);
        let first = case.run(|sheet, work, answer| outcome(clash(sheet, work, answer)));
        let all = case.run(|sheet, work, answer| outcome(decide(sheet, work, answer).answer));
        let (mut work, mut answer) = (vec![0; case.work as usize], vec![0; case.answer as usize]);
        let search = decide(&case.sheet, &mut work, &mut answer).search;
        match first.outcome.number {
            18 | 19 => match all.outcome.number {
                0 | 1 | 20 => assert!((2..=7).contains(&search), "{case:?}"),
                number => assert_eq!((number, search), (first.outcome.number, 0), "{case:?}"),
            },
            number => {
                assert_eq!(all, first, "{case:?}");
                assert_eq!(search, u8::from(matches!(number, 0 | 1 | 20)), "{case:?}");
            }
        }
        assert!(all.outcome.count >= first.outcome.count);
    }
}

#[test]
fn in_words() {
    // Field 0, any digits, is the left side; field 1, the digit 4, the right one.
    let sheet = b"PA\x00\x04\x44\x41\x00\x09PA\x01\x01\x04LE\x01\x40RI\x01\x41";
    let (mut work, mut answer) = (vec![0; 356 * SITUATION_BYTES], vec![0; answer_bytes(356)]);
    let decision = decide(sheet, &mut work, &mut answer);
    assert_eq!((decision.clashes(), decision.search), (Some(true), 1));
    assert_eq!(decision.to_string(), "clash");
    let decision = decide(&sheet[1..], &mut work, &mut answer);
    assert_eq!((decision.clashes(), decision.search), (None, 0));
    assert_eq!(decision.to_string(), "a wrong mark, or bytes behind the last side, at offset 0");
}
