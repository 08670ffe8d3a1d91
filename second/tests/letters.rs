//! Letters: the weights of patterns, sides that come out even and sides that do not,
//! and what they say is so.

use std::collections::BTreeMap;

use second::decide::HASHING;
use second::edition::{FIRST, SECOND};
use second::letters::{differ, tried, uneven, Weights, Why};
use second::make::{decided, Dice};
use second::pattern::{Allowed, CharacterSet, Pattern, Places};
use second::sheet::{read, Question, Reading};
use second::write::{choice, many, row, sheet, text, tokens};
use second::CLASH;

const A: CharacterSet = 1 << 10;
const SPACE: CharacterSet = 1 << 38;

fn weights(pattern: Vec<u8>, heavy: CharacterSet) -> (usize, Option<usize>, usize) {
    let pattern = Pattern::read(FIRST, &pattern).unwrap();
    let Weights { least, most, step } =
        Weights::of(&Allowed::Pattern(Box::new(Places::of(&pattern))), heavy);
    (least, most, step)
}

/// Row by row as docs/RULES.md, section 15, has them.
#[test]
fn the_weights_of_a_pattern() {
    assert_eq!(weights(text("A"), A), (1, Some(1), 0));
    assert_eq!(weights(text("B"), A), (0, Some(0), 0));
    // All of a range count, some, none.
    assert_eq!(weights(vec![65, 10, 10], A), (1, Some(1), 0));
    assert_eq!(weights(vec![65, 9, 10], A), (0, Some(1), 1));
    assert_eq!(weights(vec![65, 10, 11], A), (0, Some(1), 1));
    assert_eq!(weights(vec![65, 0, 9], A), (0, Some(0), 0));
    let but_the_space = FIRST.all() & !SPACE;
    assert_eq!(weights(vec![65, 0, 42], but_the_space), (0, Some(1), 1));
    assert_eq!(weights(vec![65, 0, 37], but_the_space), (1, Some(1), 0));
    assert_eq!(weights(vec![64], A), (0, Some(0), 0));
    // One behind the other, and any number of times.
    assert_eq!(weights(text("ABA"), A), (2, Some(2), 0));
    assert_eq!(weights(many(text("ABA")), A), (0, None, 2));
    assert_eq!(weights(many(text("B")), A), (0, Some(0), 0));
    assert_eq!(weights(many(vec![64]), A), (0, Some(0), 0));
    assert_eq!(weights(row(vec![text("A"), many(text("AAA"))]), A), (1, None, 3));
    let fours_and_sixes = row(vec![many(text("AAAA")), many(text("AAAAAA"))]);
    assert_eq!(weights(fours_and_sixes, A), (0, None, 2));
    // One or the other: the difference of the leasts is a step too.
    assert_eq!(weights(choice(vec![text("A"), text("AAAA")]), A), (1, Some(4), 3));
    assert_eq!(weights(choice(vec![text("A"), many(text("AA"))]), A), (0, None, 1));
    assert_eq!(weights(choice(vec![vec![64], text("AA")]), A), (0, Some(2), 2));
    assert_eq!(weights(many(choice(vec![text("AA"), text("AAAA")])), A), (0, None, 2));
}

#[test]
fn the_weights_of_a_field_without_a_pattern() {
    let open = Weights::of(&Allowed::Open(FIRST.all()), A);
    assert_eq!(open, Weights { least: 0, most: None, step: 1 });
}

fn question(patterns: &[(u8, Vec<u8>)], left: &str, right: &str) -> Question {
    read(&sheet(patterns, &tokens(left), &tokens(right))).unwrap()
}

#[test]
fn sides_that_can_and_cannot_weigh_the_same() {
    let pairs = || many(row(vec![vec![65, 0, 9]; 2]));
    let why = |patterns: &[(u8, Vec<u8>)], left: &str, right: &str| {
        let question = question(patterns, left, right);
        tried(&question).into_iter().find_map(|heavy| uneven(&question, heavy))
    };
    assert_eq!(why(&[], "A", "A"), None);
    assert_eq!(why(&[], "A", "AA"), Some(Why::Bounds));
    // The space never counts: the hidden fields hold any number of them.
    assert_eq!(why(&[], "A", "A  "), None);
    // A field without a pattern may hold a space.
    assert_eq!(why(&[], "a", ""), None);
    assert_eq!(why(&[], "aA", "A"), None);
    // A field on both sides counts on neither, or as often as it stands too often.
    assert_eq!(why(&[], "aA", "Ba"), Some(Why::Bounds));
    assert_eq!(why(&[], "aA", "Bba"), Some(Why::Bounds));
    assert_eq!(why(&[], "aaA", "Baa"), Some(Why::Bounds));
    assert_eq!(why(&[], "aaA", "Ab"), None);
    assert_eq!(why(&[], "aba", "baaA"), Some(Why::Bounds));
    // The step, by itself and times how often the field stands.
    assert_eq!(why(&[(0, pairs())], "a", "4"), Some(Why::Step));
    assert_eq!(why(&[(0, pairs())], "a", "44"), None);
    assert_eq!(why(&[(0, pairs())], "aa", "44"), Some(Why::Step));
    assert_eq!(why(&[(0, pairs())], "aa", "4444"), None);
    assert_eq!(why(&[], "aa", "AA"), None);
    assert_eq!(why(&[], "aa", "A"), Some(Why::Step));
    assert_eq!(why(&[], "aab", "A"), None);
    // The most: one digit at most, and two are too many.
    let one = choice(vec![vec![64], vec![65, 0, 9]]);
    assert_eq!(why(&[(0, one.clone())], "a", "44"), Some(Why::Bounds));
    assert_eq!(why(&[(0, one.clone())], "aa", "44"), None);
    assert_eq!(why(&[(0, one)], "44", "a"), Some(Why::Bounds));
    // One letter alone: as many characters, but no B on the left.
    assert_eq!(why(&[(0, vec![65, 0, 9])], "aA", "AB"), Some(Why::Bounds));
    // A space stands fixed: it is none of the weights.
    let spaces = question(&[], "A ", "A");
    assert_eq!(tried(&spaces), [FIRST.all() & !SPACE, A]);
}

/// Where letters differ no attempt finds a label, in whatever room; and made sheets
/// differ by the bounds and by the step, of all characters and of one.
#[test]
fn where_letters_differ_there_is_no_label() {
    for edition in [FIRST, SECOND] {
        let mut dice = Dice::of(12, edition);
        let mut seen = BTreeMap::new();
        for _ in 0..2500 {
            let case = decided::uneven_case(&mut dice);
            let question = Reading::New.sheet(&case.sheet).unwrap();
            let found = tried(&question)
                .into_iter()
                .enumerate()
                .find_map(|(number, heavy)| Some((number.min(1), uneven(&question, heavy)?)));
            *seen.entry(found).or_insert(0) += 1;
            assert_eq!(differ(&question), found.is_some());
            if found.is_some() {
                assert_ne!(case.run(second::answer).outcome.number, CLASH, "{case:?}");
            } else {
                assert_ne!(case.decide(HASHING).decided.search, 2, "{case:?}");
            }
        }
        let kinds = [(0, Why::Bounds), (0, Why::Step), (1, Why::Bounds), (1, Why::Step)];
        for kind in kinds.map(Some).into_iter().chain([None]) {
            assert!(seen.get(&kind).is_some_and(|&times| times > 40), "{kind:?}: {seen:?}");
        }
    }
}
