//! The word equations that the source documents print: how many are decided, and
//! whether what is said of them is so.

use second::decide::HASHING;
use second::equations::{Equation, PRINTED};
use second::sheet::{read, Token};
use second::MOST_ROOM;

/// Whether the equation has a solution, as deciding says in this room, and the
/// attempt; none where it is not decided.
fn decided(equation: &Equation, room: usize) -> Option<(bool, u8)> {
    let decided = equation.case(room).decide(HASHING).decided;
    let number = decided.outcome.number;
    assert!(matches!(number, 0 | 1 | 18 | 19));
    (number < 2).then_some((number == 0, decided.search))
}

fn named(equation: &Equation) -> String {
    format!("{} = {}", equation.left, equation.right)
}

/// "of the printed equations .. all but two with 65,535 situations"
#[test]
fn all_but_two_are_decided() {
    let mut left = Vec::new();
    for equation in PRINTED {
        match decided(equation, MOST_ROOM) {
            Some((solved, _)) => assert_eq!(solved, equation.solved, "{}", named(equation)),
            None => left.push(named(equation)),
        }
    }
    assert_eq!(PRINTED.len(), 58);
    assert_eq!(left, ["xbx = abxa", "xabyy = ybaxx"]);
}

/// In the program's room one more is left over, which has a solution.
#[test]
fn all_but_three_are_decided_in_the_programs_room() {
    let left: Vec<String> =
        PRINTED.iter().filter(|equation| decided(equation, 356).is_none()).map(named).collect();
    assert_eq!(left, ["xbx = abxa", "xabyu = ybaxv", "xabyy = ybaxx"]);
}

/// "where the letters can't come out even"
#[test]
fn letters_decide_what_a_search_does_not() {
    for name in ["xa = byx", "xby = yx", "xxa = bxx"] {
        let equation = PRINTED.iter().find(|equation| named(equation) == name).unwrap();
        assert_eq!(decided(equation, 356), Some((false, 2)), "{name}");
    }
}

/// A variable that stands in an equation is a field, and a constant a character.
#[test]
fn each_has_the_tokens_of_its_sheet() {
    for equation in PRINTED {
        let question = read(&equation.sheet()).unwrap();
        for (side, of) in [(&question.left, equation.left), (&question.right, equation.right)] {
            // The hidden field stands behind it.
            assert_eq!(side.len(), of.len() + 1, "{}", named(equation));
            for (token, name) in side.iter().zip(of.chars()) {
                let constant = matches!(name, 'a'..='c');
                assert_eq!(matches!(token, Token::Character(_)), constant, "{}", named(equation));
            }
        }
        assert!(equation.left.len() + equation.right.len() <= 24);
    }
}
