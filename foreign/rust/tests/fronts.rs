//! Two sides told apart by what is fixed in them: sides known by hand, bytes that are no tokens, what
//! a search finds of the pairs of many short sides; and many generated cases, on which the library
//! and the crate `second` agree.

use bradovusc::{answer_bytes, clash, fronts_differ, write_edition, Edition, Written};
use bradovusc::{SHEET_BYTES, SITUATION_BYTES};
use second::edition::{FIRST, SECOND};
use second::fronts::differ;
use second::make::{fronts, Dice};

const EDITIONS: [Edition; 2] = [Edition::Code39, Edition::FullAscii];

/// How many pairs of the short sides below are told apart, in either edition.
const APART: usize = 8072;

/// The tokens of a side: a capital letter, a digit or a space is a character, a small letter from `a`
/// on a field.
fn side(edition: Edition, of: &str) -> Vec<u8> {
    let token = |sign: char| match sign {
        'a'..='h' => edition.codes() + (sign as u8 - b'a'),
        _ => edition.value(sign).unwrap(),
    };
    of.chars().map(token).collect()
}

/// What is told of both orders, which is the same.
fn told(edition: Edition, left: &[u8], right: &[u8]) -> bool {
    let given = fronts_differ(edition, left, right);
    assert_eq!(fronts_differ(edition, right, left), given, "{left:?} {right:?}");
    given
}

#[test]
fn known() {
    let apart = [
        ("A", "B"),
        ("LT4", "LT5"),
        ("LTa", "LUa"),
        ("LTa", "LUb"),
        ("aA", "bB"),
        ("aA", "aB"),
        ("AaB", "AbC"),
        ("aAX", "bBX"),
        ("A a", "ABa"),
        (" a", "Aa"),
        ("LT4 ", "LT5"),
        ("a A", "b BA"),
    ];
    let nothing = [
        ("", ""),
        ("", "A"),
        ("", "a"),
        ("A", "A"),
        ("a", "a"),
        ("a", "A"),
        ("a", "b"),
        ("LT4", "LT4 "),
        ("LTa", "LTAa"),
        ("LTa", "LbA"),
        ("LTaA", "LbA"),
        ("aA", "bB "),
        ("aA ", "bB "),
        ("aB", "bAB"),
        ("aA", "bBc"),
        ("aAb", "aBb"),
        ("LT", "LTAa"),
        ("AA", "A"),
    ];
    for edition in EDITIONS {
        for (pairs, apart) in [(&apart[..], true), (&nothing, false)] {
            for &(left, right) in pairs {
                let given = told(edition, &side(edition, left), &side(edition, right));
                assert_eq!(given, apart, "{edition:?} {left:?} {right:?}");
            }
        }
    }
}

/// Each side differs from the other in front and at its end. With one of its bytes changed they are
/// told apart exactly if that byte is a token.
#[test]
fn no_tokens() {
    for edition in EDITIONS {
        let (characters, codes) = (edition.characters(), edition.codes());
        let (left, right) = ([1, codes, 2, 3], [4, codes + 7, 5]);
        for byte in 0..=u8::MAX {
            let token = byte < characters || (codes..codes + 8).contains(&byte);
            for at in 0..left.len() {
                let mut changed = left;
                changed[at] = byte;
                assert_eq!(told(edition, &changed, &right), token, "{edition:?} {changed:?}");
            }
        }
    }
}

/// Sides of any length, longer ones than a sheet may have among them.
#[test]
fn any_length() {
    for edition in EDITIONS {
        for length in [1, 24, 25, 255, 256, 1000] {
            let mut left = vec![1; length];
            assert!(!told(edition, &left, &vec![1; length]));
            left[length - 1] = 2;
            assert!(told(edition, &left, &vec![1; length]));
            assert!(!told(edition, &[1], &vec![1; length]));
            left.push(edition.codes());
            assert!(told(edition, &left, &vec![1; length]));
            left.reverse();
            assert!(told(edition, &left, &[edition.codes(), 3]));
        }
    }
}

/// Every side of at most three of two characters, the space and two fields.
fn short_sides(edition: Edition) -> Vec<Vec<u8>> {
    let tokens = [1, 2, edition.space(), edition.codes(), edition.codes() + 1];
    let mut sides = vec![vec![]];
    let mut last = 0;
    for _ in 0..3 {
        let from = sides.len();
        for at in last..from {
            for token in tokens {
                sides.push([&sides[at][..], &[token]].concat());
            }
        }
        last = from;
    }
    sides
}

/// What is told apart has no clash.
#[test]
fn no_clash() {
    let (mut work, mut answer) = ([0; 60 * SITUATION_BYTES], [0; answer_bytes(60)]);
    let mut sheet = [0; SHEET_BYTES];
    for edition in EDITIONS {
        let sides = short_sides(edition);
        let mut apart = 0;
        for left in &sides {
            for right in &sides {
                if !told(edition, left, right) {
                    continue;
                }
                apart += 1;
                let written = write_edition(edition, &[], &[], left, right, &mut sheet);
                let Written::Sheet { bytes } = written else { panic!("{written:?}") };
                let given = clash(&sheet[..bytes], &mut work, &mut answer);
                assert_ne!(given.clashes(), Some(true), "{edition:?} {left:?} {right:?}");
            }
        }
        assert_eq!((sides.len(), apart), (156, APART), "{edition:?}");
    }
}

#[test]
fn many() {
    let mut cases = fronts::each();
    for edition in [FIRST, SECOND] {
        let mut dice = Dice::of(40, edition);
        cases.extend((0..4000).map(|_| fronts::made(&mut dice)));
    }
    let mut apart = 0;
    for case in cases {
        // The others are no editions.
        let Some(edition) = EDITIONS.into_iter().find(|of| of.number() as u64 == case.edition)
        else {
            continue;
        };
        let given = told(edition, &case.left, &case.right);
        assert_eq!(given, differ(case.edition, &case.left, &case.right), "{case:?}");
        apart += usize::from(given);
    }
    assert!(apart > 4000, "{apart}");
}
