//! Two sides told apart by what is fixed in them: sides known by hand, what the
//! search finds of those that are told apart, and labels tried one by one.

use second::edition::{Edition, FIRST, SECOND};
use second::fronts::{differ, Case};
use second::make::{fronts, Dice};
use second::write::tokens;
use second::{answer, writer, CLASH, SITUATION_BYTES};

const NONE: u64 = 0;

/// Sides by their signs, a small letter for a field: told apart, in either order.
#[test]
fn known() {
    let apart = ["A B", "LT4 LT5", "LTa LUa", "aA bB", "AaB AbC", "aAX bBX", "aA aB", "LT4a LT5"];
    let nothing =
        ["A A", "a A", "a b", "LTa LTAa", "LTa LbA", "LT LTAa", "aB bAB", "aA bBc", "AA A"];
    for (pairs, expected) in [(&apart[..], true), (&nothing, false)] {
        for pair in pairs {
            let (left, right) = pair.split_once(' ').unwrap();
            let (left, right) = (tokens(left), tokens(right));
            assert_eq!(differ(NONE, &left, &right), expected, "{pair}");
            assert_eq!(differ(NONE, &right, &left), expected, "{pair}");
        }
    }
}

/// A space is a character in front, and ends no side that is compared.
#[test]
fn spaces() {
    for Edition { space, codes, record, .. } in [FIRST, SECOND] {
        let number = record.last().map_or(NONE, |&byte| byte.into());
        let told = |left: &[u8], right: &[u8]| differ(number, left, right);
        assert!(told(&[1, space, codes], &[1, 2, codes]));
        assert!(told(&[1, space], &[2]));
        assert!(!told(&[1, space], &[1]));
        assert!(!told(&[codes, 1, space], &[codes, 2, space]));
        assert!(!told(&[codes, 1], &[codes, 2, space]));
        assert!(told(&[codes, space, 1], &[codes, 2, 1]));
    }
    // The space of the one edition is no space in the other.
    assert!(differ(NONE, &[64, 32], &[64, 33]) && !differ(NONE, &[64, 38], &[64, 33]));
    assert!(differ(2, &[192, 38], &[192, 33]) && !differ(2, &[192, 32], &[192, 33]));
}

/// The search finds no clash of sides that are told apart, whatever it has room for.
#[test]
fn no_clash() {
    let (mut work, mut records) = ([0; 40 * SITUATION_BYTES], [0; 400]);
    let (mut apart, mut clashes) = (0, 0);
    for edition in [FIRST, SECOND] {
        let mut dice = Dice::of(5, edition);
        for case in (0..4000).map(|_| fronts::made(&mut dice)) {
            let Ok(sheet) = writer::sheet(case.edition, &[], &[], &case.left, &case.right) else {
                continue;
            };
            let clash = answer(&sheet, &mut work, &mut records).number == CLASH;
            let told = case.line() == "1";
            assert!(!(told && clash), "{case:?}");
            apart += usize::from(told);
            clashes += usize::from(clash);
        }
    }
    assert!(apart > 2000 && clashes > 500, "{apart} {clashes}");
}

/// The side with these texts of the fields 0 and 1, without the spaces at its end.
fn label(side: &[u8], texts: [&[u8]; 2]) -> Vec<u8> {
    let put = |&token: &u8| match token {
        64 | 65 => texts[usize::from(token - 64)].to_vec(),
        character => vec![character],
    };
    let mut label: Vec<u8> = side.iter().flat_map(put).collect();
    while label.last() == Some(&FIRST.space) {
        label.pop();
    }
    label
}

/// Of every pair of sides of at most three tokens: no texts of at most two
/// characters make the same label of those that are told apart.
#[test]
fn no_label() {
    let lists = |tokens: &[u8], most: usize| {
        let mut lists = vec![vec![]];
        let mut last = 0;
        for _ in 0..most {
            let from = lists.len();
            for at in last..from {
                lists.extend(
                    tokens
                        .iter()
                        .map(|&more| [&lists[at][..], &[more]].concat())
                        .collect::<Vec<_>>(),
                );
            }
            last = from;
        }
        lists
    };
    let texts = lists(&[1, 2, FIRST.space], 2);
    let sides = lists(&[1, 2, FIRST.space, 64, 65], 3);
    let mut apart = 0;
    for left in &sides {
        for right in sides.iter().filter(|right| differ(NONE, left, right)) {
            apart += 1;
            for x in &texts {
                for y in &texts {
                    let texts = [&x[..], y];
                    assert_ne!(label(left, texts), label(right, texts), "{left:?} {right:?}");
                }
            }
        }
    }
    assert_eq!((sides.len(), apart), (156, 8072));
}

/// Every case is read from its stream as it was written.
#[test]
fn streams() {
    let mut dice = Dice::of(9, SECOND);
    let cases: Vec<Case> =
        fronts::each().into_iter().chain((0..500).map(|_| fronts::made(&mut dice))).collect();
    let mut stream = Vec::new();
    for case in &cases {
        case.write(&mut stream);
    }
    let mut rest = &stream[..];
    for case in &cases {
        let (read, behind) = Case::read(rest).unwrap();
        assert_eq!(read, *case);
        rest = behind;
    }
    assert!(rest.is_empty());
    assert_eq!(Case::read(&stream[..9]), None);
}
