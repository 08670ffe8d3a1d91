//! Pairs of rules as storerooms write them.
//!
//! A rule is an article's letters and one to four parts: sizes, finishes, hands,
//! dates, numbers, free text, with a dash or another sign between them or none.
//! Now and then a part stands twice: a number on both halves of a label, a width
//! that is also the height. A pair is two rules of one storeroom: a rule and a
//! near copy of it, two rules of one article, or of two articles. Now and then
//! both have a field in common, as a shelf whose number stands on both labels.

use super::said::said_sheet;
use super::Dice;
use crate::cases::Case;
use crate::catalogue::DONE;
use crate::edition::FIRST;
use crate::pattern::{Allowed, Pattern, Places};
use crate::plain::{plain_bytes, stands_twice};
use crate::sheet::{read, PATTERN};
use crate::storeroom::{by_first_letter, FINISHES};
use crate::write::{self, choice, many, row, sheet, text, values};
use crate::SITUATION_BYTES;

/// A rule has "fields, numbered 0 to 3".
const MOST_FIELDS: usize = 4;
/// "length byte 0 to 24, tokens"
const MOST_TOKENS: usize = super::MOST_SIDE;

/// A part of a rule.
#[derive(Clone, PartialEq)]
enum Part {
    Fixed(Vec<u8>),
    /// A field; one without a pattern is open.
    Field(Option<Vec<u8>>),
    /// Once more the field of that part.
    Again(usize),
}

type Rule = Vec<Part>;

/// One pair, with room for so many situations and 4,096 bytes of answer; with a
/// field that stands twice, where these alone are wanted.
pub fn case(dice: &mut Dice, twice: bool, room: usize) -> Case {
    let sheet = if twice { with_a_field_twice(dice) } else { pair(dice) };
    Case { work: (room * SITUATION_BYTES) as u32, answer: 4096, sheet }
}

/// The next pair in which no field stands twice, with just the bit buffer that it
/// needs and no answer buffer.
pub fn plain_case(dice: &mut Dice) -> Case {
    loop {
        let sheet = pair(dice);
        let needs = plain_bytes(&sheet);
        if needs.number == DONE {
            return Case { work: needs.bytes as u32, answer: 0, sheet };
        }
    }
}

/// The next pair with a field that stands twice or more in the two sides
/// together.
pub(super) fn with_a_field_twice(dice: &mut Dice) -> Vec<u8> {
    loop {
        let sheet = pair(dice);
        if read(&sheet).is_ok_and(|question| stands_twice(&question)) {
            return sheet;
        }
    }
}

/// The sheet of a pair: the left rule's fields are 0 to 3, the right one's 4 to
/// 7.
pub(super) fn pair(dice: &mut Dice) -> Vec<u8> {
    loop {
        let article = article(dice);
        let left = rule(dice, &article);
        let mut right = match dice.below(10) {
            0..=4 => near_copy(dice, &left),
            5..=7 => rule(dice, &article),
            _ => {
                let other = self::article(dice);
                rule(dice, &other)
            }
        };
        if dice.one_in(16) {
            right = near_copy(dice, &right);
        }
        let in_common = dice.one_in(25);
        if let Some(sheet) = written(&left, &right, in_common) {
            return said_sheet(dice, &sheet);
        }
    }
}

/// The sheet, if the sides are short enough and have few enough fields. With a
/// field in common, a field of the right rule is that of the left one which has
/// the same pattern.
fn written(left: &Rule, right: &Rule, in_common: bool) -> Option<Vec<u8>> {
    let mut patterns: Vec<(u8, Vec<u8>)> = Vec::new();
    let mut common: Vec<(Option<Vec<u8>>, u8)> = Vec::new();
    let mut sides = Vec::new();
    for (rule, first) in [(left, 0), (right, MOST_FIELDS as u8)] {
        let mut side = Vec::new();
        let mut fields: Vec<Option<u8>> = Vec::new();
        let mut next = first;
        for part in rule {
            let field = match part {
                Part::Fixed(values) => {
                    side.extend_from_slice(values);
                    None
                }
                Part::Again(of) => fields[*of],
                Part::Field(pattern) => {
                    let shared = common.iter().find(|(of, _)| first > 0 && of == pattern);
                    match shared.filter(|_| in_common) {
                        Some((_, field)) => Some(*field),
                        None => {
                            if usize::from(next - first) == MOST_FIELDS {
                                return None;
                            }
                            patterns.extend(pattern.iter().map(|of| (next, of.clone())));
                            common.push((pattern.clone(), next));
                            next += 1;
                            Some(next - 1)
                        }
                    }
                }
            };
            side.extend(field.map(|field| 64 + field));
            fields.push(field);
        }
        if side.len() > MOST_TOKENS {
            return None;
        }
        sides.push(side);
    }
    Some(sheet(&patterns, &sides[0], &sides[1]))
}

/// The two rules of a pair's sheet; none where they have a field in common.
pub(super) fn rules_of(sheet: &[u8]) -> Option<[Vec<u8>; 2]> {
    let mut patterns: [Vec<(u8, Vec<u8>)>; 2] = Default::default();
    let mut rest = sheet;
    while rest.starts_with(PATTERN) {
        let (record, behind) = rest.split_at(4 + usize::from(rest[3]));
        let (rule, field) = own(record[2]);
        patterns[rule].push((field, record[4..].to_vec()));
        rest = behind;
    }
    let (left, behind) = rest[3..].split_at(usize::from(rest[2]));
    let mut sides = [left.to_vec(), behind[3..].to_vec()];
    for (number, side) in sides.iter_mut().enumerate() {
        for token in side.iter_mut().filter(|token| **token >= write::field(0)) {
            let (rule, field) = own(*token - write::field(0));
            if rule != number {
                return None;
            }
            *token = write::field(field);
        }
    }
    let [left, right] = [0, 1].map(|rule| write::rule(&patterns[rule], &sides[rule]));
    Some([left, right])
}

/// A pair's field as a field of its rule: which rule, and the number there.
fn own(field: u8) -> (usize, u8) {
    (usize::from(field) / MOST_FIELDS, field % MOST_FIELDS as u8)
}

/// So many rules, the two of a pair behind each other.
pub fn rules(dice: &mut Dice, number: usize) -> Vec<Vec<u8>> {
    let mut rules = Vec::new();
    while rules.len() < number {
        let pair = pair(dice);
        rules.extend(rules_of(&pair).into_iter().flatten());
    }
    rules.truncate(number);
    rules
}

/// The rules in any order.
pub fn shuffled(dice: &mut Dice, mut rules: Vec<Vec<u8>>) -> Vec<Vec<u8>> {
    dice.shuffle(&mut rules);
    rules
}

// -------------------------------------------------------------- the rules

/// An article's letters.
fn article(dice: &mut Dice) -> Vec<u8> {
    let articles = [
        "LT", "RL", "NL", "KP", "KS", "SP", "BX", "LV", "SC", "BO", "WA", "HI", "DR", "KEY", "CYL",
        "TAG", "PK", "M", "H", "",
    ];
    values(dice.pick(&articles))
}

/// A rule of this article.
fn rule(dice: &mut Dice, article: &[u8]) -> Rule {
    let mut rule = Vec::new();
    if !article.is_empty() {
        rule.push(Part::Fixed(article.to_vec()));
    }
    let parts = dice.pick(&[1, 1, 2, 2, 2, 2, 3, 3, 3, 4]);
    // A storeroom has one sign between parts, most often none or a dash.
    let between = sign(dice);
    for number in 0..parts {
        if !between.is_empty() && (number > 0 || dice.one_in(2)) {
            rule.push(Part::Fixed(between.clone()));
        }
        rule.push(Part::Field(field(dice)));
    }
    // The same once more, at the end or behind itself.
    if dice.one_in(12) {
        again(dice, &mut rule);
    }
    // A letter at the end: a hand, a pack.
    if dice.one_in(6) {
        rule.push(Part::Fixed(values(dice.pick(&["L", "R", "X", "PK", "-S", " "]))));
    }
    rule
}

/// A sign between parts, or none.
fn sign(dice: &mut Dice) -> Vec<u8> {
    values(dice.pick(&["", "", "", "-", "-", "-", "/", ".", " ", "X"]))
}

/// A field of the rule stands once more.
fn again(dice: &mut Dice, rule: &mut Rule) {
    let fields: Vec<usize> =
        (0..rule.len()).filter(|&at| matches!(rule[at], Part::Field(_))).collect();
    if fields.is_empty() {
        return;
    }
    let of = dice.pick(&fields);
    let between = sign(dice);
    if !between.is_empty() {
        rule.push(Part::Fixed(between));
    }
    rule.push(Part::Again(of));
}

/// What a part of a label holds; none where the storeroom gives no pattern.
fn field(dice: &mut Dice) -> Option<Vec<u8>> {
    let of = match dice.below(40) {
        // numbers and sizes
        0..=3 => digits(2),
        4..=6 => digits(3),
        7 => digits(4),
        8 => digit(),
        9 | 10 => many(digit()),
        11 | 12 => row(vec![digit(), many(digit())]),
        13 => row(vec![digit(), maybe(digit()), maybe(digit())]),
        14 => row(vec![vec![65, 1, 9], digit()]),
        15 => row(vec![digits(1), text("."), digits(2)]),
        16..=18 => {
            let number = dice.between(2, 6);
            one_of(&some(dice, &SIZES, number))
        }
        19 => row(vec![digits(2), text("X"), digits(2)]),
        // finishes, colours
        20..=24 => {
            let number = dice.between(2, 6);
            one_of(&some(dice, &FINISHES, number))
        }
        25 => {
            let number = dice.between(8, 20);
            by_first_letter(&some(dice, &FINISHES, number))
        }
        26 if dice.one_in(2) => by_first_letter(&FINISHES),
        26 | 27 => row(vec![letter(); 2]),
        // a hand, a grade, a pack
        28 => one_of(&["L", "R"]),
        29 => vec![65, 10, dice.between(11, 17) as u8],
        30 => letter(),
        // something that may be missing
        31 => maybe(one_of(&["L", "R"])),
        32 => {
            let number = dice.between(1, 4);
            maybe(row(vec![text("-"), one_of(&some(dice, &FINISHES, number))]))
        }
        33 => maybe(row(vec![text("/"), digits(2)])),
        // dates: year and week, month
        34 => row(vec![digits(2), vec![65, 0, 5], digit()]),
        35 => row(vec![vec![65, 0, 1], digit(), digits(2)]),
        // letters and digits
        36 => many(letter_or_digit()),
        37 => row(vec![letter(), many(digit())]),
        38 => row(vec![letter_or_digit(), many(letter_or_digit())]),
        _ => return None,
    };
    Some(of)
}

const SIZES: [&str; 16] = [
    "5", "6", "8", "10", "12", "16", "20", "25", "32", "40", "50", "60", "80", "100", "120", "200",
];

// -------------------------------------------------------------- near copies

/// The rule with a change or two, as one is written by copying another; now and
/// then just the same.
fn near_copy(dice: &mut Dice, of: &Rule) -> Rule {
    let mut rule = of.clone();
    for _ in 0..dice.pick(&[0, 1, 1, 1, 1, 2]) {
        change(dice, &mut rule);
    }
    rule
}

fn change(dice: &mut Dice, rule: &mut Rule) {
    let at = dice.below(rule.len().max(1));
    match dice.below(12) {
        // another pattern for a part, much the same or not at all
        0..=3 => {
            if let Some(Part::Field(pattern)) = rule.get(at) {
                rule[at] = Part::Field(other(dice, pattern.as_deref()));
            }
        }
        // another sign or letter
        4 | 5 => {
            if let Some(Part::Fixed(values)) = rule.get_mut(at) {
                if let Some(last) = values.last_mut() {
                    *last = dice.pick(&[36, 40, 37, 33, 10, 11, 21, 27, 28, *last]);
                }
            }
        }
        // a letter or two at the end
        6 | 7 => rule.push(Part::Fixed(values(dice.pick(&["L", "R", "X", "-S", "PK", "2"])))),
        // a part more at the end
        8 => {
            let between = sign(dice);
            if !between.is_empty() {
                rule.push(Part::Fixed(between));
            }
            rule.push(Part::Field(field(dice)));
        }
        // a part less
        9 => {
            let named = rule.contains(&Part::Again(at));
            if !named && rule.len() > 1 {
                rule.remove(at);
                for part in rule {
                    if let Part::Again(of) = part {
                        *of -= usize::from(*of > at);
                    }
                }
            }
        }
        // a part that stood twice stands once, or once more
        10 => match rule.iter().position(|part| matches!(part, Part::Again(_))) {
            Some(at) => {
                if let Part::Again(of) = rule[at] {
                    rule[at] = rule[of].clone();
                }
            }
            None => again(dice, rule),
        },
        // letters in front
        _ => {
            if let Some(Part::Fixed(values)) = rule.first_mut() {
                if let Some(first) = values.first_mut() {
                    *first = dice.between(10, 35) as u8;
                }
            }
        }
    }
}

/// A pattern for the same part: a digit more, a finish more, or any other.
fn other(dice: &mut Dice, pattern: Option<&[u8]>) -> Option<Vec<u8>> {
    match (pattern, dice.below(4)) {
        (Some(of), 0) if fits(of) => Some(row(vec![of.to_vec(), digit()])),
        (Some(of), 1) if fits(of) => Some(choice(vec![of.to_vec(), text(dice.pick(&FINISHES))])),
        (Some(of), 2) if fits(of) => Some(row(vec![of.to_vec(), maybe(letter())])),
        _ => field(dice),
    }
}

/// A few leaves may still be added.
fn fits(pattern: &[u8]) -> bool {
    let leaves = |read: Pattern| Allowed::Pattern(Box::new(Places::of(&read))).leaves().len();
    Pattern::read(FIRST, pattern).map(leaves).is_ok_and(|leaves| leaves < 60) && pattern.len() < 180
}

// ------------------------------------------------------------------ parts

/// So many of the codes, in their order.
fn some<'a>(dice: &mut Dice, codes: &[&'a str], number: usize) -> Vec<&'a str> {
    let mut chosen: Vec<usize> = (0..codes.len()).collect();
    dice.shuffle(&mut chosen);
    chosen.truncate(number);
    chosen.sort_unstable();
    chosen.into_iter().map(|at| codes[at]).collect()
}

fn one_of(codes: &[&str]) -> Vec<u8> {
    choice(codes.iter().map(|code| text(code)).collect())
}

/// The pattern or the empty text.
fn maybe(pattern: Vec<u8>) -> Vec<u8> {
    choice(vec![vec![64], pattern])
}

fn digit() -> Vec<u8> {
    vec![65, 0, 9]
}

fn digits(number: usize) -> Vec<u8> {
    row(vec![digit(); number])
}

fn letter() -> Vec<u8> {
    vec![65, 10, 35]
}

fn letter_or_digit() -> Vec<u8> {
    vec![65, 0, 35]
}
