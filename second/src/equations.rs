//! The word equations that the source documents print, as sheets: those with at
//! most 8 variables and 24 tokens.
//!
//! A constant `a` is the character A, and so on. In 000 a variable is any word of
//! Σ*, in 002 "any string", in 004 one that may be ε: so it may be empty, and has
//! the pattern 68 65 0 42, unless the source says more of it. Where it says
//! "nonempty" the field has no pattern. Words `u` and `v` that do not contain the
//! other variables are variables of their own, and x' is z.

use crate::cases::Case;
use crate::write::{choice, many, row, sheet, text};
use crate::SITUATION_BYTES;

/// An equation, and where it is printed: document and line.
pub struct Equation {
    pub document: &'static str,
    pub line: usize,
    /// Constants are a to c, any other letter is a variable.
    pub left: &'static str,
    pub right: &'static str,
    /// What the source says of its variables.
    pub held: &'static [(char, Held)],
    /// It has a solution. Where the source doesn't say so, it is found by hand.
    pub solved: bool,
}

/// What a variable may hold.
#[derive(Clone, Copy, PartialEq, Eq)]
pub enum Held {
    /// (a|b)*
    AsAndBs,
    /// b*a
    BsThenA,
    /// ab*
    AThenBs,
    /// b*ab*ab*
    TwoAs,
    /// "|y| = 5"
    Five,
    /// "nonempty"
    NotEmpty,
}

impl Held {
    fn pattern(self) -> Option<Vec<u8>> {
        let (a, b) = (text("A"), text("B"));
        let bs = || many(text("B"));
        let any = vec![65, 0, 42];
        match self {
            Held::AsAndBs => Some(many(choice(vec![a, b]))),
            Held::BsThenA => Some(row(vec![bs(), a])),
            Held::AThenBs => Some(row(vec![a, bs()])),
            Held::TwoAs => Some(row(vec![bs(), a.clone(), bs(), a, bs()])),
            Held::Five => Some(row(vec![any; 5])),
            Held::NotEmpty => None,
        }
    }
}

impl Equation {
    /// Its sheet: variables are fields in the order of their first standing.
    pub fn sheet(&self) -> Vec<u8> {
        let mut names: Vec<char> = Vec::new();
        for name in self.left.chars().chain(self.right.chars()) {
            if !matches!(name, 'a'..='c') && !names.contains(&name) {
                names.push(name);
            }
        }
        let token = |name: char| match names.iter().position(|&of| of == name) {
            Some(field) => 64 + field as u8,
            None => name as u8 - b'a' + 10,
        };
        let side = |of: &str| of.chars().map(token).collect::<Vec<u8>>();
        let mut patterns = Vec::new();
        for (field, name) in (0..).zip(&names) {
            let pattern = match self.held.iter().find(|(of, _)| of == name) {
                Some((_, held)) => held.pattern(),
                None => Some(vec![68, 65, 0, 42]),
            };
            patterns.extend(pattern.map(|pattern| (field, pattern)));
        }
        sheet(&patterns, &side(self.left), &side(self.right))
    }

    /// Its sheet with room for so many situations.
    pub fn case(&self, room: usize) -> Case {
        Case { work: (room * SITUATION_BYTES) as u32, answer: 4096, sheet: self.sheet() }
    }
}

const fn of(
    document: &'static str,
    line: usize,
    left: &'static str,
    right: &'static str,
    solved: bool,
) -> Equation {
    Equation { document, line, left, right, held: &[], solved }
}

const fn with(held: &'static [(char, Held)], equation: Equation) -> Equation {
    Equation { held, ..equation }
}

/// The equations in the order in which they are printed.
pub const PRINTED: &[Equation] = &[
    of("000", 125, "abxb", "ybx", true),
    of("000", 125, "xa", "byx", false),
    of("000", 163, "xy", "ayz", true),
    of("000", 163, "xy", "axz", true),
    of("000", 163, "xy", "ax", true),
    of("000", 163, "xx", "ay", true),
    of("000", 223, "x", "ay", true),
    of("000", 227, "xa", "bx", false),
    of("000", 243, "x", "a", true),
    of("000", 252, "ax", "a", true),
    of("000", 252, "x", "", true),
    of("000", 257, "a", "b", false),
    of("000", 257, "bxa", "bbx", false),
    of("000", 477, "xby", "yx", false),
    with(&[('x', Held::AsAndBs), ('y', Held::BsThenA)], of("000", 477, "xby", "yx", false)),
    with(&[('x', Held::AsAndBs)], of("000", 477, "xb", "x", false)),
    with(&[('y', Held::BsThenA)], of("000", 477, "by", "y", false)),
    with(&[('x', Held::AsAndBs), ('y', Held::BsThenA)], of("000", 477, "xbby", "ybx", false)),
    with(&[('x', Held::AThenBs), ('y', Held::Five)], of("000", 538, "xb", "ayb", true)),
    of("002", 148, "xy", "abc", true),
    of("002", 297, "", "ay", false),
    of("002", 297, "ax", "ay", true),
    of("002", 297, "x", "y", true),
    of("002", 303, "xx", "aa", true),
    of("002", 303, "axax", "aa", true),
    of("002", 303, "", "aa", false),
    of("002", 303, "xax", "a", true),
    of("002", 303, "axaax", "a", false),
    of("002", 303, "a", "a", true),
    of("002", 309, "xb", "ax", false),
    of("002", 309, "b", "a", false),
    of("002", 326, "xab", "bax", true),
    of("002", 328, "xab", "abx", true),
    of("002", 337, "xxa", "bxx", false),
    of("002", 341, "xbxa", "bxbx", false),
    of("002", 341, "xbbxa", "bxbbx", false),
    with(&[('x', Held::TwoAs)], of("002", 427, "x", "yy", true)),
    of("002", 483, "axu", "xv", true),
    of("002", 492, "abcxu", "xv", true),
    of("002", 569, "xbx", "abxa", false),
    of("002", 579, "xabyu", "ybaxv", true),
    of("002", 664, "zay", "azx", true),
    of("002", 664, "xabyy", "ybaxx", false),
    of("003", 21, "abxb", "xby", true),
    of("004", 45, "aX", "Xb", false),
    of("004", 121, "Z", "XY", true),
    of("004", 121, "Z", "Wc", true),
    of("004", 121, "cY", "cbc", true),
    of("004", 123, "Y", "bc", true),
    of("004", 170, "X", "aY", true),
    of("004", 170, "X", "Yb", true),
    of("004", 178, "XM", "NY", true),
    of("004", 178, "YK", "LX", true),
    of("004", 304, "YZ", "XY", true),
    of("004", 319, "Xa", "YM", true),
    of("004", 319, "NX", "TZ", true),
    of("004", 404, "Z", "JK", true),
    with(
        &[
            ('X', Held::NotEmpty),
            ('Y', Held::NotEmpty),
            ('M', Held::NotEmpty),
            ('N', Held::NotEmpty),
        ],
        of("004", 546, "XY", "MN", true),
    ),
];
