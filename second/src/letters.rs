//! Letters: the second attempt of `decide`. "Take a weight of characters that is 0
//! for the space": where no texts make both sides weigh the same, there is no
//! clash. No situation is entered.

use crate::pattern::{characters, Allowed, CharacterSet, Pattern};
use crate::sheet::{Question, Token, FIELDS};

/// What is known of the weights of the texts that a field may hold, or of the
/// labels of a side: "a least weight, perhaps a most, and a step between".
#[derive(Clone, Copy, Debug, PartialEq, Eq)]
pub struct Weights {
    pub least: usize,
    /// None where there is no end.
    pub most: Option<usize>,
    /// Each weight is the least one and a multiple of it.
    pub step: usize,
}

/// The weight 0 alone.
const NOTHING: Weights = Weights { least: 0, most: Some(0), step: 0 };

impl Weights {
    /// Those of a field, where a character of these weighs 1 and any other 0.
    pub fn of(field: &Allowed, heavy: CharacterSet) -> Weights {
        match field {
            // "an open field may hold one space, so its least is 0"
            Allowed::Open(_) => Weights { least: 0, most: None, step: 1 },
            Allowed::Pattern(places) => Weights::of_pattern(&places.pattern, heavy),
        }
    }

    fn of_pattern(pattern: &Pattern, heavy: CharacterSet) -> Weights {
        let of = |part: &Pattern| Weights::of_pattern(part, heavy);
        match pattern {
            Pattern::Empty => NOTHING,
            Pattern::Leaf { lo, hi } => {
                let weighs = |character: u8| heavy & (1 << character) != 0;
                let least = usize::from((*lo..=*hi).all(weighs));
                let most = usize::from((*lo..=*hi).any(weighs));
                Weights { least, most: Some(most), step: most - least }
            }
            Pattern::Then(a, b) => of(a).and(of(b)),
            Pattern::Or(a, b) => {
                let (a, b) = (of(a), of(b));
                let most = a.most.zip(b.most).map(|(a, b)| a.max(b));
                let between = a.least.abs_diff(b.least);
                let step = common_divisor(common_divisor(a.step, b.step), between);
                Weights { least: a.least.min(b.least), most, step }
            }
            Pattern::AnyTimes(a) => {
                let a = of(a);
                let most = a.most.filter(|&most| most == 0);
                Weights { least: 0, most, step: common_divisor(a.least, a.step) }
            }
        }
    }

    /// The same text so many times, at least once.
    fn times(self, number: usize) -> Weights {
        let most = self.most.map(|most| number * most);
        Weights { least: number * self.least, most, step: number * self.step }
    }

    /// A text of these and a text of those.
    fn and(self, other: Weights) -> Weights {
        let most = self.most.zip(other.most).map(|(a, b)| a + b);
        let step = common_divisor(self.step, other.step);
        Weights { least: self.least + other.least, most, step }
    }

    /// "the interval of the sum leaves it out"
    fn below(self, other: Weights) -> bool {
        self.most.is_some_and(|most| most < other.least)
    }
}

/// "The common divisor is the greatest one; of a number and 0 it is that number."
fn common_divisor(a: usize, b: usize) -> usize {
    if b == 0 {
        a
    } else {
        common_divisor(b, a % b)
    }
}

/// Why two sides can't weigh the same.
#[derive(Clone, Copy, Debug, PartialEq, Eq, PartialOrd, Ord)]
pub enum Why {
    /// One side always weighs more.
    Bounds,
    /// The step leaves it out.
    Step,
}

/// Why the two sides can't weigh the same by this weight, if they can't.
pub fn uneven(question: &Question, heavy: CharacterSet) -> Option<Why> {
    let (left, right) = (&question.left, &question.right);
    let (mut l, mut r) = (fixed(left, heavy), fixed(right, heavy));
    for field in 0..FIELDS {
        let times = |side: &[Token]| {
            side.iter().filter(|&&token| token == Token::Field(field as u8)).count()
        };
        let (in_left, in_right) = (times(left), times(right));
        let weights = Weights::of(&question.allowed[field], heavy);
        // "A field counts by how often it stands on the left less how often on the
        // right."
        if in_left > in_right {
            l = l.and(weights.times(in_left - in_right));
        }
        if in_right > in_left {
            r = r.and(weights.times(in_right - in_left));
        }
    }
    let (step, between) = (common_divisor(l.step, r.step), l.least.abs_diff(r.least));
    let divides = if step == 0 { between == 0 } else { between % step == 0 };
    if l.below(r) || r.below(l) {
        Some(Why::Bounds)
    } else if !divides {
        Some(Why::Step)
    } else {
        None
    }
}

/// The weight of a side's fixed characters.
fn fixed(side: &[Token], heavy: CharacterSet) -> Weights {
    let weighs = |token: &&Token| match token {
        Token::Character(character) => heavy & (1 << character) != 0,
        Token::Field(_) => false,
    };
    let weight = side.iter().filter(weighs).count();
    Weights { least: weight, most: Some(weight), step: 0 }
}

/// The weights that are tried, "one character alone, or all but the space": all
/// but the space, then each fixed character that is no space.
pub fn tried(question: &Question) -> Vec<CharacterSet> {
    let space: CharacterSet = 1 << question.edition.space;
    let mut tried = vec![question.edition.all() & !space];
    tried.extend(characters(question.fixed() & !space).map(|one| 1 << one));
    tried
}

/// By some weight the sides can't weigh the same: "there is no clash".
pub fn differ(question: &Question) -> bool {
    tried(question).into_iter().any(|heavy| uneven(question, heavy).is_some())
}
