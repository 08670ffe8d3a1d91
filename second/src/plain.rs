//! "A small engine for plain rules": those in which no field stands twice. It
//! "says only clash or no clash".
//!
//! A pair of standings, one of each side, leads to others; this looks for a way
//! from the start to a pair at which both sides are at their ends. It keeps the
//! pairs that it has met in a set of its own, and of the lent buffer it knows
//! the length alone: "one bit for each pair of a left and a right standing".

use std::collections::HashSet;

use crate::catalogue::DONE;
use crate::fault::Fault;
use crate::pattern::{members, Allowed};
use crate::sheet::{Question, Reading, Token, FIELDS};
use crate::{CLASH, NO_CLASH};

/// "42 if a field stands more than once in the two sides together"
pub const NOT_PLAIN: u8 = 42;
/// "43 if the bits don't fit"
pub const TOO_FEW_BITS: u8 = 43;

/// What is handed back beside the bit buffer.
#[derive(Clone, Copy, Debug, PartialEq, Eq)]
pub struct Told {
    pub number: u8,
    /// No situation is entered: 0.
    pub count: usize,
    /// That of the sheet's own refusals, else 0.
    pub place: usize,
}

/// What a sheet needs.
#[derive(Clone, Copy, Debug, PartialEq, Eq)]
pub struct Needs {
    pub number: u8,
    pub place: usize,
    /// The bytes of the shortest bit buffer that fits; 0 with a refusal.
    pub bytes: usize,
}

/// Says whether the sheet's rules clash. "Refusals: the sheet's own, then 42 if a
/// field stands more than once in the two sides together, then 43 if the bits
/// don't fit; the bit buffer ends all zero after every answer but the sheet's
/// own refusals", after which it is unchanged.
pub fn plain(sheet: &[u8], bits: &mut [u8]) -> Told {
    plain_by(Reading::New, sheet, bits)
}

/// The same for a sheet that is read by this rule.
pub fn plain_by(reading: Reading, sheet: &[u8], bits: &mut [u8]) -> Told {
    let question = match reading.sheet(sheet) {
        Ok(question) => question,
        Err(Fault { number, place }) => return Told { number, count: 0, place },
    };
    let number = if stands_twice(&question) {
        NOT_PLAIN
    } else if pairs(&question) > 8 * bits.len() {
        TOO_FEW_BITS
    } else if clashes(&question) {
        CLASH
    } else {
        NO_CLASH
    };
    bits.fill(0);
    Told { number, count: 0, place: 0 }
}

/// How many bytes the sheet needs: the refusals are the sheet's own and 42.
pub fn plain_bytes(sheet: &[u8]) -> Needs {
    plain_bytes_by(Reading::New, sheet)
}

/// The same for a sheet that is read by this rule.
pub fn plain_bytes_by(reading: Reading, sheet: &[u8]) -> Needs {
    match reading.sheet(sheet) {
        Err(Fault { number, place }) => Needs { number, place, bytes: 0 },
        Ok(question) if stands_twice(&question) => Needs { number: NOT_PLAIN, place: 0, bytes: 0 },
        Ok(question) => Needs { number: DONE, place: 0, bytes: pairs(&question).div_ceil(8) },
    }
}

/// A field of the sheet stands more than once in the two sides together.
pub fn stands_twice(question: &Question) -> bool {
    (0..FIELDS).any(|field| question.times(Token::Field(field as u8)) > 1)
}

/// The pairs of a left and a right standing.
pub fn pairs(question: &Question) -> usize {
    standings(question, &question.left) * standings(question, &question.right)
}

/// "A side has one standing for its end, one for each character and, for each
/// field, one for each of its places: its leaves and the start, or two for a
/// field without a pattern." The hidden field stands too.
pub fn standings(question: &Question, side: &[Token]) -> usize {
    let of_token = |token: &Token| match *token {
        Token::Character(_) => 1,
        Token::Field(field) => 1 + question.allowed[usize::from(field)].leaves().len(),
    };
    1 + side.iter().map(of_token).sum::<usize>()
}

/// "A standing is how far one side has been read, together with one single place
/// of the field in front." The start is place 0, and so is that of a character
/// in front and of the end.
#[derive(Clone, Copy, Debug, PartialEq, Eq, Hash)]
struct Standing {
    read: usize,
    place: usize,
}

/// Nothing is read, and the field in front is at its start.
const FIRST: Standing = Standing { read: 0, place: 0 };

impl Standing {
    /// All that is in front is read.
    fn behind(self) -> Standing {
        Standing { read: self.read + 1, place: 0 }
    }

    /// Where this standing leads without a character: a field in front that may
    /// end at its place is left.
    fn left(self, question: &Question, side: &[Token]) -> Option<Standing> {
        match side.get(self.read) {
            Some(Token::Field(field)) => {
                let allowed = &question.allowed[usize::from(*field)];
                allowed.may_end(1 << self.place).then(|| self.behind())
            }
            _ => None,
        }
    }

    /// Where it leads with this character: behind it if it is in front, and in a
    /// field to each place that may follow and takes it.
    fn after(self, question: &Question, side: &[Token], character: u8) -> Vec<Standing> {
        match side.get(self.read) {
            Some(Token::Character(in_front)) if *in_front == character => vec![self.behind()],
            Some(Token::Field(field)) => {
                let allowed = &question.allowed[usize::from(*field)];
                let places = following(allowed, self.place, character);
                places.map(|place| Standing { place, ..self }).collect()
            }
            _ => Vec::new(),
        }
    }
}

/// The places that may follow this one and take the character.
fn following(allowed: &Allowed, place: usize, character: u8) -> impl Iterator<Item = usize> {
    members(allowed.after(1 << place, character))
}

/// Some pair at which both sides are at their ends can be reached. Each standing
/// of a field is read for itself.
pub fn clashes(question: &Question) -> bool {
    let (left, right) = (&question.left, &question.right);
    let mut met = HashSet::from([(FIRST, FIRST)]);
    let mut ahead = vec![(FIRST, FIRST)];
    while let Some((l, r)) = ahead.pop() {
        if l.read == left.len() && r.read == right.len() {
            return true;
        }
        let mut next: Vec<(Standing, Standing)> = Vec::new();
        next.extend(l.left(question, left).map(|l| (l, r)));
        next.extend(r.left(question, right).map(|r| (l, r)));
        for character in 0..question.edition.characters {
            let lefts = l.after(question, left, character);
            if lefts.is_empty() {
                continue;
            }
            for r in r.after(question, right, character) {
                next.extend(lefts.iter().map(|&l| (l, r)));
            }
        }
        for pair in next {
            if met.insert(pair) {
                ahead.push(pair);
            }
        }
    }
    false
}
