//! Two sides told apart by what is fixed in them: "Two sides whose fixed fronts
//! (or ends, without the spaces) differ can't clash".
//!
//! And streams of cases. A case is the number of the edition in eight bytes, then
//! the left side and the right side, each with its length in two bytes before it;
//! all numbers low byte first.

use crate::edition::Edition;
use crate::sheet::Token;
use crate::writer::bytes;

/// Whether the two sides differ in what is fixed: "1 only if no texts at all make
/// both sides the same label; 0 says nothing, also of bytes that are no tokens".
/// Nothing is said of an edition that is none.
pub fn differ(edition: u64, left: &[u8], right: &[u8]) -> bool {
    let Ok(edition) = Edition::asked_for(edition) else {
        return false;
    };
    let (Some(left), Some(right)) = (tokens(edition, left), tokens(edition, right)) else {
        return false;
    };
    let (ends_left, ends_right) = (left.iter().rev(), right.iter().rev());
    unlike(&front(left.iter()), &front(right.iter()))
        // "ends are compared only where both sides end with a character that is
        // not the space"
        || ends_solid(edition, &left)
            && ends_solid(edition, &right)
            && unlike(&front(ends_left), &front(ends_right))
}

fn tokens(edition: Edition, side: &[u8]) -> Option<Vec<Token>> {
    side.iter().map(|&byte| Token::of_byte(edition, byte)).collect()
}

/// The characters before the first field.
fn front<'a>(tokens: impl Iterator<Item = &'a Token>) -> Vec<u8> {
    let character = |token: &Token| match *token {
        Token::Character(character) => Some(character),
        Token::Field(_) => None,
    };
    tokens.map_while(character).collect()
}

/// At some place both have a character, and the two are different.
fn unlike(front: &[u8], other: &[u8]) -> bool {
    let both = front.len().min(other.len());
    front[..both] != other[..both]
}

fn ends_solid(edition: Edition, side: &[Token]) -> bool {
    matches!(side.last(), Some(&Token::Character(last)) if last != edition.space)
}

/// Two sides and the number of their edition.
#[derive(Clone, Debug, PartialEq, Eq)]
pub struct Case {
    pub edition: u64,
    pub left: Vec<u8>,
    pub right: Vec<u8>,
}

impl Case {
    /// 1 or 0.
    pub fn line(&self) -> String {
        u8::from(differ(self.edition, &self.left, &self.right)).to_string()
    }

    /// Writes the case behind the stream. A side has at most 65,535 bytes.
    pub fn write(&self, stream: &mut Vec<u8>) {
        stream.extend(self.edition.to_le_bytes());
        for side in [&self.left, &self.right] {
            stream.extend_from_slice(&(side.len() as u16).to_le_bytes());
            stream.extend_from_slice(side);
        }
    }

    /// Reads a case from the front of a stream and hands back the rest; none
    /// where the stream stops inside the case.
    pub fn read(stream: &[u8]) -> Option<(Case, &[u8])> {
        let (&edition, rest) = stream.split_first_chunk()?;
        let (left, rest) = bytes(rest)?;
        let (right, rest) = bytes(rest)?;
        Some((Case { edition: u64::from_le_bytes(edition), left, right }, rest))
    }
}
