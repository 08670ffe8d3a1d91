//! The characters of an edition, and sets of them.

use bradovusc::Edition;

/// The sign of a value. A value that no character has, which nothing here makes, is U+FFFD.
pub fn sign(edition: Edition, value: u8) -> char {
    edition.sign(value).unwrap_or(char::REPLACEMENT_CHARACTER)
}

/// The names of the control characters of ASCII, 0 to 31.
const CONTROLS: [&str; 32] = [
    "NUL", "SOH", "STX", "ETX", "EOT", "ENQ", "ACK", "BEL", "BS", "HT", "LF", "VT", "FF", "CR",
    "SO", "SI", "DLE", "DC1", "DC2", "DC3", "DC4", "NAK", "SYN", "ETB", "CAN", "EM", "SUB", "ESC",
    "FS", "GS", "RS", "US",
];

const DELETE: char = '\x7F';

/// The name of a control character of ASCII, if it is one.
pub fn control_name(sign: char) -> Option<&'static str> {
    match sign {
        DELETE => Some("DEL"),
        sign => CONTROLS.get(sign as usize).copied(),
    }
}

/// The character of ASCII with this name, or with this code of two hexadecimal digits.
pub fn named(name: &str) -> Option<char> {
    let code = || u8::from_str_radix(name, 16).ok().filter(u8::is_ascii).map(char::from);
    let digits = name.len() == 2 && name.bytes().all(|digit| digit.is_ascii_hexdigit());
    let known = ('\0'..=DELETE).find(|&sign| control_name(sign) == Some(name));
    known.or_else(|| code().filter(|_| digits))
}

/// A set of characters of an edition.
#[derive(Clone, Copy, Debug, PartialEq, Eq, Hash)]
pub struct Set {
    edition: Edition,
    bits: u128,
}

impl Set {
    /// No character.
    pub fn none(edition: Edition) -> Set {
        Set { edition, bits: 0 }
    }

    /// All of them.
    pub fn all(edition: Edition) -> Set {
        Set::none(edition).rest()
    }

    /// The character with this value; none if there is no such character.
    pub fn one(edition: Edition, value: u8) -> Set {
        Set::range(edition, value, value)
    }

    /// The characters from `low` to `high` by value.
    pub fn range(edition: Edition, low: u8, high: u8) -> Set {
        Set::of(edition, |value| (low..=high).contains(&value))
    }

    /// The characters from `low` to `high` by their place in ASCII.
    pub fn signs(edition: Edition, low: char, high: char) -> Set {
        Set::of(edition, |value| (low..=high).contains(&sign(edition, value)))
    }

    fn of(edition: Edition, has: impl Fn(u8) -> bool) -> Set {
        let bit = |bits, value: u8| bits | u128::from(has(value)) << value;
        Set { edition, bits: (0..edition.characters()).fold(0, bit) }
    }

    /// The edition whose characters these are.
    pub fn edition(self) -> Edition {
        self.edition
    }

    /// The characters of either.
    pub fn or(self, other: Set) -> Set {
        Set { bits: self.bits | other.bits, ..self }
    }

    /// The characters of both.
    pub fn and(self, other: Set) -> Set {
        Set { bits: self.bits & other.bits, ..self }
    }

    /// The other characters.
    pub fn rest(self) -> Set {
        Set::of(self.edition, |value| !self.has(value))
    }

    pub fn is_empty(self) -> bool {
        self.bits == 0
    }

    pub fn has(self, value: u8) -> bool {
        value < self.edition.characters() && self.bits >> value & 1 == 1
    }

    /// Its one character, if it has just one.
    pub fn only(self) -> Option<u8> {
        (self.bits.count_ones() == 1).then(|| self.bits.trailing_zeros() as u8)
    }

    /// Its characters by value.
    pub fn values(self) -> impl Iterator<Item = u8> {
        (0..self.edition.characters()).filter(move |&value| self.has(value))
    }

    /// As few ranges by value as there can be, rising.
    pub fn ranges(self) -> Vec<(u8, u8)> {
        self.joined(|high, value| high + 1 == value)
    }

    /// As few ranges as there can be that go by value and by ASCII alike, rising.
    pub fn ranges_of_signs(self) -> Vec<(u8, u8)> {
        let place = |value| u32::from(sign(self.edition, value));
        self.joined(|high, value| high + 1 == value && place(high) + 1 == place(value))
    }

    fn joined(self, next: impl Fn(u8, u8) -> bool) -> Vec<(u8, u8)> {
        let mut ranges: Vec<(u8, u8)> = Vec::new();
        for value in self.values() {
            match ranges.last_mut() {
                Some((_, high)) if next(*high, value) => *high = value,
                _ => ranges.push((value, value)),
            }
        }
        ranges
    }
}

#[cfg(test)]
mod tests {
    use super::*;
    use Edition::{Code39, FullAscii};

    #[test]
    fn ranges_go_by_value_and_signs_by_ascii() {
        assert_eq!(Set::signs(Code39, '0', '9').ranges(), [(0, 9)]);
        assert_eq!(Set::signs(Code39, '+', '9').ranges(), [(0, 9), (36, 37), (40, 41)]);
        assert_eq!(Set::signs(Code39, '0', 'Z').ranges(), [(0, 35)]);
        assert_eq!(Set::all(Code39).ranges(), [(0, 42)]);
        assert_eq!(Set::signs(Code39, '9', '0'), Set::none(Code39));
        assert_eq!(Set::range(Code39, 36, 40).rest().ranges(), [(0, 35), (41, 42)]);
        assert_eq!(Set::one(Code39, 43), Set::none(Code39));
        assert_eq!(Set::one(Code39, 42).only(), Some(42));
        assert_eq!(Set::all(Code39).only(), None);
        let signs = Set::all(Code39).ranges_of_signs();
        assert_eq!(
            signs,
            [(0, 9), (10, 35), (36, 37), (38, 38), (39, 39), (40, 40), (41, 41), (42, 42)]
        );
        assert_eq!(Set::all(FullAscii).ranges(), [(0, 127)]);
        assert_eq!(Set::signs(FullAscii, '+', '9').ranges_of_signs(), [(43, 57)]);
        assert_eq!(Set::one(FullAscii, 127).rest().ranges(), [(0, 126)]);
        assert_eq!(Set::one(FullAscii, 128), Set::none(FullAscii));
    }

    #[test]
    fn names_and_codes() {
        let names = ["NUL", "GS", "FF", "DEL", "0A", "0a", "7f", "41", "20"].map(named);
        let signs = ['\0', '\x1D', '\x0C', DELETE, '\n', '\n', DELETE, 'A', ' '];
        assert_eq!(names, signs.map(Some));
        for wrong in ["", "A", "80", "gs", "+1", "001", "LFX", " 1"] {
            assert_eq!(named(wrong), None, "{wrong}");
        }
        for sign in ('\0'..='\u{FF}').filter(|sign| sign.is_ascii_control()) {
            assert_eq!(control_name(sign).and_then(named), Some(sign));
        }
        assert_eq!(control_name(' '), None);
    }
}
