//! Texts that are spelt and read back: known ones to the byte, all characters, buffers of every
//! length; and many generated cases, on which the library and the crate `second` agree: number,
//! written length, and the buffer to the last byte.

use std::collections::BTreeMap;

use bradovusc::{read_spelt, spell, spelt_bytes, value, Spelt};
use second::full_ascii::{into, Done};
use second::make::{ascii, Dice};
use second::Outcome;

const FILL: u8 = 165;

type Speller = fn(&[u8], &mut [u8]) -> Spelt;

/// The answer in a filled buffer of this length, and what was written. Looks at every byte behind it.
fn written(speller: Speller, given: &[u8], length: usize) -> (Spelt, Vec<u8>) {
    let mut out = vec![FILL; length];
    let told = speller(given, &mut out);
    let rest = out.split_off(told.written());
    assert!(rest.iter().all(|&byte| byte == FILL), "{told:?}");
    (told, out)
}

/// The text is spelt with these signs, and read back, in just enough bytes too, and not in one less.
fn known(text: &[u8], signs: &str) {
    let values: Vec<u8> = signs.chars().map(|sign| value(sign).unwrap()).collect();
    for (speller, from, to) in [(spell as Speller, text, &values[..]), (read_spelt, &values, text)]
    {
        for length in to.len()..to.len() + 3 {
            let done = (Spelt::Written { bytes: to.len() }, to.to_vec());
            assert_eq!(written(speller, from, length), done, "{signs}");
        }
        for length in 0..to.len() {
            assert_eq!(written(speller, from, length), (Spelt::TooShort, Vec::new()), "{signs}");
        }
    }
    assert!(values.len() <= spelt_bytes(text.len()));
}

#[test]
fn texts() {
    known(b"", "");
    known(b"LT4-B. 7", "LT4-B. 7");
    known(b"Box $5", "B+O+X /D5");
    known(b"100%/+", "100/E/O/K");
    known(b"\x00\x01\x1a\x1b\x1f", "%U$A$Z%A%E");
    known(b";?@[_`{~\x7f", "%F%J%V%K%O%W%P%S%T");
}

#[test]
fn what_the_table_does_not_give() {
    for length in [0, 1, 9] {
        for byte in 128..=255 {
            let refused = (Spelt::NotInTable, Vec::new());
            assert_eq!(written(spell, &[b'A', byte], length), refused);
            assert_eq!(written(read_spelt, &[10, byte], length), refused);
        }
        for signs in ["$", "A/", "%X", "%Y", "%Z", "/M", "/N", "/P", "/Y", "+0", "%%", "$ "] {
            let values: Vec<u8> = signs.chars().map(|sign| value(sign).unwrap()).collect();
            assert_eq!(written(read_spelt, &values, length), (Spelt::NotInTable, Vec::new()));
        }
    }
}

/// The stored cases and others, each of the three answers among them.
#[test]
fn generated_cases() {
    let mut dice = Dice::new(39);
    let mut seen = BTreeMap::new();
    let cases = ascii::stored().into_iter().chain((0..4000).map(|_| ascii::made(&mut dice)));
    for case in cases {
        let mut theirs = vec![FILL; case.output.into()];
        let told = into(case.done, &case.bytes, &mut theirs);
        let mut ours = vec![FILL; case.output.into()];
        let given = match case.done {
            Done::Spell => spell(&case.bytes, &mut ours),
            Done::Read => read_spelt(&case.bytes, &mut ours),
        };
        let (number, written) = (given.number() as u8, given.written());
        assert_eq!(Outcome { number, count: 0, place: 0, written }, told, "{case:?}");
        assert_eq!(ours, theirs, "{case:?}");
        *seen.entry(number).or_insert(0) += 1;
    }
    assert!(seen.keys().eq(&[0, 45, 46]));
    assert!(seen.values().all(|&times| times > 100), "{seen:?}");
}
