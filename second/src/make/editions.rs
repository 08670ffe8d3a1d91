//! The two editions, one by one: every damage of a record `ED`, each code on both
//! sides of each limit in a side, as a leaf and as a range's ends, and good sheets
//! that the two editions read otherwise.

use crate::calls::Operation;
use crate::cases::Case;
use crate::catalogue::RULE;
use crate::edition::{Edition, FIRST, NONE, SECOND};
use crate::pattern::{EMPTY, MANY, OR, RANGE, THEN};
use crate::sheet::{Reading, LEFT, PATTERN, RIGHT};
use crate::{writer, SITUATION_BYTES};

/// Both sides of each limit of an edition: the edition byte, 43 and 128 characters,
/// the space, the codes from 64 and from 192 on, 8 fields, and the hidden fields'
/// tokens.
const LIMITS: [u8; 38] = [
    0, 1, 2, 3, 31, 32, 33, 37, 38, 39, 42, 43, 63, 64, 65, 66, 67, 68, 69, 70, 71, 72, 73, 126,
    127, 128, 191, 192, 193, 194, 195, 196, 197, 199, 200, 201, 202, 255,
];

/// Which bytes are tried.
#[derive(Clone, Copy, Debug, PartialEq, Eq)]
pub enum Tried {
    /// All of them, and of the ranges each pair of those at the limits.
    All,
    /// Those at the limits, and of the ranges each pair of neighbours.
    AtLimits,
}

impl Tried {
    fn bytes(self) -> Vec<u8> {
        match self {
            Tried::All => (0..=255).collect(),
            Tried::AtLimits => LIMITS.to_vec(),
        }
    }

    fn is_range_tried(self, lo: u8, hi: u8) -> bool {
        self == Tried::All || lo.abs_diff(hi) < 2
    }
}

/// Room for so many situations.
const ROOM: usize = 40;

/// The stored cases.
pub fn cases(tried: Tried) -> Vec<Case> {
    let sheets = [damages(tried), sides(tried), leaves(tried), ranges(tried), good(tried)].concat();
    let case = |sheet| Case { work: (ROOM * SITUATION_BYTES) as u32, answer: 100, sheet };
    sheets.into_iter().map(case).collect()
}

fn pattern(field: u8, body: &[u8]) -> Vec<u8> {
    [PATTERN, &[field, body.len() as u8][..], body].concat()
}

fn side(mark: &[u8; 2], tokens: &[u8]) -> Vec<u8> {
    [mark, &[tokens.len() as u8][..], tokens].concat()
}

/// A sheet with these patterns, fields from 0 on, and these sides.
fn sheet(edition: Edition, patterns: &[&[u8]], left: &[u8], right: &[u8]) -> Vec<u8> {
    let patterns: Vec<Vec<u8>> =
        patterns.iter().zip(0..).map(|(body, field)| pattern(field, body)).collect();
    [edition.record, &patterns.concat(), &side(LEFT, left), &side(RIGHT, right)].concat()
}

/// Every damage of the record, before a good sheet of either edition, before one
/// that is at fault, and alone.
fn damages(tried: Tried) -> Vec<Vec<u8>> {
    let bytes = tried.bytes().into_iter();
    let mut fronts: Vec<Vec<u8>> = bytes.map(|byte| vec![b'E', b'D', byte]).collect();
    let record = SECOND.record;
    for front in [
        &b""[..],
        b"E",
        b"EX",
        b"EX\x02",
        b"DE\x02",
        b"XD\x02",
        b"ed\x02",
        b"ED",
        b"ED\x02\x02",
        b"ED\x02\x00",
        b"ED\x02E",
        b"ED\x02ED",
        b"ED\x02ED\x02",
        b"ED\x03ED\x02",
        b"\x02ED\x02",
        b"RUED\x02",
    ] {
        fronts.push(front.to_vec());
    }
    let mut sheets = Vec::new();
    for edition in [FIRST, SECOND] {
        let x = edition.field(0);
        let any = [edition.codes + MANY, edition.codes + RANGE, 5, 9];
        let behind = sheet(FIRST, &[&any], &[x, 7], &[5, x]);
        sheets.extend(fronts.iter().map(|front| [&front[..], &behind].concat()));
        // The record behind each other one, without one in front and with it.
        let ends = [any.len() + 4, any.len() + 4 + 5, behind.len()];
        for end in ends {
            let (before, rest) = behind.split_at(end);
            sheets.push([before, record, rest].concat());
            sheets.push([record, before, record, rest].concat());
        }
        // Cut short behind each byte, and a byte more.
        let whole = [record, &behind].concat();
        sheets.extend((0..whole.len()).map(|length| whole[..length].to_vec()));
        sheets.push([&whole[..], &[0]].concat());
        sheets.push([&whole[..], b"ED\x02"].concat());
    }
    // The record and one byte, two bytes or a fault behind it.
    for byte in LIMITS {
        sheets.push([record, &[byte]].concat());
        sheets.push([record, &[b'L', byte]].concat());
    }
    for behind in [&b"PA\x08\x01\x00"[..], b"PA\x00\xc1", b"PA\x00\x00", b"LE\x19", b"RI\x00"] {
        sheets.push([record, behind].concat());
    }
    sheets.extend(fronts);
    sheets
}

/// Each code as a token: alone, behind a character, and on the right.
fn sides(tried: Tried) -> Vec<Vec<u8>> {
    let mut sheets = Vec::new();
    for edition in [FIRST, SECOND] {
        for byte in tried.bytes() {
            sheets.push(sheet(edition, &[], &[byte], &[5]));
            sheets.push(sheet(edition, &[], &[5, byte], &[5, edition.space]));
        }
        for byte in LIMITS {
            sheets.push(sheet(edition, &[], &[7], &[byte]));
            sheets.push(sheet(edition, &[], &[byte], &[byte]));
            sheets.push(sheet(edition, &[], &[edition.field(0), 1], &[byte, 1]));
        }
    }
    sheets
}

/// Each code as a pattern, as a part of one, and behind one.
fn leaves(tried: Tried) -> Vec<Vec<u8>> {
    let mut sheets = Vec::new();
    for edition in [FIRST, SECOND] {
        let Edition { codes, .. } = edition;
        let x = edition.field(0);
        for byte in tried.bytes() {
            sheets.push(sheet(edition, &[&[byte]], &[x], &[5]));
        }
        for byte in LIMITS {
            sheets.push(sheet(edition, &[&[byte]], &[x], &[byte]));
            sheets.push(sheet(edition, &[&[codes + MANY, byte]], &[x], &[5, 5]));
            sheets.push(sheet(edition, &[&[codes + THEN, 5, byte]], &[x], &[5, byte]));
            sheets.push(sheet(edition, &[&[codes + OR, byte, 5]], &[x], &[5]));
            sheets.push(sheet(edition, &[&[5, byte]], &[x], &[5]));
            sheets.push(sheet(edition, &[&[byte, 5]], &[x], &[5]));
            sheets.push(sheet(edition, &[&[byte, 5, 7]], &[x], &[5, 7]));
        }
    }
    sheets
}

/// Each code as a range's end, and each pair of those at the limits.
fn ranges(tried: Tried) -> Vec<Vec<u8>> {
    let mut sheets = Vec::new();
    for edition in [FIRST, SECOND] {
        let range = edition.codes + RANGE;
        let x = edition.field(0);
        for byte in tried.bytes() {
            sheets.push(sheet(edition, &[&[range, byte, byte]], &[x], &[5]));
            sheets.push(sheet(edition, &[&[range, 0, byte]], &[x], &[5]));
        }
        for lo in LIMITS {
            sheets.push(sheet(edition, &[&[range, lo]], &[x], &[5]));
            for hi in LIMITS.into_iter().filter(|&hi| tried.is_range_tried(lo, hi)) {
                sheets.push(sheet(edition, &[&[range, lo, hi]], &[x], &[edition.space]));
            }
        }
    }
    sheets
}

/// Bytes that say a good sheet in both editions, or in one.
fn good(tried: Tried) -> Vec<Vec<u8>> {
    let mut sheets = Vec::new();
    let last = SECOND.characters - 1;
    let (x, y) = (SECOND.field(0), SECOND.field(1));
    let [empty, range, then, or, many] = [EMPTY, RANGE, THEN, OR, MANY].map(|of| SECOND.codes + of);
    let second =
        |patterns: &[&[u8]], left: &[u8], right: &[u8]| sheet(SECOND, patterns, left, right);
    // An open field holds each character of the edition, the space at an end too.
    for character in tried.bytes().into_iter().filter(|&byte| SECOND.has(byte)) {
        sheets.push(second(&[], &[x], &[character]));
        sheets.push(second(&[&[many, character]], &[x, b'.'], &[character, character, b'.']));
        sheets.push(second(&[], &[b'A', character], b"A"));
    }
    // What were codes are characters.
    for code in 64..=72 {
        sheets.push(second(&[&[code]], &[x], &[code]));
        sheets.push(second(&[&[then, code, code]], &[x, code], &[code, code, code]));
        sheets.push(second(&[&[range, 64, code]], &[x], &[y]));
        sheets.push(second(&[&[range, code, last]], &[x], &[y]));
        sheets.push(second(&[&[or, code, empty], &[many, 64]], &[x, y], &[code, 64, 64]));
        sheets.push(second(&[], &[code, x], &[y, code]));
    }
    // All characters, in a field that may be empty and in one that may not.
    sheets.push(second(&[&[many, range, 0, last]], &[x], &[]));
    sheets.push(second(&[], &[x], &[]));
    sheets.push(second(&[], &[x], &[y]));
    sheets.push(second(&[], &[x, y], &[y, x]));
    sheets.push(second(&[], &[x, 0], &[last, x]));
    // Signs with a meaning in a script.
    sheets.push(second(&[], b"\"", b"\"\""));
    sheets.push(second(&[], b"\\u{41}", b"A"));
    sheets.push(second(&[&[then, b'\\', then, b'u', b'"']], &[b'"', x, b'\\'], b"\"\\u\"\\"));
    sheets.push(second(&[&[range, b'"', b'\\']], &[x], b"#"));
    sheets.push(second(&[&[many, range, 0, 31]], &[x, 127], &[y]));
    sheets.push(second(&[&[many, range, 126, last]], &[x], b"~\x7f~"));
    // Both sides full, and every field.
    let all: Vec<u8> = (0..8).map(|field| SECOND.field(field)).collect();
    sheets.push(second(&[], &[&all[..], b"aZ~"].concat(), &[127; 24]));
    sheets
}

/// Operations on a catalogue: rules with the record before each of their own, rules
/// with bytes of the second edition, and catalogues that hold such.
pub fn calls() -> Vec<Operation> {
    let record = SECOND.record;
    let rule = [RULE, &pattern(0, &[5])[..], &side(LEFT, &[FIRST.field(0), 7])].concat();
    let mut rules = vec![[record, &rule].concat()];
    // Behind the mark, behind the pattern, and behind the side.
    for end in [RULE.len(), RULE.len() + 5, rule.len()] {
        let (before, behind) = rule.split_at(end);
        rules.push([before, record, behind].concat());
    }
    for byte in [0, 1, 3, 255] {
        rules.push([RULE, b"ED", &[byte][..], &rule[RULE.len()..]].concat());
    }
    rules.push(b"RUE".to_vec());
    rules.push(b"RUED".to_vec());
    rules.push([&RULE[..], record].concat());
    rules.push([&RULE[..], record, &side(LEFT, &[SECOND.field(0)])].concat());
    for byte in LIMITS {
        rules.push([RULE, &side(LEFT, &[byte])[..]].concat());
        rules.push([RULE, &pattern(0, &[byte])[..], &side(LEFT, &[])].concat());
    }
    let anew = || Operation::Catalogue { length: 64, front: rule.clone() };
    let mut operations = Vec::new();
    for other in rules {
        operations.extend([anew(), Operation::Add(other.clone())]);
        operations.extend([anew(), Operation::AddDecided(other.clone())]);
        // The same rule in a catalogue.
        operations.push(Operation::Catalogue { length: 64, front: other });
        operations.extend([
            Operation::Add(rule.clone()),
            Operation::Recheck(10),
            Operation::RecheckDecided(10),
            Operation::Carry,
            Operation::Withdraw(0),
        ]);
    }
    operations
}

/// The stored cases of the writer: each edition number, and each code at the
/// limits in both editions.
pub fn written() -> Vec<writer::Case> {
    let mut cases = Vec::new();
    let second = SECOND.number();
    let near = [NONE, 1, second, 3, 4, 254, 255, 256, 257, 258];
    let far = [16, 32, 63].map(|bit| second + (1u64 << bit));
    for edition in near.into_iter().chain(far).chain([u64::MAX]) {
        for of in [FIRST, SECOND] {
            let x = of.field(0);
            let any = vec![of.codes + MANY, of.codes + RANGE, 0, of.characters - 1];
            let good = case(edition, &[&any], &[x, 7], &[5, x]);
            let needed = needed(&good);
            // 44 comes before all else, a short buffer too.
            for output in [0, needed.saturating_sub(1), needed, needed + 1, 200] {
                cases.push(writer::Case { output, ..good.clone() });
            }
            cases.push(case(edition, &[&[255]], &[x], &[x]));
            cases.push(case(edition, &[], &[5; 25], &[]));
            cases.push(writer::Case { lengths: vec![193], ..good.clone() });
            cases.push(writer::Case { lengths: vec![0; 9], ..good.clone() });
            cases.push(writer::Case { lengths: vec![4, 0, 0, 0, 0, 0, 0, 0, 1], ..good });
            cases.push(case(edition, &[], &[], &[]));
        }
    }
    for of in [FIRST, SECOND] {
        let (edition, x) = (of.number(), of.field(0));
        for byte in 0..=255 {
            cases.push(case(edition, &[], &[byte], &[5]));
            cases.push(case(edition, &[], &[], &[5, byte]));
            cases.push(case(edition, &[&[byte]], &[x], &[5]));
            cases.push(case(edition, &[&[of.codes + RANGE, byte, byte]], &[x], &[5]));
        }
        for lo in LIMITS {
            for hi in LIMITS.into_iter().filter(|&hi| Tried::AtLimits.is_range_tried(lo, hi)) {
                cases.push(case(edition, &[&[of.codes + RANGE, lo, hi]], &[x], &[5]));
            }
        }
        // The longest sheet, in just enough and in a byte less.
        let full: Vec<u8> = [vec![of.codes + MANY; 191], vec![of.characters - 1]].concat();
        let longest = case(edition, &[&full[..]; 8], &[of.field(7); 24], &[of.characters - 1; 24]);
        let needed = needed(&longest);
        for output in [needed - 1, needed, needed + 1] {
            cases.push(writer::Case { output, ..longest.clone() });
        }
    }
    cases
}

fn case(edition: u64, patterns: &[&[u8]], left: &[u8], right: &[u8]) -> writer::Case {
    let lengths = patterns.iter().map(|body| body.len() as u64).collect();
    let (patterns, left, right) = (patterns.concat(), left.to_vec(), right.to_vec());
    writer::Case { edition, lengths, patterns, left, right, output: 64 }
}

/// The bytes of its sheet; 0 for one at fault.
fn needed(writer::Case { edition, lengths, patterns, left, right, .. }: &writer::Case) -> u16 {
    let sheet = writer::sheet_by(Reading::Old, *edition, patterns, lengths, left, right);
    sheet.map_or(0, |sheet| sheet.len() as u16)
}
