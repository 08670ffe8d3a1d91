//! Can two part-label rules make the same label?
//!
//! A rule is fixed Code 39 characters with fields between them; a field may have a pattern, and one
//! without a pattern holds any text of one character or more. Two rules clash when one label can be
//! read by both. Spaces at the end of a label are dropped before it is read, so `LT4` and `LT4` with
//! a space are the same label; a space elsewhere is a character like the others. The two rules stand
//! on a question sheet; [`clash`] answers it in memory that the caller lends.
//!
//! A field has a number on the sheet. One that stands on both sides is one field, shared: it holds the
//! same text in both rules. Two rules with a field each have two numbers. The package
//! `bradovusc-asking` asks about rules as text, whose fields are their own.
//!
//! ```
//! use bradovusc::{answer_bytes, clash, texts, SITUATION_BYTES};
//!
//! // Field 0, any digits, is the left side; field 1, the digit 4, the right one.
//! let sheet = b"PA\x00\x04\x44\x41\x00\x09PA\x01\x01\x04LE\x01\x40RI\x01\x41";
//! let mut work = [0; 356 * SITUATION_BYTES];
//! let mut answer = [0; answer_bytes(356)];
//! let given = clash(sheet, &mut work, &mut answer);
//! assert_eq!(given.clashes(), Some(true));
//! assert_eq!(given.to_string(), "clash");
//! assert_eq!(given.count(), 13);
//! let texts: Vec<String> =
//!     texts(&answer[..given.written()]).map(|text| text.to_string()).collect();
//! assert_eq!(texts, ["4", "4"]);
//! ```
//!
//! Where one search gives up, [`decide`] goes on with up to six more attempts, in the same buffers.
//!
//! ```
//! use bradovusc::{answer_bytes, clash, decide, texts, SITUATION_BYTES};
//!
//! // KP, a number, - and the number again; and the same with a number that ends in 0.
//! let sheet = b"PA\x00\x08\x42\x41\x00\x09\x44\x41\x00\x09PA\x01\x06\x42\x44\x41\x00\x09\x00\
//!     LE\x05\x14\x19\x40\x24\x40RI\x05\x14\x19\x41\x24\x41";
//! let mut work = [0; 356 * SITUATION_BYTES];
//! let mut answer = [0; answer_bytes(356)];
//! assert_eq!(clash(sheet, &mut work, &mut answer).clashes(), None);
//! let decided = decide(sheet, &mut work, &mut answer);
//! assert_eq!(decided.clashes(), Some(true));
//! assert_eq!((decided.answer.count(), decided.search), (365, 4));
//! let texts: Vec<String> =
//!     texts(&answer[..decided.answer.written()]).map(|text| text.to_string()).collect();
//! assert_eq!(texts, ["0", "0"]);
//! ```
//!
//! [`steps`](crate::steps()) writes the way to a clash too, step by step, so that it can be followed
//! by hand; [`play`] goes any such way and gives the texts at its end, and [`find_way`] writes the
//! way of any texts of a clash, those of [`decide`] too.
//!
//! ```
//! use bradovusc::{answer_bytes, find_way, play, steps, steps_bytes, way};
//! use bradovusc::{Played, Step, WayFound, SITUATION_BYTES};
//!
//! // Field 0, any digits, is the left side; field 1, the digit 4, the right one.
//! let sheet = b"PA\x00\x04\x44\x41\x00\x09PA\x01\x01\x04LE\x01\x40RI\x01\x41";
//! let mut work = [0; 356 * SITUATION_BYTES];
//! let mut answer = [0; answer_bytes(356)];
//! let mut records = [0; steps_bytes(356)];
//! let given = steps(sheet, &mut work, &mut answer, &mut records);
//! let records = &records[..given.steps()];
//! let found: Vec<Step> = way(records).collect();
//! // 4 is put before both fields, which are then struck; behind them stand the hidden fields.
//! let (left, right) = (Step::StrikeLeft, Step::StrikeRight);
//! assert_eq!(found, [Step::Put(4), left, left, right, right]);
//! assert_eq!(play(sheet, records, &mut answer), Played::Finished { written: 12 });
//! // Field 1 holds one character, so it can't be struck first.
//! assert_eq!(play(sheet, b"ST\x01", &mut answer), Played::StepNotAllowed);
//! // The same way, by its texts.
//! let mut again = [0; 16];
//! assert_eq!(find_way(sheet, &answer[..12], &mut again), WayFound::Steps { written: 16 });
//! assert_eq!(again, records);
//! ```
//!
//! Where no field stands more than once, [`plain()`] says clash or no clash in a small buffer of bits,
//! and [`plain_bytes`] says how many bytes it needs.
//!
//! ```
//! use bradovusc::{plain, plain_bytes, Plain, PlainBytes, PLAIN_BYTES};
//!
//! // Field 0, any digits, is the left side; field 1, the digit 4, the right one.
//! let sheet = b"PA\x00\x04\x44\x41\x00\x09PA\x01\x01\x04LE\x01\x40RI\x01\x41";
//! assert_eq!(plain_bytes(sheet), PlainBytes::Needed { bytes: 4 });
//! assert_eq!(plain(sheet, &mut [0; 4]), Plain::Clash);
//! assert_eq!(plain(sheet, &mut [0; 3]), Plain::BitsTooShort);
//! // So many bytes are always enough. Here field 0 stands twice.
//! let twice = b"LE\x02\x40\x40RI\x01\x04";
//! assert_eq!(plain(twice, &mut [0; PLAIN_BYTES]), Plain::NotPlain);
//! assert_eq!(plain(twice, &mut [0; PLAIN_BYTES]).clashes(), None);
//! ```
//!
//! Most pairs of rules differ in what is fixed at their fronts or ends. [`fronts_differ`] tells that
//! from the tokens of two sides alone, before any sheet is written.
//!
//! ```
//! use bradovusc::{fronts_differ, Edition};
//!
//! // L, T and field 0; L, U and field 0; field 1 and 4; field 1 and 5.
//! let (lt, lu) = ([21, 29, 64], [21, 30, 64]);
//! assert!(fronts_differ(Edition::Code39, &lt, &lu));
//! assert!(fronts_differ(Edition::Code39, &[65, 4], &[65, 5]));
//! // Nothing is said: field 1 may begin with L and T, and field 0 may end with 4.
//! assert!(!fronts_differ(Edition::Code39, &lt, &[65, 4]));
//! ```
//!
//! Of a sheet at fault the place is told, the byte itself.
//!
//! ```
//! use bradovusc::{clash, Answer, Fault};
//!
//! // The pattern of field 0 has a range from 2 to 1.
//! let sheet = b"PA\x00\x03\x41\x02\x01LE\x00RI\x00";
//! let given = clash(sheet, &mut [], &mut []);
//! assert_eq!(given, Answer::Refused { fault: Fault::NotOnePattern, place: 6 });
//! assert_eq!(given.to_string(), "not one pattern, at offset 6");
//! assert_eq!(sheet.get(6), Some(&1));
//! ```
//!
//! [`write`](crate::write()) writes a sheet, from the tokens of its sides and the patterns by field.
//!
//! ```
//! use bradovusc::{write, Fault, Written, SHEET_BYTES};
//!
//! // Field 0, any digits, is the left side; field 1, the digit 4, the right one.
//! let mut sheet = [0; SHEET_BYTES];
//! let written = write(&[68, 65, 0, 9, 4], &[4, 1], &[64], &[65], &mut sheet);
//! assert_eq!(written, Written::Sheet { bytes: 21 });
//! assert_eq!(&sheet[..21], b"PA\x00\x04\x44\x41\x00\x09PA\x01\x01\x04LE\x01\x40RI\x01\x41");
//! // A range from 9 to 0: the place is that of the byte in the sheet that would be written.
//! let refused = write(&[68, 65, 9, 0], &[4], &[64], &[4], &mut sheet);
//! assert_eq!(refused, Written::Refused { fault: Fault::NotOnePattern, place: 7 });
//! ```
//!
//! A sheet may be one of Full ASCII, with 128 characters: its [`Edition`] then stands in front.
//! [`write_edition`] writes it. What the fields hold on the label of a clash are texts of Full ASCII,
//! which [`spell`] spells.
//!
//! ```
//! use bradovusc::{
//!     clash, sign, spell, texts, write_edition, Edition, Spelt, Written, SHEET_BYTES,
//!     SITUATION_BYTES,
//! };
//!
//! // Field 0, small letters, then an exclamation mark; and the text "ok!".
//! let (ascii, mut sheet) = (Edition::FullAscii, [0; SHEET_BYTES]);
//! let pattern = [196, 193, b'a', b'z'];
//! let written = write_edition(ascii, &pattern, &[4], &[192, b'!'], b"ok!", &mut sheet);
//! let Written::Sheet { bytes } = written else {
//!     panic!("sides and pattern are good, and the buffer is long enough");
//! };
//! assert_eq!(&sheet[..bytes], b"ED\x02PA\x00\x04\xC4\xC1azLE\x02\xC0!RI\x03ok!");
//! let (mut work, mut answer) = ([0; 20 * SITUATION_BYTES], [0; 20]);
//! let given = clash(&sheet[..bytes], &mut work, &mut answer);
//! let text = texts(&answer[..given.written()]).next().unwrap();
//! assert_eq!(ascii.text(text.values), "ok");
//! let mut values = [0; 4];
//! assert_eq!(spell(text.values, &mut values), Spelt::Written { bytes: 4 });
//! assert!(values.map(sign).into_iter().flatten().eq("+O+K".chars()));
//! ```
//!
//! [`script`] writes a sheet out as a script for string solvers.
//!
//! ```
//! use bradovusc::{script, Scripted, SCRIPT_BYTES};
//!
//! // The letter A on the left; any number of A on the right, in field 0.
//! let sheet = b"PA\x00\x02\x44\x0ALE\x01\x0ARI\x01\x40";
//! let mut text = vec![0; SCRIPT_BYTES];
//! let Scripted::Written { bytes } = script(sheet, &mut text) else {
//!     panic!("the sheet is good, and the buffer is long enough");
//! };
//! let text = std::str::from_utf8(&text[..bytes]).unwrap();
//! assert!(text.contains("(assert (str.in_re f0 (re.* (str.to_re \"A\"))))\n"));
//! assert!(text.ends_with("(assert (= (str.++ \"A\" f8) (str.++ f0 f9)))\n(check-sat)\n"));
//! ```
//!
//! A catalogue has up to 32 rules in a lent buffer. [`add`] enters a rule only if it clashes with
//! none that is there; [`withdraw`] takes one out; [`recheck`] checks the pairs of one that was kept
//! again.
//!
//! ```
//! use bradovusc::{add, catalogue_bytes, withdraw, Added, Answer, Withdrawn, SITUATION_BYTES};
//!
//! let mut catalogue = [0; catalogue_bytes(32)];
//! let mut work = [0; 356 * SITUATION_BYTES];
//! // Any digits; then the digit 4.
//! let digits = b"RUPA\x00\x04\x44\x41\x00\x09LE\x01\x40";
//! let four = b"RULE\x01\x04";
//! assert_eq!(add(&mut catalogue, digits, &mut work), Added::Entered);
//! let refused = add(&mut catalogue, four, &mut work);
//! let pair = Answer::Clash { count: 9, written: 0 };
//! assert_eq!(refused, Added::NotApart { rule: 0, pair });
//! assert_eq!(refused.to_string(), "not apart from a rule of the catalogue: rule 0, clash");
//! assert_eq!(withdraw(&mut catalogue, 0), Withdrawn::Gone);
//! assert_eq!(add(&mut catalogue, four, &mut work), Added::Entered);
//! ```
//!
//! ```
//! use bradovusc::{list_bytes, recheck, Pair, Rechecked, SITUATION_BYTES};
//!
//! // Kept since a space at the end made another label: the digit 4; the same with a space.
//! let catalogue = b"RULE\x01\x04RULE\x02\x04\x26";
//! let mut work = [0; 356 * SITUATION_BYTES];
//! let mut list = [0; list_bytes(2)];
//! let Rechecked::Listed(pairs) = recheck(catalogue, &mut work, &mut list) else {
//!     panic!("a catalogue, and the list is long enough");
//! };
//! let pairs: Vec<Pair> = pairs.collect();
//! assert_eq!(pairs.len(), 1);
//! assert_eq!((pairs[0].lower, pairs[0].higher), (0, 1));
//! assert_eq!(pairs[0].answer.clashes(), Some(true));
//! assert_eq!(pairs[0].to_string(), "rule 0 and rule 1: clash");
//! ```
//!
//! [`add_decided`] and [`recheck_decided`] do the same with each pair decided, by up to seven
//! attempts: they enter rules of which one search leaves it open whether they clash.
//!
//! ```
//! use bradovusc::{add, add_decided, catalogue_bytes, Added, SITUATION_BYTES};
//!
//! let mut catalogue = [0; catalogue_bytes(32)];
//! let mut work = [0; 356 * SITUATION_BYTES];
//! // KP, a number, - and the number again; / for -; the first with a number that ends in 0.
//! let dashed = b"RUPA\x00\x08\x42\x41\x00\x09\x44\x41\x00\x09LE\x05\x14\x19\x40\x24\x40";
//! let slashed = b"RUPA\x00\x08\x42\x41\x00\x09\x44\x41\x00\x09LE\x05\x14\x19\x40\x28\x40";
//! let ends_in_0 = b"RUPA\x00\x06\x42\x44\x41\x00\x09\x00LE\x05\x14\x19\x40\x24\x40";
//! assert_eq!(add_decided(&mut catalogue, dashed, &mut work).added, Added::Entered);
//! assert_eq!(add(&mut catalogue, slashed, &mut work).number(), 30);
//! assert_eq!(add_decided(&mut catalogue, slashed, &mut work).added, Added::Entered);
//! let refused = add_decided(&mut catalogue, ends_in_0, &mut work);
//! assert_eq!(refused.to_string(), "not apart from a rule of the catalogue: rule 0, clash");
//! assert_eq!(refused.search, 4);
//! ```
//!
//! Up to version 0.5 a field without a pattern could be empty too. [`spell_open`] carries a sheet
//! from before 0.6 over, [`spell_open_rule`] a rule and [`spell_open_catalogue`] a whole catalogue:
//! they then mean what they meant.
//!
//! ```
//! use bradovusc::{clash, spell_open, SpeltOpen, SHEET_BYTES, SITUATION_BYTES};
//!
//! // Field 0, without a pattern, then 4; and the digit 4. They clash if field 0 may be empty.
//! let old = b"LE\x02\x40\x04RI\x01\x04";
//! let mut new = [0; SHEET_BYTES];
//! let SpeltOpen::Written { bytes } = spell_open(old, &mut new) else {
//!     panic!("the sheet is good, and the buffer is long enough");
//! };
//! assert_eq!(&new[..bytes], b"PA\x00\x04\x44\x41\x00\x2ALE\x02\x40\x04RI\x01\x04");
//! let mut work = [0; 356 * SITUATION_BYTES];
//! let mut answer = [0; 5];
//! assert_eq!(clash(old, &mut work, &mut answer).clashes(), Some(false));
//! assert_eq!(clash(&new[..bytes], &mut work, &mut answer).clashes(), Some(true));
//! ```
//!
//! Up to version 0.8 a sheet could have a stray pattern, one for a field that stands in neither side.
//! Now it is refused. [`drop_strays`] drops the strays of a sheet from before, [`drop_strays_rule`]
//! those of a rule and [`drop_strays_catalogue`] those of a whole catalogue: every answer about them
//! stays as it was. What is from before 0.6 loses its strays first, and is then carried over.
//!
//! ```
//! use bradovusc::{clash, drop_strays, Answer, Fault, Mended, SHEET_BYTES, SITUATION_BYTES};
//!
//! // The digit 4 on both sides, and a pattern for field 0, which stands in neither.
//! let old = b"PA\x00\x01\x04LE\x01\x04RI\x01\x04";
//! let mut work = [0; 356 * SITUATION_BYTES];
//! let refused = clash(old, &mut work, &mut []);
//! assert_eq!(refused, Answer::Refused { fault: Fault::StrayPattern, place: 0 });
//! assert_eq!(refused.to_string(), "a stray pattern, at offset 0");
//! let mut new = [0; SHEET_BYTES];
//! assert_eq!(drop_strays(old, &mut new), Mended::Written { bytes: 8 });
//! assert_eq!(&new[..8], b"LE\x01\x04RI\x01\x04");
//! assert_eq!(clash(&new[..8], &mut work, &mut []).clashes(), Some(true));
//! ```
//!
//! [`spell`] spells a text of Full ASCII in values of Code 39, and [`read_spelt`] reads it back.
//!
//! ```
//! use bradovusc::{read_spelt, sign, spell, spelt_bytes, Spelt};
//!
//! let text = b"Box $5";
//! let mut values = [0; spelt_bytes(6)];
//! assert_eq!(spell(text, &mut values), Spelt::Written { bytes: 9 });
//! let signs: String = values[..9].iter().filter_map(|&value| sign(value)).collect();
//! assert_eq!(signs, "B+O+X /D5");
//! let mut back = [0; 9];
//! assert_eq!(read_spelt(&values[..9], &mut back), Spelt::Written { bytes: 6 });
//! assert_eq!(&back[..6], text);
//! // a byte above 127, and a shift sign with nothing behind it
//! assert_eq!(spell(&[128], &mut values), Spelt::NotInTable);
//! assert_eq!(read_spelt(&[42], &mut back), Spelt::NotInTable);
//! ```

mod carrying;
mod catalogue;
mod catalogue_decided;
mod deciding;
mod editions;
mod fronts;
mod plain;
mod scripts;
mod spelling;
mod steps;
mod strays;
mod writing;

pub use carrying::{
    spell_open, spell_open_catalogue, spell_open_rule, CarriedOver, SpeltOpen, SHEET_BYTES,
};
pub use catalogue::{
    add, catalogue_bytes, list_bytes, recheck, withdraw, Added, Pair, Pairs, Rechecked, Withdrawn,
    MOST_RULES, PAIR_BYTES, RULE_BYTES, RULE_FIELDS,
};
pub use catalogue_decided::{
    add_decided, decided_list_bytes, recheck_decided, AddedDecided, DecidedPair, DecidedPairs,
    RecheckedDecided, DECIDED_PAIR_BYTES,
};
pub use deciding::{decide, Decision};
pub use editions::{Edition, MOST_CHARACTERS};
pub use fronts::fronts_differ;
pub use plain::{plain, plain_bytes, Plain, PlainBytes, PLAIN_BYTES};
pub use scripts::{script, Scripted, SCRIPT_BYTES};
pub use spelling::{read_spelt, spell, spelt_bytes, Spelt};
pub use steps::{
    find_way, play, steps, steps_bytes, way, Played, Step, Stepped, Way, WayFound, MOST_STEPS,
};
pub use strays::{drop_strays, drop_strays_catalogue, drop_strays_rule, Mended, MendedCatalogue};
pub use writing::{write, write_edition, Written};

use std::error::Error;
use std::fmt;
use std::iter::FusedIterator;

/// The version of this package, of the C header and of the library.
pub const VERSION: &str = env!("CARGO_PKG_VERSION");

/// The version of the library that is called, in its three numbers. It is [`VERSION`], unless another
/// library was linked than the one that belongs to this package.
pub fn version() -> [u32; 3] {
    // SAFETY: the function takes nothing, and keeps nothing.
    let number = unsafe { bradovusc_version() };
    [number / 10_000, number / 100 % 100, number % 100]
}

/// A situation of the search takes so many bytes of the working buffer.
pub const SITUATION_BYTES: usize = 184;

/// Room in the working buffer is never counted above so many situations.
pub const MOST_SITUATIONS: usize = 65_535;

/// The signs of the 43 characters of Code 39, by value.
pub const SIGNS: &[u8; 43] = b"0123456789ABCDEFGHIJKLMNOPQRSTUVWXYZ-. $/+%";

/// The sign of a value, if it has one.
pub fn sign(value: u8) -> Option<char> {
    SIGNS.get(usize::from(value)).map(|&sign| char::from(sign))
}

/// The value of a sign, if it is a character of Code 39.
pub fn value(sign: char) -> Option<u8> {
    (0..).zip(SIGNS).find(|&(_, &each)| char::from(each) == sign).map(|(value, _)| value)
}

/// Fields 0 to 7: those that a sheet may name, and that have a text in the answer.
const FIELDS: usize = 8;

/// A record of the answer buffer before its characters: `VA`, the field, the length in two bytes
/// (low first).
const RECORD_HEAD: usize = 5;

/// An answer buffer of so many bytes is always long enough, where the working buffer has room for
/// these situations: a text has fewer characters than the search has situations.
pub const fn answer_bytes(situations: usize) -> usize {
    FIELDS * (RECORD_HEAD + situations)
}

/// What is wrong with a sheet, or with a rule by itself.
///
/// The place that is told with a fault is an offset in the sheet, in the rule from its `RU`, or in
/// the sheet that would be written. It shows the byte itself, as each fault says. It is never above
/// the length, but it can be the length, where no byte stands: with [`Fault::CutShort`] always, and
/// with [`Fault::NotOnePattern`] if the code runs out where the bytes end. So take the byte by
/// `get`.
#[derive(Clone, Copy, Debug, PartialEq, Eq)]
pub enum Fault {
    /// 11: the sheet or the rule ends too early, or a pattern of a sheet that is to be written has
    /// fewer bytes than its length says. Its place is the length of the sheet, or of the rule: where
    /// the bytes end.
    CutShort,
    /// 12: a mark that is unknown or not allowed here, or bytes behind the last side. Its place is
    /// the first byte of the mark, or the first byte behind the side.
    WrongMark,
    /// 13: a pattern's field is above 7, or not above the field of the pattern before it. Its place
    /// is the field byte.
    WrongField,
    /// 14: a pattern's length is not 1 to 192, or a side's is above 24. Its place is the length
    /// byte.
    WrongLength,
    /// 15: the bytes of a pattern are not exactly one pattern. Its place is, read from left to
    /// right, the first byte that is no code; the lo byte of a range if lo is no character, else the
    /// hi byte if that is no character or below lo; the first byte left over; where the code runs
    /// out, the offset behind the pattern's last byte.
    NotOnePattern,
    /// 16: a pattern has more than 63 leaves. Its place is the first byte of the 64th.
    TooManyLeaves,
    /// 17: a side holds a byte that is neither a character nor a field 0 to 7. Its place is the
    /// first such byte.
    WrongToken,
    /// 22: a pattern is for a field that stands in neither side, or not in the rule. Nothing else is
    /// wrong with it. Its place is the first byte of the first such pattern's mark. What is from
    /// before is mended by [`drop_strays`].
    StrayPattern,
    /// 44: the byte behind `ED` is not 2. Its place is that byte. A rule has no `ED`, and never gets
    /// this.
    WrongEdition,
}

impl Fault {
    /// Its number, 11 to 17, 22 or 44.
    pub fn number(self) -> u32 {
        match self {
            Fault::CutShort => 11,
            Fault::WrongMark => 12,
            Fault::WrongField => 13,
            Fault::WrongLength => 14,
            Fault::NotOnePattern => 15,
            Fault::TooManyLeaves => 16,
            Fault::WrongToken => 17,
            Fault::StrayPattern => 22,
            Fault::WrongEdition => 44,
        }
    }

    /// The fault with this number.
    fn numbered(number: u32) -> Fault {
        match number {
            11 => Fault::CutShort,
            12 => Fault::WrongMark,
            13 => Fault::WrongField,
            14 => Fault::WrongLength,
            15 => Fault::NotOnePattern,
            16 => Fault::TooManyLeaves,
            17 => Fault::WrongToken,
            22 => Fault::StrayPattern,
            44 => Fault::WrongEdition,
            _ => unreachable!("the library promises its numbers"),
        }
    }
}

/// In words.
impl fmt::Display for Fault {
    fn fmt(&self, to: &mut fmt::Formatter<'_>) -> fmt::Result {
        to.write_str(match self {
            Fault::CutShort => "cut short",
            Fault::WrongMark => "a wrong mark, or bytes behind the last side",
            Fault::WrongField => "a wrong field number",
            Fault::WrongLength => "a wrong length",
            Fault::NotOnePattern => "not one pattern",
            Fault::TooManyLeaves => "a pattern with too many leaves",
            Fault::WrongToken => "a wrong token",
            Fault::StrayPattern => "a stray pattern",
            Fault::WrongEdition => "a wrong edition",
        })
    }
}

impl Error for Fault {}

/// The answer to a sheet. `count` is the number of situations that the search entered.
#[derive(Clone, Copy, Debug, PartialEq, Eq)]
pub enum Answer {
    /// 0: a label can be made by both rules. The first `written` bytes of the answer buffer hold
    /// the [`texts`] of the fields on it. With them one side may have spaces at its end that the
    /// other has not.
    Clash { count: usize, written: usize },
    /// 1: no label, however long, and with whatever spaces at its end, can be made by both rules.
    NoClash { count: usize },
    /// 11 to 17, 22, 44: the sheet is at fault. `place` is the offset of the byte at fault, as
    /// [`Fault`] says.
    Refused { fault: Fault, place: usize },
    /// 18: neither yes nor no; the working buffer is full.
    NoRoom { count: usize },
    /// 19: neither yes nor no; a side grew above 48 tokens, the hidden field of spaces at its end
    /// counted.
    SideTooLong { count: usize },
    /// 20: the rules clash, but the answer buffer is too short for the texts.
    AnswerTooShort { count: usize },
}

impl Answer {
    /// The answer with these numbers.
    fn numbered(number: u32, count: usize, place: usize, written: usize) -> Answer {
        match number {
            0 => Answer::Clash { count, written },
            1 => Answer::NoClash { count },
            18 => Answer::NoRoom { count },
            19 => Answer::SideTooLong { count },
            20 => Answer::AnswerTooShort { count },
            _ => Answer::Refused { fault: Fault::numbered(number), place },
        }
    }

    /// Its number, as in the table of the rules.
    pub fn number(self) -> u32 {
        match self {
            Answer::Clash { .. } => 0,
            Answer::NoClash { .. } => 1,
            Answer::Refused { fault, .. } => fault.number(),
            Answer::NoRoom { .. } => 18,
            Answer::SideTooLong { .. } => 19,
            Answer::AnswerTooShort { .. } => 20,
        }
    }

    /// The situations entered; 0 where the sheet is at fault.
    pub fn count(self) -> usize {
        match self {
            Answer::Refused { .. } => 0,
            Answer::Clash { count, .. }
            | Answer::NoClash { count }
            | Answer::NoRoom { count }
            | Answer::SideTooLong { count }
            | Answer::AnswerTooShort { count } => count,
        }
    }

    /// The bytes written to the answer buffer; 0 for all but [`Answer::Clash`].
    pub fn written(self) -> usize {
        if let Answer::Clash { written, .. } = self {
            written
        } else {
            0
        }
    }

    /// Whether the rules clash; none where that is not decided, or the sheet is at fault.
    pub fn clashes(self) -> Option<bool> {
        match self {
            Answer::Clash { .. } | Answer::AnswerTooShort { .. } => Some(true),
            Answer::NoClash { .. } => Some(false),
            Answer::Refused { .. } | Answer::NoRoom { .. } | Answer::SideTooLong { .. } => None,
        }
    }
}

/// In words; of a sheet at fault with the place.
impl fmt::Display for Answer {
    fn fmt(&self, to: &mut fmt::Formatter<'_>) -> fmt::Result {
        to.write_str(match self {
            Answer::Clash { .. } => "clash",
            Answer::NoClash { .. } => "no clash",
            Answer::Refused { fault, place } => {
                return write!(to, "{fault}, at offset {place}");
            }
            Answer::NoRoom { .. } => "not decided: no room for a situation",
            Answer::SideTooLong { .. } => "not decided: a side grew too long",
            Answer::AnswerTooShort { .. } => {
                "clash, but the answer buffer is too short for the texts"
            }
        })
    }
}

/// Can the two rules of the sheet make the same label?
///
/// The working buffer has room for one situation for each whole [`SITUATION_BYTES`], at most
/// [`MOST_SITUATIONS`]. It is all zero afterwards, but a sheet at fault leaves it unchanged. Only a
/// clash changes the answer buffer, and only the bytes written.
pub fn clash(sheet: &[u8], work: &mut [u8], answer: &mut [u8]) -> Answer {
    let mut told = [0; 3];
    // SAFETY: each pointer and length are those of one slice. No two of the slices overlap, since
    // three are borrowed mutably. The function keeps no pointer.
    let number = unsafe {
        bradovusc_clash(
            sheet.as_ptr(),
            sheet.len() as u64,
            work.as_mut_ptr(),
            work.len() as u64,
            answer.as_mut_ptr(),
            answer.len() as u64,
            told.as_mut_ptr(),
            told.len() as u64,
        )
    };
    // These are lengths and offsets of slices, and the number of situations that one holds.
    let [count, place, written] = told.map(|number| number as usize);
    Answer::numbered(number, count, place, written)
}

// In the library a length has 64 bits whatever the processor, so no block of these says `usize`.
extern "C" {
    fn bradovusc_version() -> u32;

    fn bradovusc_clash(
        sheet: *const u8,
        sheet_length: u64,
        work: *mut u8,
        work_length: u64,
        answer: *mut u8,
        answer_length: u64,
        told: *mut u64,
        told_length: u64,
    ) -> u32;
}

/// What a field holds on the label that a clash found.
#[derive(Clone, Copy, Debug, PartialEq, Eq)]
pub struct Text<'a> {
    pub field: u8,
    /// The characters by value, those of the sheet's edition.
    pub values: &'a [u8],
}

/// By its signs in Code 39; a byte that is no character of it, which a clash of a sheet without `ED`
/// never writes, as U+FFFD. For a text of Full ASCII there is [`Edition::text`].
impl fmt::Display for Text<'_> {
    fn fmt(&self, to: &mut fmt::Formatter<'_>) -> fmt::Result {
        to.write_str(&Edition::Code39.text(self.values))
    }
}

/// The texts that a clash has written: one for each field that stands in a side, by rising number.
/// Bytes that are not a whole record end them.
pub fn texts(written: &[u8]) -> Texts<'_> {
    Texts { rest: written }
}

/// See [`texts`].
#[derive(Clone, Debug)]
pub struct Texts<'a> {
    rest: &'a [u8],
}

impl<'a> Iterator for Texts<'a> {
    type Item = Text<'a>;

    fn next(&mut self) -> Option<Text<'a>> {
        let (field, length) = match *self.rest.get(..RECORD_HEAD)? {
            [b'V', b'A', field, low, high] => (field, u16::from_le_bytes([low, high])),
            _ => return None,
        };
        let end = RECORD_HEAD + usize::from(length);
        let values = self.rest.get(RECORD_HEAD..end)?;
        self.rest = &self.rest[end..];
        Some(Text { field, values })
    }
}

impl FusedIterator for Texts<'_> {}
