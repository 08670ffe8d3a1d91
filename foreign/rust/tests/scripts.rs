//! Scripts: known ones to the byte, refusals, buffers that are too short; and those of many generated
//! sheets, which the reader of the crate `second` compares with their sheets.

use bradovusc::{script, Fault, Scripted, SCRIPT_BYTES, SIGNS};
use second::edition::{FIRST, SECOND};
use second::make::{case, Dice};
use second::sheet;
use second::smt::compare::says;
use second::smt::output::{check, Checked};

const FILL: u8 = 165;

/// The answer in a filled buffer of this length, and the script. Looks at every byte behind it.
fn written(sheet: &[u8], length: usize) -> (Scripted, Vec<u8>) {
    let mut buffer = vec![FILL; length];
    let given = script(sheet, &mut buffer);
    let rest = buffer.split_off(given.written());
    assert!(rest.iter().all(|&byte| byte == FILL), "{given:?}");
    (given, buffer)
}

const HEADING: &str = "\
; Do two label rules clash? sat: they do. unsat: they don't.
; Fields 8 and 9 are the spaces at the end of the left and the right label.
(set-logic QF_S)
";

const HIDDEN: &str = "\
; field 8
(declare-const f8 String)
(assert (str.in_re f8 (re.* (str.to_re \" \"))))
; field 9
(declare-const f9 String)
(assert (str.in_re f9 (re.* (str.to_re \" \"))))
";

/// A script with these lines for the fields, and this equation; in just enough bytes too, and not in
/// one less.
fn known(sheet: &[u8], fields: &str, equation: &str) {
    let expected = format!("{HEADING}{fields}{HIDDEN}(assert (= {equation}))\n(check-sat)\n");
    let done = (Scripted::Written { bytes: expected.len() }, expected.clone().into_bytes());
    assert_eq!(String::from_utf8(written(sheet, SCRIPT_BYTES).1).unwrap(), expected);
    assert_eq!(written(sheet, SCRIPT_BYTES), done);
    assert_eq!(written(sheet, expected.len()), done);
    assert_eq!(written(sheet, expected.len() - 1), (Scripted::TooShort, Vec::new()));
    assert_eq!(written(sheet, 0), (Scripted::TooShort, Vec::new()));
}

#[test]
fn no_field() {
    known(b"LE\x00RI\x00", "", "f8 f9");
    known(b"LE\x03\x15\x1D\x04RI\x01\x26", "", "(str.++ \"LT4\" f8) (str.++ \" \" f9)");
}

#[test]
fn each_kind_of_pattern() {
    // A or two spaces, any number of times; 9 to A by value; - alone, as a range; the empty text.
    let sheet = b"PA\x00\x06\x44\x43\x0A\x42\x26\x26PA\x02\x03\x41\x09\x0APA\x03\x03\x41\x24\x24\
        PA\x05\x01\x40LE\x05\x40\x0A\x0B\x42\x40RI\x03\x45\x43\x2A";
    let fields = "\
; field 0
(declare-const f0 String)
(assert (str.in_re f0 (re.* (re.union (str.to_re \"A\") (re.++ (str.to_re \" \") (str.to_re \" \"))))))
; field 2
(declare-const f2 String)
(assert (str.in_re f2 (re.union (str.to_re \"9\") (str.to_re \"A\"))))
; field 3
(declare-const f3 String)
(assert (str.in_re f3 (str.to_re \"-\")))
; field 5
(declare-const f5 String)
(assert (str.in_re f5 (str.to_re \"\")))
";
    known(sheet, fields, "(str.++ f0 \"AB\" f2 f0 f8) (str.++ f5 f3 \"%\" f9)");
}

/// An open field is one of the 43 characters, then any number of them.
#[test]
fn an_open_field() {
    let sheet = b"LE\x01\x47RI\x00";
    let each: String = SIGNS.iter().map(|&c| format!(" (str.to_re \"{}\")", c as char)).collect();
    let any = format!("(re.union{each})");
    let member = format!("(assert (str.in_re f7 (re.++ {any} (re.* {any}))))\n");
    let fields = format!("; field 7\n(declare-const f7 String)\n{member}");
    known(sheet, &fields, "(str.++ f7 f8) f9");
}

/// The sheet's own refusals come before 40.
#[test]
fn faults() {
    for length in [0, SCRIPT_BYTES] {
        let refused = |sheet: &[u8], fault, place| {
            let expected = Scripted::Refused { fault, place };
            assert_eq!(written(sheet, length), (expected, Vec::new()), "{sheet:?}");
            assert_eq!((expected.number(), expected.place()), (fault.number(), place));
        };
        refused(b"", Fault::CutShort, 0);
        refused(b"LE\x00RI\x00\x00", Fault::WrongMark, 6);
        refused(b"PA\x08\x01\x00", Fault::WrongField, 2);
        refused(b"LE\x19", Fault::WrongLength, 2);
        refused(b"PA\x00\x03\x41\x02\x01LE\x00RI\x00", Fault::NotOnePattern, 6);
        refused(b"LE\x01\x48RI\x00", Fault::WrongToken, 3);
        let leaves = [&b"PA\x00\x7F"[..], &[66; 63], &[7; 64]].concat();
        refused(&leaves, Fault::TooManyLeaves, 130);
        refused(b"PA\x03\x01\x0ALE\x01\x47RI\x00", Fault::StrayPattern, 0);
    }
}

/// Eight patterns of the longest expressions, and 24 tokens on either side.
#[test]
fn the_longest() {
    let pattern = [&[68][..], &[67; 47], &[65, 0, 42].repeat(48)].concat();
    let record = |field: u8| [b"PA", &[field, 192][..], &pattern].concat();
    let patterns: Vec<u8> = (0..8).flat_map(record).collect();
    let side = |mark: &[u8]| [mark, &[24], &[64, 65, 66, 67, 68, 69, 70, 71].repeat(3)].concat();
    let sheet = [patterns, side(b"LE"), side(b"RI")].concat();
    assert_eq!(sheet.len(), 1622);
    let (given, text) = written(&sheet, SCRIPT_BYTES);
    assert_eq!(given.number(), 0);
    assert!((272_000..SCRIPT_BYTES).contains(&text.len()), "{} bytes", text.len());
    assert_eq!(says(&text, &sheet::read(&sheet).unwrap()), Ok(()));
}

/// What `test_sheets` prints for a sheet of a part `SC`.
fn output(sheet: &[u8]) -> Vec<u8> {
    let (given, text) = written(sheet, SCRIPT_BYTES);
    let line = format!("{} {} {}\n", given.number(), given.place(), given.written());
    let mut output = [line.as_bytes(), &text].concat();
    if given.number() == 0 {
        let exact = written(sheet, text.len()).0.number();
        let less = written(sheet, text.len() - 1).0.number();
        output.extend(format!("{exact} {less} 0\n").into_bytes());
    }
    output
}

#[test]
fn generated_sheets() {
    let mut dice = [FIRST, SECOND].map(|edition| Dice::of(39, edition));
    let (mut stream, mut printed) = (Vec::new(), Vec::new());
    for number in 0..4000 {
        let case = case(&mut dice[number % 2]);
        printed.extend(output(&case.sheet));
        case.write(&mut stream);
    }
    let Checked { scripts, refused } = check(&stream, &printed).unwrap();
    assert_eq!(scripts + refused, 4000);
    assert!(scripts > 1000 && refused > 1000, "{scripts} scripts, {refused} refused");
}
