//! Each fault, the byte that is its place, the order of the checks, and both
//! buffers unchanged. Places are worked out by hand from the bytes.

use second::cases::{Case, ANSWER_FILL, WORK_FILL};

/// The fault's number and place, the same from both modules.
fn fault(sheet: &[u8]) -> (u8, usize) {
    let case = Case { work: 1000, answer: 50, sheet: sheet.to_vec() };
    let after = case.run(second::answer);
    assert_eq!(after, case.run(second::scan::answer));
    assert_eq!((after.outcome.count, after.outcome.written), (0, 0));
    assert_eq!(after.work, [WORK_FILL; 1000]);
    assert_eq!(after.answer, [ANSWER_FILL; 50]);
    (after.outcome.number, after.outcome.place)
}

/// `PA` with the right length byte.
fn pattern(field: u8, body: &[u8]) -> Vec<u8> {
    [b"PA", &[field, body.len() as u8][..], body].concat()
}

const SIDES: &[u8] = b"LE\x01\x40RI\x01\x0a";

/// Where the body of the first record begins, if it is a `PA`.
const BODY: usize = 4;

/// The fault of a pattern with these bytes, its place counted from the first of
/// them: alone, behind another pattern, and where nothing follows.
fn fault_of_body(body: &[u8]) -> (u8, usize) {
    let (number, place) = fault(&[&pattern(0, body), SIDES].concat());
    let of_body = (number, place - BODY);
    let behind = fault(&[&pattern(0, &[65, 0, 9])[..], &pattern(7, body), SIDES].concat());
    assert_eq!(behind, (number, 7 + place), "{body:?}");
    assert_eq!(fault(&pattern(0, body)), (number, place), "{body:?}");
    of_body
}

fn good(sheet: &[u8]) -> bool {
    let outcome = second::answer(sheet, &mut [0; 184], &mut []);
    !(11..=17).contains(&outcome.number)
}

#[test]
fn cut_short() {
    // Every cut of a good sheet with two patterns gives 11 at its length.
    let sheet = [&pattern(0, &[68, 65, 0, 9])[..], &pattern(3, &[4]), SIDES].concat();
    assert!(good(&sheet));
    for cut in 0..sheet.len() {
        assert_eq!(fault(&sheet[..cut]), (11, cut), "cut at {cut}");
    }
}

#[test]
fn wrong_mark() {
    assert_eq!(fault(b"XX"), (12, 0));
    assert_eq!(fault(b"PB\0"), (12, 0));
    assert_eq!(fault(b"RI\0"), (12, 0));
    assert_eq!(fault(b"VA\0"), (12, 0));
    assert_eq!(fault(b"LE\0LE\0"), (12, 3));
    assert_eq!(fault(b"LE\0PA\0\x01\x04RI\0"), (12, 3));
    assert_eq!(fault(b"LE\0le\0"), (12, 3));
    assert_eq!(fault(b"PA\0\x01\x04RI\0"), (12, 5));
    // The mark's first byte, though its second is the wrong one.
    assert_eq!(fault(b"LE\x02\x01\x01RX\0"), (12, 5));
    // After `RI` a single byte is enough, and a good record is none.
    assert_eq!(fault(b"LE\0RI\0R"), (12, 6));
    assert_eq!(fault(b"LE\0RI\0RI\0"), (12, 6));
    assert_eq!(fault(b"PA\0\x01\x04LE\x01\x40RI\x02\x0a\x0bXY"), (12, 14));
    // A single byte elsewhere is a sheet cut short, whatever it is.
    assert_eq!(fault(b"X"), (11, 1));
    assert_eq!(fault(b"LE\0X"), (11, 4));
}

#[test]
fn wrong_field() {
    assert_eq!(fault(&[&pattern(8, &[4]), SIDES].concat()), (13, 2));
    assert_eq!(fault(&[&pattern(255, &[4]), SIDES].concat()), (13, 2));
    assert_eq!(fault(&[&pattern(2, &[4])[..], &pattern(2, &[4]), SIDES].concat()), (13, 7));
    assert_eq!(fault(&[&pattern(2, &[4])[..], &pattern(1, &[4]), SIDES].concat()), (13, 7));
    assert!(good(&[&pattern(2, &[4])[..], &pattern(7, &[4]), SIDES].concat()));
    // Before the length, but behind a missing length byte.
    assert_eq!(fault(b"PA\x08\x00"), (13, 2));
    assert_eq!(fault(b"PA\x08"), (11, 3));
}

#[test]
fn wrong_length() {
    assert_eq!(fault(b"PA\0\0"), (14, 3));
    assert_eq!(fault(b"PA\0\xc1"), (14, 3));
    assert_eq!(fault(b"PA\0\xff"), (14, 3));
    assert_eq!(fault(b"PA\0\xc0"), (11, 4));
    assert_eq!(fault(b"PA\0\x61"), (11, 4));
    assert_eq!(fault(b"PA\0\x01\x04PA\x01\0"), (14, 8));
    assert_eq!(fault(b"LE\x19"), (14, 2));
    assert_eq!(fault(b"LE\x18"), (11, 3));
    assert_eq!(fault(b"PA\0\x01\x04LE\x19"), (14, 7));
    assert_eq!(fault(b"LE\0RI\x19"), (14, 5));
    assert_eq!(fault(b"LE\0RI\xff"), (14, 5));
}

#[test]
fn a_pattern_of_193_bytes() {
    // With all its bytes, and though they are not one pattern or have 64 leaves.
    let many = |number: usize| [vec![68; number - 1], vec![7]].concat();
    for length in [96, 97, 191, 192] {
        assert!(good(&[&pattern(0, &many(length)), SIDES].concat()), "{length}");
    }
    let leaves = [vec![68; 66], leaves(64)].concat();
    for body in [many(193), many(194), many(255), vec![255; 193], vec![68; 193], leaves] {
        assert!(body.len() > 192);
        assert_eq!(fault(&[&pattern(0, &body), SIDES].concat()), (14, 3));
        assert_eq!(fault(&[&pattern(0, &many(192))[..], &pattern(5, &body)].concat()), (14, 199));
    }
}

// ------------------------------------------------------------------- 15

/// These bytes are not one pattern; the place is this one of them.
fn wrong_byte(body: &[u8], place: usize) {
    assert_eq!(fault_of_body(body), (15, place), "{body:?}");
}

#[test]
fn a_byte_that_is_no_code() {
    for byte in (43..64).chain(69..=255) {
        wrong_byte(&[byte], 0);
        wrong_byte(&[68, byte], 1);
        wrong_byte(&[67, 1, byte], 2);
    }
    // The first of several.
    wrong_byte(&[66, 43, 43], 1);
    wrong_byte(&[67, 68, 200, 66, 255], 2);
    // The code would run out behind it.
    wrong_byte(&[66, 63], 1);
    wrong_byte(&[66, 66, 65, 0, 9, 69], 5);
}

#[test]
fn lo_above_42() {
    for lo in 43..=255 {
        // hi is missing, too small, as large, or a character
        wrong_byte(&[65, lo], 1);
        wrong_byte(&[65, lo, lo - 1], 1);
        wrong_byte(&[65, lo, lo], 1);
        wrong_byte(&[65, lo, 42], 1);
    }
    wrong_byte(&[66, 1, 65, 43], 3);
    wrong_byte(&[66, 65, 43, 43, 1], 2);
    // Before anything behind it.
    wrong_byte(&[65, 64, 255, 255], 1);
}

#[test]
fn hi_above_42_or_below_lo() {
    for hi in 43..=255 {
        wrong_byte(&[65, 0, hi], 2);
        wrong_byte(&[65, 42, hi], 2);
    }
    for lo in 1..=42 {
        wrong_byte(&[65, lo, lo - 1], 2);
        wrong_byte(&[65, lo, 0], 2);
    }
    wrong_byte(&[66, 65, 5, 4, 1], 3);
    wrong_byte(&[67, 68, 65, 0, 42, 65, 0, 43], 7);
    // Before anything behind it.
    wrong_byte(&[65, 2, 1, 255], 2);
    wrong_byte(&[66, 65, 2, 1, 43], 3);
    // As large as lo is right.
    assert!(good(&[&pattern(0, &[65, 42, 42]), SIDES].concat()));
}

#[test]
fn bytes_left_over() {
    wrong_byte(&[1, 2], 1);
    wrong_byte(&[64, 64], 1);
    wrong_byte(&[66, 1, 2, 3], 3);
    wrong_byte(&[65, 0, 9, 68], 3);
    wrong_byte(&[68, 1, 68, 1], 2);
    // The first of them, be it a code or none.
    wrong_byte(&[1, 2, 255], 1);
    wrong_byte(&[1, 65, 43], 1);
    wrong_byte(&[1, 43], 1);
    wrong_byte(&[66, 1, 2, 255, 1], 3);
    wrong_byte(&[65, 0, 9, 63, 63], 3);
    // 192 bytes, and the last one is left over.
    wrong_byte(&[vec![68; 190], vec![7, 7]].concat(), 191);
}

#[test]
fn the_code_runs_out() {
    wrong_byte(&[65], 1);
    wrong_byte(&[65, 1], 2);
    wrong_byte(&[65, 42], 2);
    wrong_byte(&[66], 1);
    wrong_byte(&[66, 1], 2);
    wrong_byte(&[67, 1], 2);
    wrong_byte(&[68], 1);
    wrong_byte(&[66, 66, 1, 2], 4);
    wrong_byte(&[68, 66, 1, 67, 64, 65, 3], 7);
    wrong_byte(&[68; 192], 192);
    // The body is judged by itself: the next record's bytes are not used.
    assert_eq!(fault(b"PA\0\x01\x44\x04LE\0RI\0"), (15, 5));
    // Every cut of a pattern.
    let whole = [67, 66, 65, 0, 9, 68, 4, 66, 64, 65, 7, 7];
    assert!(good(&[&pattern(0, &whole), SIDES].concat()));
    for cut in 1..whole.len() {
        wrong_byte(&whole[..cut], cut);
    }
}

#[test]
fn a_pattern_of_a_field_that_stands_nowhere_is_judged() {
    assert_eq!(fault(&[&pattern(0, &[4])[..], &pattern(5, &[43]), SIDES].concat()), (15, 9));
}

// ------------------------------------------------------------------- 16

/// So many leaves, all operators in front.
fn leaves(number: usize) -> Vec<u8> {
    [vec![66; number - 1], vec![7; number]].concat()
}

/// 64 leaves or more; the 64th begins at this one of the bytes.
fn leaf_too_many(body: &[u8], place: usize) {
    assert!(body.len() <= 192);
    assert_eq!(fault_of_body(body), (16, place), "{body:?}");
}

#[test]
fn the_64th_leaf() {
    for number in [31, 32, 33, 62, 63] {
        assert!(good(&[&pattern(0, &leaves(number)), SIDES].concat()), "{number}");
    }
    leaf_too_many(&leaves(64), 126);
    leaf_too_many(&leaves(65), 127);
    leaf_too_many(&leaves(96), 158);
    // An operator before each leaf but the last.
    leaf_too_many(&[[66, 7].repeat(63), vec![7]].concat(), 126);
    leaf_too_many(&[[67, 7].repeat(80), vec![7]].concat(), 127);
    // The leaf's byte, not that of the operator in front of it.
    leaf_too_many(&[vec![66; 63], vec![7; 63], vec![68, 7]].concat(), 127);
    leaf_too_many(&[vec![68; 65], leaves(64)].concat(), 191);
    let behind = [&pattern(1, &[4])[..], &pattern(5, &leaves(64)), SIDES].concat();
    assert_eq!(fault(&behind), (16, 135));
}

#[test]
fn the_64th_leaf_among_ranges() {
    // With its 63 operators a pattern of 192 bytes has room for 32 ranges.
    let ranges = [65, 0, 42].repeat(32);
    leaf_too_many(&[vec![66; 63], ranges.clone(), vec![7; 32]].concat(), 190);
    // Of a range, its 65.
    leaf_too_many(&[vec![66; 63], vec![7; 32], ranges].concat(), 188);
    leaf_too_many(&[vec![66; 63], vec![7; 63], vec![65, 1, 2]].concat(), 126);
    leaf_too_many(&[vec![66; 64], vec![7; 63], vec![65, 1, 2, 7]].concat(), 127);
    leaf_too_many(&[vec![66; 63], [65, 0, 9, 7].repeat(32)].concat(), 190);
    leaf_too_many(&[vec![66; 63], [7, 65, 0, 9].repeat(32)].concat(), 188);
    leaf_too_many(&[[66, 7].repeat(63), vec![65, 0, 0]].concat(), 126);
    leaf_too_many(&[vec![66; 63], vec![7; 63], vec![68, 68, 65, 1, 2]].concat(), 128);
    // A range is one leaf: 63 leaves in 192 bytes.
    let mut full = [vec![68; 63], vec![66; 62], vec![7; 61]].concat();
    full.extend([65, 0, 42, 65, 1, 2]);
    assert_eq!(full.len(), 192);
    assert!(good(&[&pattern(0, &full), SIDES].concat()));
}

#[test]
fn the_empty_text_is_no_leaf() {
    let empty_ones = [vec![66; 95], vec![64; 96]].concat();
    assert!(good(&[&pattern(0, &empty_ones), SIDES].concat()));
    assert!(good(&[&pattern(0, &[vec![66], leaves(63), vec![64]].concat()), SIDES].concat()));
    leaf_too_many(&[vec![66; 64], vec![7; 63], vec![64, 7]].concat(), 128);
    leaf_too_many(&[vec![66; 65], vec![64, 64], vec![7; 64]].concat(), 130);
}

#[test]
fn fifteen_comes_before_16() {
    // Behind the 64th leaf, which stands at 127 of the bytes or at 126.
    let open = [vec![66; 64], vec![7; 64]].concat();
    let then = |more: &[u8]| [&open[..], more].concat();
    wrong_byte(&then(&[43]), 128);
    wrong_byte(&then(&[65, 43]), 129);
    wrong_byte(&then(&[65, 43, 43]), 129);
    wrong_byte(&then(&[65, 2, 1]), 130);
    wrong_byte(&then(&[65, 0, 43]), 130);
    wrong_byte(&then(&[7, 7]), 129);
    wrong_byte(&open, 128);
    wrong_byte(&then(&[65, 0]), 130);
    wrong_byte(&[leaves(64), vec![7]].concat(), 127);
    wrong_byte(&[leaves(64), vec![255]].concat(), 127);
    // At the 64th leaf, and before it.
    wrong_byte(&[vec![66; 63], vec![7; 63], vec![65, 9, 8]].concat(), 128);
    wrong_byte(&[vec![66; 63], vec![7; 63], vec![65, 9]].concat(), 128);
    wrong_byte(&[vec![66; 64], vec![7; 10], vec![43], vec![7; 54]].concat(), 74);
    // 64 ranges fill the 192 bytes, and no operator joins them.
    wrong_byte(&[65, 0, 9].repeat(64), 3);
}

// ------------------------------------------------------------------- 17

#[test]
fn wrong_token() {
    for token in (43..64).chain(72..=255) {
        assert_eq!(fault(&[b"LE\x01", &[token][..], b"RI\0"].concat()), (17, 3));
        assert_eq!(fault(&[b"LE\x02\x01", &[token][..], b"RI\0"].concat()), (17, 4));
        assert_eq!(fault(&[b"LE\0RI\x02\x01", &[token][..]].concat()), (17, 7));
    }
    for token in (0..43).chain(64..72) {
        assert!(good(&[b"LE\0RI\x01", &[token][..]].concat()));
    }
    // The first that is none, of several, and the last of 24.
    assert_eq!(fault(b"LE\x05\x01\x40\x2b\x01\xffRI\0"), (17, 5));
    assert_eq!(fault(&[b"LE\x18", &[64; 23][..], &[72]].concat()), (17, 26));
    // Behind two patterns and the left side.
    let patterns = [pattern(0, &[68, 65, 0, 9]), pattern(3, &[4])].concat();
    assert_eq!(fault(&[&patterns, &b"LE\x01\x40RI\x03\x0a\x40\x48"[..]].concat()), (17, 22));
    // The left side's fault comes before anything about the right side.
    assert_eq!(fault(b"LE\x01\x2bXX"), (17, 3));
    // The right side's fault comes before the bytes left over.
    assert_eq!(fault(b"LE\0RI\x01\x2bX"), (17, 6));
}
