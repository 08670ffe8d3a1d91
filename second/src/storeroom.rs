//! A storeroom's catalogue of latches and keypads: the stored operations of
//! the crate `catalogue`, each with what it is and the line that it prints.
//!
//! Fields are small letters, `a` for field 0. The labels of the rules:
//!
//! | Rule | Made as | For example |
//! |---|---|---|
//! | mortice latch | `LT`, two digits, a finish of `BR`, `CH` or `SS` | `LT42BR` |
//! | rim latch | `RL`, two digits, a hand `L` or `R` | `RL07L` |
//! | night latch | `NL`, 40 or 60 | `NL60` |
//! | keypad | `KP`, three digits | `KP100` |
//! | keypad with a finish | a keypad, `-`, a finish of `BK`, `WH` or `SS` | `KP100-BK` |
//! | keypad with a cable | a keypad, `/`, any digits | `KP100/25` |
//! | keypad of a maker | `KP`, one of 40 finishes | `KPGD` |
//! | key safe | `KS`, any digits, `-`, the same digits again | `KS12-12` |
//! | strike plate | `SP`, any digits | `SP3` |
//! | battery | `BT 9V` | `BT 9V` |
//! | box of a pair | `BX`, any text but the empty one twice, a hand | `BXABABL` |
//! | strip of tags | `TG`, any digits 22 times | `TG7777777777777777777777` |
//! | lever | `LV`, any letters and digits | `LV42BR` |
//! | parcel | `PK`, any text but the empty one, `X`; once the empty one too | `PK7X` |
//!
//! A label is the same with spaces at its end: scanners drop them.
//!
//! And a full catalogue of 32 rules, to measure what a pair costs; and one of
//! keypads with a serial number that stands twice, `KP123456-123456`, which is
//! filled by deciding alone.

use crate::calls::{Operation, WORK};
use crate::cases::Case;
use crate::edition::FIRST;
use crate::spell_open::old_meaning;
use crate::write::{choice, many, patterns, row, rule, sheet, text, tokens};
use crate::SITUATION_BYTES;

/// An operation, what it is, and the line that it prints, or the lines, if any.
pub struct Row {
    pub what: &'static str,
    pub operation: Operation,
    pub line: Option<&'static str>,
}

pub fn rows() -> Vec<Row> {
    let rows = [
        entered(),
        refused(),
        withdrawn(),
        forty_finishes(),
        rechecked(),
        other_buffers(),
        carried_over(),
    ];
    rows.into_iter().flatten().collect()
}

/// The operations one behind the other.
pub fn stream() -> Vec<u8> {
    written(rows().into_iter().map(|row| row.operation))
}

fn written(operations: impl Iterator<Item = Operation>) -> Vec<u8> {
    let mut stream = Vec::new();
    for operation in operations {
        operation.write(&mut stream);
    }
    stream
}

/// The finishes of a keypad maker, 40 codes of two letters, rising.
pub const FINISHES: [&str; 40] = [
    "AB", "AC", "AN", "BB", "BC", "BK", "BN", "BR", "BZ", "CB", "CH", "CP", "DB", "DN", "GB", "GD",
    "GN", "MB", "MC", "MN", "NB", "NK", "OB", "OR", "PB", "PC", "PN", "PW", "RB", "RG", "SB", "SC",
    "SG", "SN", "SS", "WB", "WH", "ZB", "ZN", "ZP",
];

/// One of these codes of two letters, those with the same first letter together.
/// The 40 finishes begin with 13 letters: 53 leaves, 105 bytes. One by one they
/// would have 80 leaves.
pub fn by_first_letter(codes: &[&str]) -> Vec<u8> {
    let together = |group: &[&str]| {
        let second = choice(group.iter().map(|code| text(&code[1..])).collect());
        row(vec![text(&group[0][..1]), second])
    };
    choice(codes.chunk_by(|a, b| a[..1] == b[..1]).map(together).collect())
}

// -------------------------------------------------------------- the rules

const A: u8 = 0;
const B: u8 = 1;

fn mortice_latch() -> Vec<u8> {
    rule(&[(A, digits(2)), (B, one_of(&["BR", "CH", "SS"]))], &tokens("LTab"))
}

fn rim_latch() -> Vec<u8> {
    rule(&[(A, digits(2)), (B, one_of(&["L", "R"]))], &tokens("RLab"))
}

fn night_latch() -> Vec<u8> {
    rule(&[(A, one_of(&["40", "60"]))], &tokens("NLa"))
}

fn keypad() -> Vec<u8> {
    rule(&[(A, digits(3))], &tokens("KPa"))
}

fn keypad_with_finish() -> Vec<u8> {
    rule(&[(A, digits(3)), (B, one_of(&["BK", "WH", "SS"]))], &tokens("KPa-b"))
}

fn keypad_with_cable() -> Vec<u8> {
    rule(&[(A, digits(3)), (B, many(digit()))], &tokens("KPa/b"))
}

fn keypad_of_a_maker() -> Vec<u8> {
    rule(&[(A, by_first_letter(&FINISHES))], &tokens("KPa"))
}

fn key_safe() -> Vec<u8> {
    rule(&[(A, many(digit()))], &tokens("KSa-a"))
}

fn strike_plate() -> Vec<u8> {
    rule(&[(A, many(digit()))], &tokens("SPa"))
}

fn battery() -> Vec<u8> {
    rule(&[], &tokens("BT 9V"))
}

/// The text has no pattern.
fn box_of_a_pair(made: &str) -> Vec<u8> {
    rule(&[], &tokens(made))
}

fn strip_of_tags() -> Vec<u8> {
    rule(&[(A, many(digit()))], &tokens(&format!("TG{}", "a".repeat(22))))
}

fn tag_and_letter() -> Vec<u8> {
    rule(&[(A, row(vec![many(digit()), text("X")]))], &tokens("TGa"))
}

fn lever(made: &str) -> Vec<u8> {
    rule(&[(A, many(letter_or_digit()))], &tokens(made))
}

// --------------------------------------------------------- the operations

/// Eleven rules of which no two can make the same label.
fn entered() -> Vec<Row> {
    const ENTERED: &str = "add 0 0 0 0 0";
    vec![
        add("the mortice latch is rule 0", mortice_latch(), ENTERED),
        add("the rim latch is rule 1", rim_latch(), ENTERED),
        add("the night latch is rule 2", night_latch(), ENTERED),
        add("the keypad is rule 3", keypad(), ENTERED),
        add("the keypad with a finish is rule 4", keypad_with_finish(), ENTERED),
        add("the key safe is rule 5", key_safe(), ENTERED),
        add("the strike plate is rule 6", strike_plate(), ENTERED),
        add("the battery is rule 7", battery(), ENTERED),
        add("the box of a left-hand pair is rule 8", box_of_a_pair("BXaaL"), ENTERED),
        add("the strip of tags is rule 9", strip_of_tags(), ENTERED),
        // The clash that cost a latch: `LT42BR` on two shelves.
        add("a lever can be marked as mortice latches are", lever("LTa"), "add 30 37 0 0 0"),
        add("the lever with a mark of its own is rule 10", lever("LVa"), ENTERED),
    ]
}

/// Rules that are not entered, for each cause.
fn refused() -> Vec<Row> {
    let any_keypad = rule(&[(A, row(vec![digit(), many(digit())]))], &tokens("KPa"));
    let filled_up = rule(&[(A, one_of(&["40  ", "45  ", "60  "]))], &tokens("NLa"));
    let mut sheets_side = battery();
    sheets_side[2..4].copy_from_slice(b"RI");
    let falling = rule(&[(B, digit()), (A, digit())], &tokens("LTab"));
    let too_long = rule(&[], &tokens(&"A".repeat(25)));
    let battery_and_battery = sheet(&[], &tokens("BT 9V"), &tokens("BT 9V"));
    let latch = |finish| rule(&[(A, finish)], &tokens("LTa"));
    // An operator is missing, so the last finish is left over.
    let left_over = [&one_of(&["BR", "CH"])[..], &text("SS")].concat();
    // 67 stands before one finish alone.
    let missing = [&[67], &text("BR")[..]].concat();
    let letters = row(vec![text(&"A".repeat(63)), many(digit())]);
    let too_long_pattern = digits(49);
    vec![
        add("`KP100` is a keypad already", any_keypad, "add 30 17 0 3 0"),
        add("18: the search runs on", box_of_a_pair("BXaaR"), "add 30 356 0 8 18"),
        add("19: a side above 48 tokens", tag_and_letter(), "add 30 14 0 9 19"),
        add("a space behind the battery's mark", shelf_mark("BT 9V "), "add 30 6 0 7 0"),
        add("a night latch filled up with spaces", filled_up, "add 30 22 0 2 0"),
        add("11: cut short", battery()[..9].to_vec(), "add 11 0 9 0 0"),
        add("12: a sheet's right side", sheets_side, "add 12 0 2 0 0"),
        add("12: a sheet, and not a rule", battery_and_battery, "add 12 0 0 0 0"),
        add("12: a byte behind `LE`", [battery(), vec![0]].concat(), "add 12 0 10 0 0"),
        add("13: the second field first", falling, "add 13 0 11 0 0"),
        add("14: 25 tokens", too_long, "add 14 0 4 0 0"),
        add("14: 49 digits, a pattern of 195 bytes", latch(too_long_pattern), "add 14 0 5 0 0"),
        add("15: the last finish is left over", latch(left_over), "add 15 0 13 0 0"),
        add("15: the last finish is missing", latch(missing), "add 15 0 10 0 0"),
        add("15: digits from 9 to 0, hi below lo", latch(vec![65, 9, 0]), "add 15 0 8 0 0"),
        add("15: lo is the stop sign, and no hi", latch(vec![65, 43]), "add 15 0 7 0 0"),
        add("16: 32 finishes, 64 leaves", latch(one_of(&FINISHES[..32])), "add 16 0 132 0 0"),
        add("16: 40 finishes one by one", latch(one_of(&FINISHES)), "add 16 0 133 0 0"),
        add("16: 63 letters and any digits", latch(letters), "add 16 0 133 0 0"),
        add("17: the stop sign is no character", rule(&[], &[43]), "add 17 0 5 0 0"),
        add("17: field 8, behind `LT`", rule(&[], &[21, 29, 72]), "add 17 0 7 0 0"),
        add("31: a side with field 4", rule(&[], &tokens("LTe")), "add 31 0 0 0 0"),
        add("22: a stray of field 4", rule(&[(4, digit())], &tokens("LT")), "add 22 0 2 0 0"),
    ]
}

/// A rule withdrawn and entered again; a small room.
fn withdrawn() -> Vec<Row> {
    let left_hand = rule(&[(A, digits(2))], &tokens("RLaL"));
    vec![
        withdraw("33: there is no rule 11", 11, "withdraw 33"),
        withdraw("the rim latch goes, and the others move up", 1, "withdraw 0"),
        add("it comes back as rule 10", rim_latch(), "add 0 0 0 0 0"),
        add("`RL07L` is a rim latch already, of rule 10", left_hand, "add 30 13 0 10 0"),
        work("room for one situation", SITUATION_BYTES),
        add("18: not enough for the pair with rule 2", keypad_with_cable(), "add 30 1 0 2 18"),
        work("no room", 0),
        add("18: for the pair with rule 0", keypad_with_cable(), "add 30 0 0 0 18"),
        work("356 situations again", WORK),
        add("the keypad with a cable is rule 11", keypad_with_cable(), "add 0 0 0 0 0"),
    ]
}

/// A maker's keypads, the longest list of finishes.
fn forty_finishes() -> Vec<Row> {
    let two_letters = rule(&[(A, row(vec![vec![65, 10, 35]; 2]))], &tokens("KPa"));
    let others = rule(&[(A, one_of(&["GX", "ZA", "ZZ"]))], &tokens("KPa"));
    vec![
        add(
            "a maker's keypad, one of 40 finishes, is rule 12",
            keypad_of_a_maker(),
            "add 0 0 0 0 0",
        ),
        add("`KPAB` is its first", shelf_mark("KPAB"), "add 30 9 0 12 0"),
        add("`KPZP` is its last", shelf_mark("KPZP"), "add 30 9 0 12 0"),
        add("any two letters are one of them", two_letters, "add 30 141 0 12 0"),
        add("three that are none are rule 13", others, "add 0 0 0 0 0"),
        withdraw("they go", 13, "withdraw 0"),
    ]
}

/// Kept catalogues checked again.
fn rechecked() -> Vec<Row> {
    let numbered = rule(&[(A, many(digit()))], &tokens("LTa"));
    let kept = [shelf_mark("LT4"), shelf_mark("LT4 "), shelf_mark("LT5"), shelf_mark("LT4  ")];
    let kept = [&kept[..], &[numbered]].concat().concat();
    let given_up =
        [box_of_a_pair("BXaaL"), box_of_a_pair("BXaaR"), strip_of_tags(), tag_and_letter()]
            .concat();
    vec![
        recheck("no two of the thirteen rules clash", 0, "recheck 0 0 0"),
        catalogue("rules kept from when spaces counted", 100, kept),
        recheck("35: seven pairs clash, a byte is missing", 34, "recheck 35 0 0"),
        recheck(
            "the seven pairs",
            35,
            "recheck 0 7 35\n\
            pair 0 1 0 6\npair 0 3 0 7\npair 0 4 0 9\npair 1 3 0 6\n\
            pair 1 4 0 9\npair 2 4 0 9\npair 3 4 0 10",
        ),
        withdraw("the open number goes", 4, "withdraw 0"),
        withdraw("and `LT4` without spaces", 0, "withdraw 0"),
        recheck("`LT4` with one space and with two", 2_560, "recheck 0 1 5\npair 0 2 0 6"),
        withdraw("the one with two goes", 2, "withdraw 0"),
        recheck("no pair is left", 5, "recheck 0 0 0"),
        catalogue("pairs that are given up", 200, given_up),
        recheck("18 and 19 are listed too", 12, "recheck 0 2 10\npair 0 1 18 356\npair 2 3 19 14"),
        work("no room", 0),
        recheck(
            "every pair is given up",
            30,
            "recheck 0 6 30\npair 0 1 18 0\npair 0 2 18 0\npair 0 3 18 0\n\
            pair 1 2 18 0\npair 1 3 18 0\npair 2 3 18 0",
        ),
        work("356 situations again", WORK),
    ]
}

/// Catalogues that are full, of another form, or of no bytes.
fn other_buffers() -> Vec<Row> {
    let used = mortice_latch().len();
    let needed = used + night_latch().len();
    let shelves = "ABCDEFGHIJKLMNOPQRSTUVWXYZ012345";
    let full: Vec<u8> = shelves.chars().flat_map(|shelf| shelf_mark(&shelf.to_string())).collect();
    let mut damaged = mortice_latch();
    damaged[used - 1] = 43;
    vec![
        catalogue("one rule and a byte too few for the next", needed - 1, mortice_latch()),
        add("32: it doesn't fit", night_latch(), "add 32 0 0 0 0"),
        catalogue("one byte more", needed, mortice_latch()),
        add("it fits", night_latch(), "add 0 0 0 0 0"),
        catalogue("32 shelf marks", full.len() + 8, full),
        add("32: no 33rd, though its bytes would fit", shelf_mark("6"), "add 32 0 0 0 0"),
        withdraw("the last one goes", 31, "withdraw 0"),
        add("another is the 32nd", shelf_mark("6"), "add 0 0 0 0 0"),
        catalogue("a rule whose last token is none", 64, damaged),
        add("34: no catalogue to add to", night_latch(), "add 34 0 0 0 0"),
        withdraw("34: nor to withdraw from", 0, "withdraw 34"),
        recheck("34: nor to check again", 0, "recheck 34 0 0"),
        catalogue("no bytes", 0, Vec::new()),
        add("32: nothing fits", rule(&[], &[]), "add 32 0 0 0 0"),
        withdraw("33: no rule", 0, "withdraw 33"),
        recheck("no pair", 0, "recheck 0 0 0"),
    ]
}

/// Catalogues kept from when a field without a pattern could be empty.
fn carried_over() -> Vec<Row> {
    let parcels = [shelf_mark("PKX"), shelf_mark("PKaX"), strike_plate()];
    let kept = parcels.concat();
    let needed = kept.len() + added_record();
    let mut damaged = shelf_mark("PKaX");
    damaged[0] = b'U';
    vec![
        carry("no bytes, and nothing to carry over", "carry 0"),
        catalogue("a parcel `PKX`, parcels `PK`, any text, `X`", needed, kept.clone()),
        recheck("no text is empty now", 0, "recheck 0 0 0"),
        carry("the empty text is written out", "carry 0"),
        recheck("`PKX` is a parcel of both", 5, "recheck 0 1 5\npair 0 1 0 10"),
        carry("again, and nothing is added", "carry 0"),
        recheck("as before", 5, "recheck 0 1 5\npair 0 1 0 10"),
        withdraw("the parcel `PKX` goes", 0, "withdraw 0"),
        add("its mark is a parcel's already", shelf_mark("PKX"), "add 30 10 0 0 0"),
        catalogue("the same, a byte too short", needed - 1, kept),
        carry("32: they no longer fit", "carry 32"),
        recheck("nothing is changed", 0, "recheck 0 0 0"),
        catalogue("parcels with another mark", 64, damaged),
        carry("34: no catalogue to carry over", "carry 34"),
    ]
}

/// The bytes that a field without a pattern gets.
fn added_record() -> usize {
    patterns(&[(A, old_meaning(FIRST).to_vec())]).len()
}

// ------------------------------------------------------- a full catalogue

/// A rule's patterns by field, and its side.
type Made = (Vec<(u8, Vec<u8>)>, String);

/// 32 rules of which no two can make the same label: eight articles, each
/// marked in four ways. No pair needs more than 322 situations.
fn full() -> Vec<Made> {
    let four = |article: &str| {
        let side = |rest: &str| format!("{article}{rest}");
        [
            (vec![(A, digits(2)), (B, one_of(&["BR", "CH", "SS"]))], side("a+b")),
            (vec![(A, digits(2)), (B, one_of(&["L", "R"]))], side("a-b")),
            (vec![(A, digits(2)), (B, many(digit()))], side("a/b")),
            (vec![(A, many(digit()))], side("a.a")),
        ]
    };
    ["LT", "RL", "NL", "KP", "KS", "SP", "BX", "LV"].into_iter().flat_map(four).collect()
}

/// Each of the 32 rules added.
pub fn full_stream() -> Vec<u8> {
    let add = |(patterns, side): Made| Operation::Add(rule(&patterns, &tokens(&side)));
    written(full().into_iter().map(add))
}

/// Each pair of them as a sheet of its own, in the order of the searches.
pub fn full_pairs() -> Vec<Case> {
    let full = full();
    let mut cases = Vec::new();
    for (number, new) in full.iter().enumerate() {
        for present in &full[..number] {
            let sheet = pair_sheet(present, new);
            cases.push(Case { work: WORK as u32, answer: 0, sheet });
        }
    }
    cases
}

/// The new rule has its fields as 4 to 7.
fn pair_sheet((patterns, left): &Made, (new_patterns, right): &Made) -> Vec<u8> {
    let mut patterns = patterns.clone();
    patterns.extend(new_patterns.iter().map(|(field, of)| (4 + field, of.clone())));
    sheet(&patterns, &tokens(left), &tokens(&right.replace('a', "e").replace('b', "f")))
}

// ---------------------------------------------------------- serial numbers

/// What stands between the two standings of a serial number: twenty signs and
/// letters, of which no two are the same.
const BETWEEN: [&str; 20] = [
    "-", "/", ".", "+", "$", "%", "A", "B", "C", "D", "E", "F", "G", "H", "J", "K", "L", "M", "N",
    "P",
];

/// `KP`, a serial number of six digits, a sign, the same number again.
fn serial(sign: &str) -> Vec<u8> {
    rule(&[(A, digits(6))], &tokens(&format!("KPa{sign}a")))
}

/// Twenty rules of which no two can make the same label. For no pair of them is
/// there room in one search: the digits are too many. The letters differ, since
/// one sign does, and so each is decided.
pub fn serial_rows() -> Vec<Row> {
    let (first, others) = BETWEEN.split_first().expect("twenty");
    let mut rows = vec![add_decided("no pair: rule 0", serial(first), "add_decided 0 0 0 0 0 0")];
    for sign in others {
        let new = serial(sign);
        rows.push(add("18: the digits are too many", new.clone(), "add 30 356 0 0 18"));
        rows.push(add_decided("no clash with any", new, "add_decided 0 0 0 0 0 0"));
    }
    let ends_in_0 = row(vec![digits(5), vec![0]]);
    let ends_in_0 = rule(&[(A, ends_in_0)], &tokens("KPa/a"));
    rows.extend([
        recheck("for none of the 190 pairs is there room", 949, "recheck 35 0 0"),
        recheck_decided("and each is decided", 0, "recheck_decided 0 0 0"),
        add("18: for the pair with rule 0", ends_in_0.clone(), "add 30 356 0 0 18"),
        add_decided("`KP000000/000000` is of rule 1", ends_in_0.clone(), CLASH_OF_RULE_1),
        work("no room", 0),
        add_decided("18: no search has room", ends_in_0, "add_decided 30 0 0 1 18 0"),
        work("356 situations again", WORK),
    ]);
    rows
}

/// 356 situations of the first search and 14 of the fourth attempt: one for each
/// digit of `000000` that is read, and the start; either field struck; the two
/// hidden fields, with a space and without, either of them struck, and both.
const CLASH_OF_RULE_1: &str = "add_decided 30 370 0 1 0 4";

pub fn serial_stream() -> Vec<u8> {
    written(serial_rows().into_iter().map(|row| row.operation))
}

// ---------------------------------------------------------------- writing

fn add(what: &'static str, rule: Vec<u8>, line: &'static str) -> Row {
    Row { what, operation: Operation::Add(rule), line: Some(line) }
}

fn withdraw(what: &'static str, number: u8, line: &'static str) -> Row {
    Row { what, operation: Operation::Withdraw(number), line: Some(line) }
}

fn recheck(what: &'static str, length: usize, lines: &'static str) -> Row {
    Row { what, operation: Operation::Recheck(length), line: Some(lines) }
}

fn add_decided(what: &'static str, rule: Vec<u8>, line: &'static str) -> Row {
    Row { what, operation: Operation::AddDecided(rule), line: Some(line) }
}

fn recheck_decided(what: &'static str, length: usize, lines: &'static str) -> Row {
    Row { what, operation: Operation::RecheckDecided(length), line: Some(lines) }
}

fn carry(what: &'static str, line: &'static str) -> Row {
    Row { what, operation: Operation::Carry, line: Some(line) }
}

fn catalogue(what: &'static str, length: usize, front: Vec<u8>) -> Row {
    Row { what, operation: Operation::Catalogue { length, front }, line: None }
}

fn work(what: &'static str, length: usize) -> Row {
    Row { what, operation: Operation::Work(length), line: None }
}

/// A rule of this label alone.
fn shelf_mark(label: &str) -> Vec<u8> {
    rule(&[], &tokens(label))
}

fn digit() -> Vec<u8> {
    vec![65, 0, 9]
}

fn letter_or_digit() -> Vec<u8> {
    vec![65, 0, 35]
}

fn digits(number: usize) -> Vec<u8> {
    row(vec![digit(); number])
}

fn one_of(texts: &[&str]) -> Vec<u8> {
    choice(texts.iter().map(|one| text(one)).collect())
}
