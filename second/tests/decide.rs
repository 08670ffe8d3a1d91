//! Up to seven attempts: the known decisions, sheets worked out by hand, and what
//! is decided is right by the definitions.

use std::collections::{BTreeMap, BTreeSet};

use second::cases::{AfterDecided, Case};
use second::decide::{few, least_alike, one_text, with_texts, HASHING, SCANNING};
use second::edition::{Edition, FIRST, SECOND};
use second::make::{case, decided, pairs, Dice};
use second::pattern::{characters, Allowed, CharacterSet, Pattern, Places};
use second::sheet::{read, Question, Reading};
use second::write::{choice, many, row, sheet, text, tokens};
use second::{CODE_39, SITUATION_BYTES};

const X: u8 = 0;
const Y: u8 = 1;
const Z: u8 = 2;

fn digit() -> Vec<u8> {
    vec![65, 0, 9]
}

fn letter() -> Vec<u8> {
    vec![65, 10, 35]
}

/// Decides with both modules.
fn decide(case: &Case) -> AfterDecided {
    let after = case.decide(HASHING);
    assert_eq!(after, case.decide(SCANNING), "{case:?}");
    after
}

fn with_room(sheet: &[u8], room: usize, answer: u32) -> Case {
    Case { work: (room * SITUATION_BYTES) as u32, answer, sheet: sheet.to_vec() }
}

/// What `decide` prints.
fn printed(sheet: &[u8], room: usize, answer: u32) -> String {
    decide(&with_room(sheet, room, answer)).lines()
}

fn question(sheet: &[u8]) -> Question {
    read(sheet).unwrap()
}

fn signs(set: CharacterSet) -> String {
    characters(set).map(|character| char::from(CODE_39[usize::from(character)])).collect()
}

// ------------------------------------------------------------ the characters

#[test]
fn the_least_ones_alike() {
    // No field but the hidden ones: the space, the fixed ones, and one for all
    // the others.
    assert_eq!(signs(least_alike(&question(&sheet(&[], &[], &[])))), "0 ");
    assert_eq!(
        signs(least_alike(&question(&sheet(&[], &tokens("LT0"), &tokens("LT4"))))),
        "014LT "
    );
    // An open field takes all characters, so it makes no difference.
    assert_eq!(signs(least_alike(&question(&sheet(&[], &tokens("a"), &tokens("A"))))), "0A ");
    // Digits, of which 4 is fixed, and others.
    let digits = sheet(&[(X, many(digit()))], &tokens("a"), &tokens("4"));
    assert_eq!(signs(least_alike(&question(&digits))), "04A ");
    // A pattern of a field that doesn't stand made none either, by the old rule.
    let stray = sheet(&[(X, many(digit())), (Y, letter())], &tokens("a"), &tokens("4"));
    assert_eq!(signs(least_alike(&Reading::Old.sheet(&stray).unwrap())), "04A ");
    // Two ranges that overlap: 0 to 4, 5 to 9, A to F, and the others.
    let ranges = sheet(&[(X, vec![65, 0, 9]), (Y, vec![65, 5, 15])], &tokens("a"), &tokens("b"));
    assert_eq!(signs(least_alike(&question(&ranges))), "05AG ");
    // The fixed characters before trimming.
    let trimmed = sheet(&[], &tokens("7a"), &tokens("7b"));
    assert_eq!(signs(least_alike(&question(&trimmed))), "07 ");
}

#[test]
fn the_few() {
    let of = |sheet: &[u8]| {
        let question = question(sheet);
        signs(few(&question, least_alike(&question)))
    };
    // The hidden fields alone: the space.
    assert_eq!(of(&sheet(&[], &tokens("LT4"), &tokens("LT4"))), " ");
    // One for the open field, none of the fixed ones.
    assert_eq!(of(&sheet(&[], &tokens("a"), &tokens("0"))), "1 ");
    // The space is taken by an open field too, but the field comes first.
    assert_eq!(of(&sheet(&[], &tokens("a"), &tokens(""))), "0 ");
    // A fixed one where the leaf takes no other.
    assert_eq!(of(&sheet(&[(X, vec![0])], &tokens("a"), &tokens("0"))), "0 ");
    let digits = sheet(&[(X, digit())], &tokens("a"), &tokens("0123456789"));
    assert_eq!(of(&digits), "0 ");
    // The leaf that comes first chooses: 5 serves both, but 0 does not.
    let (narrow, wide) = (vec![65, 5, 15], vec![65, 0, 9]);
    let narrow_first = sheet(&[(X, narrow.clone()), (Y, wide.clone())], &tokens("a"), &tokens("b"));
    assert_eq!(of(&narrow_first), "5 ");
    let wide_first = sheet(&[(X, wide), (Y, narrow)], &tokens("a"), &tokens("b"));
    assert_eq!(of(&wide_first), "05 ");
    // Leaves in their order, whatever side they stand in.
    let codes = choice(vec![text("BR"), text("CH"), text("BK")]);
    assert_eq!(of(&sheet(&[(X, codes)], &tokens("A"), &tokens("a"))), "BCHKR ");
}

// ---------------------------------------------------------------- the texts

/// The text that a field with this pattern is given.
fn given(pattern: Vec<u8>, length: usize) -> Option<String> {
    let pattern = Pattern::read(FIRST, &pattern).unwrap();
    let text = one_text(&Allowed::Pattern(Box::new(Places::of(&pattern))), length)?;
    Some(text.into_iter().map(|value| char::from(CODE_39[usize::from(value)])).collect())
}

#[test]
fn the_text_of_a_field_that_stands_twice() {
    let letters = |number| row(vec![letter(); number]);
    let of = |lengths: &[usize]| choice(lengths.iter().map(|&length| letters(length)).collect());
    // The least of its lengths from the one asked for on, or else the greatest.
    for (lengths, shortest, from_three) in [
        (&[0][..], 0, 0),
        (&[2], 2, 2),
        (&[3], 3, 3),
        (&[2, 0, 1], 0, 2),
        (&[5, 2], 2, 5),
        (&[7, 5, 2], 2, 5),
        (&[24], 24, 24),
        (&[1, 24], 1, 24),
        (&[1, 25], 1, 1),
    ] {
        assert_eq!(given(of(lengths), 0), Some("A".repeat(shortest)), "{lengths:?}");
        assert_eq!(given(of(lengths), 3), Some("A".repeat(from_three)), "{lengths:?}");
    }
    // No text of at most 24 characters.
    assert_eq!(given(letters(25), 0), None);
    assert_eq!(given(letters(25), 3), None);
    assert_eq!(given(row(vec![letters(23), many(letters(2))]), 24), Some("A".repeat(23)));
    // The least of that length, character by character: 0 leads to nothing here.
    assert_eq!(given(choice(vec![text("0"), text("CA"), text("BZ")]), 2), Some("BZ".to_string()));
    assert_eq!(given(choice(vec![text("B5"), text("B07")]), 2), Some("B5".to_string()));
    // A field without a pattern holds one character or more, the least one a 0.
    let open = Allowed::Open(FIRST.all());
    assert_eq!(one_text(&open, 0), Some(vec![0]));
    assert_eq!(one_text(&open, 3), Some(vec![0; 3]));
}

#[test]
fn fields_that_stand_once_hold_what_they_held() {
    // x stands twice in the left side, y in both, z once; 25 letters have no text.
    let patterns = [(X, digit()), (Y, letter()), (Z, digit())];
    let asked = with_texts(&question(&sheet(&patterns, &tokens("aab"), &tokens("bcdd"))), 0);
    let takes = |field: usize, character| asked.allowed[field].leaves_taking(character) != 0;
    assert!(takes(0, 0) && !takes(0, 1));
    assert!(takes(1, 10) && !takes(1, 11));
    assert!(takes(2, 0) && takes(2, 9));
    assert!(takes(3, 0) && !takes(3, 1));
    // The hidden fields are none that stand twice.
    assert!(takes(8, 38) && takes(9, 38));
    let long = sheet(&[(X, row(vec![letter(); 25]))], &tokens("aa"), &tokens("b"));
    assert!(with_texts(&question(&long), 0).allowed[0].leaves_taking(35) != 0);
}

// --------------------------------------------------------- worked out by hand

/// x and `A`, x open: "0 10 0", x = `A`.
#[test]
fn the_first_search() {
    let known = sheet(&[], &tokens("a"), &tokens("A"));
    assert_eq!(printed(&known, 356, 4096), "0 10 0 1\n0 A\n");
    assert_eq!(printed(&known, 10, 6), "0 10 0 1\n0 A\n");
    // The texts don't fit.
    assert_eq!(printed(&known, 10, 5), "20 10 0 1\n");
    assert_eq!(printed(&sheet(&[], &tokens("A"), &tokens("B")), 1, 0), "1 1 0 1\n");
    // A refused sheet.
    assert_eq!(printed(&[], 356, 4096), "11 0 0 0\n");
    assert_eq!(printed(b"LE\0RI\0X", 0, 0), "12 0 6 0\n");
}

/// Each row of "Known decisions" in docs/RULES.md, section 15.
#[test]
fn the_known_decisions() {
    let rules = include_str!("../../docs/RULES.md");
    let section = rules.split("\n## ").find(|section| section.starts_with("15. ")).unwrap();
    let rows = section.lines().filter(|line| line.contains("| work "));
    let mut decided = BTreeSet::new();
    for row in rows {
        let cells: Vec<&str> = row.split('|').map(str::trim).collect();
        let quoted = |cell: &str| -> Vec<String> {
            cell.split('`').skip(1).step_by(2).map(str::to_string).collect()
        };
        let number = |cell: &str| cell.rsplit(' ').next().unwrap().parse::<u32>().unwrap();
        let byte = |digits: &str| u8::from_str_radix(digits, 16).unwrap();
        let sheet = quoted(cells[2])[0].split(' ').map(byte).collect();
        let (work, answer) = cells[3].split_once(", ").unwrap();
        let case = Case { work: number(work), answer: number(answer), sheet };
        let after = decide(&case);
        assert_eq!(after.lines().lines().collect::<Vec<_>>(), quoted(cells[4]), "{row}");
        decided.insert((after.decided.outcome.number, after.decided.search));
    }
    let all = [(0, 1), (0, 4), (0, 5), (0, 6), (0, 7), (1, 1), (1, 2), (1, 3), (1, 6), (20, 4)];
    assert!(all.iter().all(|kind| decided.contains(kind)), "{decided:?}");
    assert!(decided.contains(&(18, 0)) && decided.contains(&(19, 0)), "{decided:?}");
}

/// xx and y`B`, x and y a digit. With n digits of which none are alike: the
/// start; for each digit c `xcx` and `yB`, both read; from each of these x struck
/// and y struck, and nothing further. So 1 + 3n: 31. No digit is a B.
#[test]
fn the_letters_say_no_clash() {
    let of = sheet(&[(X, digit()), (Y, digit())], &tokens("aa"), &tokens("bB"));
    assert_eq!(printed(&of, 31, 0), "1 31 0 1\n");
    assert_eq!(printed(&of, 30, 0), "1 30 0 2\n");
    assert_eq!(printed(&of, 0, 0), "1 0 0 2\n");
    // 24 times x, and `AA`: 24 times as many as x has are never two.
    let many_times = sheet(&[], &tokens(&"a".repeat(24)), &tokens("AA"));
    assert_eq!(printed(&many_times, 3, 4096), "1 3 0 2\n");
    // x`A` and `B`yx: a B more on the right.
    let running_on = sheet(&[], &tokens("aA"), &tokens("Bba"));
    assert_eq!(printed(&running_on, 356, 4096), "1 356 0 2\n");
}

/// xx`A` and y`B`, open: no label ends with both. Of each standing apart there are
/// 2 + 2 + 1 + 2 + 1 = 8 standings on the left and 2 + 1 + 2 + 1 = 6 on the right:
/// 48 bits.
#[test]
fn each_standing_apart_says_no_clash() {
    let of = sheet(&[], &tokens("aaA"), &tokens("bB"));
    assert_eq!(printed(&of, 1, 0), "1 1 0 3\n");
    assert_eq!(printed(&of, 356, 4096), "1 356 0 3\n");
    assert_eq!(printed(&of, 0, 4096), "18 0 0 0\n");
}

/// xx`12` and yz`12`, x, y and z a digit. With n digits of which none are alike:
/// the start; n with the first digit c read; from each x struck and y struck;
/// from both of these `c12` and z`12`; from all of these `12` and z`12`, then
/// nothing but the two hidden fields, and from there either of them struck or a
/// space read; then both struck. So 4n + 7: 47, and 11 where x is a 0 alone.
fn digits_and_12() -> Vec<u8> {
    let patterns = [(X, digit()), (Y, digit()), (Z, digit())];
    sheet(&patterns, &tokens("aa12"), &tokens("bc12"))
}

#[test]
fn the_shortest_texts_say_clash() {
    let texts = "0 0\n1 0\n2 0\n";
    assert_eq!(printed(&digits_and_12(), 47, 18), format!("0 47 0 1\n{texts}"));
    assert_eq!(printed(&digits_and_12(), 46, 18), format!("0 57 0 4\n{texts}"));
    assert_eq!(printed(&digits_and_12(), 11, 18), format!("0 22 0 4\n{texts}"));
    // The texts don't fit: no further attempt is made.
    assert_eq!(printed(&digits_and_12(), 11, 17), "20 22 0 4\n");
    assert_eq!(printed(&digits_and_12(), 11, 0), "20 22 0 4\n");
}

/// xx and `000000`, x a digit or three. The start; what is left after one digit,
/// two and three; after three x is struck, and the two hidden fields are left, with
/// a space and without; either of them struck, and both. So 9, and 10 where x may be
/// struck after one digit too. With a `0` alone 3: the start, the digit read and x
/// struck.
#[test]
fn longer_texts_say_clash() {
    let one_or_three = choice(vec![digit(), row(vec![digit(); 3])]);
    let of = sheet(&[(X, one_or_three)], &tokens("aa"), &tokens("000000"));
    assert_eq!(printed(&of, 10, 8), "0 10 0 1\n0 000\n");
    assert_eq!(printed(&of, 9, 8), "0 21 0 5\n0 000\n");
    assert_eq!(printed(&of, 9, 7), "20 21 0 5\n");
}

#[test]
fn not_decided() {
    // A place for one situation, five times; and none.
    assert_eq!(printed(&digits_and_12(), 1, 4096), "18 5 0 0\n");
    assert_eq!(printed(&digits_and_12(), 0, 4096), "18 0 0 0\n");
    // In tests none is entered.
    let after = decide(&with_room(&digits_and_12(), 1, 4096)).decided;
    assert_eq!(after.spent, [1, 0, 0, 1, 1, 1, 1]);
}

/// "a working buffer which a search has used ends all zero after every answer;
/// one that no search has used is unchanged"
#[test]
fn the_buffers() {
    let line = |sheet: &[u8], work: u32, answer: u32| {
        decide(&Case { work, answer, sheet: sheet.to_vec() }).line()
    };
    assert_eq!(
        line(&digits_and_12(), 11 * 184 + 183, 19),
        "0 22 0 18, written 56 41 00 01 00 00 56 41 01 01 00 00 56 41 02 01 00 00, rest unchanged, \
         work all zero, search 4"
    );
    let no_clash = sheet(&[], &tokens("aaA"), &tokens("bB"));
    assert_eq!(
        line(&no_clash, 24 * 184, 2),
        "1 24 0 0, written, rest unchanged, work all zero, search 3"
    );
    assert_eq!(
        line(&no_clash, 183, 2),
        "18 0 0 0, written, rest unchanged, work all zero, search 0"
    );
    assert_eq!(line(b"X", 2, 2), "11 0 1 0, written, rest unchanged, work unchanged, search 0");
}

// -------------------------------------------------------------- made cases

fn of_edition(
    edition: Edition,
    seed: u64,
    number: usize,
    case: impl Fn(&mut Dice) -> Case,
) -> Vec<Case> {
    let mut dice = Dice::of(seed, edition);
    (0..number).map(|_| case(&mut dice)).collect()
}

#[test]
fn all_kinds_come_up() {
    [FIRST, SECOND].into_iter().for_each(all_kinds_come_up_in);
}

fn all_kinds_come_up_in(edition: Edition) {
    let mut seen = BTreeMap::new();
    // Each fault comes up among cases of all kinds.
    let faulty = of_edition(edition, 1, 1200, case);
    for case in of_edition(edition, 1, 1000, decided::case).into_iter().chain(faulty) {
        let decided = decide(&case).decided;
        *seen.entry((decided.outcome.number, decided.search)).or_insert(0) += 1;
    }
    let no_clash = [(1, 1), (1, 2), (1, 3), (18, 0)];
    let clash = [1, 4, 5, 6, 7].map(|search| (0, search));
    let do_not_fit = [1, 4, 5, 6, 7].map(|search| (20, search));
    for kind in no_clash.iter().chain(&clash).chain(&do_not_fit) {
        assert!(seen.get(kind).is_some_and(|&times| times >= 5), "{kind:?}: {seen:?}");
    }
    assert!(seen.contains_key(&(19, 0)) && seen.contains_key(&(1, 6)), "{seen:?}");
    assert!((11..=17).all(|number| seen.contains_key(&(number, 0))), "{seen:?}");
    let never = [0, 2, 3].map(|search| [(0, search), (20, search)]).concat();
    let never = [never, [0, 4, 5, 7].map(|search| (1, search)).to_vec()].concat();
    assert!(never.iter().all(|kind| !seen.contains_key(kind)), "{seen:?}");
}

/// "If the first search gives 0, 1, 20 or the sheet is refused, everything is as
/// `clash` gives it." Otherwise 18 and 19 are its own.
#[test]
fn what_the_first_search_says_stands() {
    let made = |edition| {
        let decided = of_edition(edition, 2, 300, decided::case);
        [decided, of_edition(edition, 3, 3000, case)].concat()
    };
    for case in [FIRST, SECOND].map(made).concat() {
        let (first, after) = (case.run(second::answer), case.decide(HASHING));
        let search = match first.outcome.number {
            0 | 1 | 20 => 1,
            11..=17 | 44 => 0,
            _ => {
                assert_ne!(after.decided.search, 1, "{case:?}");
                assert_eq!(after.decided.spent[0], first.outcome.count, "{case:?}");
                if after.decided.search == 0 {
                    assert_eq!(after.decided.outcome.number, first.outcome.number, "{case:?}");
                }
                continue;
            }
        };
        assert_eq!((after.after, after.decided.search), (first, search), "{case:?}");
    }
}

// ------------------------------------------------------------- the meaning

type Texts = BTreeMap<u8, Vec<u8>>;

fn texts_of(records: &[u8]) -> Texts {
    let mut texts = Texts::new();
    let mut rest = records;
    while let [b'V', b'A', field, low, high, behind @ ..] = rest {
        let (text, behind) = behind.split_at(usize::from(*low) + 256 * usize::from(*high));
        texts.insert(*field, text.to_vec());
        rest = behind;
    }
    texts
}

fn label(edition: Edition, side: &[u8], texts: &Texts) -> Vec<u8> {
    let of = |&token: &u8| match token.checked_sub(edition.codes) {
        None => vec![token],
        Some(field) => texts[&field].clone(),
    };
    let mut label: Vec<u8> = side.iter().flat_map(of).collect();
    while label.last() == Some(&edition.space) {
        label.pop();
    }
    label
}

/// Where a text taken by the pattern may end, if it begins at `from`.
fn ends(pattern: &Pattern, text: &[u8], from: usize) -> BTreeSet<usize> {
    match pattern {
        Pattern::Empty => BTreeSet::from([from]),
        Pattern::Leaf { lo, hi } => match text.get(from) {
            Some(value) if lo <= value && value <= hi => BTreeSet::from([from + 1]),
            _ => BTreeSet::new(),
        },
        Pattern::Then(a, b) => {
            ends(a, text, from).into_iter().flat_map(|middle| ends(b, text, middle)).collect()
        }
        Pattern::Or(a, b) => &ends(a, text, from) | &ends(b, text, from),
        Pattern::AnyTimes(a) => {
            let mut all = BTreeSet::from([from]);
            let mut new = vec![from];
            while let Some(at) = new.pop() {
                new.extend(ends(a, text, at).into_iter().filter(|&end| all.insert(end)));
            }
            all
        }
    }
}

fn takes(pattern: &Pattern, text: &[u8]) -> bool {
    ends(pattern, text, 0).contains(&text.len())
}

/// Each text is one that its field may hold, and both sides become one label.
fn solve(sheet: &[u8], texts: &Texts) -> bool {
    let (edition, mut rest) = match sheet.strip_prefix(b"ED\x02") {
        Some(behind) => (SECOND, behind),
        None => (FIRST, sheet),
    };
    let mut patterns = BTreeMap::new();
    while rest.starts_with(b"PA") {
        let (record, behind) = rest.split_at(4 + usize::from(rest[3]));
        patterns.insert(record[2], Pattern::read(edition, &record[4..]).unwrap());
        rest = behind;
    }
    let (left, rest) = rest[3..].split_at(usize::from(rest[2]));
    let held = |(field, text): (&u8, &Vec<u8>)| match patterns.get(field) {
        Some(pattern) => takes(pattern, text),
        None => !text.is_empty(),
    };
    let [left, right] = [left, &rest[3..]].map(|side| label(edition, side, texts));
    texts.iter().all(held) && left == right
}

/// Whatever attempt decides, its texts solve the question.
#[test]
fn the_texts_solve_the_question() {
    let mut seen = BTreeMap::new();
    let roomy = |case: Case| Case { answer: 4096, ..case };
    let all = [FIRST, SECOND].map(|edition| {
        let twice = of_edition(edition, 5, 1000, |dice| pairs::case(dice, true, 40));
        [of_edition(edition, 4, 600, decided::case), twice].concat()
    });
    for case in all.concat().into_iter().map(roomy) {
        let after = case.decide(HASHING);
        if after.decided.outcome.number == 0 {
            let texts = texts_of(&after.after.answer[..after.decided.outcome.written]);
            assert!(solve(&case.sheet, &texts), "{case:?} {texts:?}");
            *seen.entry(after.decided.search).or_insert(0) += 1;
        }
    }
    let finds = [1, 4, 5, 6, 7];
    assert!(
        finds.iter().all(|search| seen.get(search).is_some_and(|&times| times > 30)),
        "{seen:?}"
    );
}

/// Where the first search has room enough to answer, a later one in less room
/// says the same.
#[test]
fn all_attempts_agree() {
    let mut seen = BTreeMap::new();
    let all = [FIRST, SECOND].map(|edition| {
        let twice = of_edition(edition, 7, 800, |dice| pairs::case(dice, true, 30));
        [of_edition(edition, 6, 500, decided::case), twice].concat()
    });
    for case in all.concat() {
        let decided = case.decide(HASHING).decided;
        if decided.search < 2 {
            continue;
        }
        let more = with_room(&case.sheet, 3_000, 4096);
        let first = more.run(second::answer).outcome.number;
        if first < 18 {
            let says_clash = decided.outcome.number != 1;
            assert_eq!(first == 0, says_clash, "{case:?}");
            *seen.entry((decided.search, says_clash)).or_insert(0) += 1;
        }
    }
    for kind in [(2, false), (3, false), (4, true), (5, true), (6, true), (6, false), (7, true)] {
        assert!(seen.get(&kind).is_some_and(|&times| times > 0), "{kind:?}: {seen:?}");
    }
}

/// Questions whose fields have few texts, tried with all of them.
#[test]
fn small_questions_are_decided_as_all_their_texts_say() {
    let holds: [(Vec<u8>, &[&str]); 6] = [
        (vec![65, 0, 2], &["0", "1", "2"]),
        (vec![65, 1, 3], &["1", "2", "3"]),
        (choice(vec![text("A"), text("1")]), &["A", "1"]),
        (row(vec![vec![65, 0, 1], vec![65, 1, 2]]), &["01", "02", "11", "12"]),
        (choice(vec![vec![64], vec![65, 0, 3]]), &["", "0", "1", "2", "3"]),
        (choice(vec![text("A "), text("A")]), &["A ", "A"]),
    ];
    for (pattern, texts) in &holds {
        let read = Pattern::read(FIRST, pattern).unwrap();
        assert!(texts.iter().all(|held| takes(&read, &second::write::values(held))));
    }
    let mut state = 1u64;
    let mut below = |n: usize| {
        state =
            state.wrapping_mul(6_364_136_223_846_793_005).wrapping_add(1_442_695_040_888_963_407);
        (state >> 33) as usize % n
    };
    let mut seen = BTreeMap::new();
    for _ in 0..6000 {
        let fields = 1 + below(3);
        let of: Vec<usize> = (0..fields).map(|_| below(holds.len())).collect();
        let mut side = || -> Vec<u8> {
            (0..below(6))
                .map(|_| match below(3) {
                    0 => [0, 1, 3, 10, 38][below(5)],
                    _ => 64 + below(fields) as u8,
                })
                .collect()
        };
        let (left, right) = (side(), side());
        let stands = |field: u8| left.iter().chain(&right).any(|&token| token == 64 + field);
        let patterns = (0..).zip(&of).filter(|(field, _)| stands(*field));
        let patterns: Vec<(u8, Vec<u8>)> =
            patterns.map(|(field, &of)| (field, holds[of].0.clone())).collect();
        let sheet = sheet(&patterns, &left, &right);
        let mut ways = vec![Texts::new()];
        for (field, &of) in (0..).zip(&of) {
            let longer = |way: &Texts| {
                let way = way.clone();
                holds[of].1.iter().map(move |held| {
                    let mut way = way.clone();
                    way.insert(field, second::write::values(held));
                    way
                })
            };
            ways = ways.iter().flat_map(longer).collect();
        }
        let clash = ways.iter().any(|way| label(FIRST, &left, way) == label(FIRST, &right, way));
        let decided = decide(&with_room(&sheet, 1 + below(40), 4096)).decided;
        match decided.outcome.number {
            0 => assert!(clash, "{sheet:?}"),
            1 => assert!(!clash, "{sheet:?}"),
            number => assert!(number == 18 && decided.search == 0, "{sheet:?}"),
        }
        *seen.entry((decided.search, clash)).or_insert(0) += 1;
    }
    for kind in [(1, true), (1, false), (2, false), (3, false), (4, true)] {
        assert!(seen.contains_key(&kind), "{kind:?}: {seen:?}");
    }
}
