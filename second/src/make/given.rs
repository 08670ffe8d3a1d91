//! Cases of the way of given texts, from a seed: texts of clashes, as the search and
//! deciding find them and longer ones, with steps buffers around the length that is
//! needed; such texts with something wrong; texts of a field that stands many times,
//! around the longest with which no side is too long; texts that want about as many
//! steps as a way may have; texts by chance, and those of another sheet.

use super::damages::random_bytes;
use super::said::Said;
use super::ways::{any, around, clashing, latches, on_both_sides, sheet_s};
use super::{good_sheet, lengths, pairs, spaces, Dice, SPACE};
use crate::cases;
use crate::decide::{decide_by, one_text, with_texts, HASHING};
use crate::edition::Edition;
use crate::pattern::Allowed;
use crate::search::{search, Ending, Texts};
use crate::sheet::{Question, Reading, FIELDS, HIDDEN_LEFT, MOST_SIDE};
use crate::steps::{Handed, MOST_STEPS};
use crate::way::{texts_of, way_by};
use crate::write::{field, many, sheet, text, tokens, values};
use crate::{records, CLASH, MOST_TOKENS, SITUATION_BYTES};

/// Room enough for most searches.
const ROOM: usize = 356;
/// The most bytes of steps that are lent.
pub const MOST_LENT: usize = 4_096;
/// Behind the characters of the only field that holds some, it and the hidden
/// fields are struck.
const STRUCK: usize = 3;

/// A sheet and texts for its fields.
type Given = (Vec<u8>, Texts);

/// One case.
pub fn case(dice: &mut Dice) -> Handed {
    let (sheet, bytes) = match dice.below(120) {
        0 => in_records(endless(dice)),
        // any sheet, refused ones among them, and the texts of another
        1..=7 => (any(dice), in_records(solved(dice)).1),
        8..=11 => (any(dice), random_bytes(dice)),
        12..=15 => (clashing(dice), in_records(given(dice)).1),
        16..=63 => {
            let (sheet, texts) = given(dice);
            let bytes = damaged(dice, &texts);
            (sheet, bytes)
        }
        _ => in_records(given(dice)),
    };
    with_steps(dice, sheet, bytes)
}

fn in_records((sheet, texts): Given) -> (Vec<u8>, Vec<u8>) {
    (sheet, records(&texts))
}

/// The case with a steps buffer around the length that is needed.
fn with_steps(dice: &mut Dice, sheet: Vec<u8>, bytes: Vec<u8>) -> Handed {
    let told = way_by(Reading::Old, &sheet, &bytes, &mut [0; MOST_LENT]);
    let lent = match dice.below(10) {
        0 => 0,
        1 => dice.below(100),
        2 => MOST_LENT,
        number => around(dice, told.written, number < 5),
    };
    handed(sheet, bytes, lent)
}

fn handed(sheet: Vec<u8>, bytes: Vec<u8>, lent: usize) -> Handed {
    let answer = lent.min(MOST_LENT) as u32;
    Handed { case: cases::Case { work: 0, answer, sheet }, bytes }
}

// -------------------------------------------------------------------- texts

/// Texts of a clash, mostly.
fn given(dice: &mut Dice) -> Given {
    match dice.below(12) {
        0..=2 => growing(dice),
        3 => by_chance(dice),
        4 => long(dice),
        _ => solved(dice),
    }
}

/// Texts of a clash: as the search finds them, longer ones, or such as a later
/// attempt of deciding finds.
fn solved(dice: &mut Dice) -> Given {
    let kind = dice.below(4);
    loop {
        let sheet = match (kind, dice.below(3)) {
            (0 | 1, _) => clashing(dice),
            (_, 0) => lengths::sheet(dice),
            (_, 1) => pairs::with_a_field_twice(dice),
            _ => good_sheet(dice),
        };
        let Ok(question) = Reading::Old.sheet(&sheet) else { continue };
        let texts = match kind {
            0 => found(&question),
            1 => longer(dice, &question),
            _ => decided(dice, &sheet, &question),
        };
        if let Some(texts) = texts {
            return (sheet, texts);
        }
    }
}

/// The texts that the search finds.
fn found(question: &Question) -> Option<Texts> {
    match search(question, ROOM).ending {
        Ending::Clash(way) => Some(way.texts),
        _ => None,
    }
}

/// Others: those of a search in which some of the fields hold one text alone, of a
/// few characters or more.
fn longer(dice: &mut Dice, question: &Question) -> Option<Texts> {
    let mut asked = question.clone();
    for allowed in &mut asked.allowed[..FIELDS] {
        let length = dice.between(1, 9);
        if let Some(text) = one_text(allowed, length).filter(|_| dice.one_in(2)) {
            *allowed = Allowed::only(&text);
        }
    }
    found(&asked).filter(|texts| found(question).as_ref() != Some(texts))
}

/// Those that an attempt behind the first finds, in little room.
fn decided(dice: &mut Dice, sheet: &[u8], question: &Question) -> Option<Texts> {
    let mut work = vec![0; dice.between(5, 120) * SITUATION_BYTES];
    let mut answer = [0; 4_096];
    let told = decide_by(Reading::Old, sheet, &mut work, &mut answer, HASHING);
    let later = told.search > 1 && told.outcome.number == CLASH;
    texts_of(question, &answer[..told.outcome.written]).filter(|_| later)
}

/// Texts that the fields may hold, mostly, whatever labels they make.
fn by_chance(dice: &mut Dice) -> Given {
    loop {
        let sheet = good_sheet(dice);
        let Ok(question) = Reading::Old.sheet(&sheet) else { continue };
        let standing = (0..FIELDS as u8).filter(|&field| question.stands(field));
        let text = |of: u8| {
            let held = one_text(&question.allowed[usize::from(of)], dice.below(5));
            (of, held.unwrap_or_default())
        };
        return (sheet, standing.map(text).collect());
    }
}

/// A field that stands many times, and on the other side one that holds all of
/// that: its text is about the longest with which no side is too long.
fn growing(dice: &mut Dice) -> Given {
    let times = dice.between(3, MOST_SIDE);
    // Each character stands before all but the first of them, and behind them all
    // is the hidden field.
    let longest = (MOST_TOKENS - times - 1) / (times - 1);
    let length = dice.between(longest.max(2) - 1, longest + 2);
    let text: Vec<u8> = (0..length).map(|_| dice.pick(&[0, 0, 1, SPACE])).collect();
    let mut label = text.repeat(times);
    if dice.one_in(2) {
        spaces::drop(&mut label);
    }
    let mut sides = [vec![field(0); times], vec![field(1)]];
    dice.shuffle(&mut sides);
    let patterns: &[(u8, Vec<u8>)] = match dice.below(3) {
        0 => &[],
        1 => &[(0, many(vec![65, 0, SPACE]))],
        _ => &[(1, many(vec![65, 0, 42]))],
    };
    let said = Said::by_chance(dice);
    let sheet = said.sheet(&sheet(patterns, &sides[0], &sides[1]));
    (sheet, vec![(0, said.side(&text)), (1, said.side(&label))])
}

/// Two open fields with the same text, of about 256 characters or more; now and then
/// one has spaces behind it.
fn long(dice: &mut Dice) -> Given {
    let length = dice.pick(&[254, 255, 256, 257, 511, 512, 513, 900]);
    let some: Vec<u8> = (0..dice.between(1, 9)).map(|_| dice.pick(&[0, 1, SPACE])).collect();
    let mut texts: [Vec<u8>; 2] =
        [(); 2].map(|()| some.iter().copied().cycle().take(length).collect());
    let spaces = dice.pick(&[0, 0, 1, 2]);
    texts[dice.below(2)].extend(vec![SPACE; spaces]);
    let said = Said::by_chance(dice);
    let sheet = said.sheet(&sheet(&[], &tokens("a"), &tokens("b")));
    (sheet, (0..).zip(texts.map(|text| said.side(&text))).collect())
}

/// About as many steps as a way may have, or one too many.
fn endless(dice: &mut Dice) -> Given {
    let steps = MOST_STEPS - 1 + dice.pick(&[0, 1, 2, 2, 2, 3, 4, 4]);
    let behind = dice.between(5, MOST_SIDE - 1);
    let left = dice.one_in(2);
    // The hidden field takes nothing but spaces: the labels part at the end.
    let last = if dice.one_in(4) { 0 } else { SPACE };
    of_steps(&Said::by_chance(dice), steps, behind, left, last)
}

/// An open field of spaces and so many spaces behind it, with this character at the
/// end, so that the way has so many steps; nothing stands on the other side.
fn of_steps(said: &Said, steps: usize, behind: usize, left: bool, last: u8) -> Given {
    let mut side = vec![field(0)];
    side.resize(behind, SPACE);
    side.push(last);
    let (left, right) = if left { (&side[..], &[][..]) } else { (&[][..], &side[..]) };
    let text = vec![SPACE; steps - STRUCK - behind];
    (said.sheet(&sheet(&[], left, right)), vec![(0, said.side(&text))])
}

// ------------------------------------------------------------- what is wrong

/// The records with one thing wrong or changed.
fn damaged(dice: &mut Dice, texts: &Texts) -> Vec<u8> {
    let whole = records(texts);
    let edition = dice.edition;
    let all = match (whole.len(), dice.below(4)) {
        (0, _) => with_record(edition, texts, 0),
        (length, 0) => with_byte(edition, &whole, dice.below(length)),
        (_, 1) => with_record(edition, texts, dice.below(texts.len())),
        _ => with_character(dice, texts),
    };
    let kind = dice.below(all.len());
    all.into_iter().nth(kind).unwrap_or_default()
}

/// Other values in place of a character, in a text that has some.
fn with_character(dice: &mut Dice, texts: &Texts) -> Vec<Vec<u8>> {
    let Edition { characters, codes, .. } = dice.edition;
    let (of, mut changed) = (dice.below(texts.len()), texts.clone());
    if texts[of].1.is_empty() {
        return vec![records(texts)];
    }
    let at = dice.below(texts[of].1.len());
    let own = texts[of].1[at];
    let none = dice.pick(&[characters, codes, 255]);
    let any = dice.below(characters.into()) as u8;
    let others = [(own + 1) % characters, (own + characters - 1) % characters, any, none];
    let with = |other: u8| {
        changed[of].1[at] = other;
        records(&changed)
    };
    others.map(with).to_vec()
}

/// All that is tried with one byte of the records: they end before it, it is left
/// out, it stands twice, or it is another one.
fn with_byte(edition: Edition, whole: &[u8], at: usize) -> Vec<Vec<u8>> {
    let Edition { characters, codes, space, .. } = edition;
    let (before, own, behind) = (&whole[..at], whole[at], &whole[at + 1..]);
    let with = |bytes: &[u8]| [before, bytes, behind].concat();
    let mut all = vec![before.to_vec(), with(&[]), with(&[own, own])];
    let next = [own.wrapping_add(1), own.wrapping_sub(1)];
    let others = [0, 1, space, characters - 1, characters, codes, 255, b'V', b'A'];
    all.extend(next.into_iter().chain(others).map(|byte| with(&[byte])));
    all
}

/// All that is tried with one record: one more is behind the last; it is left out,
/// stands twice, is exchanged with the next one or is that of another field; its text
/// has a character more or less, another order, or is the next one's.
fn with_record(edition: Edition, texts: &Texts, at: usize) -> Vec<Vec<u8>> {
    let space = edition.space;
    let more = [(FIELDS as u8 - 1, vec![]), (HIDDEN_LEFT, vec![space])];
    let mut all: Vec<Texts> = more.map(|one| [&texts[..], &[one]].concat()).to_vec();
    if let Some(own @ (field, text)) = texts.get(at) {
        let with = |records: &[(u8, Vec<u8>)]| [&texts[..at], records, &texts[at + 1..]].concat();
        all.extend([with(&[]), with(&[own.clone(), own.clone()])]);
        all.push([&texts[..], &[own.clone()]].concat());
        let fields = [field + 1, field.wrapping_sub(1), FIELDS as u8];
        all.extend(fields.map(|other| with(&[(other, text.clone())])));
        let held = |text: &[&[u8]]| with(&[(*field, text.concat())]);
        let (last, but_last) = text.split_last().unwrap_or((&1, &[]));
        all.extend([0, space, *last].map(|one| held(&[text, &[one]])));
        all.extend([held(&[&[space], text]), held(&[but_last]), held(&[])]);
        let reversed: Vec<u8> = text.iter().rev().copied().collect();
        all.push(held(&[&reversed]));
        if let Some(next) = texts.get(at + 1) {
            all.push(held(&[&next.1]));
            let mut exchanged = texts.clone();
            exchanged.swap(at, at + 1);
            all.push(exchanged);
        }
    }
    all.iter().map(|texts| records(texts)).collect()
}

// ----------------------------------------------------------------- one by one

/// Everything that is tried with every byte and every record of the texts of a few
/// short sheets, each with a steps buffer of just the right length; then other
/// lengths, sheets and texts one by one, rows of 48 tokens and of 49 among them, and
/// the most steps that a way may have.
pub fn each(edition: Edition) -> Vec<Handed> {
    let by_sign = Said::by_sign(edition);
    let mut cases = Vec::new();
    for sheet in [latches(), sheet_s(), on_both_sides()] {
        cases.extend(each_damage(edition, by_sign.sheet(&sheet)));
    }
    cases.extend(others(&by_sign));
    cases.extend(long_sides(&by_sign));
    cases.extend(long_rows(edition).concat());
    cases.extend(beside_long_rows(&by_sign));
    cases.extend(refused(&by_sign));
    for steps in [MOST_STEPS, MOST_STEPS + 1] {
        let (sheet, bytes) = in_records(of_steps(&by_sign, steps, MOST_SIDE - 1, true, SPACE));
        cases.push(handed(sheet, bytes, MOST_LENT));
    }
    cases
}

/// Those of the texts with which each field that stands twice holds two characters.
fn each_damage(edition: Edition, sheet: Vec<u8>) -> Vec<Handed> {
    let question = Reading::New.sheet(&sheet).expect("a good sheet");
    let texts = found(&with_texts(&question, 2)).expect("a clash");
    let whole = records(&texts);
    let mut all = vec![whole.clone()];
    let of_bytes = (0..whole.len()).flat_map(|at| with_byte(edition, &whole, at));
    let of_records = (0..texts.len()).flat_map(|at| with_record(edition, &texts, at));
    for bytes in of_bytes.chain(of_records) {
        if !all.contains(&bytes) {
            all.push(bytes);
        }
    }
    let needed = way_by(Reading::New, &sheet, &whole, &mut [0; MOST_LENT]).written;
    let other = [0, 1, needed - 1, needed + 1, MOST_LENT];
    let mut cases: Vec<Handed> = Vec::new();
    cases.extend(all.into_iter().map(|bytes| handed(sheet.clone(), bytes, needed)));
    cases.extend(other.map(|lent| handed(sheet.clone(), whole.clone(), lent)));
    cases
}

/// The case of a sheet by its signs, a small letter for a field, and of texts.
fn one(by_sign: &Said, patterns: &[(u8, &[u8])], sides: [&str; 2], texts: &[(u8, &str)]) -> Handed {
    let patterns: Vec<(u8, Vec<u8>)> =
        patterns.iter().map(|(field, body)| (*field, body.to_vec())).collect();
    let [left, right] = sides.map(tokens);
    let text = |(field, text): &(u8, &str)| (*field, by_sign.side(&values(text)));
    let texts: Texts = texts.iter().map(text).collect();
    handed(by_sign.sheet(&sheet(&patterns, &left, &right)), records(&texts), 256)
}

/// Single texts, some of which solve their question.
fn others(by_sign: &Said) -> Vec<Handed> {
    let one = |patterns: &[_], sides: [&str; 2], texts: &[_]| one(by_sign, patterns, sides, texts);
    let some: &[u8] = &[68, 10];
    let two: &[u8] = &[66, 10, 11];
    vec![
        // spaces at the end of the one label or the other, and elsewhere
        one(&[], ["", ""], &[]),
        one(&[], ["LT4", "LT4  "], &[]),
        one(&[], ["LT4  ", "LT4"], &[]),
        one(&[], [" LT4", "LT4"], &[]),
        one(&[], ["a", ""], &[(0, "  ")]),
        one(&[], ["", "a"], &[(0, "  ")]),
        one(&[], ["a", ""], &[(0, " A")]),
        one(&[], ["a", "b"], &[(0, "A"), (1, "A  ")]),
        one(&[], ["a", "b"], &[(0, "A  "), (1, "A")]),
        one(&[], ["a", "b"], &[(0, "A "), (1, " A")]),
        one(&[], ["aB", "bB"], &[(0, "A"), (1, "A ")]),
        one(&[], ["a ", "Ab"], &[(0, "A"), (1, " ")]),
        // an open field, and one that may be empty
        one(&[], ["a", ""], &[(0, "")]),
        one(&[(0, some)], ["a", ""], &[(0, "")]),
        one(&[(0, some)], ["aB", "B"], &[(0, "")]),
        one(&[(0, some), (1, some)], ["abA", "ba"], &[(0, ""), (1, "A")]),
        one(&[(0, some), (1, some)], ["abA", "baA"], &[(0, "AA"), (1, "")]),
        // a text that a pattern does not take: from its first character on, behind it,
        // and at its end
        one(&[(0, some)], ["a", "b"], &[(0, "B"), (1, "B")]),
        one(&[(1, some)], ["a", "b"], &[(0, "AB"), (1, "AB")]),
        one(&[(0, two)], ["a", "b"], &[(0, "A"), (1, "A")]),
        one(&[(1, two)], ["a", "b"], &[(0, "A"), (1, "A")]),
        // a dead start, a dead child, and labels that part later
        one(&[], ["A", "B"], &[]),
        one(&[], ["Aa", "Ba"], &[(0, "A")]),
        one(&[], ["aB", "AC"], &[(0, "A")]),
        one(&[], ["aB", "bC"], &[(0, "A"), (1, "A")]),
        one(&[], ["a", "A"], &[(0, "AB")]),
        one(&[], ["ab", "ba"], &[(0, "AB"), (1, "A")]),
        one(&[], ["ab", "ba"], &[(0, "AB"), (1, "AB")]),
        // a field in both fronts, and one that stands twice
        one(&[], ["aa", "aB"], &[(0, "B")]),
        one(&[], ["aa", "AABAAB"], &[(0, "AAB")]),
        one(&[], ["aBa", "AABAAB"], &[(0, "AAB")]),
        // a stray pattern
        one(&[(0, some)], ["", ""], &[]),
    ]
}

/// x 24 times: a row of 48 tokens, and one of 71, before the labels part and behind it.
fn long_sides(by_sign: &Said) -> Vec<Handed> {
    let one = |patterns: &[_], sides: [&str; 2], texts: &[_]| one(by_sign, patterns, sides, texts);
    let many_times = "a".repeat(MOST_SIDE);
    let [label, longer] = [1, 2].map(|length| "A".repeat(length * MOST_SIDE));
    vec![
        one(&[], [&many_times, "b"], &[(0, "A"), (1, &label)]),
        one(&[], ["b", &many_times], &[(0, "A"), (1, &label)]),
        one(&[], [&many_times, "b"], &[(0, "AA"), (1, &longer)]),
        one(&[], ["b", &many_times], &[(0, "AA"), (1, &longer)]),
        one(&[], [&many_times, "b"], &[(0, "AA"), (1, "AAB")]),
        one(&[], [&many_times, "b"], &[(0, "AA"), (1, "AB")]),
        one(&[(1, &[10])], [&many_times, "b"], &[(0, "AA"), (1, &longer)]),
    ]
}

/// Texts that solve their question, two by two: with the first the longest row of the
/// way has 48 tokens, and with the other it has 49.
pub fn long_rows(edition: Edition) -> Vec<[Handed; 2]> {
    let by_sign = Said::by_sign(edition);
    let case = |([left, right], texts): Solved| {
        let texts: Vec<(u8, &str)> = (0..).zip(texts.iter().map(String::as_str)).collect();
        lending(MOST_LENT, one(&by_sign, &[], [&left, &right], &texts))
    };
    let [longest, too_long] = [MOST_TOKENS, MOST_TOKENS + 1].map(rows_of);
    let pairs = longest.into_iter().zip(too_long);
    pairs.map(|(longest, too_long)| [case(longest), case(too_long)]).collect()
}

/// Two sides by their signs, and the texts of the fields from x on.
type Solved = ([String; 2], Vec<String>);

/// Those whose longest row has so many tokens, 48 or 49. A character that is put makes
/// a row longer by one for each standing of a front field, and the one in front is
/// trimmed; the hidden field is one of the row's tokens.
fn rows_of(tokens: usize) -> Vec<Solved> {
    let more = tokens - MOST_TOKENS;
    let of = |sides: [&str; 2], texts: &[&str]| -> Solved {
        (sides.map(String::from), texts.iter().copied().map(String::from).collect())
    };
    // y holds the whole label of x's side.
    let read_by_y = |side: &str, x: &str| of([side, "b"], &[x, &side.replace('a', x)]);
    let x = signs(2);
    let [behind, longer, longest] = [1, 2, 5].map(|length| signs(length + more));
    let [xs, ys] = ["a", "b"].map(|field| field.repeat(15));
    let long = vec![
        // x twice, beside each other and at both ends of 24 tokens
        read_by_y("aa", &signs(45 + more)),
        read_by_y(&format!("a{}a", signs(22)), &signs(23 + more)),
        // x 16 times, and 9 times in 23 tokens or in 24
        read_by_y(&format!("a{xs}{behind}"), &x),
        read_by_y(&format!("{}{longest}", "aT".repeat(9)), &signs(3)),
        // the hidden field reads what x holds
        of(["aa", ""], &[&" ".repeat(45 + more)]),
        // x is in both fronts, and one row is longer than the other
        of(["aa", "aa "], &[&signs(44 + more)]),
        // x and y are in front, and both stand in one row, or in both
        of([&format!("a{}b{behind}", "ab".repeat(7)), "bc"], &[&x, &x, &(x.repeat(15) + &behind)]),
        of([&format!("a{ys}{behind}"), &format!("b{xs}{behind}")], &[&x, &x]),
        // x is in front of the other row alone
        of([&format!("{x}{xs}{longer}"), "ab"], &[&x, &(x.repeat(15) + &longer)]),
    ];
    let exchanged = |([left, right], texts): Solved| ([right, left], texts);
    long.clone().into_iter().chain(long.into_iter().map(exchanged)).collect()
}

/// So many signs.
fn signs(length: usize) -> String {
    "LT4 ".chars().cycle().take(length).collect()
}

/// x twice and y: a row of 48 tokens or of 49, where something else is wrong too.
fn beside_long_rows(by_sign: &Said) -> Vec<Handed> {
    let one =
        |patterns: &[_], x: &str, y: &str| one(by_sign, patterns, ["aa", "b"], &[(0, x), (1, y)]);
    let [longest, too_long] = [45, 46].map(signs);
    let [label, longer] = [&longest, &too_long].map(|x| x.repeat(2));
    let just = one(&[], &longest, &label);
    let told = way_by(Reading::New, &just.case.sheet, &just.bytes, &mut [0; MOST_LENT]);
    vec![
        // the steps buffer is a byte too short, and there is none
        lending(told.written - 1, just),
        lending(0, one(&[], &too_long, &longer)),
        // the labels part behind the row of 48 tokens, at the one of 49, and behind that
        one(&[], &longest, &format!("{longest}B")),
        one(&[], &too_long, &format!("{longest}B")),
        one(&[], &too_long, &format!("{too_long}B")),
        // y takes no character more than those that make 48 tokens
        one(&[(1, &text(&longest))], &too_long, &longer),
    ]
}

/// The case with a steps buffer of so many bytes.
fn lending(lent: usize, Handed { case, bytes }: Handed) -> Handed {
    handed(case.sheet, bytes, lent)
}

/// A sheet that is cut short, and none at all.
fn refused(by_sign: &Said) -> Vec<Handed> {
    let Handed { case, bytes } = one(by_sign, &[], ["a", ""], &[(0, " ")]);
    let short = &case.sheet[..case.sheet.len() - 1];
    [short, &[]].map(|sheet| handed(sheet.to_vec(), bytes.clone(), 64)).to_vec()
}
