//! The answers are right by the definitions: "Two labels are now the same when
//! they are equal after trailing spaces are dropped."

use std::collections::{BTreeMap, BTreeSet};

use second::cases::Case;
use second::edition::{Edition, FIRST, SECOND};
use second::make::{case, Dice};
use second::pattern::{Allowed, Pattern, Places, ONLY_START};

const EDITIONS: [Edition; 2] = [FIRST, SECOND];

/// The letters `A` and `B`. In the second edition they are 65 and 66, codes of the
/// first one.
fn letters(edition: Edition) -> [u8; 2] {
    [b'A', b'B'].map(|sign| edition.of_ascii(sign).unwrap())
}

/// So many cases of each edition.
fn cases(seed: u64, number: usize) -> Vec<Case> {
    let made = |edition| {
        let mut dice = Dice::of(seed, edition);
        (0..number).map(|_| case(&mut dice)).collect::<Vec<Case>>()
    };
    EDITIONS.map(made).concat()
}

// ------------------------------------------- a good sheet, read once more

struct Rules {
    edition: Edition,
    patterns: BTreeMap<u8, Pattern>,
    left: Vec<u8>,
    right: Vec<u8>,
    standing: BTreeSet<u8>,
}

fn rules(sheet: &[u8]) -> Rules {
    let (edition, mut rest) = match sheet.strip_prefix(b"ED\x02") {
        Some(behind) => (SECOND, behind),
        None => (FIRST, sheet),
    };
    let mut patterns = BTreeMap::new();
    while rest.starts_with(b"PA") {
        let end = 4 + usize::from(rest[3]);
        patterns.insert(rest[2], Pattern::read(edition, &rest[4..end]).unwrap());
        rest = &rest[end..];
    }
    let (left, rest) = rest[3..].split_at(usize::from(rest[2]));
    let right = &rest[3..];
    let standing = standing(edition, left, right);
    Rules { edition, patterns, left: left.to_vec(), right: right.to_vec(), standing }
}

/// The fields that stand.
fn standing(edition: Edition, left: &[u8], right: &[u8]) -> BTreeSet<u8> {
    let fields = |token: &u8| token.checked_sub(edition.codes);
    left.iter().chain(right).filter_map(fields).collect()
}

/// Where a text taken by the pattern may end, if it begins at `from`.
fn ends(pattern: &Pattern, label: &[u8], from: usize) -> BTreeSet<usize> {
    match pattern {
        Pattern::Empty => BTreeSet::from([from]),
        Pattern::Leaf { lo, hi } => match label.get(from) {
            Some(value) if lo <= value && value <= hi => BTreeSet::from([from + 1]),
            _ => BTreeSet::new(),
        },
        Pattern::Then(a, b) => {
            ends(a, label, from).into_iter().flat_map(|middle| ends(b, label, middle)).collect()
        }
        Pattern::Or(a, b) => &ends(a, label, from) | &ends(b, label, from),
        Pattern::AnyTimes(a) if matches!(**a, Pattern::AnyTimes(_)) => ends(a, label, from),
        Pattern::AnyTimes(a) => {
            let mut all = BTreeSet::from([from]);
            let mut new = vec![from];
            while let Some(at) = new.pop() {
                new.extend(ends(a, label, at).into_iter().filter(|&end| all.insert(end)));
            }
            all
        }
    }
}

fn takes(pattern: &Pattern, text: &[u8]) -> bool {
    ends(pattern, text, 0).contains(&text.len())
}

type Texts = BTreeMap<u8, Vec<u8>>;

/// The label that a side makes with these texts.
fn label(edition: Edition, side: &[u8], texts: &Texts) -> Vec<u8> {
    let mut label = Vec::new();
    for &token in side {
        match token.checked_sub(edition.codes) {
            None => label.push(token),
            Some(field) => label.extend_from_slice(&texts[&field]),
        }
    }
    label
}

/// "Two labels are now the same when they are equal after trailing spaces are
/// dropped."
fn same(edition: Edition, one: &[u8], other: &[u8]) -> bool {
    let longer = one.len().max(other.len());
    // As if the shorter one were filled up with spaces.
    let at = |label: &[u8], at: usize| label.get(at).copied().unwrap_or(edition.space);
    (0..longer).all(|place| at(one, place) == at(other, place))
}

/// The texts make a clash.
fn is_clash(rules: &Rules, texts: &Texts) -> bool {
    let taken = texts.iter().all(|(field, text)| match rules.patterns.get(field) {
        Some(pattern) => takes(pattern, text),
        // "A field without a pattern shall now hold one character or more."
        None => !text.is_empty() && text.iter().all(|&value| rules.edition.has(value)),
    });
    let [left, right] = [&rules.left, &rules.right].map(|side| label(rules.edition, side, texts));
    taken && same(rules.edition, &left, &right)
}

/// The texts of answer records, by rising number.
fn texts_of(records: &[u8]) -> Texts {
    let mut texts = BTreeMap::new();
    let mut rest = records;
    while !rest.is_empty() {
        assert_eq!(&rest[..2], b"VA");
        let end = 5 + usize::from(rest[3]) + 256 * usize::from(rest[4]);
        assert!(texts.keys().all(|&before| before < rest[2]));
        texts.insert(rest[2], rest[5..end].to_vec());
        rest = &rest[end..];
    }
    texts
}

#[test]
fn a_clash_is_shown_by_its_texts() {
    let (mut clashes, mut by_spaces) = (0, 0);
    for case in cases(4, 6000) {
        let after = case.run(second::answer);
        if after.outcome.number != 0 {
            continue;
        }
        let rules = rules(&case.sheet);
        let texts = texts_of(&after.answer[..after.outcome.written]);
        assert!(texts.keys().eq(&rules.standing), "{case:?}");
        assert!(is_clash(&rules, &texts), "{case:?}");
        clashes += 1;
        let [left, right] =
            [&rules.left, &rules.right].map(|side| label(rules.edition, side, &texts));
        by_spaces += usize::from(left != right);
    }
    assert!(clashes > 300 && by_spaces > 100, "{clashes} {by_spaces}");
}

/// All texts of at most two of these characters.
fn short_texts(characters: &[u8]) -> Vec<Vec<u8>> {
    let mut texts = vec![vec![]];
    for &first in characters {
        texts.push(vec![first]);
        for &second in characters {
            texts.push(vec![first, second]);
        }
    }
    texts
}

#[test]
fn where_there_is_no_clash_no_short_texts_make_one() {
    let mut tried = 0;
    for case in cases(5, 6000) {
        let after = case.run(second::answer);
        if after.outcome.number != 1 {
            continue;
        }
        let rules = rules(&case.sheet);
        let fields: Vec<u8> = rules.standing.iter().copied().collect();
        if fields.is_empty() || fields.len() > 2 {
            continue;
        }
        let sides = rules.left.iter().chain(&rules.right);
        let edition = rules.edition;
        let mut characters: BTreeSet<u8> =
            sides.copied().filter(|&token| edition.has(token)).collect();
        characters.extend([0, edition.space]);
        let mut characters: Vec<u8> = characters.into_iter().rev().take(4).collect();
        characters.push(edition.characters - 1);
        let choices = short_texts(&characters);
        for one in &choices {
            for other in &choices {
                let mut texts = BTreeMap::from([(fields[0], one.clone())]);
                if let Some(&field) = fields.get(1) {
                    texts.insert(field, other.clone());
                }
                assert!(!is_clash(&rules, &texts), "{case:?} {texts:?}");
            }
        }
        tried += 1;
    }
    assert!(tried > 300);
}

#[test]
fn place_sets_take_the_same_texts_as_the_pattern() {
    let mut compared = 0;
    for case in cases(6, 2000) {
        if second::sheet::read(&case.sheet).is_err() {
            continue;
        }
        for pattern in rules(&case.sheet).patterns.values() {
            let allowed = Allowed::Pattern(Box::new(Places::of(pattern)));
            // Characters of the pattern's leaves.
            let mut characters = BTreeSet::new();
            gather(pattern, &mut characters);
            let characters: Vec<u8> = characters.into_iter().take(3).collect();
            let pairs = short_texts(&characters);
            for a in &pairs {
                for b in &pairs {
                    let text = [&a[..], b].concat();
                    let set = text.iter().fold(ONLY_START, |set, &c| allowed.after(set, c));
                    assert_eq!(allowed.may_end(set), takes(pattern, &text), "{pattern:?} {text:?}");
                    compared += 1;
                }
            }
        }
    }
    assert!(compared > 10_000);
}

fn gather(pattern: &Pattern, characters: &mut BTreeSet<u8>) {
    match pattern {
        Pattern::Empty => {}
        Pattern::Leaf { lo, hi } => characters.extend([*lo, *hi]),
        Pattern::Then(a, b) | Pattern::Or(a, b) => {
            gather(a, characters);
            gather(b, characters);
        }
        Pattern::AnyTimes(a) => gather(a, characters),
    }
}

// ------------------------------------------------- small questions, all texts

/// Numbers by chance, from a seed.
struct Chance(u64);

impl Chance {
    fn below(&mut self, n: usize) -> usize {
        self.0 =
            self.0.wrapping_mul(6_364_136_223_846_793_005).wrapping_add(1_442_695_040_888_963_407);
        (self.0 >> 33) as usize % n
    }

    fn pick<T: Copy>(&mut self, list: &[T]) -> T {
        list[self.below(list.len())]
    }
}

/// A pattern's bytes, and every text that it takes.
type Finite = (Vec<u8>, BTreeSet<Vec<u8>>);

/// A pattern that takes finitely many texts, with about so many leaves.
fn finite(edition: Edition, chance: &mut Chance, leaves: usize) -> Finite {
    let Edition { space, codes, .. } = edition;
    let [a, b] = letters(edition);
    if leaves <= 1 {
        return match chance.below(8) {
            0 => (vec![codes], BTreeSet::from([vec![]])),
            1 => {
                let ranges = [(a, b), (space - 1, space), (space, space), (space, space + 1)];
                let (lo, hi) = chance.pick(&ranges);
                (vec![codes + 1, lo, hi], (lo..=hi).map(|value| vec![value]).collect())
            }
            _ => {
                let value = chance.pick(&[a, a, b, space, space]);
                (vec![value], BTreeSet::from([vec![value]]))
            }
        };
    }
    let first = 1 + chance.below(leaves - 1);
    let (a, a_texts) = finite(edition, chance, first);
    let (b, b_texts) = finite(edition, chance, leaves - first);
    if chance.below(2) == 0 {
        let texts = a_texts.iter().flat_map(|a| b_texts.iter().map(move |b| [&a[..], b].concat()));
        ([&[codes + 2], &a[..], &b].concat(), texts.collect())
    } else {
        ([&[codes + 3], &a[..], &b].concat(), &a_texts | &b_texts)
    }
}

/// A side over three fields, often with spaces at its end.
fn small_side(edition: Edition, chance: &mut Chance, fields: u8) -> Vec<u8> {
    let [a, b] = letters(edition);
    let tokens = (0..chance.below(5)).map(|_| match chance.below(2) {
        0 => edition.field(chance.below(fields.into()) as u8),
        _ => chance.pick(&[a, a, b, edition.space]),
    });
    let mut side: Vec<u8> = tokens.collect();
    side.extend(vec![edition.space; chance.pick(&[0, 0, 0, 1, 2])]);
    side
}

fn sheet(edition: Edition, patterns: &[(u8, Vec<u8>)], left: &[u8], right: &[u8]) -> Vec<u8> {
    let mut sheet = edition.record.to_vec();
    for (field, body) in patterns {
        sheet.extend([b'P', b'A', *field, body.len() as u8]);
        sheet.extend_from_slice(body);
    }
    [&sheet, &b"LE"[..], &[left.len() as u8], left, b"RI", &[right.len() as u8], right].concat()
}

/// One text of each of these sets, in all ways.
fn all_ways(sets: &[(u8, Vec<Vec<u8>>)]) -> Vec<Texts> {
    sets.iter().fold(vec![Texts::new()], |ways, (field, texts)| {
        let longer = |way: &Texts| {
            let way = way.clone();
            texts.iter().map(move |text| {
                let mut way = way.clone();
                way.insert(*field, text.clone());
                way
            })
        };
        ways.iter().flat_map(longer).collect()
    })
}

/// The answer and its records, the same from both modules.
fn answer(sheet: &[u8]) -> (u8, Vec<u8>) {
    let case = Case { work: 65_520, answer: 4_096, sheet: sheet.to_vec() };
    let after = case.run(second::answer);
    assert_eq!(after, case.run(second::scan::answer));
    (after.outcome.number, after.answer[..after.outcome.written].to_vec())
}

#[test]
fn finite_questions_are_answered_as_all_their_texts_say() {
    EDITIONS.into_iter().for_each(finite_questions_of);
}

fn finite_questions_of(edition: Edition) {
    let mut chance = Chance(1);
    let mut seen = BTreeMap::new();
    for _ in 0..8000 {
        let fields = 1 + chance.below(3) as u8;
        let finite: Vec<Finite> = (0..fields)
            .map(|_| {
                let leaves = chance.pick(&[1, 1, 2, 2, 3, 4]);
                finite(edition, &mut chance, leaves)
            })
            .collect();
        let left = small_side(edition, &mut chance, fields);
        let right = small_side(edition, &mut chance, fields);
        let standing = standing(edition, &left, &right);
        let bodies = (0..).zip(&finite).filter(|(field, _)| standing.contains(field));
        let bodies = bodies.map(|(field, (body, _))| (field, body.clone()));
        let sheet = sheet(edition, &bodies.collect::<Vec<_>>(), &left, &right);
        let sets = standing.iter().map(|&field| {
            let (_, texts) = &finite[usize::from(field)];
            (field, texts.iter().cloned().collect())
        });
        let ways = all_ways(&sets.collect::<Vec<_>>());
        let labels = |way: &Texts| [&left, &right].map(|side| label(edition, side, way));
        let clash = |way: &&Texts| {
            let [left, right] = labels(way);
            same(edition, &left, &right)
        };
        let equal = |way: &Texts| {
            let [left, right] = labels(way);
            left == right
        };
        let (number, records) = answer(&sheet);
        // Nothing runs on: no field has more than four characters.
        match ways.iter().find(clash) {
            Some(_) => {
                assert_eq!(number, 0, "{sheet:?}");
                let shown = texts_of(&records);
                assert!(ways.contains(&shown) && clash(&&shown), "{sheet:?}");
            }
            None => assert_eq!(number, 1, "{sheet:?}"),
        }
        *seen.entry((number, ways.iter().any(equal))).or_insert(0) += 1;
    }
    // No clash, a clash by spaces alone, a clash with equal labels.
    for kind in [(1, false), (0, false), (0, true)] {
        assert!(seen.get(&kind).is_some_and(|&times| times > 300), "{kind:?}: {seen:?}");
    }
}

#[test]
fn other_questions_are_answered_as_their_short_texts_say() {
    EDITIONS.into_iter().for_each(other_questions_of);
}

fn other_questions_of(edition: Edition) {
    let Edition { space, codes, .. } = edition;
    let short: Vec<Vec<u8>> = {
        let [a, b] = letters(edition);
        let values = [a, b, space];
        let more = |texts: &[Vec<u8>]| -> Vec<Vec<u8>> {
            let longer = |text: &Vec<u8>| values.map(|value| [&text[..], &[value]].concat());
            texts.iter().flat_map(longer).collect()
        };
        let one = more(&[vec![]]);
        let two = more(&one);
        let three = more(&two);
        [vec![vec![]], one, two, three].concat()
    };
    let mut chance = Chance(2);
    let mut seen = BTreeMap::new();
    for _ in 0..3000 {
        let fields = 1 + chance.below(2) as u8;
        let mut patterns = Vec::new();
        for field in 0..fields {
            let leaves = chance.pick(&[1, 1, 2, 3]);
            let (body, _) = finite(edition, &mut chance, leaves);
            let many = [&[codes + 4], &body[..]].concat();
            let spaces = vec![codes + 4, space];
            match chance.below(6) {
                // A field without a pattern.
                0 | 1 => {}
                2 => patterns.push((field, [&[codes + 2], &body[..], &spaces].concat())),
                3 => patterns.push((field, [&[codes + 2], &many[..], &spaces].concat())),
                _ => patterns.push((field, many)),
            }
        }
        let left = small_side(edition, &mut chance, fields);
        let right = small_side(edition, &mut chance, fields);
        patterns.retain(|(field, _)| standing(edition, &left, &right).contains(field));
        let sheet = sheet(edition, &patterns, &left, &right);
        let rules = rules(&sheet);
        let (number, records) = answer(&sheet);
        if number == 0 {
            assert!(is_clash(&rules, &texts_of(&records)), "{sheet:?}");
        }
        let standing: Vec<(u8, Vec<Vec<u8>>)> =
            rules.standing.iter().map(|&field| (field, short.clone())).collect();
        let found = all_ways(&standing).iter().any(|way| is_clash(&rules, way));
        if found {
            // A clash, or given up.
            assert!([0, 18, 19].contains(&number), "{sheet:?}");
        }
        *seen.entry((number, found)).or_insert(0) += 1;
    }
    for kind in [(1, false), (0, true)] {
        assert!(seen.get(&kind).is_some_and(|&times| times > 500), "{kind:?}: {seen:?}");
    }
    let given_up: usize =
        seen.iter().filter(|((number, _), _)| *number >= 18).map(|(_, times)| times).sum();
    assert!(given_up < 900, "{seen:?}");
}

// ------------------------------------------------- a field without a pattern

/// "It then has two reachable place sets".
#[test]
fn a_field_without_a_pattern_has_two_place_sets() {
    let (start, after) = (1, 2);
    assert_eq!(start, ONLY_START);
    for edition in [FIRST, SECOND] {
        let open = Allowed::Open(edition.all());
        assert!(!open.may_end(start) && open.may_end(after));
        for value in 0..128 {
            // It takes the characters of its edition.
            let expected = if value < edition.characters { after } else { 0 };
            assert_eq!(open.after(start, value), expected);
            assert_eq!(open.after(after, value), expected);
            // Nothing follows where there is no place.
            assert_eq!(open.after(0, value), 0);
        }
        assert!(!open.may_end(0));
    }
}

/// The sheet with this pattern for each field that stands and has none.
fn with_pattern(bytes: &[u8], body: impl Fn(Edition) -> Vec<u8>) -> Vec<u8> {
    let Rules { edition, left, right, standing, .. } = rules(bytes);
    let body = body(edition);
    let mut bodies: BTreeMap<u8, Vec<u8>> =
        standing.into_iter().map(|field| (field, body.to_vec())).collect();
    let mut rest = &bytes[edition.record.len()..];
    while rest.starts_with(b"PA") {
        let end = 4 + usize::from(rest[3]);
        bodies.insert(rest[2], rest[4..end].to_vec());
        rest = &rest[end..];
    }
    sheet(edition, &bodies.into_iter().collect::<Vec<_>>(), &left, &right)
}

/// A pattern of one character and then any has three place sets, and the same
/// texts.
#[test]
fn no_pattern_is_answered_as_one_character_and_then_any() {
    let one_then_any = |Edition { codes, characters, .. }: Edition| {
        let any = [codes + 1, 0, characters - 1];
        [&[codes + 2][..], &any, &[codes + 4], &any].concat()
    };
    let mut seen = BTreeMap::new();
    let mut more = 0;
    for case in cases(9, 6000) {
        if second::sheet::read(&case.sheet).is_err() {
            continue;
        }
        let without = Case { work: 65_520, answer: 4096, ..case.clone() };
        let with = Case { sheet: with_pattern(&case.sheet, one_then_any), ..without.clone() };
        if with == without {
            continue;
        }
        let [without, with] = [without, with].map(|case| case.run(second::answer).outcome);
        // With more place sets there are more situations.
        assert!(without.count <= with.count || with.number >= 18, "{case:?}");
        more += usize::from(without.count < with.count);
        if without.number < 18 && with.number < 18 {
            assert_eq!(without.number, with.number, "{case:?}");
        }
        *seen.entry((without.number, with.number)).or_insert(0) += 1;
    }
    for kind in [(0, 0), (1, 1)] {
        assert!(seen.get(&kind).is_some_and(|&times| times > 150), "{kind:?}: {seen:?}");
    }
    assert!(more > 150, "{more}");
}

// ------------------------------------------------------------ the third demand

/// "A reachable place set is one that some text leads to and that isn't empty;
/// the first one counts."
fn reachable(pattern: Option<&Pattern>) -> usize {
    let Some(pattern) = pattern else {
        // "demand 3 counts two for it"
        return 2;
    };
    let allowed = Allowed::Pattern(Box::new(Places::of(pattern)));
    let mut sets = BTreeSet::from([ONLY_START]);
    let mut new = vec![ONLY_START];
    while let Some(set) = new.pop() {
        let after = (0..128).map(|value| allowed.after(set, value));
        new.extend(after.filter(|&set| set != 0 && sets.insert(set)).collect::<Vec<_>>());
    }
    sets.len()
}

/// (1 + L) times (1 + R), where "L and R each include 2 for the hidden field".
fn bound(rules: &Rules) -> usize {
    let standing = |token: &u8| match token.checked_sub(rules.edition.codes) {
        None => 1,
        Some(field) => reachable(rules.patterns.get(&field)),
    };
    let [left, right] =
        [&rules.left, &rules.right].map(|side| 1 + 2 + side.iter().map(standing).sum::<usize>());
    left * right
}

#[test]
fn where_no_field_stands_twice_the_count_keeps_the_bound() {
    for edition in EDITIONS {
        let Edition { codes, .. } = edition;
        let patterns = [(0, vec![codes + 4, codes + 1, 0, 9]), (1, vec![4])];
        let sheet_s = sheet(edition, &patterns, &[codes], &[codes + 1]);
        assert_eq!(bound(&rules(&sheet_s)), 25);
        assert_eq!(bound(&rules(&sheet(edition, &[], &[], &[]))), 9);
        // x and a character, open
        let one = sheet(edition, &[], &[codes], &[10]);
        assert_eq!(bound(&rules(&one)), (1 + 2 + 2) * (1 + 1 + 2));
    }
    let mut compared = 0;
    for case in cases(8, 6000) {
        let outcome = Case { work: 65_520, ..case.clone() }.run(second::answer).outcome;
        if second::sheet::read(&case.sheet).is_err() {
            continue;
        }
        let rules = rules(&case.sheet);
        let tokens = rules.left.iter().chain(&rules.right);
        let fields = tokens.filter(|&&token| token >= rules.edition.codes).count();
        if fields == rules.standing.len() {
            assert!(outcome.count <= bound(&rules), "{case:?}");
            // Nor is a side ever longer than at the start.
            assert_ne!(outcome.number, 19, "{case:?}");
            compared += 1;
        }
    }
    assert!(compared > 500, "{compared}");
}
