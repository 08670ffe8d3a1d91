//! The way of given texts: every example of docs/RULES.md; what solves a question, by
//! the meaning of labels and patterns alone; the way once more, by counting along the
//! labels; the player on every way; and what the makers make.

#[allow(dead_code)]
mod plain;

use std::collections::{BTreeMap, BTreeSet};

use plain::{ends, parts, takes, Parts};
use second::decide::{self, decide};
use second::edition::{Edition, FIRST, SECOND};
use second::make::{given, kept, pairs, Dice};
use second::pattern::Pattern;
use second::sheet::Reading;
use second::situation::State;
use second::steps::{child, play, steps, Handed, Record, MOST_STEPS};
use second::way::{way, way_by, Walk};
use second::write::{sheet, tokens};
use second::{cases, Outcome, SITUATION_BYTES};

use Record::{Character as Put, LeftStruck as Left, RightStruck as Right};

const FILL: u8 = 165;
const EDITIONS: [Edition; 2] = [FIRST, SECOND];

/// Sides as texts, fields as small letters from `a` on, and patterns.
fn of(patterns: &[(u8, &[u8])], left: &str, right: &str) -> Vec<u8> {
    let patterns: Vec<(u8, Vec<u8>)> =
        patterns.iter().map(|(field, body)| (*field, body.to_vec())).collect();
    sheet(&patterns, &tokens(left), &tokens(right))
}

/// The records of texts.
fn records(texts: &[(u8, &[u8])]) -> Vec<u8> {
    let record = |(field, text): &(u8, &[u8])| {
        [b"VA", &[*field][..], &(text.len() as u16).to_le_bytes(), text].concat()
    };
    texts.iter().flat_map(record).collect()
}

/// The records of steps.
fn row(steps: &[Record]) -> Vec<u8> {
    let mut bytes = Vec::new();
    steps.iter().for_each(|record| record.write(&mut bytes));
    bytes
}

/// What is told where nothing is written.
fn refused(number: u8) -> Outcome {
    Outcome { number, count: 0, place: 0, written: 0 }
}

/// The number, whatever the steps buffer; nothing is written to it.
#[track_caller]
fn refuses(sheet: &[u8], texts: &[u8], number: u8) {
    for length in [0, 9, 4_096] {
        let mut buffer = vec![FILL; length];
        assert_eq!(way(sheet, texts, &mut buffer), refused(number));
        assert!(buffer.iter().all(|&byte| byte == FILL));
    }
}

/// These steps are written in each buffer that holds them, and 51 is given in each
/// that does not.
#[track_caller]
fn gives(sheet: &[u8], texts: &[u8], steps: &[Record]) {
    let row = row(steps);
    for length in 0..row.len() {
        let mut buffer = vec![FILL; length];
        assert_eq!(way(sheet, texts, &mut buffer), refused(51));
        assert!(buffer.iter().all(|&byte| byte == FILL));
    }
    for more in [0, 1, 40] {
        let mut buffer = vec![FILL; row.len() + more];
        assert_eq!(way(sheet, texts, &mut buffer), Outcome { written: row.len(), ..refused(0) });
        assert_eq!(buffer, [&row[..], &vec![FILL; more]].concat());
    }
}

// --------------------------------------------------------------------- by hand

/// Each row of the table with "Way tells" in docs/RULES.md, section 19.
#[test]
fn every_example_of_the_rules() {
    let rules = include_str!("../../docs/RULES.md");
    let table = rules.split("\n\n").find(|table| table.contains("| Way tells |")).unwrap();
    let mut lines = table.trim().lines();
    assert_eq!(lines.next(), Some("| | Sheet | Texts | Lent | Way tells | Way |"));
    let bytes = |cell: &str| -> Vec<u8> {
        let digits = cell.trim_matches('`').split(' ').filter(|&digits| digits != "none");
        digits.map(|digits| u8::from_str_radix(digits, 16).unwrap()).collect()
    };
    let mut by_number: BTreeMap<u8, usize> = BTreeMap::new();
    for line in lines.skip(1) {
        let cells: Vec<&str> = line.split('|').map(str::trim).collect();
        let [_, _, sheet, texts, lent, told, written, _] = cells[..] else { panic!("{line}") };
        let lent = lent.strip_prefix("steps ").map_or(1_420, |bytes| bytes.parse().unwrap());
        let case = cases::Case { work: 0, answer: lent, sheet: bytes(sheet) };
        let each: String = bytes(written).iter().map(|byte| format!(" {byte:02x}")).collect();
        let expected = format!("{}, written{each}, rest unchanged", told.trim_matches('`'));
        assert_eq!(Handed { case, bytes: bytes(texts) }.line(way), expected, "{line}");
        let number = told.trim_matches('`').split(' ').next().unwrap().parse().unwrap();
        *by_number.entry(number).or_insert(0) += 1;
    }
    let numbers: Vec<u8> = by_number.keys().copied().collect();
    assert_eq!(numbers, [0, 11, 12, 19, 47, 48, 51]);
    assert!(by_number.values().sum::<usize>() >= 27);
}

/// What the hidden fields hold, and which front is struck first.
#[test]
fn known_ways() {
    gives(&of(&[], "", ""), b"", &[Left, Right]);
    gives(&of(&[], "A", "A  "), b"", &[Put(38), Put(38), Left, Right]);
    gives(&of(&[], "A  ", "A"), b"", &[Put(38), Put(38), Left, Right]);
    let spaces = records(&[(0, &[38, 38])]);
    gives(&of(&[], "a", ""), &spaces, &[Put(38), Put(38), Left, Left, Right]);
    gives(&of(&[], "", "a"), &spaces, &[Put(38), Put(38), Left, Right, Right]);
    // x is used up in both fronts, and is struck once
    let texts = records(&[(0, &[10, 11])]);
    gives(&of(&[], "aB", "aB"), &texts, &[Put(10), Put(11), Left, Left, Right]);
    // what is put before the second x is read by y
    let texts = records(&[(0, &[10, 11]), (1, &[10, 11, 10, 11])]);
    let puts = [Put(10), Put(11), Left, Put(10), Put(11), Left, Right, Right];
    gives(&of(&[], "aa", "b"), &texts, &puts);
    // an empty text is used up at once, also behind another
    let any: &[u8] = &[68, 65, 0, 42];
    let texts = records(&[(0, &[]), (1, &[]), (2, &[10])]);
    let steps = [Left, Left, Put(10), Left, Right, Right];
    gives(&of(&[(0, any), (1, any)], "abA", "c"), &texts, &steps);
}

/// Each number in its order.
#[test]
fn every_refusal() {
    // the sheet's own, with its place, whatever the texts
    for (wrong, number, place) in
        [(&b""[..], 11, 0), (b"LE\x00RI\x00L", 12, 6), (b"PA\x01\x01\x00LE\x00RI\x00", 22, 0)]
    {
        for texts in [&b""[..], b"VA", b"X"] {
            assert_eq!(way(wrong, texts, &mut []), Outcome { place, ..refused(number) });
        }
    }
    // no such records, though the labels part too
    let ab = of(&[], "aA", "bB");
    let good = records(&[(0, &[10]), (1, &[10])]);
    refuses(&ab, &good, 48);
    for length in 0..good.len() {
        refuses(&ab, &good[..length], 47);
    }
    for fields in [&[][..], &[0], &[1], &[1, 0], &[0, 0], &[0, 0, 1], &[0, 1, 2], &[0, 1, 8]] {
        let texts: Vec<(u8, &[u8])> = fields.iter().map(|&field| (field, &[10][..])).collect();
        refuses(&ab, &records(&texts), 47);
    }
    // a value that is no character comes before the character that parts the labels
    refuses(&ab, &records(&[(0, &[10]), (1, &[11, 43])]), 47);
    refuses(&ab, &records(&[(0, &[10]), (1, &[11, 42])]), 48);
    // a field that a pattern ends too early, too late, or not at all
    let two: &[u8] = &[66, 10, 11];
    for text in [&[][..], &[10], &[10, 11, 11], &[11], &[10, 10]] {
        let texts = records(&[(0, text), (1, text)]);
        refuses(&of(&[(0, two)], "a", "b"), &texts, 48);
        refuses(&of(&[(1, two)], "a", "b"), &texts, 48);
    }
}

/// 48 comes before 19 at one step, and 19 before a 48 of a later one.
#[test]
fn a_long_side() {
    let left = "a".repeat(24);
    let both = |own: &[u8], label: &[u8]| records(&[(0, own), (1, label)]);
    let long = of(&[], &left, "b");
    // x is put and struck; what stands before the other 23 is read by y
    let known = [&[Put(10), Left][..], &[Put(10); 23], &[Left, Right, Right]].concat();
    gives(&long, &both(&[10], &[10; 24]), &known);
    refuses(&long, &both(&[10, 10], &[10; 48]), 19);
    refuses(&of(&[], "b", &left), &both(&[10, 10], &[10; 48]), 19);
    refuses(&long, &both(&[10, 10], &[10, 10, 11]), 19);
    refuses(&long, &both(&[10, 10], &[10, 11]), 48);
    refuses(&of(&[(1, &[10])], &left, "b"), &both(&[10, 10], &[10; 48]), 48);
}

/// x twice and y: so many characters of x make a row of 48 tokens, and one more makes
/// a row of 49.
#[test]
fn a_row_of_48_tokens() {
    let both = |own: &[u8], label: &[u8]| records(&[(0, own), (1, label)]);
    let twice = of(&[], "aa", "b");
    // behind the last put they are x, its 45 characters, x again and the hidden field
    let known = [&[Put(10); 45][..], &[Left], &[Put(10); 45], &[Left, Right, Right]].concat();
    gives(&twice, &both(&[10; 45], &[10; 90]), &known);
    refuses(&twice, &both(&[10; 46], &[10; 92]), 19);
    refuses(&of(&[], "b", "aa"), &both(&[10; 46], &[10; 92]), 19);
    // the labels part behind the row of 48 tokens, at the one of 49, and behind that
    let parting = |length: usize| [vec![10; length], vec![11]].concat();
    refuses(&twice, &both(&[10; 45], &parting(45)), 48);
    refuses(&twice, &both(&[10; 46], &parting(45)), 48);
    refuses(&twice, &both(&[10; 46], &parting(46)), 19);
    // y may hold no more than 45 characters
    let most = second::write::text(&"A".repeat(45));
    refuses(&of(&[(1, &most)], "aa", "b"), &both(&[10; 46], &[10; 92]), 48);
}

/// x and so many spaces, x all spaces, and nothing on the right: a put for each, and
/// three fronts that are struck.
#[test]
fn the_most_steps() {
    let of_length = |behind: &str, steps: usize| {
        let text = vec![38; steps - 3 - behind.len()];
        (of(&[], &format!("a{behind}"), ""), records(&[(0, &text)]))
    };
    let number = |(sheet, texts): &(Vec<u8>, Vec<u8>)| way(sheet, texts, &mut []);
    let (sheet, texts) = of_length("  ", MOST_STEPS);
    let mut buffer = vec![FILL; 4 * MOST_STEPS];
    let told = way(&sheet, &texts, &mut buffer);
    assert_eq!(told, Outcome { written: 4 * MOST_STEPS - 3, ..refused(0) });
    let mut given_back = vec![FILL; texts.len()];
    let told = play(&sheet, &buffer[..told.written], &mut given_back);
    assert_eq!(told, Outcome { written: texts.len(), ..refused(0) });
    assert_eq!(given_back, texts);
    assert_eq!(number(&(sheet, texts)), refused(51));
    assert_eq!(number(&of_length("  ", MOST_STEPS + 1)), refused(50));
    // the labels part at the third step from the end: the last that may be, or one more
    assert_eq!(number(&of_length(" A", MOST_STEPS + 2)), refused(48));
    assert_eq!(number(&of_length(" A", MOST_STEPS + 3)), refused(50));
    // a text as long as two bytes can say
    assert_eq!(number(&(of(&[], "a", ""), records(&[(0, &[38; 65_535])]))), refused(50));
}

/// A value is a character below the edition's number of them.
#[test]
fn each_value() {
    for (sheet, characters) in
        [(&b"LE\x01\x40RI\x01\x41"[..], 43), (b"ED\x02LE\x01\xC0RI\x01\xC1", 128)]
    {
        for value in 0..=255 {
            let texts = records(&[(0, &[value]), (1, &[value])]);
            let number = way(sheet, &texts, &mut [0; 20]).number;
            assert_eq!(number, if value < characters { 0 } else { 47 }, "{value}");
        }
    }
}

// ------------------------------------------------------------------ by meaning

type Texts = BTreeMap<u8, Vec<u8>>;

/// The texts by field; none where the bytes are no records of the fields that stand.
fn texts_of(parts: &Parts, bytes: &[u8]) -> Option<Texts> {
    let mut texts = Vec::new();
    let mut rest = bytes;
    while let [b'V', b'A', field, low, high, behind @ ..] = rest {
        let length = usize::from(*low) + 256 * usize::from(*high);
        texts.push((*field, behind.get(..length)?.to_vec()));
        rest = &behind[length..];
    }
    let fields = parts.left.iter().chain(&parts.right);
    let fields = fields.filter_map(|token| token.checked_sub(parts.edition.codes));
    let standing: BTreeSet<u8> = fields.filter(|&field| field < 8).collect();
    let values = texts.iter().flat_map(|(_, text)| text);
    let characters = values.clone().all(|&value| value < parts.edition.characters);
    let rising = texts.iter().map(|(field, _)| *field).eq(standing);
    (rest.is_empty() && characters && rising).then(|| texts.into_iter().collect())
}

/// The label of a side; the hidden fields hold what is in the texts, or nothing.
fn label(parts: &Parts, side: &[u8], texts: &Texts) -> Vec<u8> {
    let of = |token: &u8| match token.checked_sub(parts.edition.codes) {
        None => vec![*token],
        Some(field) => texts.get(&field).cloned().unwrap_or_default(),
    };
    side.iter().flat_map(of).collect()
}

fn may_hold(parts: &Parts, field: u8, text: &[u8]) -> bool {
    match parts.patterns.get(&field) {
        Some(pattern) => takes(pattern, text),
        None => !text.is_empty(),
    }
}

/// Whether each field may hold its text and both sides become the same label.
fn solves(parts: &Parts, texts: &Texts) -> bool {
    let [left, right] = [&parts.left, &parts.right].map(|side| {
        let mut label = label(parts, side, texts);
        while label.last() == Some(&parts.edition.space) {
            label.pop();
        }
        label
    });
    left == right && texts.iter().all(|(field, text)| may_hold(parts, *field, text))
}

// --------------------------------------------------------- along the labels

/// Whether what stands from this place on begins a text that the pattern takes; each
/// pattern takes some.
fn begins(pattern: &Pattern, text: &[u8], from: usize) -> bool {
    let behind = |first: &Pattern, then: &Pattern| {
        ends(first, text, from).into_iter().any(|middle| begins(then, text, middle))
    };
    from == text.len()
        || match pattern {
            Pattern::Empty => false,
            Pattern::Leaf { .. } => ends(pattern, text, from).contains(&text.len()),
            Pattern::Then(a, b) => begins(a, text, from) || behind(a, b),
            Pattern::Or(a, b) => begins(a, text, from) || begins(b, text, from),
            Pattern::AnyTimes(a) => behind(pattern, a),
        }
}

/// How many characters of the text the field can take, one after the other.
fn taken(parts: &Parts, field: u8, text: &[u8]) -> usize {
    let begun = |&to: &usize| match parts.patterns.get(&field) {
        Some(pattern) => begins(pattern, &text[..to], 0),
        None => true,
    };
    (0..=text.len()).rev().find(begun).unwrap_or(0)
}

/// What stands in a side, and where it begins in the label.
struct Stands {
    field: Option<usize>,
    from: usize,
    to: usize,
}

/// The tokens of a side along its label.
fn laid_out(parts: &Parts, side: &[u8], texts: &[Vec<u8>]) -> Vec<Stands> {
    let mut to = 0;
    let stands = |token: &u8| {
        let field = token.checked_sub(parts.edition.codes).map(usize::from);
        let from = to;
        to += field.map_or(1, |field| texts[field].len());
        Stands { field, from, to }
    };
    side.iter().map(stands).collect()
}

/// Where the way is: both labels are read up to one place, and of each field so many
/// characters have been put.
struct Along {
    labels: [Vec<u8>; 2],
    sides: [Vec<Stands>; 2],
    texts: Vec<Vec<u8>>,
    taken: Vec<usize>,
    may_end: Vec<bool>,
    read: usize,
    put: Vec<usize>,
    struck: Vec<bool>,
}

#[derive(Clone, Copy, PartialEq)]
enum Front {
    Character(u8),
    Field(usize),
    End,
}

impl Along {
    fn start(parts: &Parts, texts: &Texts) -> Along {
        let mut texts = texts.clone();
        let [left, right] =
            [&parts.left, &parts.right].map(|side| label(parts, side, &texts).len());
        texts.insert(8, vec![parts.edition.space; right.saturating_sub(left)]);
        texts.insert(9, vec![parts.edition.space; left.saturating_sub(right)]);
        let labels = [&parts.left, &parts.right].map(|side| label(parts, side, &texts));
        let texts: Vec<Vec<u8>> =
            (0..10).map(|field| texts.remove(&field).unwrap_or_default()).collect();
        let fields = || (0..).zip(&texts);
        Along {
            labels,
            sides: [&parts.left, &parts.right].map(|side| laid_out(parts, side, &texts)),
            taken: fields().map(|(field, text)| taken(parts, field, text)).collect(),
            may_end: fields().map(|(field, text)| may_hold(parts, field, text)).collect(),
            texts,
            read: 0,
            put: vec![0; 10],
            struck: vec![false; 10],
        }
    }

    /// What is in front of a side: what is put and not read, then the field itself.
    fn front(&self, side: usize) -> Front {
        for stands in &self.sides[side] {
            let known = stands.field.map_or(stands.to, |field| stands.from + self.put[field]);
            if known > self.read {
                return Front::Character(self.labels[side][self.read]);
            }
            if let Some(field) = stands.field.filter(|&field| !self.struck[field]) {
                return Front::Field(field);
            }
        }
        Front::End
    }

    /// The tokens of a side's row.
    fn tokens(&self, side: usize) -> usize {
        let of = |stands: &Stands| match stands.field {
            None => usize::from(stands.from >= self.read),
            Some(field) => {
                let known = stands.from + self.put[field];
                usize::from(!self.struck[field]) + known.saturating_sub(stands.from.max(self.read))
            }
        };
        self.sides[side].iter().map(of).sum()
    }

    fn trim(&mut self) -> [Front; 2] {
        loop {
            let fronts = [self.front(0), self.front(1)];
            match fronts {
                [Front::Character(a), Front::Character(b)] if a == b => self.read += 1,
                _ => return fronts,
            }
        }
    }

    /// The step that the fronts want; none where it is not allowed.
    fn step(&mut self, fronts: [Front; 2]) -> Option<Record> {
        for (front, record) in fronts.into_iter().zip([Left, Right]) {
            if let Front::Field(field) = front {
                if self.put[field] == self.texts[field].len() {
                    self.struck[field] = true;
                    return self.may_end[field].then_some(record);
                }
            }
        }
        let next = |front: Front| match front {
            Front::Character(character) => Some(character),
            Front::Field(field) => Some(self.texts[field][self.put[field]]),
            Front::End => None,
        };
        let character = next(fronts[0]).filter(|_| next(fronts[0]) == next(fronts[1]))?;
        // One field in both fronts is one front field.
        for front in &fronts[..if fronts[0] == fronts[1] { 1 } else { 2 }] {
            if let Front::Field(field) = *front {
                self.put[field] += 1;
                if self.put[field] > self.taken[field] {
                    return None;
                }
            }
        }
        Some(Put(character))
    }
}

/// The number, 0 where any steps buffer holds the way, and the way.
fn along(parts: &Parts, texts: &Texts) -> (u8, Vec<u8>) {
    let mut along = Along::start(parts, texts);
    let mut fronts = along.trim();
    let mut steps = Vec::new();
    while fronts != [Front::End; 2] {
        if steps.len() == MOST_STEPS {
            return (50, vec![]);
        }
        let Some(record) = along.step(fronts) else { return (48, vec![]) };
        fronts = along.trim();
        let dead = fronts.iter().all(|front| !matches!(front, Front::Field(_)));
        if dead && fronts != [Front::End; 2] {
            return (48, vec![]);
        }
        if along.tokens(0).max(along.tokens(1)) > 48 {
            return (19, vec![]);
        }
        steps.push(record);
    }
    (0, row(&steps))
}

/// Of texts that solve the question, the tokens of the longest row behind a step and
/// the number of steps, however many they are.
fn measured(parts: &Parts, texts: &Texts) -> (usize, usize) {
    let mut along = Along::start(parts, texts);
    let mut fronts = along.trim();
    let (mut longest, mut steps) = (0, 0);
    while fronts != [Front::End; 2] {
        along.step(fronts).expect("the texts solve the question");
        fronts = along.trim();
        longest = longest.max(along.tokens(0)).max(along.tokens(1));
        steps += 1;
    }
    (longest, steps)
}

/// The number of the case, held to all that is known of it otherwise.
#[track_caller]
fn held(case: &Handed) -> u8 {
    let (told, buffer) = case.run(way);
    let Handed { case, bytes } = case;
    assert!(buffer[told.written..].iter().all(|&byte| byte == FILL));
    if let Err(fault) = Reading::New.sheet(&case.sheet) {
        assert_eq!(told, Outcome { place: fault.place, ..refused(fault.number) });
        return told.number;
    }
    let parts = parts(&case.sheet);
    let Some(texts) = texts_of(&parts, bytes) else {
        assert_eq!(told, refused(47), "{case:?} {bytes:?}");
        return told.number;
    };
    let solving = solves(&parts, &texts);
    let (longest, steps) = if solving { measured(&parts, &texts) } else { (0, 0) };
    let has_a_way = solving && longest <= 48 && steps <= MOST_STEPS;
    assert_eq!(matches!(told.number, 0 | 51), has_a_way, "{case:?} {bytes:?}");
    assert!(told.number != 48 || !solving, "{case:?} {bytes:?}");
    let (number, steps) = along(&parts, &texts);
    let short = steps.len() > case.answer as usize;
    let (number, written) = if short { (51, 0) } else { (number, steps.len()) };
    assert_eq!(told, Outcome { written, ..refused(number) }, "{case:?} {bytes:?}");
    assert_eq!(buffer[..written], steps[..written]);
    if number == 0 {
        given_back(&case.sheet, &buffer[..written], bytes);
    }
    number
}

/// The player accepts the way, and gives the texts back byte for byte, in every
/// buffer that is long enough.
#[track_caller]
fn given_back(sheet: &[u8], steps: &[u8], texts: &[u8]) {
    for more in [0, 7] {
        let mut answer = vec![FILL; texts.len() + more];
        let told = play(sheet, steps, &mut answer);
        assert_eq!(told, Outcome { written: texts.len(), ..refused(0) });
        assert_eq!(answer, [texts, &vec![FILL; more]].concat());
    }
    if let Some(less) = texts.len().checked_sub(1) {
        assert_eq!(play(sheet, steps, &mut vec![FILL; less]), refused(20));
    }
}

/// How often each number is told.
fn numbers(cases: &[Handed]) -> BTreeMap<u8, usize> {
    let mut by_number = BTreeMap::new();
    for case in cases {
        *by_number.entry(held(case)).or_insert(0) += 1;
    }
    by_number
}

/// By chance, and one by one: each case is held to its meaning.
#[test]
fn cases_by_chance() {
    for edition in EDITIONS {
        let mut dice = Dice::of(61, edition);
        let cases: Vec<Handed> = (0..2_000).map(|_| given::case(&mut dice)).collect();
        let by_number = numbers(&cases);
        println!("{by_number:?}");
        let floors =
            [(0, 350), (51, 200), (47, 330), (48, 250), (19, 90), (50, 4), (22, 40), (12, 15)];
        for (number, floor) in floors {
            assert!(by_number.get(&number).is_some_and(|&times| times > floor), "{by_number:?}");
        }
        has_everything(&cases);
    }
}

/// Steps buffers and texts of all kinds are among them.
fn has_everything(cases: &[Handed]) {
    let (mut just, mut one_less, mut none, mut many) = (0, 0, 0, 0);
    let (mut twice, mut not_its_own) = (0, 0);
    for Handed { case, bytes } in cases {
        let mut buffer = [0; given::MOST_LENT];
        let told = way(&case.sheet, bytes, &mut buffer);
        if told.number != 0 {
            continue;
        }
        let (needed, lent) = (told.written, case.answer as usize);
        just += usize::from(lent == needed);
        one_less += usize::from(lent + 1 == needed);
        none += usize::from(lent == 0);
        many += usize::from(lent == given::MOST_LENT);
        let mut answer = [0; 4_096];
        let found = second::answer(&case.sheet, &mut [0; 356 * SITUATION_BYTES], &mut answer);
        not_its_own += usize::from(found.number == 0 && answer[..found.written] != bytes[..]);
        let question = Reading::New.sheet(&case.sheet).unwrap();
        twice += usize::from(second::plain::stands_twice(&question));
    }
    println!("{just} {one_less} {none} {many} {twice} {not_its_own}");
    assert!(just > 120 && one_less > 90 && none > 50 && many > 50);
    assert!(twice > 350 && not_its_own > 110);
}

/// The records of x, of y, of both or of none, with each text of at most two characters,
/// `A` and the space.
fn short_records(x: bool, y: bool) -> Vec<Vec<u8>> {
    let texts: [&[u8]; 7] = [&[], &[10], &[38], &[10, 10], &[10, 38], &[38, 10], &[38, 38]];
    let of = |field: u8, stands: bool| match stands {
        true => texts.map(|text| records(&[(field, text)])).to_vec(),
        false => vec![vec![]],
    };
    let (x, y) = (of(0, x), of(1, y));
    x.iter().flat_map(|x| y.iter().map(|y| [&x[..], y].concat())).collect()
}

/// Sides of at most two tokens and texts of at most two characters, each with each.
#[test]
fn short_sides_with_short_texts() {
    let tokens = ["", "A", " ", "a", "b"];
    let sides: BTreeSet<String> =
        tokens.iter().flat_map(|one| tokens.map(|two| format!("{one}{two}"))).collect();
    let (mut ways, mut all) = (0, 0);
    for (left, right) in sides.iter().flat_map(|left| sides.iter().map(move |right| (left, right)))
    {
        let [x, y] = ['a', 'b'].map(|field| left.contains(field) || right.contains(field));
        let patterns: [&[(u8, &[u8])]; 3] = [&[], &[(0, &[68, 10])], &[(0, &[66, 68, 10, 38])]];
        for of_x in &patterns[..if x { 3 } else { 1 }] {
            for bytes in short_records(x, y) {
                let case = cases::Case { work: 0, answer: 64, sheet: of(of_x, left, right) };
                ways += usize::from(held(&Handed { case, bytes }) == 0);
                all += 1;
            }
        }
    }
    println!("{ways} of {all}");
    assert!(ways > 2_000 && all > 25_000, "{ways} {all}");
}

/// Every clash that the search or deciding finds has its way, with as many steps as
/// the search's own.
#[test]
fn every_clash_has_its_way() {
    for edition in EDITIONS {
        let mut dice = Dice::of(62, edition);
        let (mut found, mut later) = (0, 0);
        for number in 0..6_000 {
            let room = [20, 60, 200][number % 3];
            let sheet = match number % 2 {
                0 => pairs::case(&mut dice, true, 0).sheet,
                _ => second::make::case(&mut dice).sheet,
            };
            let mut work = vec![0; room * SITUATION_BYTES];
            let (mut answer, mut row, mut own) = ([0; 4_096], [0; 1_420], [0; 1_420]);
            let told = steps(&sheet, &mut work, &mut answer, &mut row);
            if told.outcome.number == 0 {
                let written = way(&sheet, &answer[..told.outcome.written], &mut own);
                assert_eq!(written, Outcome { written: told.bytes, ..refused(0) });
                given_back(&sheet, &own[..told.bytes], &answer[..told.outcome.written]);
                found += 1;
                continue;
            }
            let told = decide(&sheet, &mut work, &mut answer, decide::HASHING);
            if told.outcome.number == 0 {
                let texts = &answer[..told.outcome.written];
                let written = way(&sheet, texts, &mut own);
                assert_eq!(written, Outcome { written: written.written, ..refused(0) });
                given_back(&sheet, &own[..written.written], texts);
                later += 1;
            }
        }
        println!("{found} {later}");
        assert!(found > 500 && later > 200, "{found} {later}");
    }
}

// ---------------------------------------------------------------- one by one

/// The texts of three short sheets, by their signs.
const SHORT: [&[(u8, &str)]; 3] =
    [&[(0, "00"), (1, "CH"), (4, "00"), (5, "H")], &[(0, "4"), (1, "4")], &[(0, "AA")]];

/// Of the texts of three short sheets each byte is cut off, left out, doubled and
/// changed, and each record is left out and doubled; the most steps and one more are
/// among them.
#[test]
fn one_by_one() {
    for edition in EDITIONS {
        let cases = given::each(edition);
        let by_number = numbers(&cases);
        println!("{} one by one: {by_number:?}", cases.len());
        for (number, floor) in [(0, 38), (19, 23), (47, 450), (48, 80), (50, 1), (51, 8), (22, 1)] {
            assert!(by_number.get(&number).is_some_and(|&times| times >= floor), "{by_number:?}");
        }
        let all: BTreeSet<&[u8]> = cases.iter().map(|case| &case.bytes[..]).collect();
        for texts in SHORT {
            let value = |code: u8| edition.of_ascii(code).unwrap();
            let record = |(field, text): &(u8, &str)| {
                records(&[(*field, &text.bytes().map(value).collect::<Vec<u8>>())])
            };
            let each: Vec<Vec<u8>> = texts.iter().map(record).collect();
            for damaged in damages(edition, &each) {
                assert!(all.contains(&damaged[..]), "{damaged:?}");
            }
        }
        let long = cases.iter().filter(|case| case.bytes.len() > 65_000).map(held);
        assert_eq!(long.collect::<Vec<u8>>(), [51, 50]);
    }
}

/// The tokens of the longest row of each side, by the walk itself, that of the step at
/// which it ends among them, and the number with which it ends.
fn rows_walked(case: &Handed) -> ([usize; 2], u8) {
    let question = Reading::New.sheet(&case.case.sheet).unwrap();
    let texts = second::way::texts_of(&question, &case.bytes).unwrap();
    let mut walk = Walk::start(&question, texts);
    let mut longest = [0, 0];
    while walk.situation.state() != State::Finished {
        let wanted = walk.wanted();
        // as it is made before its rows are looked at
        let made = wanted.and_then(|record| child(&question, &walk.situation, record));
        let rows = made.map_or([0, 0], |(made, _)| [made.left.len(), made.right.len()]);
        let ended = walk.step();
        assert_eq!(ended == Err(19), rows.iter().any(|&row| row > 48), "{case:?}");
        longest = [0, 1].map(|side| rows[side].max(longest[side]));
        if let Err(number) = ended {
            return (longest, number);
        }
    }
    (longest, 0)
}

/// Two by two: the longest row has 48 tokens, and there is a way; it has 49, and 19 is
/// given for that. It is on the left, on the right, and on both sides; all of them are
/// made one by one.
#[test]
fn rows_of_48_tokens_and_of_49() {
    for edition in EDITIONS {
        let cases = given::each(edition);
        let mut sides = BTreeSet::new();
        for pair in given::long_rows(edition) {
            for (case, tokens, number) in [(&pair[0], 48, 0), (&pair[1], 49, 19)] {
                let (rows, ended) = rows_walked(case);
                assert_eq!((rows[0].max(rows[1]), ended), (tokens, number), "{case:?}");
                assert_eq!(held(case), number, "{case:?}");
                // once more along the labels, for texts that solve the question
                let parts = parts(&case.case.sheet);
                let texts = texts_of(&parts, &case.bytes).unwrap();
                assert!(solves(&parts, &texts), "{case:?}");
                assert_eq!(measured(&parts, &texts).0, tokens, "{case:?}");
                sides.insert((number, rows.map(|row| row == tokens)));
                assert!(cases.contains(case));
            }
        }
        println!("{sides:?}");
        for number in [0, 19] {
            for longest in [[true, false], [false, true], [true, true]] {
                assert!(sides.contains(&(number, longest)), "{number} {longest:?}");
            }
        }
    }
}

/// What must be tried with records at least, and the records themselves.
fn damages(edition: Edition, each: &[Vec<u8>]) -> Vec<Vec<u8>> {
    let whole = each.concat();
    let mut all = vec![whole.clone()];
    for at in 0..whole.len() {
        let own = whole[at];
        let with = |other: &[u8]| [&whole[..at], other, &whole[at + 1..]].concat();
        all.extend([whole[..at].to_vec(), with(&[]), with(&[own, own])]);
        let others = [own.wrapping_add(1), own.wrapping_sub(1), 0, edition.characters, 255];
        all.extend(others.map(|other| with(&[other])));
    }
    for at in 0..each.len() {
        all.push([&each[..at], &each[at + 1..]].concat().concat());
        all.push([&each[..=at], &each[at..]].concat().concat());
    }
    all
}

/// Without its strays a case is told what it was told with them, by the old rule; and
/// each is read from its stream as it was written.
#[test]
fn kept_cases_and_streams() {
    for edition in EDITIONS {
        let mut dice = Dice::of(63, edition);
        let mut strays = 0;
        for _ in 0..300 {
            let case = given::case(&mut dice);
            let kept = kept::handed(case.clone());
            let by_the_old_rule = |sheet: &[u8], texts: &[u8], row: &mut [u8]| {
                way_by(Reading::Old, sheet, texts, row)
            };
            assert_eq!(kept.run(way), case.run(by_the_old_rule), "{case:?}");
            strays += usize::from(kept != case);
            assert!(case.case.answer as usize <= given::MOST_LENT);
            let mut stream = Vec::new();
            case.write(&mut stream);
            assert_eq!(Handed::read(&stream), Some((case.clone(), &[][..])));
            assert_eq!(Handed::read(&stream[..stream.len() - 1]), None);
        }
        assert!(strays > 5, "{strays}");
    }
}
