//! Stray patterns dropped: known sheets, rules and catalogues to the byte, refusals, buffers that are
//! too short; every call that refuses a stray; and many generated sheets and rules, on which the
//! library and the crate `second` agree: number, place, written length, and the buffer to the last
//! byte. What is mended is answered as it was before strays were refused.

use std::collections::BTreeMap;

use bradovusc::{
    add, add_decided, clash, decide, drop_strays, drop_strays_catalogue, drop_strays_rule, plain,
    recheck, recheck_decided, spell_open, spell_open_catalogue, withdraw, Added, Answer,
    CarriedOver, Fault, Mended, MendedCatalogue, Rechecked, RecheckedDecided, SpeltOpen, Withdrawn,
    PLAIN_BYTES, RULE_BYTES, SHEET_BYTES, SITUATION_BYTES,
};
use second::catalogue::RULE;
use second::decide::{decide_by, HASHING};
use second::drop_strays::{rule_into, sheet_into};
use second::edition::{FIRST, SECOND};
use second::make::strays::{case, dropped, each_dropped};
use second::make::Dice;
use second::plain::plain_by;
use second::sheet::Reading;
use second::spell_open::Spelt;
use second::{answer_by, Outcome};

const FILL: u8 = 165;

type Dropper = fn(&[u8], &mut [u8]) -> Mended;

/// The answer in a filled buffer of this length, and what was written. Looks at every byte behind it.
fn written(drop: Dropper, old: &[u8], length: usize) -> (Mended, Vec<u8>) {
    let mut out = vec![FILL; length];
    let given = drop(old, &mut out);
    let rest = out.split_off(given.written());
    assert!(rest.iter().all(|&byte| byte == FILL), "{given:?}");
    (given, out)
}

/// The old one becomes the new one, in just enough bytes too, and not in one less. The new one has
/// nothing to drop.
fn known(drop: Dropper, old: &[u8], new: &[u8]) {
    let done = (Mended::Written { bytes: new.len() }, new.to_vec());
    for length in [new.len(), old.len(), SHEET_BYTES] {
        assert_eq!(written(drop, old, length), done);
        assert_eq!(written(drop, new, length), done);
    }
    for length in [0, new.len() - 1] {
        assert_eq!(written(drop, old, length), (Mended::TooShort, Vec::new()));
        assert_eq!(written(drop, new, length), (Mended::TooShort, Vec::new()));
    }
}

/// The record of this field, of one character.
fn letter(field: u8) -> Vec<u8> {
    [b"PA", &[field, 1, 10][..]].concat()
}

/// The records of these fields.
fn letters(fields: &[u8]) -> Vec<u8> {
    fields.iter().flat_map(|&field| letter(field)).collect()
}

/// A side with this mark, in which these fields stand.
fn side(mark: &[u8; 2], fields: &[u8], codes: u8) -> Vec<u8> {
    let tokens: Vec<u8> = fields.iter().map(|field| codes + field).collect();
    [&mark[..], &[fields.len() as u8], &tokens].concat()
}

/// A sheet with patterns of the first fields; of the next ones stand on the left and on the right.
fn sheet(patterns: &[u8], left: &[u8], right: &[u8]) -> Vec<u8> {
    [letters(patterns), side(b"LE", left, 64), side(b"RI", right, 64)].concat()
}

/// Each set of fields with a pattern, in front of sides with fields 1 and 5, and 5 and 6.
#[test]
fn strays_in_every_place() {
    for set in 0..=255_u8 {
        let with: Vec<u8> = (0..8).filter(|field| set >> field & 1 == 1).collect();
        let kept: Vec<u8> =
            with.iter().copied().filter(|field| [1, 5, 6].contains(field)).collect();
        let (old, new) = (sheet(&with, &[1, 5], &[5, 6]), sheet(&kept, &[1, 5], &[5, 6]));
        known(drop_strays, &old, &new);
        // the first stray is told, and what is mended is not refused
        let first = with.iter().position(|field| !kept.contains(field));
        let given = clash(&old, &mut [], &mut []);
        match first {
            Some(index) => {
                let (fault, place) = (Fault::StrayPattern, 5 * index);
                assert_eq!(given, Answer::Refused { fault, place });
            }
            None => assert_eq!(given, Answer::NoRoom { count: 0 }),
        }
        assert_eq!(clash(&new, &mut [], &mut []), Answer::NoRoom { count: 0 });
    }
}

#[test]
fn in_full_ascii() {
    let old = b"ED\x02PA\x00\x01aPA\x01\x03\xC1azPA\x07\x02\xC4@LE\x02A\xC1RI\x00";
    known(drop_strays, old, b"ED\x02PA\x01\x03\xC1azLE\x02A\xC1RI\x00");
    known(drop_strays, b"ED\x02LE\x00RI\x00", b"ED\x02LE\x00RI\x00");
    let (fault, place) = (Fault::StrayPattern, 3);
    assert_eq!(clash(old, &mut [], &mut []), Answer::Refused { fault, place });
}

#[test]
fn a_rule() {
    let rule =
        |patterns: &[u8]| [b"RU", &letters(patterns)[..], &side(b"LE", &[1, 3], 64)].concat();
    known(drop_strays_rule, &rule(&[0, 1, 2, 3]), &rule(&[1, 3]));
    known(drop_strays_rule, &rule(&[0, 2]), &rule(&[]));
    known(drop_strays_rule, &rule(&[3]), &rule(&[3]));
    known(drop_strays_rule, b"RULE\x00", b"RULE\x00");
}

/// The refusals of a sheet come before 41, and 22 is none of them.
#[test]
fn faults_of_a_sheet() {
    for length in [0, SHEET_BYTES] {
        let refused = |sheet: &[u8], fault, place| {
            let expected = (Mended::Refused { fault, place }, Vec::new());
            assert_eq!(written(drop_strays, sheet, length), expected, "{sheet:?}");
        };
        refused(b"", Fault::CutShort, 0);
        refused(b"PA\x00\x01\x04LE\x00RI\x00\x00", Fault::WrongMark, 11);
        refused(b"RULE\x01\x40", Fault::WrongMark, 0);
        refused(b"PA\x08\x01\x00", Fault::WrongField, 2);
        refused(b"PA\x00\x01\x04LE\x19", Fault::WrongLength, 7);
        refused(b"PA\x00\x03\x41\x02\x01LE\x00RI\x00", Fault::NotOnePattern, 6);
        refused(b"PA\x00\x01\x04LE\x01\x48RI\x00", Fault::WrongToken, 8);
        refused(b"ED\x03PA\x00\x01\x04LE\x00RI\x00", Fault::WrongEdition, 2);
        let leaves = [&b"PA\x00\x7F"[..], &[66; 63], &[7; 64]].concat();
        refused(&leaves, Fault::TooManyLeaves, 130);
    }
}

/// Those of a rule come before 31, also of a stray pattern, and 31 before 41.
#[test]
fn faults_of_a_rule() {
    for length in [0, RULE_BYTES] {
        let refused = |rule: &[u8], expected| {
            assert_eq!(written(drop_strays_rule, rule, length), (expected, Vec::new()), "{rule:?}");
        };
        let fault = |fault, place| Mended::Refused { fault, place };
        refused(b"", fault(Fault::CutShort, 0));
        refused(b"LE\x00RI\x00", fault(Fault::WrongMark, 0));
        refused(b"RUPA\x04\x01\x0ALE\x02\x44\x48", fault(Fault::WrongToken, 11));
        refused(b"RUPA\x04\x01\x0ALE\x00\x00", fault(Fault::WrongMark, 10));
        refused(b"RUPA\x04\x01\x0ALE\x01\x40", Mended::ForeignField);
        refused(b"RUPA\x00\x01\x0ALE\x01\x44", Mended::ForeignField);
    }
}

/// Rules with strays and one without, in a buffer that is just long enough and in others.
#[test]
fn a_catalogue() {
    let buffer = |rules: &[&[u8]], length: usize| {
        let mut buffer = rules.concat();
        buffer.resize(length, 0);
        buffer
    };
    let strays = [&b"RUPA\x00\x01\x0APA\x02\x01\x0ALE\x01\x40"[..], b"RULE\x01\x0B"];
    let last = b"RUPA\x03\x02\x44\x0ALE\x02\x0C\x40";
    let old = [strays[0], strays[1], last];
    let new = [&b"RUPA\x00\x01\x0ALE\x01\x40"[..], strays[1], b"RULE\x02\x0C\x40"];
    let rules = old.concat().len();
    for length in [rules, rules + 1, 300] {
        let mut catalogue = buffer(&old, length);
        refuses(&mut catalogue);
        // The second time there is nothing to drop.
        for _ in 0..2 {
            assert_eq!(drop_strays_catalogue(&mut catalogue), MendedCatalogue::Done);
            assert_eq!(catalogue, buffer(&new, length));
        }
        assert_eq!(withdraw(&mut catalogue, 3), Withdrawn::NoRule);
        assert_eq!(withdraw(&mut catalogue, 0), Withdrawn::Gone);
        assert_eq!(catalogue, buffer(&new[1..], length));
    }
    assert_eq!(drop_strays_catalogue(&mut []), MendedCatalogue::Done);
    // Cut short; a byte behind the zeros; a stray pattern of field 4.
    let behind = [&old.concat()[..], &[0, 1]].concat();
    for none in [&old.concat()[..rules - 1], &behind, b"RUPA\x04\x01\x0ALE\x00"] {
        let mut catalogue = none.to_vec();
        assert_eq!(drop_strays_catalogue(&mut catalogue), MendedCatalogue::NoCatalogue);
        assert_eq!(catalogue, none);
    }
}

/// No call takes a catalogue with strays, and none changes it.
fn refuses(catalogue: &mut [u8]) {
    let before = catalogue.to_vec();
    let rule = b"RULE\x01\x0D";
    assert_eq!(add(catalogue, rule, &mut []), Added::NoCatalogue);
    assert_eq!(add_decided(catalogue, rule, &mut []).added, Added::NoCatalogue);
    assert_eq!(withdraw(catalogue, 0), Withdrawn::NoCatalogue);
    assert!(matches!(recheck(catalogue, &mut [], &mut []), Rechecked::NoCatalogue));
    let decided = recheck_decided(catalogue, &mut [], &mut []).number();
    assert_eq!(decided, RecheckedDecided::NoCatalogue.number());
    assert_eq!(spell_open_catalogue(catalogue), CarriedOver::NoCatalogue);
    assert_eq!(catalogue, before);
}

/// What is mended is answered as the sheet without the strays is; then it is carried over.
#[test]
fn strays_first() {
    // A field and then `A`, and `A` alone: they clash if the field may be empty.
    let (old, without) = (b"PA\x05\x01\x0ALE\x02\x40\x0ARI\x01\x0A", b"LE\x02\x40\x0ARI\x01\x0A");
    let (fault, place) = (Fault::StrayPattern, 0);
    let mut out = [0; SHEET_BYTES];
    assert_eq!(spell_open(old, &mut out), SpeltOpen::Refused { fault, place });
    let (_, new) = written(drop_strays, old, SHEET_BYTES);
    assert_eq!(new, without);
    let (mut work, mut answer) = ([0; 40 * SITUATION_BYTES], [0; 20]);
    assert_eq!(clash(&new, &mut work, &mut answer).clashes(), Some(false));
    let SpeltOpen::Written { bytes } = spell_open(&new, &mut out) else {
        panic!("the sheet has no strays, and the buffer is long enough");
    };
    assert_eq!(clash(&out[..bytes], &mut work, &mut answer).clashes(), Some(true));
    assert_eq!(decide(old, &mut work, &mut answer).answer, Answer::Refused { fault, place });
}

#[test]
fn buffers_that_are_always_long_enough() {
    // Patterns of the greatest length for all fields, of which one stands, or all do.
    let pattern = [vec![68; 191], vec![10]].concat();
    let record = |field: u8| [b"PA", &[field, 192][..], &pattern].concat();
    let patterns = |fields: u8| (0..fields).flat_map(record).collect::<Vec<u8>>();
    for (standing, kept) in [(vec![7; 24], 1), ((0..24).map(|token| token % 8).collect(), 8)] {
        let sides = [side(b"LE", &standing, 64), side(b"RI", &[7; 24], 64)].concat();
        let given = written(drop_strays, &[patterns(8), sides].concat(), SHEET_BYTES).0;
        assert_eq!(given.written(), SHEET_BYTES - 3 - (8 - kept) * 196);
    }
    let rule = [&b"RU"[..], &patterns(4), &side(b"LE", &[3; 24], 64)].concat();
    assert_eq!(rule.len(), RULE_BYTES);
    let given = written(drop_strays_rule, &rule, RULE_BYTES).0;
    assert_eq!(given.written(), RULE_BYTES - 3 * 196);
}

/// Each place of a stray pattern beside each fault, then by chance.
#[test]
fn generated_sheets_and_rules() {
    let mut dice = [FIRST, SECOND].map(|edition| Dice::of(39, edition));
    let mut seen = BTreeMap::new();
    let made = (0..4000).map(|number| dropped(&mut dice[number % 2]));
    for case in [FIRST, SECOND].into_iter().flat_map(each_dropped).chain(made) {
        let rule = case.sheet.starts_with(RULE);
        // as many bytes as it has are always enough
        let drop: Dropper = if rule { drop_strays_rule } else { drop_strays };
        assert_ne!(written(drop, &case.sheet, case.sheet.len()).0, Mended::TooShort, "{case:?}");
        let mut ours = vec![FILL; case.answer as usize];
        let mut theirs = ours.clone();
        let given = drop(&case.sheet, &mut ours);
        let told = if rule { rule_into } else { sheet_into }(&case.sheet, &mut theirs);
        let (number, place, written) = (given.number() as u8, given.place(), given.written());
        assert_eq!(Spelt { number, place, written }, told, "{case:?}");
        assert_eq!(ours, theirs, "{case:?}");
        *seen.entry((rule, number)).or_insert(0) += 1;
    }
    let sheets = [0, 11, 12, 13, 14, 15, 16, 17, 41, 44].map(|number| (false, number));
    let rules = [0, 11, 12, 13, 14, 15, 16, 17, 31, 41].map(|number| (true, number));
    assert!(seen.keys().copied().eq(sheets.into_iter().chain(rules)), "{seen:?}");
    assert!(seen.values().all(|&times| times > 20), "{seen:?}");
}

/// The outcome of what is mended is that of the old sheet by the old rule, in every number and byte.
#[test]
fn answers_stay() {
    let mut dice = [FIRST, SECOND].map(|edition| Dice::of(41, edition));
    let (mut mended, mut searched) = (0, 0);
    for number in 0..3000 {
        let old = case(&mut dice[number % 2]);
        let (given, new) = written(drop_strays, &old.sheet, SHEET_BYTES);
        if given.number() != 0 {
            continue;
        }
        mended += usize::from(new != old.sheet);
        let lent = || (vec![90; old.work as usize], vec![FILL; old.answer as usize]);
        let (mut work, mut answer) = lent();
        let (mut old_work, mut old_answer) = lent();
        let ours = clash(&new, &mut work, &mut answer);
        let theirs = answer_by(Reading::Old, &old.sheet, &mut old_work, &mut old_answer);
        assert_eq!(outcome(ours), theirs, "{old:?}");
        assert_eq!((work, answer), (old_work, old_answer), "{old:?}");
        let (mut work, mut answer) = lent();
        let (mut old_work, mut old_answer) = lent();
        let ours = decide(&new, &mut work, &mut answer);
        let theirs = decide_by(Reading::Old, &old.sheet, &mut old_work, &mut old_answer, HASHING);
        assert_eq!((outcome(ours.answer), ours.search), (theirs.outcome, theirs.search), "{old:?}");
        assert_eq!((work, answer), (old_work, old_answer), "{old:?}");
        let (mut bits, mut old_bits) = ([90; PLAIN_BYTES], [90; PLAIN_BYTES]);
        let ours = plain(&new, &mut bits);
        let theirs = plain_by(Reading::Old, &old.sheet, &mut old_bits);
        assert_eq!((ours.number() as u8, ours.place()), (theirs.number, theirs.place), "{old:?}");
        assert_eq!(bits, old_bits, "{old:?}");
        searched +=
            usize::from(outcome(decide(&new, &mut vec![0; 65_520], &mut []).answer).count > 1);
    }
    assert!(mended > 500 && searched > 300, "{mended} mended, {searched} searched");
}

/// The answer in the form of `second`.
fn outcome(answer: Answer) -> Outcome {
    let place = if let Answer::Refused { place, .. } = answer { place } else { 0 };
    let (number, count, written) = (answer.number() as u8, answer.count(), answer.written());
    Outcome { number, count, place, written }
}
