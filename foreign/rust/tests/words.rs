//! Numbers in words, signs, texts of records cut short, the version: as the C header has them.

use std::fs;
use std::path::Path;

use bradovusc::{
    catalogue_bytes, decided_list_bytes, list_bytes, recheck, recheck_decided, sign, spelt_bytes,
    texts, value, version, Added, AddedDecided, Answer, CarriedOver, DecidedPair, Edition, Fault,
    Mended, MendedCatalogue, Pair, Plain, PlainBytes, Played, Rechecked, RecheckedDecided,
    Scripted, Spelt, SpeltOpen, Stepped, Text, WayFound, Withdrawn, Written, DECIDED_PAIR_BYTES,
    MOST_CHARACTERS, MOST_RULES, MOST_STEPS, PAIR_BYTES, PLAIN_BYTES, RULE_BYTES, RULE_FIELDS,
    SCRIPT_BYTES, SHEET_BYTES, SIGNS, VERSION,
};

const HEADER: &str = include_str!("../../c/bradovusc.h");

const FAULTS: [Fault; 9] = [
    Fault::CutShort,
    Fault::WrongMark,
    Fault::WrongField,
    Fault::WrongLength,
    Fault::NotOnePattern,
    Fault::TooManyLeaves,
    Fault::WrongToken,
    Fault::StrayPattern,
    Fault::WrongEdition,
];

/// The answers that are no fault of the sheet, with count 7.
const OTHERS: [Answer; 5] = [
    Answer::Clash { count: 7, written: 9 },
    Answer::NoClash { count: 7 },
    Answer::NoRoom { count: 7 },
    Answer::SideTooLong { count: 7 },
    Answer::AnswerTooShort { count: 7 },
];

/// What is wrong with a way that is played.
const PLAYED: [Played; 4] =
    [Played::WrongStep, Played::StepNotAllowed, Played::NotFinished, Played::TooManySteps];

const NOT_APART: Added = Added::NotApart { rule: 5, pair: Answer::NoRoom { count: 7 } };

/// The number and the text that the header has behind each `case`.
fn header_texts() -> Vec<(u32, &'static str)> {
    let number = |name: &str| {
        let (_, behind) = HEADER.split_once(&format!("{name} = ")).unwrap();
        behind.split([',', '\n']).next().unwrap().parse().unwrap()
    };
    let case = |case: &'static str| {
        let (name, behind) = case.split_once(':').unwrap();
        (number(name), behind.split('"').nth(1).unwrap())
    };
    HEADER.split("case ").skip(1).map(case).collect()
}

#[test]
fn answers_in_words() {
    let expected = header_texts();
    assert_eq!(expected.len(), 31);
    let faults = FAULTS.map(|fault| (fault.number(), fault.to_string()));
    let others = OTHERS.map(|answer| (answer.number(), answer.to_string()));
    let added = [Added::ForeignField, Added::Full, Added::NoCatalogue]
        .map(|added| (added.number(), added.to_string()));
    let not_apart = NOT_APART.to_string().split(':').next().unwrap().to_string();
    let no_rule = (Withdrawn::NoRule.number(), Withdrawn::NoRule.to_string());
    let short = (Rechecked::ListTooShort.number(), Rechecked::ListTooShort.to_string());
    let no_script = (Scripted::TooShort.number(), Scripted::TooShort.to_string());
    let no_sheet = (SpeltOpen::TooShort.number(), SpeltOpen::TooShort.to_string());
    let spelt = [Spelt::NotInTable, Spelt::TooShort];
    let spelt = spelt.map(|spelt| (spelt.number(), spelt.to_string()));
    let further = [(NOT_APART.number(), not_apart), no_rule, short, no_script, no_sheet];
    let plain =
        [Plain::NotPlain, Plain::BitsTooShort].map(|plain| (plain.number(), plain.to_string()));
    let played = PLAYED.map(|played| (played.number(), played.to_string()));
    let short = Stepped::StepsTooShort { count: 7 };
    let stepped = [(short.number(), short.to_string())];
    let mut ours =
        [&faults[..], &others, &added, &further, &plain, &spelt, &played, &stepped].concat();
    ours.sort();
    assert!(ours.iter().map(|(number, text)| (*number, text.as_str())).eq(expected));
}

#[test]
fn a_sheet_at_fault_in_words() {
    for fault in FAULTS {
        let answer = Answer::Refused { fault, place: 13 };
        assert_eq!(answer.to_string(), format!("{fault}, at offset 13"));
        assert_eq!((answer.number(), answer.count(), answer.written()), (fault.number(), 0, 0));
        assert_eq!(answer.clashes(), None);
    }
}

#[test]
fn calls_of_a_catalogue_in_words() {
    for fault in FAULTS {
        let added = Added::Refused { fault, place: 13 };
        assert_eq!(added.to_string(), format!("{fault}, at offset 13"));
        assert_eq!(added.number(), fault.number());
    }
    let pair = "rule 5, not decided: no room for a situation";
    assert_eq!(NOT_APART.to_string(), format!("not apart from a rule of the catalogue: {pair}"));
    assert_eq!(Withdrawn::NoCatalogue.number(), Added::NoCatalogue.number());
    assert_eq!(Withdrawn::NoCatalogue.to_string(), Added::NoCatalogue.to_string());
    assert_eq!(Rechecked::NoCatalogue.number(), Added::NoCatalogue.number());
    assert_eq!(Rechecked::NoCatalogue.to_string(), Added::NoCatalogue.to_string());
    let listed = recheck(&[], &mut [], &mut []);
    assert_eq!((Added::Entered.number(), Withdrawn::Gone.number(), listed.number()), (0, 0, 0));
    let done = HEADER.split("BRADOVUSC_DONE ? ").nth(1).unwrap();
    for ours in [Added::Entered.to_string(), Withdrawn::Gone.to_string(), listed.to_string()] {
        assert_eq!(done.split('"').nth(1), Some(ours.as_str()));
    }
    let pair = Pair { lower: 3, higher: 31, answer: Answer::NoRoom { count: 7 } };
    let words = "rule 3 and rule 31: not decided: no room for a situation";
    assert_eq!(pair.to_string(), words);
}

/// Those of a catalogue that decides are the same.
#[test]
fn decided_calls_in_words() {
    let refused = FAULTS.map(|fault| Added::Refused { fault, place: 13 });
    let others = [Added::Entered, NOT_APART, Added::ForeignField, Added::Full, Added::NoCatalogue];
    for added in refused.into_iter().chain(others) {
        let decided = AddedDecided { added, search: 0 };
        assert_eq!((decided.number(), decided.to_string()), (added.number(), added.to_string()));
    }
    let (one, all) = (Rechecked::NoCatalogue, RecheckedDecided::NoCatalogue);
    assert_eq!((all.number(), all.to_string()), (one.number(), one.to_string()));
    let (one, all) = (Rechecked::ListTooShort, RecheckedDecided::ListTooShort);
    assert_eq!((all.number(), all.to_string()), (one.number(), one.to_string()));
    let one = recheck(&[], &mut [], &mut []);
    let (mut work, mut list) = ([], []);
    let all = recheck_decided(&[], &mut work, &mut list);
    assert_eq!((all.number(), all.to_string()), (one.number(), one.to_string()));
    let (lower, higher, answer) = (3, 31, Answer::Clash { count: 7, written: 0 });
    let (one, all) =
        (Pair { lower, higher, answer }, DecidedPair { lower, higher, answer, search: 2 });
    assert_eq!(all.to_string(), one.to_string());
}

#[test]
fn scripts_in_words() {
    for fault in FAULTS {
        let scripted = Scripted::Refused { fault, place: 13 };
        assert_eq!(scripted.to_string(), format!("{fault}, at offset 13"));
        let numbers = (scripted.number(), scripted.place(), scripted.written());
        assert_eq!(numbers, (fault.number(), 13, 0));
    }
    let written = Scripted::Written { bytes: 9 };
    assert_eq!((written.number(), written.place(), written.written()), (0, 0, 9));
    assert_eq!(written.to_string(), "done");
    assert_eq!((Scripted::TooShort.place(), Scripted::TooShort.written()), (0, 0));
}

#[test]
fn spelt_texts_in_words() {
    let written = Spelt::Written { bytes: 9 };
    assert_eq!((written.number(), written.written(), written.to_string().as_str()), (0, 9, "done"));
    assert_eq!((Spelt::NotInTable.written(), Spelt::TooShort.written()), (0, 0));
    assert!(HEADER.contains("#define BRADOVUSC_SPELT_BYTES(characters) (2 * (size_t)(characters))"));
    assert_eq!(spelt_bytes(7), 14);
}

#[test]
fn written_sheets_in_words() {
    for fault in FAULTS {
        let refused = Written::Refused { fault, place: 13 };
        assert_eq!(refused.to_string(), format!("{fault}, at offset 13"));
        assert_eq!((refused.number(), refused.place(), refused.written()), (fault.number(), 13, 0));
    }
    let sheet = Written::Sheet { bytes: 9 };
    assert_eq!((sheet.number(), sheet.place(), sheet.written()), (0, 0, 9));
    assert_eq!(sheet.to_string(), "done");
    let (short, carried) = (Written::TooShort, SpeltOpen::TooShort);
    assert_eq!((short.number(), short.place(), short.written()), (carried.number(), 0, 0));
    assert_eq!(short.to_string(), carried.to_string());
}

#[test]
fn plain_rules_in_words() {
    for fault in FAULTS {
        let (given, needs) =
            (Plain::Refused { fault, place: 13 }, PlainBytes::Refused { fault, place: 13 });
        let words = format!("{fault}, at offset 13");
        assert_eq!((given.to_string(), needs.to_string()), (words.clone(), words));
        assert_eq!((given.number(), given.place()), (fault.number(), 13));
        assert_eq!((needs.number(), needs.place(), needs.bytes()), (fault.number(), 13, 0));
        assert_eq!(given.clashes(), None);
    }
    let said = [Plain::Clash, Plain::NoClash];
    assert_eq!(said.map(Plain::clashes), [Some(true), Some(false)]);
    assert_eq!(said.map(Plain::number), [0, 1]);
    assert_eq!(said.map(|given| given.to_string()), ["clash", "no clash"]);
    for refused in [Plain::NotPlain, Plain::BitsTooShort] {
        assert_eq!((refused.place(), refused.clashes()), (0, None));
    }
    let needed = PlainBytes::Needed { bytes: 9 };
    assert_eq!((needed.number(), needed.place(), needed.bytes()), (0, 0, 9));
    assert_eq!(needed.to_string(), "done");
    let (one, other) = (PlainBytes::NotPlain, Plain::NotPlain);
    assert_eq!((one.number(), one.place(), one.bytes()), (other.number(), 0, 0));
    assert_eq!(one.to_string(), other.to_string());
}

#[test]
fn steps_in_words() {
    for fault in FAULTS {
        let played = Played::Refused { fault, place: 13 };
        assert_eq!(played.to_string(), format!("{fault}, at offset 13"));
        assert_eq!((played.number(), played.place(), played.written()), (fault.number(), 13, 0));
        assert_eq!(played.clashes(), None);
    }
    for played in PLAYED {
        assert_eq!((played.place(), played.written(), played.clashes()), (0, 0, None));
    }
    let answers = OTHERS.map(|answer| Stepped::Answered { answer, steps: 5 });
    for (stepped, answer) in answers.into_iter().zip(OTHERS) {
        assert_eq!((stepped.number(), stepped.count()), (answer.number(), 7));
        assert_eq!((stepped.written(), stepped.steps()), (answer.written(), 5));
        assert_eq!(
            (stepped.to_string(), stepped.clashes()),
            (answer.to_string(), answer.clashes())
        );
    }
    let short = Stepped::StepsTooShort { count: 7 };
    assert_eq!((short.count(), short.written(), short.steps()), (7, 0, 0));
    assert_eq!(short.clashes(), Some(true));
    // those that a search gives too
    let [clash, _, _, long, short] = OTHERS;
    let finished = Played::Finished { written: 9 };
    assert_eq!((finished.number(), finished.to_string()), (clash.number(), clash.to_string()));
    assert_eq!((finished.written(), finished.clashes()), (9, Some(true)));
    let (played, other) = (Played::SideTooLong, Played::AnswerTooShort);
    assert_eq!((played.number(), played.to_string()), (long.number(), long.to_string()));
    assert_eq!((other.number(), other.to_string()), (short.number(), short.to_string()));
    assert_eq!((played.clashes(), other.clashes()), (None, Some(true)));
}

/// Two numbers have words of their own; the others are told as those of a search and of the player.
#[test]
fn ways_of_given_texts_in_words() {
    for fault in FAULTS {
        let found = WayFound::Refused { fault, place: 13 };
        assert_eq!(found.to_string(), format!("{fault}, at offset 13"));
        assert_eq!((found.number(), found.place(), found.written()), (fault.number(), 13, 0));
        assert_eq!(found.clashes(), None);
    }
    let own = [("WRONG_TEXTS", WayFound::WrongTexts), ("NO_SOLUTION", WayFound::NoSolution)];
    for (name, found) in own {
        let (_, behind) = HEADER.split_once(&format!("BRADOVUSC_{name} = ")).unwrap();
        assert_eq!(behind.split([',', '\n']).next(), Some(found.number().to_string().as_str()));
        let told = HEADER.split(&format!("== BRADOVUSC_{name}")).nth(1).unwrap();
        assert_eq!(told.split('"').nth(1), Some(found.to_string().as_str()));
    }
    let [clash, _, _, long, _] = OTHERS.map(|answer| (answer.number(), answer.to_string()));
    let many = (Played::TooManySteps.number(), Played::TooManySteps.to_string());
    let stepped = Stepped::StepsTooShort { count: 7 };
    let short = (stepped.number(), stepped.to_string());
    let all = [
        (WayFound::Steps { written: 9 }, clash),
        (WayFound::SideTooLong, long),
        (WayFound::TooManySteps, many),
        (WayFound::StepsTooShort, short),
    ];
    for (found, told) in all {
        assert_eq!((found.number(), found.to_string()), told);
        let (written, solve) = match found {
            WayFound::Steps { written } => (written, Some(true)),
            WayFound::StepsTooShort => (0, Some(true)),
            _ => (0, None),
        };
        assert_eq!((found.place(), found.written(), found.clashes()), (0, written, solve));
    }
}

#[test]
fn carrying_over_in_words() {
    for fault in FAULTS {
        let spelt = SpeltOpen::Refused { fault, place: 13 };
        assert_eq!(spelt.to_string(), format!("{fault}, at offset 13"));
        assert_eq!((spelt.number(), spelt.place(), spelt.written()), (fault.number(), 13, 0));
    }
    let written = SpeltOpen::Written { bytes: 9 };
    assert_eq!((written.number(), written.place(), written.written()), (0, 0, 9));
    for refused in [SpeltOpen::ForeignField, SpeltOpen::TooShort] {
        assert_eq!((refused.place(), refused.written()), (0, 0));
    }
    let foreign = SpeltOpen::ForeignField;
    let (full, no_catalogue) = (CarriedOver::Full, CarriedOver::NoCatalogue);
    assert_eq!(
        [foreign.number(), full.number(), no_catalogue.number()],
        [Added::ForeignField, Added::Full, Added::NoCatalogue].map(Added::number)
    );
    assert_eq!(foreign.to_string(), Added::ForeignField.to_string());
    assert_eq!(full.to_string(), Added::Full.to_string());
    assert_eq!(no_catalogue.to_string(), Added::NoCatalogue.to_string());
    let done = CarriedOver::Done;
    assert_eq!((done.number(), done.to_string()), (0, written.to_string()));
    assert_eq!(written.to_string(), "done");
}

/// Those of dropping strays are the same.
#[test]
fn dropping_strays_in_words() {
    for fault in FAULTS {
        let (mended, spelt) =
            (Mended::Refused { fault, place: 13 }, SpeltOpen::Refused { fault, place: 13 });
        assert_eq!((mended.number(), mended.to_string()), (spelt.number(), spelt.to_string()));
        assert_eq!((mended.place(), mended.written()), (13, 0));
    }
    let written = Mended::Written { bytes: 9 };
    assert_eq!((written.number(), written.place(), written.written()), (0, 0, 9));
    assert_eq!(written.to_string(), "done");
    let refused =
        [(Mended::ForeignField, SpeltOpen::ForeignField), (Mended::TooShort, SpeltOpen::TooShort)];
    for (mended, spelt) in refused {
        assert_eq!((mended.number(), mended.to_string()), (spelt.number(), spelt.to_string()));
        assert_eq!((mended.place(), mended.written()), (0, 0));
    }
    let catalogues = [
        (MendedCatalogue::Done, CarriedOver::Done),
        (MendedCatalogue::NoCatalogue, CarriedOver::NoCatalogue),
    ];
    for (mended, carried) in catalogues {
        assert_eq!((mended.number(), mended.to_string()), (carried.number(), carried.to_string()));
    }
}

#[test]
fn what_is_decided() {
    assert!(OTHERS.iter().all(|answer| answer.count() == 7));
    assert_eq!(OTHERS.map(Answer::written), [9, 0, 0, 0, 0]);
    let decided = OTHERS.map(Answer::clashes);
    assert_eq!(decided, [Some(true), Some(false), None, None, Some(true)]);
}

#[test]
fn signs_both_ways() {
    let signs: String = ('0'..='9').chain('A'..='Z').chain("-. $/+%".chars()).collect();
    assert_eq!(signs.as_bytes(), SIGNS);
    for (at, each) in (0..).zip(signs.chars()) {
        assert_eq!((sign(at), value(each)), (Some(each), Some(at)));
    }
    assert!((43..=255).all(|value| sign(value).is_none()));
    let found = ('\0'..='\u{FFFF}').filter(|&sign| value(sign).is_some());
    assert_eq!(found.count(), 43);
}

/// Each edition has its signs, both ways, and no other.
#[test]
fn signs_of_the_editions() {
    for edition in [Edition::Code39, Edition::FullAscii] {
        for at in 0..=255 {
            let found = edition.sign(at);
            assert_eq!(found.is_some(), at < edition.characters());
            assert!(found.is_none_or(|found| edition.value(found) == Some(at)));
        }
        let found = ('\0'..='\u{FFFF}').filter(|&sign| edition.value(sign).is_some());
        assert_eq!(found.count(), edition.characters().into());
        assert_eq!(edition.sign(edition.space()), Some(' '));
    }
    assert_eq!(Edition::FullAscii.text(b"a\n\x7F\x80"), "a\n\x7F\u{FFFD}");
    assert_eq!(Edition::Code39.text(&[42, 4, 43]), "%4\u{FFFD}");
    assert_eq!(Edition::default(), Edition::Code39);
}

#[test]
fn records_cut_short() {
    let records = b"VA\x00\x00\x00VA\x03\x02\x00\x2A\x04";
    let first = Text { field: 0, values: &[] };
    let second = Text { field: 3, values: &[42, 4] };
    for written in 0..=records.len() {
        let whole = usize::from(written >= 5) + usize::from(written >= 12);
        let found: Vec<Text> = texts(&records[..written]).collect();
        assert_eq!(found, [first, second][..whole], "{written} bytes");
    }
    assert_eq!(second.to_string(), "%4");
    assert_eq!(texts(b"WA\x00\x00\x00").next(), None);
    assert_eq!(texts(b"VB\x00\x00\x00").next(), None);
    assert_eq!(texts(b"VA\x00\xFF\xFF\x01\x02").next(), None);
}

#[test]
fn lengths_of_buffers() {
    let defined = |name: &str, number: usize| {
        assert!(HEADER.contains(&format!("#define BRADOVUSC_{name} {number}\n")), "{name}");
    };
    defined("RULES", MOST_RULES);
    defined("RULE_FIELDS", RULE_FIELDS);
    defined("RULE_BYTES", RULE_BYTES);
    defined("PAIR_BYTES", PAIR_BYTES);
    defined("DECIDED_PAIR_BYTES", DECIDED_PAIR_BYTES);
    defined("SCRIPT_BYTES", SCRIPT_BYTES);
    defined("SHEET_BYTES", SHEET_BYTES);
    defined("PLAIN_BYTES", PLAIN_BYTES);
    defined("MOST_STEPS", MOST_STEPS);
    defined("CHARACTERS", Edition::Code39.characters().into());
    defined("MOST_CHARACTERS", MOST_CHARACTERS.into());
    let editions = [Edition::Code39, Edition::FullAscii].map(Edition::number);
    let words =
        format!("BRADOVUSC_CODE_39 = {}, BRADOVUSC_FULL_ASCII = {} ", editions[0], editions[1]);
    assert!(HEADER.contains(&words), "{words}");
    assert_eq!(catalogue_bytes(MOST_RULES), 26_016);
    assert_eq!([0, 1, 2, 3, MOST_RULES].map(list_bytes), [0, 0, 5, 15, 2_480]);
    assert_eq!([0, 1, 2, 3, MOST_RULES].map(decided_list_bytes), [0, 0, 7, 21, 3_472]);
}

#[test]
fn one_version() {
    assert!(HEADER.contains(&format!("#define BRADOVUSC_VERSION \"{VERSION}\"\n")));
    assert_eq!(version().map(|number| number.to_string()).join("."), VERSION);
}

/// In the library a length has 64 bits whatever the processor, so where `usize` has fewer it is wrong.
#[test]
fn lengths_of_64_bits() {
    let folder = Path::new(env!("CARGO_MANIFEST_DIR")).join("src");
    let mut blocks = 0;
    for entry in fs::read_dir(folder).unwrap() {
        let text = fs::read_to_string(entry.unwrap().path()).unwrap();
        for block in text.split("extern \"C\"").skip(1) {
            let end = block.find("\n}").or(block.find(';')).unwrap();
            assert!(!block[..end].contains("usize"), "{}", &block[..end]);
            blocks += 1;
        }
    }
    assert!(blocks >= 12, "{blocks}");
}
