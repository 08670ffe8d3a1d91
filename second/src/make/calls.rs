//! Makes operations on a catalogue from a seed: rules that clash and rules that
//! do not, damaged rules, catalogues that are full, short or damaged or hold
//! rules that clash, rooms of all sizes, list buffers near their bounds,
//! catalogues that still fit once they are carried over and those that do not.
//! Where they are asked for, `AE` and `RD` too: half of the additions and checks,
//! and pairs with just the room in which a later search decides. And where those are
//! asked for, strays: in many of the rules and of the catalogues, and `DS`.

use super::{alphabet, damaged, patterns, random_bytes, sides, some_fields, spaces, write_out};
use super::{big_pattern, Dice, Record, Sides, CHARACTERS, MOST_SIDE, SPACE};
use super::{decided, strays};
use crate::calls::MOST_DECIDED_LIST;
use crate::calls::{After, Call, Calls, Operation, MOST_CATALOGUE, MOST_LIST, MOST_WORK};
use crate::catalogue::DECIDED_PAIR_BYTES;
use crate::catalogue::{read_by, HASHING, MOST_RULES, PAIR_BYTES, RULE, RULE_FIELDS};
use crate::sheet::{Reading, FIELDS, LEFT, PATTERN};
use crate::spell_open;
use crate::storeroom::{by_first_letter, FINISHES};
use crate::write::{self, choice, many, row, tokens};

/// A stream of so many `AD`, `WI`, `RE` and `SO` together, and an end.
pub fn stream(dice: &mut Dice, number: usize) -> Vec<u8> {
    let mut stream = written(&operations(dice, number));
    stream.extend_from_slice(dice.pick(&ENDS));
    stream
}

/// A stream of so many `AD`, `AE`, `WI`, `RE`, `RD` and `SO` together, and an
/// end.
pub fn decided_stream(dice: &mut Dice, number: usize) -> Vec<u8> {
    let mut stream = written(&decided_operations(dice, number));
    stream.extend_from_slice(dice.pick(&DECIDED_ENDS));
    stream
}

/// A stream of so many `AD`, `AE`, `WI`, `RE`, `RD`, `SO` and `DS` together, with
/// strays among the rules, and an end.
pub fn strays_stream(dice: &mut Dice, number: usize) -> Vec<u8> {
    let mut stream = written(&strays_operations(dice, number));
    stream.extend_from_slice(dice.pick(&STRAYS_ENDS));
    stream
}

fn written(operations: &[Operation]) -> Vec<u8> {
    let mut stream = Vec::new();
    for operation in operations {
        operation.write(&mut stream);
    }
    stream
}

/// What stands behind the operations: nothing, an operation cut short, another
/// mark, or more than is allowed; where a good `WI` follows it is not done.
const ENDS: [&[u8]; 18] = [
    b"",
    b"A",
    b"AD\x05\x00RULE",
    b"WI",
    b"CA\x02\x00\x02\x00R",
    b"WO\x00\x00\x00",
    b"RE",
    b"RE\x00",
    b"AXWI\x00",
    b"wi\x00WI\x00",
    b"CA\x01\x20\x00\x00WI\x00",
    b"CA\x02\x00\x03\x00RULWI\x00",
    b"WO\x98\x00\x01\x00WI\x00",
    b"WO\x00\x00\x00\x01WI\x00",
    b"RE\x01\x0aWI\x00",
    b"RE\xff\xffWI\x00",
    b"S",
    b"OSWI\x00",
];

/// The same for `AE` and `RD`.
const DECIDED_ENDS: [&[u8]; 7] = [
    b"",
    b"AE",
    b"AE\x05\x00RULE",
    b"RD\x00",
    b"RD\x01\x0eWI\x00",
    b"RD\xff\xffWI\x00",
    b"AFWI\x00",
];

/// The same for `DS`.
const STRAYS_ENDS: [&[u8]; 5] = [b"", b"D", b"DXWI\x00", b"SDWI\x00", b"dsWI\x00"];

/// So many `AD`, `WI`, `RE` and `SO` together, with the `CA` and `WO` between
/// them.
pub fn operations(dice: &mut Dice, number: usize) -> Vec<Operation> {
    made(dice, number, false, Reading::Old)
}

/// The same, with `AE` and `RD` among them.
pub fn decided_operations(dice: &mut Dice, number: usize) -> Vec<Operation> {
    made(dice, number, true, Reading::Old)
}

/// The same, with strays and `DS` among them.
pub fn strays_operations(dice: &mut Dice, number: usize) -> Vec<Operation> {
    made(dice, number, true, Reading::New)
}

fn made(dice: &mut Dice, number: usize, decided: bool, reading: Reading) -> Vec<Operation> {
    let mut maker = Maker::new(dice, decided, reading);
    while maker.told < number {
        maker.next();
    }
    maker.made
}

/// Some of them begin alike.
const PREFIXES: [&str; 8] = ["LT", "RL", "NL", "KP", "KS", "SP", "L", "K"];

/// The style of a catalogue's rules.
enum Style {
    /// As storerooms write them, with these prefixes.
    Storeroom(Vec<&'static str>),
    /// Small rules of any kind over these characters.
    Small(Vec<u8>),
    /// One label each, of one or two characters.
    Labels,
}

/// The operations made, and the catalogue as they leave it.
struct Maker<'a> {
    dice: &'a mut Dice,
    /// `AE` and `RD` are made too.
    decided: bool,
    /// Strays and `DS` are made too, and the calls go by the new rule.
    strays: bool,
    made: Vec<Operation>,
    /// How many of them are none of `CA` and `WO`.
    told: usize,
    calls: Calls,
    style: Style,
    /// So many more of them before another catalogue.
    left: usize,
    /// Rules to be added soon: one that was withdrawn, one that clashes.
    soon: Vec<Vec<u8>>,
    /// The next operation is `RE`.
    recheck: bool,
    /// The next operation is `SO`.
    carry: bool,
}

impl Maker<'_> {
    /// Begins with the catalogue and the bytes of work that are there at the
    /// start.
    fn new(dice: &mut Dice, decided: bool, reading: Reading) -> Maker<'_> {
        let (calls, strays) = (Calls::by(reading, HASHING), reading == Reading::New);
        let style = Style::Storeroom(PREFIXES.to_vec());
        let (made, soon) = (Vec::new(), Vec::new());
        let (recheck, carry) = (false, false);
        Maker { dice, decided, strays, made, told: 0, calls, style, left: 12, soon, recheck, carry }
    }

    fn make(&mut self, operation: Operation) {
        // A recheck changes nothing, and needs no run to be made.
        let is_told = match operation {
            Operation::Recheck(_) | Operation::RecheckDecided(_) => true,
            _ => self.calls.run(&operation).is_some(),
        };
        self.told += usize::from(is_told);
        self.made.push(operation);
    }

    /// One that is neither `CA` nor `WO`, and what is lent to it.
    fn next(&mut self) {
        if self.decided && self.dice.one_in(4) {
            return self.decided_later();
        }
        if self.left == 0 {
            self.other_catalogue();
        }
        self.left -= 1;
        if self.dice.one_in(16) {
            self.other_work();
        }
        let operation = match self.dice.below(20) {
            _ if self.strays && self.drops() => Operation::Drop,
            _ if self.carry => self.carry(),
            _ if self.recheck => self.recheck(),
            0..=3 => self.withdrawal(),
            4 => self.just_long_enough(),
            5 => self.recheck(),
            6 if self.dice.one_in(4) => self.carry(),
            _ => Operation::Add(self.any_rule()),
        };
        let operation = match operation {
            Operation::Add(rule) if self.decided && self.dice.one_in(2) => {
                Operation::AddDecided(rule)
            }
            other => other,
        };
        self.make(operation);
    }

    /// Whether the strays are dropped now: soon where the catalogue holds some.
    fn drops(&mut self) -> bool {
        let holds = |reading| read_by(reading, &self.calls.catalogue).is_some();
        let mends = holds(Reading::Old) && !holds(Reading::New);
        self.dice.one_in(if mends { 3 } else { 30 })
    }

    /// The catalogue with strays in some of its rules, if it is of the form.
    fn with_strays(&mut self, operation: Operation) -> Operation {
        let Operation::Catalogue { length, front } = operation else { return operation };
        let Some(present) = read_by(Reading::Old, &front) else {
            return Operation::Catalogue { length, front };
        };
        let one_in = self.dice.pick(&[1, 2, 2, present.len().max(1)]);
        let mut other = Vec::new();
        for rule in present {
            let rule = &front[rule.bytes];
            let some = self.dice.one_in(one_in);
            other.extend(if some { strays::into_rule(self.dice, rule) } else { rule.to_vec() });
        }
        let longer = length + other.len().saturating_sub(front.len());
        if longer > MOST_CATALOGUE {
            return Operation::Catalogue { length, front };
        }
        Operation::Catalogue { length: longer, front: other }
    }

    /// Two rules, one with a field that stands so often that a side grows too long,
    /// and any room.
    fn side_above_48(&mut self) -> ([Vec<u8>; 2], usize) {
        let alphabet = alphabet(self.dice);
        let (left, right, texts) = strip(self.dice, &alphabet);
        let mut rules = [left, right].map(|side| {
            let mut records = patterns(self.dice, &alphabet, 0..RULE_FIELDS as u8, &side, &texts);
            records.push(Record::side(LEFT, side));
            rule_of(&records)
        });
        self.dice.shuffle(&mut rules);
        (rules, self.dice.pick(&[4, 20, 60, 200, 356]))
    }

    /// The pairs checked again, with a list buffer that is just long enough, or
    /// too short by a byte or more, or of any other length.
    fn recheck(&mut self) -> Operation {
        self.recheck = false;
        if self.decided && self.dice.one_in(2) {
            return self.recheck_decided();
        }
        let needed = match self.calls.run(&Operation::Recheck(MOST_LIST)) {
            Some(After { call: Call::Recheck { told, .. }, .. }) => told.written,
            _ => 0,
        };
        Operation::Recheck(self.list_length(needed, PAIR_BYTES, MOST_LIST))
    }

    fn recheck_decided(&mut self) -> Operation {
        let needed = match self.calls.run(&Operation::RecheckDecided(MOST_DECIDED_LIST)) {
            Some(After { call: Call::RecheckDecided { told, .. }, .. }) => told.written,
            _ => 0,
        };
        let length = self.list_length(needed, DECIDED_PAIR_BYTES, MOST_DECIDED_LIST);
        Operation::RecheckDecided(length)
    }

    fn list_length(&mut self, needed: usize, pair: usize, most: usize) -> usize {
        let length = match self.dice.below(12) {
            0..=3 => needed,
            4 | 5 => needed.saturating_sub(1),
            6 => needed.saturating_sub(self.dice.between(2, pair)),
            7 => self.dice.below(needed + 1),
            8 => 0,
            9 | 10 => needed + self.dice.between(1, 2 * pair),
            _ => self.dice.pick(&[3, 100, 1_000, most - 1, most]),
        };
        length.min(most)
    }

    /// A pair and the room in which a certain search decides it, or one less: the
    /// second rule added to the first one, or both checked again.
    fn decided_later(&mut self) {
        let (rules, room) =
            if self.dice.one_in(8) { self.side_above_48() } else { decided::two_rules(self.dice) };
        let mut rules = rules.to_vec();
        // Now and then another rule has a number before them, or between.
        if self.dice.one_in(3) {
            let first = self.dice.between(39, 42);
            let at = self.dice.below(2);
            rules.insert(at, write::rule(&[], &label(self.dice, first)));
        }
        let length = super::work_length(self.dice, room) as usize;
        self.make(Operation::Work(length.min(MOST_WORK)));
        let all = rules.concat();
        let operation = if self.dice.one_in(3) {
            let mut with_zeros = self.with_zeros(all);
            let dropped = self.strays && self.dice.one_in(2);
            if dropped {
                with_zeros = self.with_strays(with_zeros);
            }
            self.make(with_zeros);
            if dropped {
                self.make(Operation::Drop);
            }
            self.recheck_decided()
        } else {
            let new = rules.pop().expect("two rules at least");
            let length = all.len() + self.dice.pick(&[0, 0, 1, 40]);
            self.make(Operation::Catalogue { length, front: rules.concat() });
            self.soon = vec![new.clone()];
            Operation::AddDecided(new)
        };
        self.make(operation);
        self.left = self.dice.below(3);
    }

    /// The catalogue carried over, now and then twice, and often checked again.
    fn carry(&mut self) -> Operation {
        self.carry = self.dice.one_in(5);
        self.recheck = self.recheck || self.dice.one_in(3);
        Operation::Carry
    }

    /// Rules that have no or few patterns left, and a buffer around the length
    /// that they need once they are carried over.
    fn for_carrying_over(&mut self) -> Operation {
        let number = match self.dice.below(6) {
            0 => self.dice.between(MOST_RULES - 1, MOST_RULES),
            _ => self.dice.between(1, 5),
        };
        if number > 5 {
            self.style = Style::Labels;
        }
        let mut rules = self.rules(number);
        for rule in &mut rules {
            *rule = self.with_fewer_patterns(rule);
        }
        let front = rules.concat();
        let spelt = rules.iter().map(|rule| spell_open::rule_by(Reading::Old, rule));
        let needed: usize = spelt.map(|spelt| spelt.map_or(0, |new| new.len())).sum();
        let length = match self.dice.below(8) {
            0 | 1 => needed,
            2 | 3 => needed - 1,
            4 => front.len(),
            5 => needed.saturating_sub(8),
            _ => needed + self.dice.between(1, 60),
        };
        Operation::Catalogue { length: length.clamp(front.len(), MOST_CATALOGUE), front }
    }

    /// A good rule with some of its patterns left out; one that has no field
    /// gets one at its end, often.
    fn with_fewer_patterns(&mut self, rule: &[u8]) -> Vec<u8> {
        let mut kept = RULE.to_vec();
        let mut rest = &rule[RULE.len()..];
        let keep = self.dice.pick(&[2, 3, 20]);
        while rest.starts_with(PATTERN) {
            let (record, behind) = rest.split_at(4 + usize::from(rest[3]));
            if self.dice.one_in(keep) {
                kept.extend_from_slice(record);
            }
            rest = behind;
        }
        let mut tokens = rest[3..].to_vec();
        if tokens.iter().all(|&token| token < write::field(0)) && !self.dice.one_in(3) {
            tokens.truncate(MOST_SIDE - 1);
            tokens.push(write::field(self.dice.below(RULE_FIELDS) as u8));
        }
        kept.extend(write_out(&[Record::side(LEFT, tokens)]));
        kept
    }

    /// The bytes of the rules in the catalogue, if it is of the form.
    fn present(&self) -> Vec<Vec<u8>> {
        let present = read_by(Reading::Old, &self.calls.catalogue).unwrap_or_default();
        present.into_iter().map(|rule| self.calls.catalogue[rule.bytes].to_vec()).collect()
    }

    fn withdrawal(&mut self) -> Operation {
        let present = self.present();
        let number = match self.dice.below(10) {
            0 | 1 => 0,
            2 | 3 => present.len().saturating_sub(1),
            4 => present.len(),
            5 => self.dice.pick(&[31, 32, 33, 128, 255]),
            _ => self.dice.below(present.len().max(1)),
        };
        if let Some(rule) = present.get(number) {
            self.soon.push(rule.clone());
        }
        Operation::Withdraw(number as u8)
    }

    /// The same catalogue in a buffer that is just long enough for the next
    /// rule, or one byte too short, or has no byte left.
    fn just_long_enough(&mut self) -> Operation {
        let front = self.present().concat();
        let rule = self.good_rule();
        let missing = self.dice.pick(&[0, 0, 1, 1, rule.len()]);
        let length = front.len() + rule.len() - missing;
        if length <= MOST_CATALOGUE {
            self.make(Operation::Catalogue { length, front });
            self.left = self.dice.below(3);
        }
        Operation::Add(rule)
    }

    // ------------------------------------------------------ lent buffers

    fn other_work(&mut self) {
        let room = match self.dice.below(20) {
            0 => 0,
            1 => 1,
            2..=4 => self.dice.between(2, 12),
            5..=9 => self.dice.between(13, 120),
            _ => 356,
        };
        let length = super::work_length(self.dice, room) as usize;
        self.make(Operation::Work(length.min(MOST_WORK)));
    }

    fn other_catalogue(&mut self) {
        self.left = self.dice.between(4, 24);
        self.soon.clear();
        self.carry = false;
        self.style = match self.dice.below(8) {
            0..=3 => {
                let prefixes = self.dice.between(1, 4);
                Style::Storeroom((0..prefixes).map(|_| self.dice.pick(&PREFIXES)).collect())
            }
            4..=6 => Style::Small(alphabet(self.dice)),
            _ => Style::Labels,
        };
        let operation = match self.dice.below(17) {
            0..=5 => Operation::Catalogue { length: self.any_length(), front: Vec::new() },
            6..=8 => {
                let rules = if self.dice.one_in(30) { 20 } else { self.dice.between(1, 5) };
                let front = self.rules(rules).concat();
                self.recheck = self.dice.one_in(4);
                self.with_zeros(front)
            }
            9 => {
                self.carry = self.dice.one_in(4);
                self.full()
            }
            10 | 11 => {
                self.left = self.dice.between(1, 5);
                let front = self.damaged_catalogue();
                self.carry = self.dice.one_in(4);
                self.with_zeros(front)
            }
            12..=14 => {
                self.left = self.dice.between(2, 6);
                self.carry = true;
                self.for_carrying_over()
            }
            _ => {
                self.left = self.dice.between(1, 5);
                let front = self.clashing_rules().concat();
                self.recheck = true;
                self.carry = self.dice.one_in(4);
                self.with_zeros(front)
            }
        };
        if matches!(operation, Operation::Catalogue { length: 0..60, .. }) {
            self.left = self.dice.between(1, 4);
        }
        let operation = match operation {
            other if self.strays && self.dice.one_in(2) => self.with_strays(other),
            other => other,
        };
        self.make(operation);
        self.other_work();
    }

    fn any_length(&mut self) -> usize {
        match self.dice.below(12) {
            0 => 0,
            1 => self.dice.below(40),
            2 => MOST_CATALOGUE,
            3 | 4 => self.dice.between(60, 300),
            _ => self.dice.between(300, 700),
        }
    }

    /// A catalogue with these bytes in front and some zeros behind.
    fn with_zeros(&mut self, front: Vec<u8>) -> Operation {
        let zeros = match self.dice.below(6) {
            0 => 0,
            1 => self.dice.below(12),
            2 => self.dice.between(12, 60),
            _ => self.dice.between(60, 400),
        };
        Operation::Catalogue { length: front.len() + zeros, front }
    }

    /// So many good rules, as if they had been entered; their pairs are not
    /// searched.
    fn rules(&mut self, number: usize) -> Vec<Vec<u8>> {
        let mut rules = Vec::new();
        while rules.len() < number {
            let rule = self.good_rule();
            // A big pattern of the small style may have too many leaves. Not
            // too long, so that 20 of them fit.
            if read_by(Reading::Old, &rule).is_some() && rule.len() <= 200 {
                rules.push(rule);
            }
        }
        rules
    }

    /// Rules of a few labels with spaces or a field at the end and uneven ones,
    /// so that many pairs clash; now and then as many rules as there can be.
    fn clashing_rules(&mut self) -> Vec<Vec<u8>> {
        self.style = Style::Labels;
        let number = match self.dice.below(10) {
            0 => self.dice.between(MOST_RULES - 2, MOST_RULES),
            1 | 2 => self.dice.between(8, 20),
            _ => self.dice.between(2, 7),
        };
        let labels: Vec<Vec<u8>> = (0..self.dice.pick(&[1, 2, 2, 3, 8]))
            .map(|_| {
                let first = self.dice.below(CHARACTERS.into());
                label(self.dice, first)
            })
            .collect();
        let mut rules = Vec::new();
        // The search of an uneven one may be long.
        let few = if number < 8 { 5 } else { 30 };
        while rules.len() < number {
            if self.dice.one_in(few) {
                rules.extend(uneven(self.dice).map(|records| rule_of(&records)));
            } else {
                let label = &labels[self.dice.below(labels.len())];
                rules.push(with_an_end(self.dice, label));
            }
        }
        rules.truncate(number);
        rules
    }

    /// 30 to 32 short rules.
    fn full(&mut self) -> Operation {
        self.style = Style::Labels;
        let number = self.dice.between(MOST_RULES - 2, MOST_RULES);
        let front = labels(self.dice, number).concat();
        self.with_zeros(front)
    }

    /// Bytes that are not of a catalogue's form, most of them nearly so.
    fn damaged_catalogue(&mut self) -> Vec<u8> {
        let number = self.dice.between(1, 4);
        let mut rules = self.rules(number);
        let at = self.dice.below(number);
        match self.dice.below(9) {
            // a byte changed
            0 | 1 => {
                let mut front = rules.concat();
                let at = self.dice.below(front.len());
                let near = front[at].wrapping_add(self.dice.pick(&[1, 255]));
                let any = self.dice.byte();
                front[at] = self.dice.pick(&[near, any, 0]);
                front
            }
            // a record cut off, with or without zeros behind it
            2 => {
                let mut front = rules.concat();
                let last = rules[number - 1].len();
                front.truncate(front.len() - self.dice.between(1, last - 1));
                front
            }
            // a byte behind the zeros, or zeros before a record
            3 => {
                let mut front = rules.concat();
                front.resize(front.len() + self.dice.between(1, 30), 0);
                front.push(self.dice.pick(&[1, 82, 255]));
                front
            }
            4 => {
                rules[at].insert(0, 0);
                rules.concat()
            }
            // 33 records
            5 => labels(self.dice, MOST_RULES + 1).concat(),
            // a record with a field above 3
            6 => {
                rules[at] = self.with_field_above_3();
                rules.concat()
            }
            7 => {
                rules[at] = self.damaged_rule();
                rules.concat()
            }
            _ => random_bytes(self.dice),
        }
    }

    // ------------------------------------------------------------- rules

    /// What comes to be added.
    fn any_rule(&mut self) -> Vec<u8> {
        if self.dice.one_in(3) {
            return self.soon.pop().unwrap_or_else(|| self.good_rule());
        }
        match self.dice.below(22) {
            0..=7 => self.damaged_rule(),
            8 => self.with_field_above_3(),
            9 => {
                let front = self.dice.pick(&[&b""[..], RULE]).to_vec();
                [front, random_bytes(self.dice)].concat()
            }
            10 => {
                // A byte changed in a good rule.
                let mut rule = self.good_rule();
                let at = self.dice.below(rule.len());
                rule[at] = rule[at].wrapping_add(self.dice.pick(&[1, 2, 64, 254, 255]));
                rule
            }
            11..=13 => self.like_a_present_one(),
            _ => self.good_rule(),
        }
    }

    /// A rule that stands, or one with other spaces at its end, or its side
    /// alone, no field with a pattern.
    fn like_a_present_one(&mut self) -> Vec<u8> {
        let present = self.present();
        if present.is_empty() {
            return self.good_rule();
        }
        let rule = &present[self.dice.below(present.len())];
        let mut side = &rule[RULE.len()..];
        while side.starts_with(PATTERN) {
            side = &side[4 + usize::from(side[3])..];
        }
        match self.dice.below(3) {
            0 => rule.clone(),
            1 => [RULE, side].concat(),
            _ => {
                let before = &rule[..rule.len() - side.len()];
                let mut tokens = side[3..].to_vec();
                spaces::drop(&mut tokens);
                tokens.extend(vec![SPACE; self.dice.below(4)]);
                tokens.truncate(MOST_SIDE);
                [before, &write_out(&[Record::side(LEFT, tokens)])].concat()
            }
        }
    }

    /// A good rule in the catalogue's style.
    fn good_rule(&mut self) -> Vec<u8> {
        let records = self.good_records();
        rule_of(&records)
    }

    fn good_records(&mut self) -> Vec<Record> {
        let mut records = self.records_in_style();
        if self.strays && self.dice.one_in(4) {
            let most = if self.dice.one_in(8) { FIELDS } else { RULE_FIELDS };
            strays::add(self.dice, 1, 0..most as u8, &mut records);
        }
        records
    }

    fn records_in_style(&mut self) -> Vec<Record> {
        match &self.style {
            Style::Storeroom(prefixes) => as_in_a_storeroom(self.dice, prefixes),
            Style::Small(alphabet) => {
                let [rule, other] = match self.dice.below(8) {
                    0 | 1 => uneven(self.dice),
                    _ => two_small(self.dice, alphabet),
                };
                self.soon.push(rule_of(&other));
                rule
            }
            Style::Labels => {
                let first = self.dice.below(CHARACTERS.into());
                vec![Record::side(LEFT, label(self.dice, first))]
            }
        }
    }

    fn damaged_rule(&mut self) -> Vec<u8> {
        let mut records = self.good_records();
        if self.dice.one_in(500) {
            // Very long.
            let mut rule = rule_of(&records);
            rule.resize(self.dice.pick(&[1_024, 8_193, 65_535]), 0);
            return rule;
        }
        if self.dice.one_in(10) {
            // A pattern of 63 leaves, or of more, in place of one, before all or
            // behind them.
            let big = big_pattern(self.dice, &[0, 10]);
            let at = self.dice.below(records.len());
            match records[at].field {
                Some(field) => records[at] = Record::pattern(field, big),
                None => {
                    let field = self.dice.pick(&[0, RULE_FIELDS as u8 - 1]);
                    records.retain(|record| record.field != Some(field));
                    let at = if field == 0 { 0 } else { records.len() - 1 };
                    records.insert(at, Record::pattern(field, big));
                }
            }
            return rule_of(&records);
        }
        let mark = match self.dice.below(32) {
            0 => *self.dice.pick(&[b"UR", b"RI", b"PA", b"LE", b"ru", b"\0\0"]),
            1 => [RULE[0], self.dice.byte()],
            _ => *RULE,
        };
        damaged(self.dice, &mark, 1, records)
    }

    /// A good rule but for a field above 3 in a pattern, in the side or in both.
    fn with_field_above_3(&mut self) -> Vec<u8> {
        let mut records = self.good_records();
        let mut side = records.pop().expect("a rule's last record is its side").body;
        let field = self.dice.between(RULE_FIELDS, FIELDS - 1) as u8;
        let in_pattern = self.dice.one_in(2);
        if in_pattern {
            records.push(Record::pattern(field, vec![68, 65, 0, 9]));
        }
        if !in_pattern || self.dice.one_in(2) {
            let at = self.dice.below(side.len() + 1);
            side.insert(at, write::field(field));
            side.truncate(24);
            side[at.min(23)] = write::field(field);
        }
        records.push(Record::side(LEFT, side));
        rule_of(&records)
    }
}

fn rule_of(records: &[Record]) -> Vec<u8> {
    [RULE, &write_out(records)[..]].concat()
}

/// Two small rules; often there is a label that both can make.
fn two_small(dice: &mut Dice, alphabet: &[u8]) -> [Vec<Record>; 2] {
    let fields = some_fields(dice, RULE_FIELDS as u8);
    let (left, right, texts) =
        if dice.one_in(8) { strip(dice, alphabet) } else { sides(dice, alphabet, &fields) };
    // Most begin with a character, so that they clash with few others.
    let front = (!dice.one_in(4)).then(|| dice.below(CHARACTERS.into()) as u8);
    [left, right].map(|mut side| {
        side.splice(0..0, front);
        side.truncate(24);
        let mut records = patterns(dice, alphabet, 0..RULE_FIELDS as u8, &side, &texts);
        records.push(Record::side(LEFT, side));
        records
    })
}

/// Two rules with a label in common; the search counts otherwise where the two
/// sides are exchanged.
fn uneven(dice: &mut Dice) -> [Vec<Record>; 2] {
    let c = dice.below(usize::from(CHARACTERS) - 1) as u8;
    let d = c + 1;
    let (x, y) = (write::field(0), write::field(1));
    let twice_c = row(vec![vec![c]; 2]);
    let maybe = |part: Vec<u8>| choice(vec![vec![64], part]);
    let spaces = || many(vec![SPACE]);
    let mut two = match dice.below(3) {
        0 => [records(&[(0, maybe(vec![c]))], &[x]), records(&[(1, spaces())], &[y, c, y])],
        1 => [
            records(&[(0, maybe(twice_c)), (1, many(vec![c]))], &[x, y]),
            records(&[(0, spaces())], &[x, x, c]),
        ],
        _ => [records(&[(1, many(vec![c]))], &[c, y, d]), records(&[], &[x, x, d])],
    };
    dice.shuffle(&mut two);
    two
}

fn records(patterns: &[(u8, Vec<u8>)], side: &[u8]) -> Vec<Record> {
    let patterns = patterns.iter().map(|(field, body)| Record::pattern(*field, body.clone()));
    patterns.chain([Record::side(LEFT, side.to_vec())]).collect()
}

/// A field standing many times, and one that ends otherwise than it can.
fn strip(dice: &mut Dice, alphabet: &[u8]) -> Sides {
    let times = dice.between(8, 24);
    let mut other = vec![write::field(0)];
    other.extend((0..dice.between(1, 2)).map(|_| dice.pick(alphabet)));
    other.push(dice.below(CHARACTERS.into()) as u8);
    (vec![write::field(0); times], other, Vec::new())
}

/// A prefix, then digits, sizes, finishes or hands, now and then one of them
/// twice or any text but the empty one.
fn as_in_a_storeroom(dice: &mut Dice, prefixes: &[&str]) -> Vec<Record> {
    let mut fields: Vec<u8> = (0..RULE_FIELDS as u8).collect();
    if dice.one_in(3) {
        dice.shuffle(&mut fields);
    }
    fields.truncate(dice.pick(&[0, 1, 1, 1, 2, 2, 2, 3, 4]));
    let mut side = tokens(dice.pick(prefixes));
    let mut patterns = Vec::new();
    for field in fields {
        let times = if dice.one_in(8) { 2 } else { 1 };
        for _ in 0..times {
            if dice.one_in(4) {
                side.extend(tokens(dice.pick(&["-", "/", ".", " "])));
            }
            side.push(write::field(field));
        }
        patterns.extend(storeroom_pattern(dice).map(|pattern| Record::pattern(field, pattern)));
    }
    if dice.one_in(5) {
        side.extend(tokens(dice.pick(&["L", "R", "BR", "SS", "0", "-1"])));
    }
    if dice.one_in(6) {
        side.extend(vec![SPACE; dice.between(1, 2)]);
    }
    patterns.sort_by_key(|record| record.field);
    patterns.push(Record::side(LEFT, side));
    patterns
}

/// None for a field without a pattern.
fn storeroom_pattern(dice: &mut Dice) -> Option<Vec<u8>> {
    let digit = || vec![65, 0, 9];
    let mut some = |texts: &[&str], most: usize| {
        let mut texts: Vec<Vec<u8>> = texts.iter().map(|text| write::text(text)).collect();
        dice.shuffle(&mut texts);
        texts.truncate(dice.between(1, most));
        choice(texts)
    };
    let sizes = some(&["40", "45", "57", "60"], 3);
    let finishes = some(&["BR", "CH", "SS", "PB", "SC", "BK", "WH", "AB"], 5);
    let hands = some(&["L", "R"], 2);
    let filled_up = some(&["L   ", "LH  ", "R   ", "RH  ", "    "], 4);
    if dice.one_in(40) {
        return Some(by_first_letter(&FINISHES));
    }
    match dice.below(18) {
        0..=3 => Some(row(vec![digit(); dice.between(1, 3)])),
        4 => Some(many(digit())),
        5 | 6 => Some(row(vec![digit(), many(digit())])),
        7 | 8 => Some(sizes),
        9..=12 => Some(finishes),
        13 => Some(hands),
        14 => Some(many(vec![65, 10, 35])),
        15 | 16 => Some(filled_up),
        _ => None,
    }
}

/// So many rules of one label each, no two of which begin with the same
/// character.
fn labels(dice: &mut Dice, number: usize) -> Vec<Vec<u8>> {
    let first = dice.below(CHARACTERS.into());
    (first..first + number).map(|first| write::rule(&[], &label(dice, first))).collect()
}

/// A label of one or two characters, now and then with spaces behind them.
fn label(dice: &mut Dice, first: usize) -> Vec<u8> {
    let mut label = vec![(first % usize::from(CHARACTERS)) as u8];
    if dice.one_in(2) {
        label.push(dice.pick(&[0, 10]));
    }
    label.extend(vec![SPACE; dice.pick(&[0, 0, 0, 0, 1, 2])]);
    label
}

/// The rule of a label with spaces behind it, or with a field.
fn with_an_end(dice: &mut Dice, label: &[u8]) -> Vec<u8> {
    let field = dice.below(RULE_FIELDS) as u8;
    let then = |tokens: &[u8]| [label, tokens].concat();
    let token = write::field(field);
    match dice.below(12) {
        0 => write::rule(&[(field, many(vec![SPACE]))], &then(&[token])),
        1 => write::rule(&[(field, many(vec![65, 36, SPACE]))], &then(&[token])),
        2 => write::rule(&[(field, vec![65, 0, 42])], &then(&[token, SPACE])),
        3 => write::rule(&[(field, row(vec![vec![SPACE]; 2]))], &then(&[SPACE, token, token])),
        4 => write::rule(&[], &then(&[token])),
        5 => write::rule(&[], &then(&[dice.pick(&[0, 10, 39])])),
        // One field many times: a side above 48 tokens.
        6 => write::rule(&[], &then(&[token; 20])),
        _ => write::rule(&[], &then(&vec![SPACE; dice.pick(&[0, 0, 1, 1, 2, 3, 20])])),
    }
}
