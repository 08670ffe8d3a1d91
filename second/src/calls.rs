//! Streams of operations on a catalogue, for comparing programs.
//!
//! Numbers have their low byte first. An operation is one of
//!
//! | Mark | Then | Meaning |
//! |---|---|---|
//! | `AD` | length n in two bytes, n bytes | add this rule |
//! | `WI` | one byte | withdraw the rule with this number |
//! | `CA` | length b in two bytes, length n in two bytes, n bytes | from now on the catalogue is a buffer of b bytes that begins with these n, the rest zeros |
//! | `WO` | length in four bytes | from now on so many bytes of work are lent to each `AD`, `AE`, `RE` and `RD` |
//! | `RE` | length in two bytes | check the pairs again, with a list buffer of so many bytes |
//! | `AE` | length n in two bytes, n bytes | add this rule, each pair decided |
//! | `RD` | length in two bytes | check the pairs again, each decided, with a list buffer of so many bytes |
//! | `SO` | | carry the catalogue over: the old meaning of fields without a pattern is written out |
//! | `DS` | | drop the stray patterns of the catalogue's rules |

use crate::cases::{push_each, push_work, WORK_FILL};
use crate::catalogue::{add_by, once, recheck_by, recheck_decided_by, withdraw_by};
use crate::catalogue::{Added, AddedDecided, Ask, DecidedPair, Pair, Rechecked, Searcher};
use crate::catalogue::{DECIDED_PAIR_BYTES, DONE, PAIR_BYTES};
use crate::sheet::Reading;
use crate::{decide, drop_strays, spell_open};

/// The catalogue's length at the start, and the greatest.
pub const MOST_CATALOGUE: usize = 8_192;
/// The bytes of work at the start: 356 situations.
pub const WORK: usize = 65_520;
/// The most bytes of work: still 356 situations.
pub const MOST_WORK: usize = 65_687;
/// The greatest length of a list buffer: more than enough for the 496 pairs of
/// 32 rules.
pub const MOST_LIST: usize = 2_560;
/// The same where pairs are decided: 3,472 bytes are always enough.
pub const MOST_DECIDED_LIST: usize = 3_584;
/// Each byte of a list buffer before the call.
pub const LIST_FILL: u8 = 165;

#[derive(Clone, Debug, PartialEq, Eq)]
pub enum Operation {
    Add(Vec<u8>),
    Withdraw(u8),
    Catalogue { length: usize, front: Vec<u8> },
    Work(usize),
    Recheck(usize),
    Carry,
    AddDecided(Vec<u8>),
    RecheckDecided(usize),
    Drop,
}

impl Operation {
    /// Reads an operation from the front of a stream and hands back the rest;
    /// none where the operation is cut short, has another mark or asks for
    /// more than is allowed.
    pub fn read(stream: &[u8]) -> Option<(Operation, &[u8])> {
        let (mark, rest) = stream.split_at_checked(2)?;
        match mark {
            b"AD" => {
                let (rule, rest) = bytes(rest)?;
                Some((Operation::Add(rule), rest))
            }
            b"AE" => {
                let (rule, rest) = bytes(rest)?;
                Some((Operation::AddDecided(rule), rest))
            }
            b"WI" => {
                let (&number, rest) = rest.split_first()?;
                Some((Operation::Withdraw(number), rest))
            }
            b"CA" => {
                let (length, rest) = number(rest, 2)?;
                let (front_length, rest) = number(rest, 2)?;
                if length > MOST_CATALOGUE || front_length > length {
                    return None;
                }
                let (front, rest) = rest.split_at_checked(front_length)?;
                Some((Operation::Catalogue { length, front: front.to_vec() }, rest))
            }
            b"WO" => {
                let (length, rest) = number(rest, 4)?;
                (length <= MOST_WORK).then_some((Operation::Work(length), rest))
            }
            b"RE" => {
                let (length, rest) = number(rest, 2)?;
                (length <= MOST_LIST).then_some((Operation::Recheck(length), rest))
            }
            b"RD" => {
                let (length, rest) = number(rest, 2)?;
                let allowed = length <= MOST_DECIDED_LIST;
                allowed.then_some((Operation::RecheckDecided(length), rest))
            }
            b"SO" => Some((Operation::Carry, rest)),
            b"DS" => Some((Operation::Drop, rest)),
            _ => None,
        }
    }

    /// Writes the operation behind the stream.
    pub fn write(&self, stream: &mut Vec<u8>) {
        match self {
            Operation::Add(rule) | Operation::AddDecided(rule) => {
                let decided = matches!(self, Operation::AddDecided(_));
                stream.extend_from_slice(if decided { b"AE" } else { b"AD" });
                stream.extend_from_slice(&(rule.len() as u16).to_le_bytes());
                stream.extend_from_slice(rule);
            }
            Operation::Withdraw(number) => {
                stream.extend_from_slice(b"WI");
                stream.push(*number);
            }
            Operation::Catalogue { length, front } => {
                stream.extend_from_slice(b"CA");
                stream.extend_from_slice(&(*length as u16).to_le_bytes());
                stream.extend_from_slice(&(front.len() as u16).to_le_bytes());
                stream.extend_from_slice(front);
            }
            Operation::Work(length) => {
                stream.extend_from_slice(b"WO");
                stream.extend_from_slice(&(*length as u32).to_le_bytes());
            }
            Operation::Recheck(length) | Operation::RecheckDecided(length) => {
                let decided = matches!(self, Operation::RecheckDecided(_));
                stream.extend_from_slice(if decided { b"RD" } else { b"RE" });
                stream.extend_from_slice(&(*length as u16).to_le_bytes());
            }
            Operation::Carry => stream.extend_from_slice(b"SO"),
            Operation::Drop => stream.extend_from_slice(b"DS"),
        }
    }
}

/// A number of so many bytes, low byte first, and the rest of the stream.
fn number(stream: &[u8], bytes: usize) -> Option<(usize, &[u8])> {
    let (number, rest) = stream.split_at_checked(bytes)?;
    Some((number.iter().rev().fold(0, |high, &byte| 256 * high + usize::from(byte)), rest))
}

/// A length in two bytes and so many bytes, and the rest of the stream.
fn bytes(stream: &[u8]) -> Option<(Vec<u8>, &[u8])> {
    let (length, rest) = number(stream, 2)?;
    let (bytes, rest) = rest.split_at_checked(length)?;
    Some((bytes.to_vec(), rest))
}

/// The catalogue and the bytes of work that are lent.
pub struct Calls {
    pub catalogue: Vec<u8>,
    work: usize,
    search: Searcher,
    reading: Reading,
}

/// What a call told, and what the lent buffers hold afterwards.
#[derive(Clone, Debug, PartialEq, Eq)]
pub struct After {
    pub call: Call,
    pub catalogue: Vec<u8>,
}

#[derive(Clone, Debug, PartialEq, Eq)]
pub enum Call {
    Add { told: Added, work: Vec<u8> },
    Withdraw { number: u8 },
    Recheck { told: Rechecked, list: Vec<u8>, work: Vec<u8> },
    Carry { number: u8 },
    AddDecided { told: AddedDecided, work: Vec<u8> },
    RecheckDecided { told: Rechecked, list: Vec<u8>, work: Vec<u8> },
    Drop { number: u8 },
}

impl Calls {
    /// "At the start the catalogue is 8192 zero bytes and 65520 bytes of work
    /// are lent."
    pub fn new(search: Searcher) -> Calls {
        Calls::by(Reading::New, search)
    }

    /// The same with stray patterns by this rule.
    pub fn by(reading: Reading, search: Searcher) -> Calls {
        Calls { catalogue: vec![0; MOST_CATALOGUE], work: WORK, search, reading }
    }

    /// Does one operation; `CA` and `WO` tell nothing.
    pub fn run(&mut self, operation: &Operation) -> Option<After> {
        let call = match operation {
            Operation::Add(rule) => {
                let (told, work) = self.add(rule, once);
                Call::Add { told: told.added, work }
            }
            Operation::Withdraw(number) => {
                let number = usize::from(*number);
                Call::Withdraw { number: withdraw_by(self.reading, &mut self.catalogue, number) }
            }
            Operation::Catalogue { length, front } => {
                self.catalogue = front.clone();
                self.catalogue.resize(*length, 0);
                return None;
            }
            Operation::Work(length) => {
                self.work = *length;
                return None;
            }
            Operation::Recheck(length) => {
                let mut list = vec![LIST_FILL; *length];
                let mut work = vec![WORK_FILL; self.work];
                let (reading, search) = (self.reading, self.search);
                let told = recheck_by(reading, &self.catalogue, &mut work, &mut list, search);
                Call::Recheck { told, list, work }
            }
            Operation::Carry => {
                let number = spell_open::catalogue_by(self.reading, &mut self.catalogue);
                Call::Carry { number }
            }
            Operation::AddDecided(rule) => {
                let (told, work) = self.add(rule, decide::pair);
                Call::AddDecided { told, work }
            }
            Operation::RecheckDecided(length) => {
                let mut list = vec![LIST_FILL; *length];
                let mut work = vec![WORK_FILL; self.work];
                let (reading, search) = (self.reading, self.search);
                let told =
                    recheck_decided_by(reading, &self.catalogue, &mut work, &mut list, search);
                Call::RecheckDecided { told, list, work }
            }
            Operation::Drop => Call::Drop { number: drop_strays::catalogue(&mut self.catalogue) },
        };
        Some(After { call, catalogue: self.catalogue.clone() })
    }

    /// Adds a rule, each pair asked so: what is told, and the working buffer.
    fn add(&mut self, rule: &[u8], ask: Ask) -> (AddedDecided, Vec<u8>) {
        let mut work = vec![WORK_FILL; self.work];
        let (reading, search) = (self.reading, self.search);
        let told = add_by(reading, &mut self.catalogue, rule, &mut work, search, ask);
        (told, work)
    }
}

impl After {
    /// What the program `catalogue` prints: a line, and for a recheck one more
    /// for each pair listed.
    pub fn numbers(&self) -> String {
        let mut lines = self.told();
        match &self.call {
            Call::Recheck { told: Rechecked { number: DONE, written, .. }, list, .. } => {
                let (pairs, _) = list[..*written].as_chunks::<PAIR_BYTES>();
                for &pair in pairs {
                    let Pair { lower, higher, answer, count } = Pair::of_bytes(pair);
                    lines += &format!("\npair {lower} {higher} {answer} {count}");
                }
            }
            Call::RecheckDecided {
                told: Rechecked { number: DONE, written, .. }, list, ..
            } => {
                let (pairs, _) = list[..*written].as_chunks::<DECIDED_PAIR_BYTES>();
                for &pair in pairs {
                    let DecidedPair { lower, higher, answer, count, search } =
                        DecidedPair::of_bytes(pair);
                    lines += &format!("\npair {lower} {higher} {answer} {count} {search}");
                }
            }
            _ => {}
        }
        lines
    }

    /// What is told beside the buffers.
    fn told(&self) -> String {
        match &self.call {
            Call::Add { told: Added { number, count, place, rule, pair }, .. } => {
                format!("add {number} {count} {place} {rule} {pair}")
            }
            Call::Withdraw { number } => format!("withdraw {number}"),
            Call::Recheck { told: Rechecked { number, pairs, written }, .. } => {
                format!("recheck {number} {pairs} {written}")
            }
            Call::Carry { number } => format!("carry {number}"),
            Call::Drop { number } => format!("drop {number}"),
            Call::AddDecided { told: AddedDecided { added, search }, .. } => {
                let Added { number, count, place, rule, pair } = added;
                format!("add_decided {number} {count} {place} {rule} {pair} {search}")
            }
            Call::RecheckDecided { told: Rechecked { number, pairs, written }, .. } => {
                format!("recheck_decided {number} {pairs} {written}")
            }
        }
    }

    /// What the program `catalogue` prints after `SH`: every byte of the lent
    /// buffers too.
    pub fn line(&self) -> String {
        let mut line = self.told();
        if let Call::Recheck { list, .. } | Call::RecheckDecided { list, .. } = &self.call {
            push_buffer(&mut line, "list", list);
        }
        push_buffer(&mut line, "catalogue", &self.catalogue);
        match &self.call {
            Call::Add { work, .. }
            | Call::Recheck { work, .. }
            | Call::AddDecided { work, .. }
            | Call::RecheckDecided { work, .. } => push_work(&mut line, work),
            Call::Withdraw { .. } | Call::Carry { .. } | Call::Drop { .. } => {}
        }
        line
    }
}

/// Each byte of a buffer but the zeros at its end, which are counted.
fn push_buffer(line: &mut String, name: &str, buffer: &[u8]) {
    let last = buffer.iter().rposition(|&byte| byte != 0);
    let (front, zeros) = buffer.split_at(last.map_or(0, |last| last + 1));
    *line += &format!(", {name}");
    push_each(line, front);
    *line += &format!(", zeros {}", zeros.len());
}
