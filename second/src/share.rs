//! Of the rules that clash with no rule present, how many are refused all the
//! same, because a pair is given up?

use crate::calls::WORK;
use crate::catalogue::{add, add_decided, question, read, Rule};
use crate::catalogue::{Present, Searcher, DONE, HASHING, MOST_RULES, PAIR_NOT_1};
use crate::{decide, CLASH, MOST_ROOM, NO_CLASH, SITUATION_BYTES};

/// The longest rule has so many bytes.
const RULE_BYTES: usize = 813;

/// How a way to add fared.
#[derive(Clone, Copy, Debug, Default, PartialEq, Eq)]
pub struct Share {
    /// The rules that were to be added.
    pub tried: usize,
    pub entered: usize,
    /// Refused, and a label clashes.
    pub clashing: usize,
    /// Refused, and none does.
    pub apart: usize,
    /// Refused, and in the large room it is not decided either.
    pub not_known: usize,
}

/// Adds the rules in their order, each pair decided or searched once, in the
/// program's room. Where 32 stand, the next catalogue is begun.
pub fn share(rules: &[Vec<u8>], decided: bool) -> Share {
    let mut share = Share::default();
    let mut catalogue = vec![0; MOST_RULES * RULE_BYTES];
    let mut stand = 0;
    for rule in rules {
        if stand == MOST_RULES {
            catalogue.fill(0);
            stand = 0;
        }
        let told = added(&mut catalogue, rule, decided, HASHING);
        share.tried += 1;
        match told {
            (DONE, _) => {
                share.entered += 1;
                stand += 1;
            }
            (PAIR_NOT_1, first) => match in_large_room(&catalogue, rule, first) {
                CLASH => share.clashing += 1,
                NO_CLASH => share.apart += 1,
                _ => share.not_known += 1,
            },
            (number, _) => panic!("a good rule is refused with {number}"),
        }
    }
    share
}

/// The answer's number, and with 30 the rule told.
fn added(catalogue: &mut [u8], rule: &[u8], decided: bool, search: Searcher) -> (u8, usize) {
    let mut work = vec![0; WORK];
    let told = if decided {
        add_decided(catalogue, rule, &mut work, search).added
    } else {
        add(catalogue, rule, &mut work, search)
    };
    (told.number, told.rule)
}

/// Whether the rule clashes with one present, this one or a later one, as
/// deciding says in room for 65,535 situations: clash if one does, no clash if
/// none does.
fn in_large_room(catalogue: &[u8], rule: &[u8], first: usize) -> u8 {
    let present = read(catalogue).expect("a catalogue");
    let new = Rule::read_own(rule).expect("a good rule");
    let mut work = vec![0; MOST_ROOM * SITUATION_BYTES];
    let mut all = NO_CLASH;
    for Present { rule, .. } in &present[first..] {
        match decide::pair(&question(rule, &new), &mut work, HASHING).answer {
            CLASH => return CLASH,
            NO_CLASH => {}
            given_up => all = given_up,
        }
    }
    all
}

impl Share {
    /// Its numbers, and of the rules that clash with none the share, in percent,
    /// that is refused.
    pub fn line(&self) -> String {
        let Share { tried, entered, clashing, apart, not_known } = self;
        let share = 100.0 * *apart as f64 / (entered + apart).max(1) as f64;
        format!("{tried} {entered} {clashing} {apart} {not_known} {share:.2}")
    }
}
