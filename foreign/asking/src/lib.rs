//! Asks whether label rules in the notation can make the same label: two rules in parts, or all rules
//! of a text.
//!
//! ```
//! use bradovusc_asking::{pair, rule};
//!
//! let mortice = rule("LT{size}{finish}").field("size", "[0-9]{2}").field("finish", "BR|CH|SS");
//! let rim = rule("LT{set}C{turn}").field("set", "[0-9]+").field("turn", "H|K|T");
//! let pair = pair(&mortice, &rim).unwrap();
//! assert_eq!(pair.clashes(), Some(true));
//! assert_eq!(pair.label().unwrap(), "LT00CH");
//! assert_eq!(pair.left_texts().unwrap(), [("size", "00".to_string()), ("finish", "CH".to_string())]);
//! ```
//!
//! The fields of a rule are its own, whatever those of the other one are called. An answer prints
//! itself as the tool prints it. It is neither true nor false: where nothing is decided,
//! [`Pair::clashes`] is none.
//!
//! For other languages there is one function, [`request::answer`]: a request in JSON in, the tool's
//! JSON out. [`foreign`] has it for C and for the browser.
//!
//! The answers are those of the proved library; what is around it here is tested, not proved. No file,
//! thread, clock or terminal is touched.

use std::error::Error;
use std::fmt;
use std::sync::Arc;

use bradovusc::Answer;
use bradovusc_notation::ask::{Asked, Buffers, Ready};
use bradovusc_notation::bands::bands;
use bradovusc_notation::compile::judged;
use bradovusc_notation::json::Object;
use bradovusc_notation::mistakes::{mistakes_objects, mistakes_words, Mistakes};
use bradovusc_notation::paint::Paint;
use bradovusc_notation::parts::source_of_two;
use bradovusc_notation::report::{counted, fault_object, no_rule_words, pair_words, Tally};
use bradovusc_notation::sides::{same_edition, Side, Text};
use bradovusc_notation::source::Source;
use bradovusc_notation::told::{told_words, Told};
use bradovusc_notation::way::{way, Way};

pub use bradovusc::Edition;
pub use bradovusc_notation::ask::Room;
pub use bradovusc_notation::bands::{Band, Reads};
pub use bradovusc_notation::parts::{rule, RuleParts};
pub use bradovusc_notation::status::Status;

pub mod foreign;
pub mod json;
pub mod request;

/// How it is asked. The functions of the same names ask as the default says: in room that grows, of
/// the rules of Code 39.
#[derive(Clone, Copy, Debug, Default, PartialEq, Eq)]
pub struct Asking {
    pub room: Room,
    /// Of rules in parts; a text says it itself.
    pub edition: Edition,
}

/// Can these two rules make the same label?
pub fn pair(left: &RuleParts, right: &RuleParts) -> Result<Pair, Wrong> {
    Asking::default().pair(left, right)
}

/// Which rules of a text, as it would stand in a file, can make the same label?
pub fn check(text: &str) -> Result<Checked, Wrong> {
    Asking::default().check(text)
}

impl Asking {
    /// Can these two rules make the same label?
    pub fn pair(&self, left: &RuleParts, right: &RuleParts) -> Result<Pair, Wrong> {
        let source = source_of_two(self.edition, left, right).map_err(Wrong::Fault)?;
        match &rules_of(vec![source])?[..] {
            [left, right] => Ok(self.ask(left, right)),
            _ => Err(Wrong::Fault("two rules are wanted".to_string())),
        }
    }

    /// Which rules of a text, as it would stand in a file, can make the same label?
    pub fn check(&self, text: &str) -> Result<Checked, Wrong> {
        let rules = rules_of(vec![Source::new("rules", text.as_bytes())])?;
        let (mut tally, mut pairs) = (Tally::default(), Vec::new());
        self.ask_all(&rules, |pair: Pair| {
            tally.count(pair.asked.answer);
            if pair.clashes() != Some(false) {
                pairs.push(pair);
            }
        });
        Ok(Checked { rules: rules.len(), tally, pairs })
    }

    /// Asks of every pair, those of the first rule first.
    fn ask_all(&self, rules: &[Arc<Side>], mut tell: impl FnMut(Pair)) {
        let mut buffers = Buffers::new();
        let ready: Vec<Ready> = rules.iter().map(|side| Ready::new(side)).collect();
        for left in 0..rules.len() {
            for right in left + 1..rules.len() {
                let asked = buffers.settle(&ready[left], &ready[right], self.room);
                tell(Pair { left: rules[left].clone(), right: rules[right].clone(), asked });
            }
        }
    }

    fn ask(&self, left: &Arc<Side>, right: &Arc<Side>) -> Pair {
        let asked = Buffers::new().settle(&Ready::new(left), &Ready::new(right), self.room);
        Pair { left: left.clone(), right: right.clone(), asked }
    }
}

/// The rules of these sources, one behind the other. The first one with a mistake ends it.
fn rules_of(sources: Vec<Source>) -> Result<Vec<Arc<Side>>, Wrong> {
    let mut rules: Vec<Arc<Side>> = Vec::new();
    for source in sources {
        let sides = match judged(&source) {
            Ok(sides) => sides,
            Err(mistakes) => return Err(Wrong::Mistakes(source, mistakes)),
        };
        match (rules.first(), sides.first()) {
            (_, None) => return Err(Wrong::NoRule(no_rule_words(&source.name))),
            (Some(first), Some(new)) => same_edition(first, new).map_err(Wrong::Fault)?,
            (None, Some(_)) => (),
        }
        rules.extend(sides.into_iter().map(Arc::new));
    }
    Ok(rules)
}

/// Two rules, and what was said of them. As a text it is what the tool prints.
#[derive(Clone, Debug)]
pub struct Pair {
    pub left: Arc<Side>,
    pub right: Arc<Side>,
    pub asked: Asked,
}

/// Names and texts of fields.
pub type Texts<'a> = Vec<(&'a str, String)>;

impl Pair {
    /// What the library said.
    pub fn answer(&self) -> Answer {
        self.asked.answer
    }

    /// Whether the rules clash; none where that is not decided.
    pub fn clashes(&self) -> Option<bool> {
        self.asked.answer.clashes()
    }

    /// The label that both make, without spaces at its end.
    pub fn label(&self) -> Option<String> {
        let shared = self.asked.shared.as_ref()?;
        Some(self.left.edition.text(&shared.label))
    }

    /// What the fields of the left rule hold on that label, by name.
    pub fn left_texts(&self) -> Option<Texts<'_>> {
        Some(texts(&self.left, &self.asked.shared.as_ref()?.left))
    }

    /// What the fields of the right rule hold on it.
    pub fn right_texts(&self) -> Option<Texts<'_>> {
        Some(texts(&self.right, &self.asked.shared.as_ref()?.right))
    }

    /// Which part of the label is read by which part of the left rule.
    pub fn left_bands(&self) -> Option<Vec<Band>> {
        Some(bands(&self.left, &self.asked.shared.as_ref()?.left))
    }

    /// And of the right rule.
    pub fn right_bands(&self) -> Option<Vec<Band>> {
        Some(bands(&self.right, &self.asked.shared.as_ref()?.right))
    }

    /// The way to the clash, step by step, or why the library has none; nothing where there is no
    /// clash.
    pub fn way(&self) -> Option<Way> {
        (self.clashes() == Some(true)).then(|| way(&self.left, &self.right, &self.asked))
    }
}

fn texts<'a>(side: &'a Side, texts: &[Text]) -> Texts<'a> {
    let held = |(field, name): &'a (u8, String)| {
        let text = texts.iter().find(|text| text.field == *field)?;
        Some((name.as_str(), side.edition.text(&text.values)))
    };
    side.fields.iter().filter_map(held).collect()
}

impl fmt::Display for Pair {
    fn fmt(&self, to: &mut fmt::Formatter<'_>) -> fmt::Result {
        to.write_str(pair_words(&self.left, &self.right, &self.asked, Paint::NONE).trim_end())
    }
}

/// What was said of all pairs of some rules. As a text it is what the tool prints.
#[derive(Clone, Debug)]
pub struct Checked {
    /// How many rules there are.
    pub rules: usize,
    /// How many pairs were answered in which way.
    pub tally: Tally,
    /// Those that clash, and those that are not decided.
    pub pairs: Vec<Pair>,
}

impl Checked {
    /// Whether any two rules clash; none where that is not decided.
    pub fn clashes(&self) -> Option<bool> {
        match Status::from(self.tally) {
            Status::Clash => Some(true),
            Status::Good => Some(false),
            _ => None,
        }
    }
}

impl fmt::Display for Checked {
    fn fmt(&self, to: &mut fmt::Formatter<'_>) -> fmt::Result {
        to.write_str(check_words(&self.pairs, self.tally, self.rules).trim_end())
    }
}

/// What the tool prints of a check.
fn check_words(pairs: &[Pair], tally: Tally, rules: usize) -> String {
    let told = pairs.iter().map(|Pair { left, right, asked }| {
        let asked = asked.clone();
        Told { left, right, asked }
    });
    let told: Vec<Told> = told.collect();
    told_words(&told, Paint::NONE) + &tally.summary(&counted(rules, "rule", "rules"), Paint::NONE)
}

/// Why there is no answer. As a text it is what the tool prints.
#[derive(Clone, Debug)]
pub enum Wrong {
    /// Mistakes in rules, with the text in which they stand.
    Mistakes(Source, Mistakes),
    /// Another fault.
    Fault(String),
    /// A text without a rule.
    NoRule(String),
}

impl Wrong {
    pub fn status(&self) -> Status {
        match self {
            Wrong::Mistakes(..) | Wrong::Fault(_) => Status::Fault,
            Wrong::NoRule(_) => Status::NoRule,
        }
    }

    /// As objects; a mistake also as it is shown, if that is wanted.
    pub fn objects(&self, shown: bool) -> Vec<Object> {
        match self {
            Wrong::Mistakes(source, mistakes) => {
                let mut objects = mistakes_objects(source, mistakes);
                for (object, mistake) in objects.iter_mut().zip(mistakes.iter()).filter(|_| shown) {
                    let words = source.show(mistake, Paint::NONE).to_string();
                    *object = std::mem::take(object).text("words", &words);
                }
                objects
            }
            Wrong::Fault(words) | Wrong::NoRule(words) => {
                vec![fault_object(words, self.status())]
            }
        }
    }
}

impl fmt::Display for Wrong {
    fn fmt(&self, to: &mut fmt::Formatter<'_>) -> fmt::Result {
        match self {
            Wrong::Mistakes(source, mistakes) => {
                to.write_str(mistakes_words(source, mistakes, Paint::NONE).trim_end())
            }
            Wrong::Fault(words) | Wrong::NoRule(words) => to.write_str(words),
        }
    }
}

impl Error for Wrong {}
