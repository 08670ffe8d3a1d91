//! `accept`: the rules of a file are entered into another one, if no two rules clash.

use std::collections::HashMap;
use std::fs::{self, File};
use std::io::Read;
use std::path::Path;

use super::{judged, judged_some, same_edition, source_of, Outcome, Run, MOST_FILE};
use crate::json::Object;
use crate::notation::join::joined;
use crate::notation::mistakes::Mistakes;
use crate::notation::read;
use crate::notation::visible::visible;
use crate::pairs::Pairs;
use crate::replace::Replaced;
use crate::report::{counted, grouped};
use crate::sides::{Place, Side};
use crate::source::{Mistake, Source};
use crate::status::{Problem, Status};
use crate::teller::Teller;

impl Run<'_> {
    pub(super) fn accept(&mut self, path: &Path, new_path: &Path) -> Outcome {
        let name = path.display().to_string();
        if path == Path::new("-") {
            return Err(Problem::Fault("BASE is replaced, so it can't be -".to_string()));
        }
        let new = self.bytes_of(new_path, MOST_FILE)?;
        let new_rules = judged_some(source_of(new_path, &new)?)?;
        let (base, bytes) = match self.options.new {
            true => (Replaced::begin(path)?, Vec::new()),
            false => {
                let (base, file) = Replaced::open(path)?;
                (base, bytes_in(path, &file)?)
            }
        };
        let base_rules = judged(source_of(path, &bytes)?)?;
        if let (Some(old), Some(new)) = (base_rules.first(), new_rules.first()) {
            same_edition(old, new).map_err(Problem::Fault)?;
        }
        names_are_new(&base_rules, new_path, &new)?;
        let text = joined(&bytes, &new);
        reads_as(&name, &text, [&base_rules[..], &new_rules].concat())?;
        let (count, rules) = (new_rules.len(), [base_rules, new_rules].concat());
        let teller = Teller::new("accept", &self.options).without_apart(0);
        let status = self.tell_pairs(teller, &rules, Pairs::of(rules.len()))?;
        if status == Status::Good {
            unchanged(path, self.options.new, &bytes)?;
            base.with(&text)?;
        }
        self.accepted(&name, status, count, rules.len())?;
        Ok(status)
    }

    /// Says whether so many rules are entered, with which there are so many.
    fn accepted(&mut self, name: &str, status: Status, new: usize, all: usize) -> Outcome {
        let (are, told) = (if new == 1 { "rule is" } else { "rules are" }, visible(name));
        let (truth, words) = match status {
            Status::Good => {
                let all = counted(all, "rule", "rules");
                (true, format!("{} {are} entered into {told}: it has {all}\n", grouped(new)))
            }
            _ => (false, format!("nothing is entered into {told}\n")),
        };
        let all = if truth { all } else { all - new };
        let object = || {
            let object = Object::new().truth("accepted", truth).text("file", name);
            object.number("new", new).number("rules", all)
        };
        self.say(&words, object)
    }
}

fn bytes_in(path: &Path, file: &File) -> Result<Vec<u8>, Problem> {
    let mut bytes = Vec::new();
    let read = file.take(MOST_FILE + 1).read_to_end(&mut bytes);
    read.map_err(|error| Problem::failed("read", path, &error))?;
    match bytes.len() as u64 > MOST_FILE {
        true => Err(Problem::Fault(format!("{} is too long to be added to", path.display()))),
        false => Ok(bytes),
    }
}

/// A name that is known already is a mistake of the new file, at its place there.
fn names_are_new(base: &[Side], path: &Path, new: &[u8]) -> Result<(), Problem> {
    let source = Source::new(path.display().to_string(), new);
    let named = |side: &Side| Some((side.title.to_string(), side.place.clone()?));
    let known: HashMap<String, Place> = base.iter().filter_map(named).collect();
    let mut mistakes = Mistakes::default();
    for rule in read(&source).unwrap_or_default() {
        if let Some(place) = known.get(&rule.name) {
            let mistake = Mistake::new(rule.span, format!("a second rule {}", rule.name));
            mistakes.push(mistake.hint(format!("the first one is {place}")));
        }
    }
    mistakes.or(()).map_err(|mistakes| Problem::Mistakes(source, mistakes))
}

/// Before a text is written it is read: its rules must be those that were asked about.
fn reads_as(name: &str, text: &[u8], rules: Vec<Side>) -> Result<(), Problem> {
    if text.len() as u64 > MOST_FILE {
        let most = grouped(MOST_FILE as usize);
        return Err(Problem::Fault(format!("{name} would be above {most} bytes")));
    }
    let read = judged(Source::new(name, text))?;
    let same = |(one, other): (&Side, &Side)| one.is_as(other);
    match read.len() == rules.len() && read.iter().zip(&rules).all(same) {
        true => Ok(()),
        false => Err(Problem::Fault(format!("{name} with the new rules reads as something else"))),
    }
}

/// A program that knows no lock may have changed the file meanwhile: its change is not lost.
fn unchanged(path: &Path, new: bool, bytes: &[u8]) -> Result<(), Problem> {
    match fs::read(path) {
        Ok(now) if now == bytes => Ok(()),
        Err(_) if new => Ok(()),
        _ => Err(Problem::Failure(format!(
            "{} was changed by another program meanwhile; nothing was done",
            path.display()
        ))),
    }
}
