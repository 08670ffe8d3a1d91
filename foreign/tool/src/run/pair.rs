//! The command `pair`: two rules, and what else is wanted about them.

use std::path::Path;

use super::{judged_some, named, status_of, Outcome, Run};
use crate::ask::Asked;
use crate::format::Format;

use crate::notation::{read, Rule};
use crate::repair::{repair, repair_in, repair_words};
use crate::report::{pair_object, pair_words};
use crate::sides::Side;
use crate::status::{Problem, Status};
use crate::teller::Teller;
use crate::undecided::{helps, helps_in, helps_words};
use crate::way::{steps_in, steps_words, way};

impl Run<'_> {
    pub(super) fn pair(&mut self, path: &Path, left: &str, right: &str) -> Outcome {
        let source = self.source(path)?;
        let written = read(&source).unwrap_or_default();
        let rules = judged_some(source)?;
        let [left, right] = [named(&rules, path, left)?, named(&rules, path, right)?];
        let asked = self.ask_one(&left, &right)?;
        match self.options.format {
            Format::Text | Format::Json => self.in_full(&written, [&left, &right], &asked),
            _ if self.options.steps || self.options.repair => {
                let words = "--steps and --repair are told in text or in JSON alone";
                Err(Problem::Fault(words.to_string()))
            }
            Format::Short | Format::Github | Format::Sarif => {
                let mut teller = Teller::new("pair", &self.options);
                teller.begin(self.streams.output)?;
                teller.tell(self.streams.output, &left, &right, &asked)?;
                Ok(teller.end(self.streams.output, 2)?)
            }
        }
    }

    /// Whatever the answer is, and the steps and the repair, if they are wanted.
    fn in_full(&mut self, written: &[Rule], sides: [&Side; 2], asked: &Asked) -> Outcome {
        let ([left, right], mut status) = (sides, status_of(asked.answer));
        let (mut words, mut object) =
            (pair_words(left, right, asked, self.options.paint), pair_object(left, right, asked));
        if self.options.steps && asked.answer.clashes() == Some(true) {
            let way = way(left, right, asked);
            words += &steps_words(left, right, &way);
            object = steps_in(object, left, right, &way);
        }
        let shared = asked.shared.as_ref().filter(|_| self.options.repair);
        if let Some(found) = shared.and_then(|shared| repair(written, sides, shared)) {
            words += &repair_words(sides, &found);
            object = repair_in(object, sides, &found);
        }
        if self.options.repair && asked.answer.clashes().is_none() {
            let found = helps(written, sides);
            words += &helps_words(sides, &found);
            object = helps_in(object, sides, &found);
            if !found.labels.is_empty() {
                status = Status::Clash;
            }
        }
        self.say(&words, || object)?;
        Ok(status)
    }
}
