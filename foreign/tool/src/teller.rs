//! Tells the pairs of a check as they come: in the form that is wanted, at most so many, those of one
//! rule with many together.

use std::io::{self, Write};

use crate::ask::Asked;
use crate::format::{annotation, github, short, Format};
use crate::json::Object;
use crate::notation::paint::Paint;
use crate::pairs::Part;
use crate::report::{counted, grouped, pair_object, summary_of, Tally};
use crate::sarif;
use crate::sides::Side;
use crate::status::Status;
use crate::told::{told_words, Told};
use crate::words::Options;

/// So many pairs are put into groups at a time.
const MOST_HELD: usize = 5_000;

/// What is told of a check.
pub struct Teller<'s> {
    command: &'static str,
    format: Format,
    paint: Paint,
    clashes_only: bool,
    summary: bool,
    /// So many clashes are told, and so many pairs that are not decided.
    most: usize,
    /// Whether a pair without a clash is told, in JSON.
    apart: bool,
    /// All pairs, and those that were told.
    pub tally: Tally,
    told: Tally,
    /// What is still to be told in words.
    held: Vec<Told<'s>>,
    /// How many of the rules are not new.
    old: usize,
    part: Part,
}

impl<'s> Teller<'s> {
    /// For a command that is called so.
    pub fn new(command: &'static str, options: &Options) -> Teller<'s> {
        Teller {
            command,
            format: options.format,
            paint: options.paint,
            clashes_only: options.clashes_only,
            summary: options.summary,
            most: options.max.unwrap_or(usize::MAX),
            apart: !options.clashes_only,
            tally: Tally::default(),
            told: Tally::default(),
            held: Vec::new(),
            old: 0,
            part: options.part,
        }
    }

    /// The same, where so many of the rules were there before, and only pairs with another one are
    /// asked about.
    pub fn beside(self, old: usize) -> Teller<'s> {
        Teller { old, ..self }
    }

    /// The same, but with no word of pairs without a clash, of which so many are known already.
    pub fn without_apart(self, known: usize) -> Teller<'s> {
        Teller { apart: false, tally: Tally { apart: known, ..self.tally }, ..self }
    }

    /// What goes before all pairs.
    pub fn begin(&self, to: &mut dyn Write) -> io::Result<()> {
        match self.format {
            Format::Sarif => to.write_all(sarif::begun().as_bytes()),
            _ => Ok(()),
        }
    }

    /// Tells a pair, or holds it back until it is known with which others it goes.
    pub fn tell(
        &mut self,
        to: &mut dyn Write,
        left: &'s Side,
        right: &'s Side,
        asked: &Asked,
    ) -> io::Result<()> {
        self.tally.count(asked.answer);
        let wanted = match asked.answer.clashes() {
            Some(true) => self.told.clashes < self.most,
            Some(false) => self.apart && self.format == Format::Json,
            None => !self.clashes_only && self.told.not_decided < self.most,
        };
        if !wanted {
            return Ok(());
        }
        let first = self.told.clashes + self.told.not_decided == 0;
        self.told.count(asked.answer);
        match self.format {
            Format::Text => {
                self.held.push(Told { left, right, asked: asked.clone() });
                if self.held.len() >= MOST_HELD {
                    self.tell_held(to)?;
                }
                Ok(())
            }
            Format::Json => writeln!(to, "{}", pair_object(left, right, asked).done()),
            Format::Short => to.write_all(short(left, right, asked).as_bytes()),
            Format::Github => to.write_all(github(left, right, asked).as_bytes()),
            Format::Sarif => {
                let comma = if first { "" } else { "," };
                write!(to, "{comma}{}", sarif::pair(left, right, asked).done())
            }
        }
    }

    /// Tells what is held back.
    fn tell_held(&mut self, to: &mut dyn Write) -> io::Result<()> {
        let words = told_words(&self.held, self.paint);
        self.held.clear();
        to.write_all(words.as_bytes())
    }

    /// What goes behind all pairs, of so many rules.
    pub fn end(mut self, to: &mut dyn Write, rules: usize) -> io::Result<Status> {
        self.tell_held(to)?;
        let status = Status::from(self.tally);
        let words = self.tally.summary(&self.rules_words(rules), self.paint);
        let more = self.more_words();
        match self.format {
            Format::Text => write!(to, "{more}{words}")?,
            Format::Short if self.summary => write!(to, "{more}{words}")?,
            Format::Short => to.write_all(more.as_bytes())?,
            Format::Github if self.summary || !more.is_empty() => {
                to.write_all(annotation("notice", &[], (more + &words).trim_end()).as_bytes())?;
            }
            Format::Json if self.summary => {
                let status = usize::from(status.number());
                let counts = self.counts(summary_of(self.command), rules);
                writeln!(to, "{}", counts.number("status", status).done())?;
            }
            Format::Sarif => {
                let counts = self.counts(Object::new(), rules);
                to.write_all(sarif::ended(status, None, counts).as_bytes())?;
            }
            Format::Json | Format::Github => (),
        }
        Ok(status)
    }

    /// Of which rules, and of which part of their pairs, it is told.
    fn rules_words(&self, rules: usize) -> String {
        let mut words = counted(rules, "rule", "rules");
        if self.old > 0 {
            words += &format!(", {} of them new", grouped(rules - self.old));
        }
        if self.part != Part::WHOLE {
            let Part { number, of } = self.part;
            words += &format!(", part {} of {}", grouped(number), grouped(of));
        }
        words
    }

    fn counts(&self, object: Object, rules: usize) -> Object {
        let mut object = object.number("rules", rules);
        if self.old > 0 {
            object = object.number("new", rules - self.old);
        }
        if self.part != Part::WHOLE {
            let Part { number, of } = self.part;
            object = object.number("part", number).number("parts", of);
        }
        self.tally.counts(object)
    }

    /// A line on what was counted and not told; none where all was.
    fn more_words(&self) -> String {
        let clashes = self.tally.clashes - self.told.clashes;
        let open = self.tally.not_decided - self.told.not_decided;
        let mut more = Vec::new();
        if clashes > 0 {
            more.push(counted(clashes, "more clash", "more clashes"));
        }
        if open > 0 {
            more.push(counted(open, "more pair not decided", "more pairs not decided"));
        }
        match more.is_empty() {
            true => String::new(),
            false => format!("and {}\n", more.join(", ")),
        }
    }
}
