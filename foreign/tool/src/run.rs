//! The commands.

mod accept;
mod pair;
mod which;

use std::ffi::OsString;
use std::fmt;
use std::fs::{self, File};
use std::io::{self, Read, Write};
use std::ops::Range;
use std::path::{Path, PathBuf};
use std::time::{Duration, Instant};

use bradovusc::{
    Added, AddedDecided, Answer, Edition, RecheckedDecided, Scripted, Withdrawn, MOST_RULES,
    SCRIPT_BYTES,
};

use crate::ask::{Asked, Buffers, Ready};
use crate::catalogue::{Catalogue, BYTES};
use crate::compile;
use crate::format::{problem_on_output, short_problem, Format};
use crate::json::Object;
use crate::kinds;
use crate::notation::paint::Paint;
use crate::notation::{pattern_text, rule_text, template_text, Rule};
use crate::pairs::Pairs;
use crate::parallel::{in_order, processors, Event};
use crate::progress::Progress;
use crate::report::{counted, grouped, pair_in, pair_words, titled, Tally, SCHEMA};
use crate::sides::{find, same_edition, sheet, Side, Title};
use crate::source::Source;
use crate::spend::Spend;
use crate::status::{problem_words, Problem, Status};
use crate::teller::Teller;

use crate::words::{self, Command, Options};

/// Where a command reads and writes.
pub struct Streams<'a> {
    pub input: &'a mut dyn Read,
    pub output: &'a mut dyn Write,
    pub errors: &'a mut dyn Write,
    /// Whether the errors go to a terminal, where a progress bar may stand.
    pub terminal: bool,
    /// The colours of the output and of the errors.
    pub paint: Paint,
    pub errors_paint: Paint,
}

type Outcome = Result<Status, Problem>;

/// What was said is handed on at least so often, if there is something new.
const PAUSE: Duration = Duration::from_millis(50);

/// A file of rules may have so many bytes.
const MOST_FILE: u64 = 16 << 20;

/// Does what the words behind the program's name say.
pub fn run(words: &[OsString], streams: Streams<'_>) -> Status {
    let (mut options, command) = words::read(words);
    if options.format == Format::Text {
        options.paint = streams.paint;
    }
    let format = options.format;
    let mut run = Run { options, streams };
    let outcome = match command {
        Ok(command) => run.command(command),
        Err(words) => Err(Problem::Fault(words)),
    };
    let outcome = outcome.and_then(|status| {
        run.streams.output.flush()?;
        Ok(status)
    });
    outcome.unwrap_or_else(|problem| {
        let Streams { output, errors, errors_paint, .. } = run.streams;
        let told = match problem_on_output(format, &problem) {
            Some(text) => output.write_all(text.as_bytes()).and_then(|()| output.flush()),
            None => {
                // what was said before stands before it
                let _ = output.flush();
                Err(io::ErrorKind::Other.into())
            }
        };
        let nobody = |error: io::Error| error.kind() == io::ErrorKind::BrokenPipe;
        if told.is_err_and(|error| !nobody(error)) {
            let words = match format {
                Format::Short => short_problem(&problem),
                _ => problem_words(&problem, errors_paint),
            };
            let _ = errors.write_all(words.as_bytes());
            let _ = errors.flush();
        }
        problem.status()
    })
}

struct Run<'a> {
    options: Options,
    streams: Streams<'a>,
}

impl Run<'_> {
    fn command(&mut self, command: Command) -> Outcome {
        match command {
            Command::Check { files } => self.check(&files),
            Command::Pair { file, left, right } => self.pair(&file, &left, &right),
            Command::Add { catalogue, file, rule } => self.add(&catalogue, &file, &rule),
            Command::Withdraw { catalogue, number } => self.withdraw(&catalogue, number),
            Command::List { catalogue } => self.list(&catalogue),
            Command::Recheck { catalogue } => self.recheck(&catalogue),
            Command::Which { file, labels } => self.which(&file, &labels),
            Command::Accept { base, new } => self.accept(&base, &new),
            Command::Script { file, left, right } => self.script(&file, &left, &right),
            Command::Sheet { file, left, right } => self.sheet(&file, &left, &right),
            Command::Help { text } => self.say(&text, || Object::new().text("help", &text)),
            Command::Version => {
                let version = bradovusc::VERSION;
                let object = || Object::new().text("version", version).number("schema", SCHEMA);
                self.say(&format!("bradovusc {version}\n"), object)
            }
        }
    }

    /// Says something in words or as an object.
    fn say(&mut self, words: &str, object: impl FnOnce() -> Object) -> Outcome {
        if self.options.json {
            writeln!(self.streams.output, "{}", object().done())?;
        } else {
            self.streams.output.write_all(words.as_bytes())?;
        }
        Ok(Status::Good)
    }

    /// The bytes of a file, or of standard input, of which there are at most so many.
    fn bytes_of(&mut self, path: &Path, most: u64) -> Result<Vec<u8>, Problem> {
        let failed = |error| Problem::failed("read", path, &error);
        let mut bytes = Vec::new();
        if path == Path::new("-") {
            (&mut *self.streams.input).take(most + 1).read_to_end(&mut bytes).map_err(failed)?;
        } else {
            let file = File::open(path).map_err(failed)?;
            file.take(most + 1).read_to_end(&mut bytes).map_err(failed)?;
        }
        if bytes.len() as u64 > most {
            let words = format!("{} is above {} bytes", path.display(), grouped(most as usize));
            return Err(Problem::Fault(words));
        }
        Ok(bytes)
    }

    /// A file of rules as it is.
    fn source(&mut self, path: &Path) -> Result<Source, Problem> {
        let bytes = self.bytes_of(path, MOST_FILE)?;
        source_of(path, &bytes)
    }

    /// The rules of a file, as the library reads them, all of them taken by it.
    fn rules(&mut self, path: &Path) -> Result<Vec<Side>, Problem> {
        judged_some(self.source(path)?)
    }

    /// The rules of several files, one behind the other; and how many of them are from the first `old`
    /// files.
    fn rules_of(&mut self, paths: &[PathBuf], old: usize) -> Result<(Vec<Side>, usize), Problem> {
        let (mut rules, mut from_old): (Vec<Side>, usize) = (Vec::new(), 0);
        for (index, path) in paths.iter().enumerate() {
            if paths[..index].iter().any(|before| same_file(before, path)) {
                return Err(Problem::Fault(format!("{} is named twice", path.display())));
            }
            let more = self.rules(path)?;
            if let (Some(first), Some(new)) = (rules.first(), more.first()) {
                same_edition(first, new).map_err(Problem::Fault)?;
            }
            from_old += if index < old { more.len() } else { 0 };
            rules.extend(more);
        }
        Ok((rules, from_old))
    }

    /// The two rules with these names.
    fn two(&mut self, path: &Path, left: &str, right: &str) -> Result<[Side; 2], Problem> {
        let rules = self.rules(path)?;
        Ok([named(&rules, path, left)?, named(&rules, path, right)?])
    }

    fn threads(&self) -> usize {
        self.options.threads.unwrap_or_else(processors)
    }

    /// Asks of so many pairs, and tells each in its order.
    fn ask<'s, I: Iterator<Item = (&'s Ready<'s>, &'s Ready<'s>)>>(
        &mut self,
        count: usize,
        pairs: impl Fn(Range<usize>) -> I + Sync,
        mut tell: impl FnMut(&mut dyn Write, &'s Side, &'s Side, &Asked) -> io::Result<()>,
    ) -> Result<(), Problem> {
        let (threads, spend) = (self.threads(), Spend::new(&self.options));
        let Streams { output, errors, terminal, .. } = &mut self.streams;
        let mut progress = Progress::new(*terminal);
        let work = |buffers: &mut Buffers, range: Range<usize>| {
            asked_of(pairs(range), |left, right| spend.ask(buffers, left, right))
        };
        let (mut told, settled) = (Vec::new(), Asked::SETTLED);
        let result = in_order(count, threads, Buffers::new, work, |event| {
            match event {
                Event::Done(done) => {
                    output.flush()?;
                    progress.tick(done, count, errors);
                }
                Event::Result(range, asked) => {
                    let mut asked = asked.into_iter().peekable();
                    for (place, (left, right)) in pairs(range).enumerate() {
                        let said = asked.next_if(|(at, _)| *at == place);
                        let said = said.as_ref().map_or(&settled, |(_, said)| said);
                        tell(&mut told, left.side, right.side, said)?;
                        if !told.is_empty() {
                            progress.clear(errors);
                            output.write_all(&told)?;
                            told.clear();
                        }
                    }
                }
            }
            Ok::<(), io::Error>(())
        });
        progress.clear(errors);
        Ok(result?)
    }

    fn check(&mut self, files: &[PathBuf]) -> Outcome {
        let against = &self.options.against;
        let (paths, old) = ([against, files].concat(), against.len());
        let (rules, old) = self.rules_of(&paths, old)?;
        let teller = Teller::new("check", &self.options).beside(old);
        self.tell_pairs(teller, &rules, Pairs::with_new(rules.len(), old))
    }

    /// Asks of pairs of rules, those that are in the part which is wanted, and has them told.
    fn tell_pairs(&mut self, teller: Teller<'_>, rules: &[Side], pairs: Pairs) -> Outcome {
        let ready: Vec<Ready> = rules.iter().map(Ready::new).collect();
        let part = self.options.part.range(pairs.count());
        let walk = |range: Range<usize>| {
            let range = part.start + range.start..part.start + range.end;
            pairs.walk(range).map(|(left, right)| (&ready[left], &ready[right]))
        };
        self.tell(teller, rules.len(), part.len(), walk)
    }

    /// Asks of so many pairs of so many rules, and has them told.
    fn tell<'s, I: Iterator<Item = (&'s Ready<'s>, &'s Ready<'s>)>>(
        &mut self,
        mut teller: Teller<'s>,
        rules: usize,
        count: usize,
        pairs: impl Fn(Range<usize>) -> I + Sync,
    ) -> Outcome {
        teller.begin(self.streams.output)?;
        self.ask(count, pairs, |to, left, right, asked| teller.tell(to, left, right, asked))?;
        Ok(teller.end(self.streams.output, rules)?)
    }

    /// Asks of one pair.
    fn ask_one(&mut self, left: &Side, right: &Side) -> Result<Asked, Problem> {
        let mut said = None;
        let pair = [Ready::new(left), Ready::new(right)];
        self.ask(
            1,
            |_| std::iter::once((&pair[0], &pair[1])),
            |_, _, _, asked| {
                said = Some(asked.clone());
                Ok(())
            },
        )?;
        said.ok_or_else(|| Problem::Failure("the library was not asked".to_string()))
    }

    fn script(&mut self, path: &Path, left: &str, right: &str) -> Outcome {
        let [left, right] = self.two(path, left, right)?;
        let mut script = vec![0; SCRIPT_BYTES];
        let sheet = sheet(&left, &right).map_err(library_says)?;
        let written = match bradovusc::script(&sheet, &mut script) {
            Scripted::Written { bytes } => bytes,
            other => return Err(library_says(other)),
        };
        let text = String::from_utf8_lossy(script.get(..written).unwrap_or_default());
        self.say(&text, || titles(&left, &right).text("script", &text))
    }

    fn sheet(&mut self, path: &Path, left: &str, right: &str) -> Outcome {
        let [left, right] = self.two(path, left, right)?;
        let bytes = sheet(&left, &right).map_err(library_says)?;
        if self.options.json {
            let digits: String = bytes.iter().map(|byte| format!("{byte:02x}")).collect();
            return self.say("", || titles(&left, &right).text("sheet", &digits));
        }
        self.streams.output.write_all(&bytes)?;
        Ok(Status::Good)
    }

    fn bytes(&self) -> usize {
        self.options.bytes.unwrap_or(BYTES)
    }

    fn list(&mut self, path: &Path) -> Outcome {
        let catalogue = Catalogue::read(path, self.bytes())?;
        let mut used = 0;
        for entry in &catalogue.entries {
            let rule = &entry.rule;
            self.say(&rule_text(rule), || rule_object(&entry.side.title, rule))?;
            used += entry.bytes;
        }
        if !self.options.json {
            let (rules, used) = (catalogue.entries.len(), grouped(used));
            let (rules, all) = (counted(rules, "rule", "rules"), grouped(catalogue.bytes.len()));
            writeln!(self.streams.output, "# {rules} of {MOST_RULES}, {used} bytes of {all}")?;
        }
        Ok(Status::Good)
    }

    fn withdraw(&mut self, path: &Path, number: usize) -> Outcome {
        let catalogue = Catalogue::read_to_replace(path, self.bytes())?;
        let mut bytes = catalogue.bytes.clone();
        let (rules, name) = (catalogue.entries.len(), path.display());
        match bradovusc::withdraw(&mut bytes, number) {
            Withdrawn::Gone => catalogue.replace(&bytes)?,
            Withdrawn::NoRule => {
                let rules = counted(rules, "rule", "rules");
                let words = format!("{name} has no rule {number}: it has {rules}, from 0 on (33)");
                return Err(Problem::Fault(words));
            }
            Withdrawn::NoCatalogue => {
                return Err(Problem::Fault(format!("{name} is no catalogue (34)")));
            }
        }
        let left = rules.saturating_sub(1);
        let mut words = format!("rule {number} is withdrawn\n");
        match left.saturating_sub(number) {
            0 => (),
            1 => words += &format!("rule {left} is now rule {number}\n"),
            _ => {
                let (next, last) = (number + 1, left - 1);
                words += &format!("rules {next} to {left} are now rules {number} to {last}\n");
            }
        }
        self.say(&words, || Object::new().number("withdrawn", number).number("rules", left))
    }

    fn recheck(&mut self, path: &Path) -> Outcome {
        let catalogue = Catalogue::read(path, self.bytes())?;
        let entries = &catalogue.entries;
        let all = Pairs::of(entries.len()).count();
        let room = self.options.room.sizes().next().unwrap_or_default();
        let mut list = vec![0; bradovusc::decided_list_bytes(MOST_RULES)];
        let mut buffers = Buffers::new();
        let work = buffers.work(room);
        let pairs = match bradovusc::recheck_decided(&catalogue.bytes, work, &mut list) {
            RecheckedDecided::Listed(pairs) => {
                pairs.map(|pair| (pair.lower, pair.higher)).collect::<Vec<_>>()
            }
            other => return Err(Problem::Fault(format!("{}: {other}", path.display()))),
        };
        // the others are answered 1; these are asked again, for their labels and in more room
        let ready: Vec<Ready> = entries.iter().map(|entry| Ready::new(&entry.side)).collect();
        let walk = |range: Range<usize>| {
            pairs[range].iter().map(|&(lower, higher)| (&ready[lower], &ready[higher]))
        };
        let teller = Teller::new("recheck", &self.options).without_apart(all - pairs.len());
        self.tell(teller, entries.len(), pairs.len(), walk)
    }

    fn add(&mut self, path: &Path, file: &Path, rule: &str) -> Outcome {
        let rules = self.rules(file)?;
        let side = named(&rules, file, rule)?;
        if side.edition == Edition::FullAscii {
            return Err(Problem::Fault(format!(
                "{} is Full ASCII, and a catalogue takes plain rules only, those of Code 39",
                file.display()
            )));
        }
        let catalogue = match self.options.new {
            true => Catalogue::empty(path, self.bytes())?,
            false => Catalogue::read_to_replace(path, self.bytes())?,
        };
        let (decided, room, bytes) = self.try_to_add(&catalogue.bytes, &side)?;
        let name = path.display();
        match decided.added {
            Added::Entered => {
                let number = catalogue.entries.len();
                catalogue.replace(&bytes)?;
                let object =
                    || Object::new().truth("added", true).text("name", rule).number("rule", number);
                self.say(&format!("{rule} is added: rule {number}\n"), object)
            }
            Added::NotApart { rule: number, pair } => match catalogue.entries.get(number) {
                Some(entry) => {
                    let asked = Asked::of(pair, decided.search, room);
                    self.not_added(&entry.side, &side, asked)
                }
                None => Err(Problem::Fault(format!("the library says: {decided}"))),
            },
            Added::Full => Err(Problem::Fault(format!(
                "{name} has no room for {rule}: it has {} of at most {MOST_RULES} (32)",
                counted(catalogue.entries.len(), "rule", "rules")
            ))),
            other => Err(Problem::Fault(format!("{name}, {rule}: {other}"))),
        }
    }

    /// The catalogue with the rule, if the library adds it, in the room that it took.
    fn try_to_add(
        &mut self,
        before: &[u8],
        side: &Side,
    ) -> Result<(AddedDecided, usize, Vec<u8>), Problem> {
        let room = self.options.room;
        let work = |buffers: &mut Buffers, _: Range<usize>| {
            let (mut bytes, record) = (before.to_vec(), side.record());
            let (mut decided, mut last) =
                (AddedDecided { added: Added::NoCatalogue, search: 0 }, 0);
            for room in room.sizes() {
                decided = bradovusc::add_decided(&mut bytes, &record, buffers.work(room));
                last = room;
                let pair = match decided.added {
                    Added::NotApart { pair, .. } => Some(pair),
                    _ => None,
                };
                if pair.is_none_or(|pair| pair.clashes().is_some()) {
                    break;
                }
            }
            (1, (decided, last, bytes))
        };
        let Streams { errors, terminal, .. } = &mut self.streams;
        let mut progress = Progress::new(*terminal);
        let mut result = None;
        in_order(1, 1, Buffers::new, work, |event| {
            match event {
                Event::Done(done) => progress.tick(done, 1, errors),
                Event::Result(_, added) => result = Some(added),
            }
            Ok::<(), Problem>(())
        })?;
        progress.clear(errors);
        result.ok_or_else(|| Problem::Failure("the library was not asked".to_string()))
    }

    /// A rule that is not added, for what was said of it and a rule that is there.
    fn not_added(&mut self, there: &Side, new: &Side, mut asked: Asked) -> Outcome {
        // a catalogue writes no texts, so of a clash they are asked for
        if asked.answer.clashes() == Some(true) {
            asked = self.ask_one(there, new)?;
        }
        let words = format!(
            "{} is not added\n{}",
            new.title,
            pair_words(there, new, &asked, self.options.paint)
        );
        self.say(&words, || pair_in(Object::new().truth("added", false), there, new, &asked))?;
        Ok(status_of(asked.answer))
    }
}

/// What was said of the pairs that the library does not settle by their fronts, each with its place
/// among these; and of how many pairs it was asked until some time was over.
fn asked_of<'s>(
    pairs: impl Iterator<Item = (&'s Ready<'s>, &'s Ready<'s>)>,
    mut ask: impl FnMut(&Side, &Side) -> Asked,
) -> (usize, Vec<(usize, Asked)>) {
    let (begun, mut done, mut asked) = (Instant::now(), 0, Vec::new());
    for (left, right) in pairs {
        done += 1;
        if left.differs(right) {
            continue;
        }
        asked.push((done - 1, ask(left.side, right.side)));
        if begun.elapsed() > PAUSE {
            break;
        }
    }
    (done, asked)
}

/// An answer of the library that ends a command, with its place if it has one.
fn library_says(answer: impl fmt::Display) -> Problem {
    Problem::Fault(format!("the library says: {answer}"))
}

/// The status of one answer.
fn status_of(answer: Answer) -> Status {
    let mut tally = Tally::default();
    tally.count(answer);
    tally.into()
}

/// Whether two paths lead to the same file.
fn same_file(one: &Path, other: &Path) -> bool {
    let real = |path: &Path| fs::canonicalize(path).unwrap_or_else(|_| path.to_path_buf());
    one == other || real(one) == real(other)
}

/// The bytes of a file of rules as its lines.
fn source_of(path: &Path, bytes: &[u8]) -> Result<Source, Problem> {
    match kinds::is_catalogue(bytes) {
        true => Err(Problem::Fault(kinds::a_catalogue(path))),
        false => Ok(Source::new(path.display().to_string(), bytes)),
    }
}

/// The rules of a source as the library reads them.
pub fn judged(source: Source) -> Result<Vec<Side>, Problem> {
    compile::judged(&source).map_err(|mistakes| Problem::Mistakes(source, mistakes))
}

/// The same of a source that must have a rule.
fn judged_some(source: Source) -> Result<Vec<Side>, Problem> {
    let name = source.name.clone();
    let sides = judged(source)?;
    match sides.is_empty() {
        true => Err(Problem::no_rule(&name)),
        false => Ok(sides),
    }
}

/// The rule with this name.
fn named(rules: &[Side], path: &Path, name: &str) -> Result<Side, Problem> {
    let found = find(rules, &path.display().to_string(), name);
    found.cloned().map_err(Problem::Fault)
}

fn titles(left: &Side, right: &Side) -> Object {
    titled(titled(Object::new(), "left", &left.title), "right", &right.title)
}

/// A rule of a catalogue in the notation, as an object.
fn rule_object(title: &Title, rule: &Rule) -> Object {
    let fields = rule.fields.iter().fold(Object::new(), |object, field| match &field.pattern {
        Some(pattern) => object.text(&field.name, &pattern_text(pattern)),
        None => object,
    });
    let object = titled(Object::new(), "rule", title);
    object.text("template", &template_text(rule)).object("fields", fields)
}
