//! `second`: like the program `clash`.
//!
//! - `second`: 65,520 bytes of work and 4,096 of answer
//! - `second WORK ANSWER`: with these lengths of the two buffers
//! - `second --many [--scan]`: a stream of cases, a line for each
//! - `second --many --lines`: a stream of cases, what `clash` prints for each
//! - `second --decide [--scan]`: a stream of cases, a line for each, with the
//!   number of the attempt that decided at its end
//! - `second --decide --lines`: a stream of cases, what `decide` prints for each
//! - `second --decide --table`: of a stream of cases, how many each attempt
//!   decided and the situations spent
//! - `second --decide --left`: of a stream of cases, those that no attempt
//!   decided, as rules
//! - `second --calls [--scan]`: a stream of operations, a line for each
//! - `second --calls --lines`: a stream of operations, what `catalogue` prints
//! - `second --scripts STREAM`: what was printed for a stream of cases, scripts
//!   among it; does each script say its sheet?
//! - `second --script SHEET`: one script; does it say this sheet?
//! - `second --write-scripts`: a stream of cases; what is printed of their sheets,
//!   scripts among it
//! - `second --spell-open`: an old sheet with the old meaning of its fields
//!   without a pattern written out; a refusal's number and place on standard
//!   error
//! - `second --spell-open-rule`: the same of a catalogue's rule
//! - `second --spelt`: a stream of cases, a line for each: what
//!   `--spell-open-rule` writes where it begins with `RU`, and `--spell-open`
//!   where not, into a buffer of the answer buffer's length
//! - `second --drop-strays`, `second --drop-strays-rule`: an old sheet or rule
//!   without its stray patterns; a refusal as above
//! - `second --drop`: a stream of cases, a line for each, as `--spelt`: the sheet or
//!   the rule without its stray patterns
//! - `second --write`: a stream of cases of the writer of sheets, a line for each
//! - `second --write-edition`: the same with the edition in front of each case
//! - `second --plain`: a stream of cases, a line for each: what the engine for
//!   plain rules says, with a bit buffer of the working buffer's length, and how
//!   many bytes it needs
//! - `second --plain --lines`: a stream of cases, what `plain` prints for each
//! - `second --ascii`: a stream of texts to be spelt and spelt texts to be read
//!   back, a line for each
//! - `second --fronts`: a stream of pairs of sides, a line for each: 1 where what is
//!   fixed in them differs
//! - `second --steps [--scan]`: a stream of cases of the steps, a line for each
//! - `second --steps --lines`: a stream of cases of the steps, what `steps` prints
//!   for each
//! - `second --play`: a stream of cases of the player, a line for each
//! - `second --way`: a stream of cases of the way of given texts, a line for each

use std::io::{self, BufWriter, Read, Write};
use std::process::ExitCode;

use second::calls::{self, Calls, Operation};
use second::cases::{edition_of, Answerer, Case};
use second::catalogue::{Searcher, HASHING, SCANNING};
use second::decide::{self, ATTEMPTS};
use second::fault::Fault;
use second::smt::{self, compare, output, Told};
use second::steps::{self, Handed};
use second::{drop_strays, fronts, full_ascii, sheet, shown, spell_open, way, writer};
use second::{ANSWER_BUFFER_TOO_SHORT, CLASH, NO_CLASH, NO_ROOM, SIDE_TOO_LONG};

/// "the program's 65,520 hold 356; it reads 2,048 bytes of input", and lends
/// 4,096 bytes of answer.
const SHEET_BYTES: u64 = 2_048;
const WORK_BYTES: usize = 65_520;
const ANSWER_BYTES: usize = 4_096;

fn main() -> ExitCode {
    let arguments: Vec<String> = std::env::args().skip(1).collect();
    let arguments: Vec<&str> = arguments.iter().map(String::as_str).collect();
    let done = match arguments[..] {
        [] => one(WORK_BYTES, ANSWER_BYTES),
        ["--many"] => many(a_line(second::answer)),
        ["--many", "--scan"] => many(a_line(second::scan::answer)),
        ["--many", "--lines"] => many(|case| case.run(second::answer).lines()),
        ["--decide"] => many(|case| case.decide(decide::HASHING).line() + "\n"),
        ["--decide", "--scan"] => many(|case| case.decide(decide::SCANNING).line() + "\n"),
        ["--decide", "--lines"] => many(|case| case.decide(decide::HASHING).lines()),
        ["--decide", "--left"] => many(left),
        ["--decide", "--table"] => table(),
        ["--write"] => each(writer::Case::read, |case| case.line() + "\n"),
        ["--write-edition"] => each(writer::Case::read_edition, |case| case.line() + "\n"),
        ["--plain"] => many(|case| case.plain_line() + "\n"),
        ["--plain", "--lines"] => many(Case::plain_lines),
        ["--ascii"] => each(full_ascii::Case::read, |case| case.line() + "\n"),
        ["--fronts"] => each(fronts::Case::read, |case| case.line() + "\n"),
        ["--steps"] => each(steps::Case::read, |case| case.run(steps::steps).line() + "\n"),
        ["--steps", "--scan"] => {
            each(steps::Case::read, |case| case.run(second::scan::steps).line() + "\n")
        }
        ["--steps", "--lines"] => each(steps::Case::read, |case| case.run(steps::steps).lines()),
        ["--play"] => each(Handed::read, |case| case.line(steps::play) + "\n"),
        ["--way"] => each(Handed::read, |case| case.line(way::way) + "\n"),
        ["--spelt"] => many(|case| case.spelt() + "\n"),
        ["--spell-open"] => return spelt(spell_open::sheet),
        ["--spell-open-rule"] => return spelt(spell_open::rule),
        ["--drop"] => many(|case| case.dropped() + "\n"),
        ["--drop-strays"] => return spelt(drop_strays::sheet),
        ["--drop-strays-rule"] => return spelt(drop_strays::rule),
        ["--calls"] => calls(HASHING, calls::After::line),
        ["--calls", "--scan"] => calls(SCANNING, calls::After::line),
        ["--calls", "--lines"] => calls(HASHING, calls::After::numbers),
        ["--scripts", stream] => scripts(stream),
        ["--script", sheet] => script(sheet),
        ["--write-scripts"] => many(|case| smt::write::told(&case.sheet)),
        [work, answer] => match (work.parse(), answer.parse()) {
            (Ok(work), Ok(answer)) => one(work, answer),
            _ => return usage(),
        },
        _ => return usage(),
    };
    status(done)
}

fn status(done: io::Result<()>) -> ExitCode {
    match done {
        Ok(()) => ExitCode::SUCCESS,
        Err(error) => {
            eprintln!("second: {error}");
            ExitCode::FAILURE
        }
    }
}

fn usage() -> ExitCode {
    eprintln!("usage: second | second WORK ANSWER | second --many|--calls [--scan | --lines]");
    eprintln!("       second --decide [--scan | --lines | --table | --left]");
    eprintln!("       second --scripts STREAM | second --script SHEET | second --write-scripts");
    eprintln!("       second --spell-open | second --spell-open-rule | second --spelt");
    eprintln!("       second --drop-strays | second --drop-strays-rule | second --drop");
    eprintln!("       second --write | second --write-edition | second --ascii");
    eprintln!("       second --plain [--lines] | second --fronts");
    eprintln!("       second --steps [--scan | --lines] | second --play | second --way");
    ExitCode::from(2)
}

/// The first bytes of standard input.
fn read_one() -> io::Result<Vec<u8>> {
    let mut bytes = Vec::new();
    io::stdin().lock().take(SHEET_BYTES).read_to_end(&mut bytes)?;
    Ok(bytes)
}

/// One sheet.
fn one(work_length: usize, answer_length: usize) -> io::Result<()> {
    let sheet = read_one()?;
    let mut work = vec![0; work_length];
    let mut answer = vec![0; answer_length];
    let outcome = second::answer(&sheet, &mut work, &mut answer);
    let lines = second::lines(edition_of(&sheet), &outcome, &answer);
    io::stdout().lock().write_all(lines.as_bytes())
}

/// One sheet or rule with the old meaning written out, or without its stray
/// patterns. None has more bytes than are read.
fn spelt(spell: fn(&[u8]) -> Result<Vec<u8>, Fault>) -> ExitCode {
    match read_one().map(|bytes| spell(&bytes)) {
        Ok(Ok(spelt)) => status(io::stdout().lock().write_all(&spelt)),
        Ok(Err(Fault { number, place })) => {
            eprintln!("{number} {place}");
            ExitCode::FAILURE
        }
        Err(error) => status(Err(error)),
    }
}

fn a_line(answerer: Answerer) -> impl Fn(&Case) -> String {
    move |case| case.run(answerer).line() + "\n"
}

/// A stream of sheets with their buffers, and what is shown for each.
fn many(shown: impl FnMut(&Case) -> String) -> io::Result<()> {
    each(Case::read, shown)
}

/// Reads a case from the front of a stream and hands back the rest.
type Reading<C> = fn(&[u8]) -> Option<(C, &[u8])>;

/// A stream of cases, and what is shown for each.
fn each<C>(read: Reading<C>, mut shown: impl FnMut(&C) -> String) -> io::Result<()> {
    let mut stream = Vec::new();
    io::stdin().lock().read_to_end(&mut stream)?;
    let mut out = BufWriter::new(io::stdout().lock());
    let mut rest = &stream[..];
    while !rest.is_empty() {
        let Some((case, behind)) = read(rest) else {
            out.flush()?;
            return Err(io::Error::other("the stream stops inside a case"));
        };
        out.write_all(shown(&case).as_bytes())?;
        rest = behind;
    }
    out.flush()
}

/// A case that no attempt decided: its number, the situations of each attempt and
/// its rules.
fn left(case: &Case) -> String {
    let decided = case.decide(decide::HASHING).decided;
    if decided.search > 0 || !matches!(decided.outcome.number, NO_ROOM | SIDE_TOO_LONG) {
        return String::new();
    }
    format!("{} {:?} {}\n", decided.outcome.number, decided.spent, shown::sheet(&case.sheet))
}

/// How many sheets each attempt decided, with clash and with no clash, and the
/// situations spent.
fn table() -> io::Result<()> {
    // By the attempt that decided; none where the sheet is refused.
    let mut decided = [0usize; ATTEMPTS.len() + 1];
    let mut clashes = [0usize; ATTEMPTS.len() + 1];
    let (mut refused, mut spent) = (0usize, [0usize; ATTEMPTS.len()]);
    many(|case| {
        let of = case.decide(decide::HASHING).decided;
        let attempt = usize::from(of.search);
        match of.outcome.number {
            NO_CLASH | NO_ROOM | SIDE_TOO_LONG => decided[attempt] += 1,
            CLASH | ANSWER_BUFFER_TOO_SHORT => {
                decided[attempt] += 1;
                clashes[attempt] += 1;
            }
            _ => refused += 1,
        }
        for (sum, more) in spent.iter_mut().zip(of.spent) {
            *sum += more;
        }
        String::new()
    })?;
    let mut out = io::stdout().lock();
    writeln!(out, "attempt decided clash no-clash situations")?;
    for attempt in 1..=ATTEMPTS.len() {
        let (all, clash) = (decided[attempt], clashes[attempt]);
        writeln!(out, "{attempt} {all} {clash} {} {}", all - clash, spent[attempt - 1])?;
    }
    let sheets: usize = decided.iter().sum();
    let all: usize = spent.iter().sum();
    let mean = all as f64 / sheets.max(1) as f64;
    writeln!(out, "not decided {}, refused {refused}", decided[0])?;
    writeln!(out, "sheets {sheets}, situations {all}, {mean:.1} for each")
}

/// A stream of operations; what stands before its end is done.
fn calls(search: Searcher, shown: fn(&calls::After) -> String) -> io::Result<()> {
    let mut stream = Vec::new();
    io::stdin().lock().read_to_end(&mut stream)?;
    let mut out = BufWriter::new(io::stdout().lock());
    let mut calls = Calls::new(search);
    let mut rest = &stream[..];
    while let Some((operation, behind)) = Operation::read(rest) {
        if let Some(after) = calls.run(&operation) {
            writeln!(out, "{}", shown(&after))?;
        }
        rest = behind;
    }
    out.flush()
}

/// The scripts for a stream of cases.
fn scripts(stream: &str) -> io::Result<()> {
    let stream = std::fs::read(stream)?;
    let mut printed = Vec::new();
    io::stdin().lock().read_to_end(&mut printed)?;
    tell(output::check(&stream, &printed).map(|checked| checked.line()))
}

/// One script.
fn script(sheet: &str) -> io::Result<()> {
    let sheet = std::fs::read(sheet)?;
    let mut script = Vec::new();
    io::stdin().lock().read_to_end(&mut script)?;
    let said = match sheet::read(&sheet) {
        Ok(question) => compare::says(&script, &question),
        Err(fault) => {
            Err(format!("the sheet's fault is {}, its place {}", fault.number, fault.place))
        }
    };
    tell(said.map(|()| "the script says its sheet".to_string()))
}

/// Prints what was found; a difference is a failure.
fn tell(found: Told<String>) -> io::Result<()> {
    match found {
        Ok(line) => writeln!(io::stdout().lock(), "{line}"),
        Err(line) => {
            writeln!(io::stdout().lock(), "{line}")?;
            Err(io::Error::other("a difference"))
        }
    }
}
