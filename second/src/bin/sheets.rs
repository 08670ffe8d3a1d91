//! `sheets`: writes a stream of cases to standard output.
//!
//! - `sheets SEED NUMBER`: so many cases made from the seed
//! - `sheets --spelt SEED NUMBER`: so many sheets and rules to carry over, made
//!   from the seed
//! - `sheets --write SEED NUMBER`: so many cases of the writer of sheets, made
//!   from the seed
//! - `sheets --plain SEED NUMBER`: so many cases of the engine for plain rules,
//!   made from the seed; the working buffer is the bit buffer
//! - `sheets --plain-pairs SEED NUMBER`: so many of the pairs of rules as
//!   storerooms write them in which no field stands twice, each with just the bit
//!   buffer that it needs
//! - `sheets --steps SEED NUMBER`: so many cases of the steps, made from the seed
//! - `sheets --play SEED NUMBER`: so many cases of the player, made from the seed
//! - `sheets --play-each`: every damage of every record of a few short ways
//! - `sheets --way SEED NUMBER`: so many cases of the way of given texts, made from
//!   the seed
//! - `sheets --way-each`: every damage of every byte and every record of the texts of
//!   a few short sheets, rows of 48 tokens and of 49, and the most steps
//! - `sheets --growing`: 16 plain sheets that grow: 1 to 4 fields of 63 leaves a
//!   side, and 0, 5, 10 or 20 characters
//! - `sheets --growing N`: the sheet alone of the N-th of these
//! - `sheets --ascii`: texts to be spelt and spelt texts to be read back, those
//!   that are stored
//! - `sheets --ascii SEED NUMBER`: so many others, made from the seed
//! - `sheets --fronts`: pairs of sides to be told apart, of both editions, those that
//!   are made one by one
//! - `sheets --fronts SEED NUMBER`: so many others, made from the seed
//! - `sheets --long ROOM`: five whose search fills room for so many situations,
//!   the last one with a pattern of 54 leaves
//! - `sheets --long ROOM N`: the sheet alone of the N-th of these
//! - `sheets --printed`: those whose lines tell wrong printers apart
//! - `sheets --printed N`: the sheet alone of the N-th of these
//! - `sheets --pairs`: each pair of the rules of `calls --full`
//! - `sheets --pairs SEED NUMBER [--twice] [--room ROOM]`: so many pairs of rules
//!   as storerooms write them, or of those with a field that stands twice; with
//!   room for so many situations, or for 356
//! - `sheets --decide SEED NUMBER`: so many cases to decide, made from the seed
//! - `sheets --equations ROOM`: the word equations that the source documents print,
//!   with room for so many situations
//! - `sheets --editions`: every damage of a record `ED`, and each code on both sides
//!   of each limit in both editions
//! - `sheets --editions --few`: those of them with a byte next to a limit
//! - `sheets --editions --write`: the same for the writer of sheets, the edition in
//!   front of each case
//! - `sheets --strays SEED NUMBER`: so many sheets with stray patterns, made from the
//!   seed, some of them with other faults too
//! - `sheets --strays`: each set of strays around two fields that stand, and every
//!   other fault beside strays
//! - `sheets --strays --write`: the same for the writer of sheets, the edition in
//!   front of each case
//! - `sheets --drop SEED NUMBER`: so many sheets and rules with stray patterns, to be
//!   dropped, made from the seed
//! - `sheets --drop`: those of `--strays`, and as many rules
//!
//! With `--edition 2` in front, what is made from a seed is of the second edition,
//! and so are `--play-each`, `--way-each`, `--printed`, `--strays` and `--drop`; a case
//! of the writer has the edition in front.
//!
//! With `--kept` in front, or behind `--edition 2`, what is made from a seed is the
//! same, and so are `--play-each`, `--way-each` and `--printed`, but stray patterns are
//! taken out of the sheets and rules that were good with them. Of `--printed` the first
//! sheet is another one.

use std::io::{self, Write};
use std::process::ExitCode;

use second::cases::Case;
use second::edition::{Edition, FIRST, SECOND};
use second::equations::PRINTED;
use second::make::editions::Tried;
use second::make::{
    ascii, case, decided, editions, fronts, given, kept, long, pairs, plainly, spelt, strays, ways,
    written, Dice,
};
use second::steps::{self, Handed};
use second::{printed, storeroom, writer, MOST_ROOM};

fn main() -> ExitCode {
    let arguments: Vec<String> = std::env::args().skip(1).collect();
    let arguments: Vec<&str> = arguments.iter().map(String::as_str).collect();
    let (edition, arguments) = match &arguments[..] {
        // What is the same in both editions, or of the first one alone.
        ["--edition", "2", "--long" | "--growing" | "--ascii" | "--editions" | "--equations", ..]
        | ["--edition", "2", "--pairs" | "--fronts"] => return usage(),
        ["--edition", "2", rest @ ..] => (SECOND, rest),
        all => (FIRST, all),
    };
    let (keeps, arguments) = match arguments {
        // What has no stray patterns, or has them on purpose.
        ["--kept", "--long" | "--growing" | "--ascii" | "--editions" | "--equations", ..]
        | ["--kept", "--pairs" | "--plain-pairs" | "--fronts" | "--strays" | "--drop", ..] => {
            return usage()
        }
        ["--kept", rest @ ..] => (true, rest),
        all => (false, all),
    };
    let cases: Vec<Case> = match *arguments {
        ["--long", room] => match filling(room) {
            Some(cases) => cases,
            None => return usage(),
        },
        ["--long", room, number] => {
            return match filling(room) {
                Some(cases) => put_one(&cases, number),
                None => usage(),
            };
        }
        ["--printed"] => printed_of(edition, keeps),
        ["--pairs"] => storeroom::full_pairs(),
        ["--printed", number] => return put_one(&printed_of(edition, keeps), number),
        ["--spelt", seed, number] => match made(edition, seed, number, spelt::case) {
            Some(cases) => return put_all(&keep(keeps, cases, kept::spelt), Case::write),
            None => return usage(),
        },
        ["--write", seed, number] => {
            let cases = made(edition, seed, number, written::case);
            return match cases.map(|cases| keep(keeps, cases, kept::written)) {
                Some(cases) if edition == FIRST => put_all(&cases, writer::Case::write),
                Some(cases) => put_all(&cases, writer::Case::write_edition),
                None => usage(),
            };
        }
        ["--strays"] => strays::each(edition),
        ["--strays", "--write"] => {
            return put_all(&strays::written(edition), writer::Case::write_edition)
        }
        ["--strays", seed, number] => match made(edition, seed, number, strays::case) {
            Some(cases) => cases,
            None => return usage(),
        },
        ["--drop"] => strays::each_dropped(edition),
        ["--drop", seed, number] => match made(edition, seed, number, strays::dropped) {
            Some(cases) => cases,
            None => return usage(),
        },
        ["--editions"] => editions::cases(Tried::All),
        ["--editions", "--few"] => editions::cases(Tried::AtLimits),
        ["--editions", "--write"] => {
            return put_all(&editions::written(), writer::Case::write_edition)
        }
        ["--ascii"] => return put_all(&ascii::stored(), |case, stream| case.write(stream)),
        ["--ascii", seed, number] => {
            return match made(edition, seed, number, ascii::made) {
                Some(cases) => put_all(&cases, |case, stream| case.write(stream)),
                None => usage(),
            };
        }
        ["--fronts"] => return put_all(&fronts::each(), |case, stream| case.write(stream)),
        ["--fronts", seed, number] => {
            return match made(edition, seed, number, fronts::made) {
                Some(cases) => put_all(&cases, |case, stream| case.write(stream)),
                None => usage(),
            };
        }
        ["--steps", seed, number] => {
            return match made(edition, seed, number, ways::case) {
                Some(cases) => put_all(&keep(keeps, cases, kept::stepped), steps::Case::write),
                None => usage(),
            };
        }
        ["--play", seed, number] => {
            return match made(edition, seed, number, ways::played) {
                Some(cases) => put_all(&keep(keeps, cases, kept::handed), Handed::write),
                None => usage(),
            };
        }
        ["--play-each"] => {
            let cases = ways::each(edition);
            return put_all(&keep(keeps, cases, kept::handed), Handed::write);
        }
        ["--way", seed, number] => {
            return match made(edition, seed, number, given::case) {
                Some(cases) => put_all(&keep(keeps, cases, kept::handed), Handed::write),
                None => usage(),
            };
        }
        ["--way-each"] => {
            let cases = given::each(edition);
            return put_all(&keep(keeps, cases, kept::handed), Handed::write);
        }
        ["--pairs", seed, number, ref rest @ ..] => match paired(edition, seed, number, rest) {
            Some(cases) => cases,
            None => return usage(),
        },
        ["--plain", seed, number] => match made(edition, seed, number, plainly::case) {
            Some(cases) => cases,
            None => return usage(),
        },
        ["--plain-pairs", seed, number] => match made(edition, seed, number, pairs::plain_case) {
            Some(cases) => cases,
            None => return usage(),
        },
        ["--growing"] => plainly::growing(),
        ["--growing", number] => return put_one(&plainly::growing(), number),
        ["--decide", seed, number] => match made(edition, seed, number, decided::case) {
            Some(cases) => cases,
            None => return usage(),
        },
        ["--equations", room] => match room.parse().ok().filter(|&room| room <= MOST_ROOM) {
            Some(room) => PRINTED.iter().map(|equation| equation.case(room)).collect(),
            None => return usage(),
        },
        [seed, number] => match made(edition, seed, number, case) {
            Some(cases) => cases,
            None => return usage(),
        },
        _ => return usage(),
    };
    put_all(&keep(keeps, cases, kept::case), Case::write)
}

/// The cases as they are, or without their strays.
fn keep<C>(keeps: bool, cases: Vec<C>, without: fn(C) -> C) -> Vec<C> {
    if keeps {
        cases.into_iter().map(without).collect()
    } else {
        cases
    }
}

/// The cases one behind the other.
fn put_all<C>(cases: &[C], write: impl Fn(&C, &mut Vec<u8>)) -> ExitCode {
    let mut stream = Vec::new();
    for case in cases {
        write(case, &mut stream);
    }
    put(&stream)
}

/// So many cases from a seed.
fn made<C>(
    edition: Edition,
    seed: &str,
    number: &str,
    case: impl Fn(&mut Dice) -> C,
) -> Option<Vec<C>> {
    let (seed, number) = (seed.parse().ok()?, number.parse::<usize>().ok()?);
    let mut dice = Dice::of(seed, edition);
    Some((0..number).map(|_| case(&mut dice)).collect())
}

/// So many pairs of rules with room for so many situations.
fn paired(edition: Edition, seed: &str, number: &str, rest: &[&str]) -> Option<Vec<Case>> {
    let (twice, rest) = match rest {
        ["--twice", rest @ ..] => (true, rest),
        rest => (false, rest),
    };
    let room = match rest {
        [] => 356,
        ["--room", room] => room.parse().ok().filter(|&room| room <= MOST_ROOM)?,
        _ => return None,
    };
    made(edition, seed, number, |dice| pairs::case(dice, twice, room))
}

/// Those whose lines tell wrong printers apart.
fn printed_of(edition: Edition, keeps: bool) -> Vec<Case> {
    match edition {
        FIRST if keeps => printed::kept_cases(),
        FIRST => printed::cases(),
        _ => printed::second_cases(),
    }
}

/// The long cases for a room.
fn filling(room: &str) -> Option<Vec<Case>> {
    let room = room.parse().ok()?;
    (room as usize <= MOST_ROOM).then(|| long(room))
}

/// The sheet alone of one of the cases, counted from 1.
fn put_one(cases: &[Case], number: &str) -> ExitCode {
    match number.parse::<usize>() {
        Ok(number) if (1..=cases.len()).contains(&number) => put(&cases[number - 1].sheet),
        _ => usage(),
    }
}

fn put(bytes: &[u8]) -> ExitCode {
    match io::stdout().lock().write_all(bytes) {
        Ok(()) => ExitCode::SUCCESS,
        Err(error) => {
            eprintln!("sheets: {error}");
            ExitCode::FAILURE
        }
    }
}

fn usage() -> ExitCode {
    eprintln!(
        "usage: sheets [--spelt | --write | --plain | --plain-pairs] SEED NUMBER | sheets --growing [N]"
    );
    eprintln!("       sheets --steps SEED NUMBER | sheets --play SEED NUMBER | sheets --play-each");
    eprintln!("       sheets --way SEED NUMBER | sheets --way-each");
    eprintln!("       sheets --long ROOM [N] | sheets --printed [N] | sheets --equations ROOM");
    eprintln!("       sheets --decide SEED NUMBER");
    eprintln!("       sheets --pairs [SEED NUMBER [--twice] [--room ROOM]]");
    eprintln!("       sheets --ascii [SEED NUMBER] | sheets --editions [--few | --write]");
    eprintln!("       sheets --fronts [SEED NUMBER]");
    eprintln!("       sheets --strays [SEED NUMBER | --write] | sheets --drop [SEED NUMBER]");
    eprintln!("       sheets --edition 2 .. | sheets --kept .. | sheets --edition 2 --kept ..");
    eprintln!("ROOM is at most 65535");
    ExitCode::from(2)
}
