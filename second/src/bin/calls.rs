//! `calls`: writes a stream of operations on a catalogue to standard output.
//!
//! - `calls SEED NUMBER`: so many `AD`, `WI`, `RE` and `SO` together, made from
//!   the seed
//! - `calls --decided SEED NUMBER`: the same, with `AE` and `RD` among them
//! - `calls --storeroom`: a catalogue of latches and keypads
//! - `calls --full`: 32 rules added, none of which clash
//! - `calls --serial`: twenty rules with a serial number that stands twice, each
//!   refused by `AD` and entered by `AE`
//! - `calls --editions`: rules with a record `ED` or with bytes of the second
//!   edition, and catalogues that hold such
//! - `calls --strays SEED NUMBER`: as `--decided`, with `DS` among them, and with
//!   stray patterns in many of the rules and of the catalogues
//! - `calls --strays`: rules with stray patterns, beside every other fault too, and
//!   catalogues that hold such
//! - `calls --share SEED NUMBER`: no stream; of so many rules as storerooms write
//!   them, how many are refused though they clash with none, by `AD` and by `AE`

use std::io::{self, Write};
use std::process::ExitCode;

use second::calls::Operation;
use second::make::{calls, editions, pairs, strays, Dice};
use second::share::share;
use second::storeroom;

fn main() -> ExitCode {
    let arguments: Vec<String> = std::env::args().skip(1).collect();
    let arguments: Vec<&str> = arguments.iter().map(String::as_str).collect();
    let stream = match arguments[..] {
        ["--storeroom"] => storeroom::stream(),
        ["--full"] => storeroom::full_stream(),
        ["--serial"] => storeroom::serial_stream(),
        ["--editions"] => written(&editions::calls()),
        ["--strays"] => written(&strays::calls()),
        ["--strays", seed, number] => match parsed(seed, number) {
            Some((mut dice, number)) => calls::strays_stream(&mut dice, number),
            None => return usage(),
        },
        ["--decided", seed, number] => match parsed(seed, number) {
            Some((mut dice, number)) => calls::decided_stream(&mut dice, number),
            None => return usage(),
        },
        ["--share", seed, number] => match parsed(seed, number) {
            Some((dice, number)) => shares(dice, number).into_bytes(),
            None => return usage(),
        },
        [seed, number] => match parsed(seed, number) {
            Some((mut dice, number)) => calls::stream(&mut dice, number),
            None => return usage(),
        },
        _ => return usage(),
    };
    match io::stdout().lock().write_all(&stream) {
        Ok(()) => ExitCode::SUCCESS,
        Err(error) => {
            eprintln!("calls: {error}");
            ExitCode::FAILURE
        }
    }
}

/// The operations one behind the other.
fn written(operations: &[Operation]) -> Vec<u8> {
    let mut stream = Vec::new();
    operations.iter().for_each(|operation| operation.write(&mut stream));
    stream
}

/// A seed and a number.
fn parsed(seed: &str, number: &str) -> Option<(Dice, usize)> {
    Some((Dice::new(seed.parse().ok()?), number.parse().ok()?))
}

/// The shares of the two ways to add, of the rules in any order, and with the two
/// of a pair behind each other.
fn shares(mut dice: Dice, number: usize) -> String {
    let in_pairs = pairs::rules(&mut dice, number);
    let any_order = pairs::shuffled(&mut dice, in_pairs.clone());
    let mut lines = "order by tried entered clash no-clash not-known percent\n".to_string();
    for (order, rules) in [("any", any_order), ("pairs", in_pairs)] {
        for (by, decided) in [("add", false), ("add_decided", true)] {
            lines += &format!("{order} {by} {}\n", share(&rules, decided).line());
        }
    }
    lines
}

fn usage() -> ExitCode {
    eprintln!("usage: calls [--decided | --strays] SEED NUMBER | calls --storeroom | calls --full");
    eprintln!("       calls --serial | calls --editions | calls --strays");
    eprintln!("       calls --share SEED NUMBER");
    ExitCode::from(2)
}
