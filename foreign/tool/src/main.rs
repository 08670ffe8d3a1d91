//! `bradovusc`: see `bradovusc --help`, and docs/NOTATION.md.

use std::ffi::OsString;
use std::io::{stderr, stdin, stdout, BufWriter, IsTerminal};
use std::process::ExitCode;

use bradovusc_tool::colours::COLOURS;
use bradovusc_tool::notation::paint::Paint;
use bradovusc_tool::run::{run, Streams};

fn main() -> ExitCode {
    let words: Vec<OsString> = std::env::args_os().skip(1).collect();
    let streams = Streams {
        input: &mut stdin().lock(),
        output: &mut BufWriter::new(stdout().lock()),
        errors: &mut stderr().lock(),
        terminal: stderr().is_terminal(),
        paint: paint(stdout().is_terminal()),
        errors_paint: paint(stderr().is_terminal()),
    };
    ExitCode::from(run(&words, streams).number())
}

/// Colours on a terminal that can show them, unless `NO_COLOR` says that none are wanted.
fn paint(terminal: bool) -> Paint {
    let set = |name| std::env::var_os(name).filter(|value| !value.is_empty());
    let dumb = set("TERM").is_none_or(|term| term == "dumb");
    match terminal && !dumb && set("NO_COLOR").is_none() {
        true => COLOURS,
        false => Paint::NONE,
    }
}
