//! The progress bar and colours in a real terminal, and nothing of them in a pipe.

mod common;

use std::fs;
use std::path::Path;
use std::process::{Command, Output, Stdio};
use std::time::{Duration, Instant};

use common::{program, Folder};

/// Rules of which no two are decided: each has a field twice and an open one.
fn rules(count: usize) -> String {
    (0..count).map(|number| format!("r{number} = {{x}}{{y}}A{number}{{x}}\n")).collect()
}

/// Runs a shell command in a terminal of its own, by script or by Python; none where neither is.
fn in_a_terminal(command: &str, folder: &Path) -> Option<Output> {
    let run = |program: &str, words: &[&str]| {
        let mut run = Command::new(program);
        run.args(words).current_dir(folder).stdin(Stdio::null());
        run.output().ok().filter(|output| output.status.code() != Some(127))
    };
    let spawned = format!("import pty, sys; sys.exit(pty.spawn(['sh', '-c', {command:?}]) >> 8)");
    if run("script", &["--version"]).is_some() {
        run("script", &["-qec", command, "/dev/null"])
    } else {
        run("python3", &["-c", &spawned])
    }
}

/// The words that start the program, for a shell.
fn quoted_program() -> String {
    let words: Vec<String> = program().iter().map(|word| format!("'{word}'")).collect();
    words.join(" ")
}

/// What is shown of a shell command in a terminal; none where none can be opened.
fn shown(command: &str, folder: &Folder) -> Option<String> {
    let output = in_a_terminal(command, &folder.0)?;
    Some(String::from_utf8(output.stdout).unwrap().replace("\r\n", "\n"))
}

/// A text without its colours.
fn bare(text: &str) -> String {
    let mut parts = text.split("\u{1B}[");
    let first = parts.next().unwrap_or_default().to_string();
    parts.fold(first, |bare, part| bare + part.split_once('m').unwrap().1)
}

/// Colours where the stream is a terminal, and the same text without them everywhere else.
#[test]
fn colours_in_a_terminal_alone() {
    let folder = Folder::with_files("colours");
    let program = quoted_program();
    for words in [
        "check latch.rules",
        "pair latch.rules mortice keypad",
        "check mistake.rules",
        "which latch.rules LT00BR KP4",
    ] {
        let call = format!("{program} {words}");
        let plain = format!("sh -c \"{call}\" 2>&1 | cat");
        let Some(coloured) = shown(&format!("TERM=xterm {call}"), &folder) else {
            println!("skipped: neither script nor python3 is here to open a terminal");
            return;
        };
        assert!(coloured.contains("\u{1B}["), "{words}: {coloured:?}");
        let piped = shown(&format!("TERM=xterm {plain}"), &folder).unwrap();
        assert!(!piped.contains('\u{1B}'), "{words}: {piped:?}");
        assert_eq!(bare(&coloured), piped, "{words}");
        for without in ["NO_COLOR=1 TERM=xterm", "TERM=dumb", "TERM="] {
            assert_eq!(shown(&format!("{without} {call}"), &folder).unwrap(), piped, "{without}");
        }
        let coloured_again = shown(&format!("NO_COLOR= TERM=xterm {call}"), &folder).unwrap();
        assert_eq!(coloured_again, coloured, "an empty NO_COLOR says nothing");
        let json = shown(&format!("TERM=xterm {call} --json"), &folder).unwrap();
        assert!(!json.contains('\u{1B}'), "{json:?}");
    }
    // each stream for itself: here the errors are a file
    let words = format!("TERM=xterm {program} check mistake.rules 2>said; cat said");
    assert!(!shown(&words, &folder).unwrap().contains('\u{1B}'));
    let words = format!("TERM=xterm {program} check mistake.rules >said; test ! -s said");
    assert!(shown(&words, &folder).unwrap().contains("\u{1B}["));
}

/// In a narrow terminal the bar is narrower, so that it stays on its line.
#[test]
fn a_bar_that_fits() {
    let folder = Folder::new("narrow");
    fs::write(folder.0.join("slow.rules"), rules(200)).unwrap();
    for columns in [7, 30, 45, 60] {
        let slow = format!("timeout 3 {} check --threads 1 slow.rules", quoted_program());
        let command = format!("stty cols {columns}; {slow} >said");
        let Some(text) = shown(&command, &folder) else {
            println!("skipped: neither script nor python3 is here to open a terminal");
            return;
        };
        let bars: Vec<&str> = text.split('\r').filter(|line| line.contains('%')).collect();
        assert!(!bars.is_empty(), "{columns}: {text:?}");
        for bar in bars {
            assert!(bar.chars().count() < columns, "{columns}: {bar:?}");
            assert_eq!(bar.contains('['), columns >= 45, "{columns}: {bar:?}");
        }
    }
}

#[test]
fn a_bar_in_a_terminal_and_none_in_a_pipe() {
    let folder = Folder::new("terminal");
    // enough work for more than a second, however fast the machine is
    for count in [3, 5, 9, 17, 33, 129, 513] {
        fs::write(folder.0.join("slow.rules"), rules(count)).unwrap();
        let check = format!("{} check slow.rules", quoted_program());
        let begun = Instant::now();
        let Some(shown) = in_a_terminal(&format!("{check} >said"), &folder.0) else {
            println!("skipped: neither script nor python3 is here to open a terminal");
            return;
        };
        if begun.elapsed() < Duration::from_millis(2_500) && count < 513 {
            continue;
        }
        let pairs = count * (count - 1) / 2;
        let bar = String::from_utf8_lossy(&shown.stdout).into_owned();
        assert!(bar.contains(&format!(" of {pairs} pairs")), "{bar:?}");
        assert!(bar.contains(" % [") && bar.starts_with('\r') && bar.ends_with(" \r"), "{bar:?}");
        let said = fs::read_to_string(folder.0.join("said")).unwrap();
        let last = said.lines().last().unwrap().to_string();
        assert!(last.starts_with(&format!("{count} rules, {pairs} pairs: ")), "{last}");
        assert!(!said.contains('\r'));
        // both in the terminal: no line has a rest of the bar
        let both = in_a_terminal(&check, &folder.0).unwrap();
        let text = String::from_utf8_lossy(&both.stdout).replace("\r\n", "\n");
        assert!(text.contains(" % ["));
        for line in bare(&text).lines().filter_map(|line| line.rsplit('\r').next()) {
            assert!(line.trim().is_empty() || said.contains(line), "{line:?}");
        }
        let piped =
            Command::new("sh").args(["-c", &check]).current_dir(&folder.0).output().unwrap();
        assert_eq!(String::from_utf8_lossy(&piped.stdout), said);
        assert!(piped.stderr.is_empty());
        return;
    }
}
