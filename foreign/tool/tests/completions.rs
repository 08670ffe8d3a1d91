//! The completions for bash, zsh and fish offer what the tool takes: all commands, and of each its
//! options and no others.

mod common;

use std::collections::BTreeSet;
use std::fs;
use std::path::{Path, PathBuf};
use std::process::Command;

use bradovusc_tool::words::{Form, COMMANDS, FOR_ALL};
use common::Folder;

fn file(name: &str) -> PathBuf {
    Path::new(env!("CARGO_MANIFEST_DIR")).join("completions").join(name)
}

fn text(name: &str) -> String {
    fs::read_to_string(file(name)).unwrap()
}

type Words = BTreeSet<String>;

fn words<'a>(words: impl IntoIterator<Item = &'a str>) -> Words {
    words.into_iter().map(String::from).collect()
}

/// The options of a command, those of all included.
fn options(form: &Form) -> Words {
    words(form.options.iter().copied().chain(FOR_ALL))
}

/// Whether a shell is here, and if it is, that it reads the file.
fn read_by(shell: &str, name: &str) -> bool {
    let Ok(output) = Command::new(shell).arg("-n").arg(file(name)).output() else {
        println!("skipped: {shell} is not here to read {name}");
        return false;
    };
    assert!(output.status.success(), "{}", String::from_utf8_lossy(&output.stderr));
    true
}

/// What bash would offer for the last of these words.
fn offered_by_bash(folder: &Folder, line: &[&str]) -> Words {
    let script =
        "source \"$0\"; complete -p bradovusc | grep -q -- '-F _bradovusc bradovusc' || exit 9
        COMP_WORDS=(\"$@\") COMP_CWORD=$(($# - 1)); _bradovusc; printf '%s\\n' \"${COMPREPLY[@]}\"";
    let output = Command::new("bash")
        .args(["-c", script])
        .arg(file("bradovusc.bash"))
        .args(line)
        .current_dir(&folder.0)
        .output()
        .unwrap();
    assert!(output.status.success() && output.stderr.is_empty(), "{line:?}: {output:?}");
    let text = String::from_utf8(output.stdout).unwrap();
    words(text.lines().filter(|line| !line.is_empty()))
}

#[test]
fn bash() {
    if !read_by("bash", "bradovusc.bash") {
        return;
    }
    let folder = Folder::with_files("bash");
    fs::write(folder.0.join("two words.rules"), "sash = S\n").unwrap();
    let offered = |line: &[&str]| offered_by_bash(&folder, &[&["bradovusc"], line].concat());
    assert_eq!(offered(&[""]), words(COMMANDS.iter().map(|form| form.name)));
    assert_eq!(offered(&["-"]), words(FOR_ALL));
    for form in &COMMANDS {
        assert_eq!(offered(&[form.name, "--"]), options(form), "{}", form.name);
    }
    assert_eq!(offered(&["re"]), words(["recheck"]));
    assert_eq!(offered(&["--json", "help", "s"]), words(["script", "sheet"]));
    let rules = words(["mortice", "keypad", "latch"]);
    assert_eq!(offered(&["pair", "latch.rules", ""]), rules);
    assert_eq!(offered(&["sheet", "--json", "latch.rules", "mortice", ""]), rules);
    assert_eq!(
        offered(&["add", "--room", "7", "stock.cat", "latch.rules", "m"]),
        words(["mortice"])
    );
    assert_eq!(offered(&["pair", "two\\ words.rules", ""]), words(["sash"]));
    assert_eq!(offered(&["check", "two"]), words(["two words.rules"]));
    assert_eq!(offered(&["check", "latch.rules", "la"]), words(["latch.rules"]));
    assert_eq!(offered(&["check", "--against", "la"]), words(["latch.rules"]));
    assert_eq!(offered(&["check", "--room", ""]), words([]));
    assert_eq!(offered(&["check", "--format", "=", "s"]), words(["sarif", "short"]));
    assert_eq!(offered(&["pair", "latch.rules", "mortice", "latch", ""]), words([]));
    // what stands in a line is never run
    assert_eq!(offered(&["pair", "$(touch run)", ""]), words([]));
    assert!(!folder.names().contains(&"run".to_string()));
}

/// The options that stand in a text as `--NAME[`.
fn in_brackets(text: &str) -> Words {
    let options = text.split("--").skip(1).filter_map(|rest| {
        let name = rest.split(|sign: char| !sign.is_ascii_lowercase() && sign != '-').next()?;
        rest[name.len()..].starts_with(['[', ',']).then(|| format!("--{name}"))
    });
    options.collect()
}

/// The options of a command in the file for zsh: those that stand in its part, and those of the
/// lists that it names.
fn options_for_zsh(text: &str, name: &str) -> Words {
    let front = |line: &str| {
        let names = line.trim().split(')').next().unwrap_or_default();
        names.split(" | ").any(|part| part == name)
    };
    let part = text.lines().skip_while(|line| !front(line));
    let part: Vec<&str> = part
        .scan(false, |over, line| {
            let before = *over;
            *over |= line.contains(";;");
            (!before).then_some(line)
        })
        .collect();
    let part = part.join("\n");
    let mut options = in_brackets(&part);
    for list in part.split('$').skip(1) {
        let list = list.split(|sign: char| !sign.is_ascii_lowercase()).next().unwrap_or_default();
        let begun = format!("    {list}=(");
        let made = text.split(begun.as_str()).nth(1).unwrap_or_else(|| panic!("no list {list}"));
        // a list ends with its line, or with a bracket in a line of its own
        let end = if made.starts_with('\n') { "\n    )" } else { ")\n" };
        options.extend(in_brackets(made.split(end).next().unwrap()));
    }
    options
}

#[test]
fn zsh() {
    let text = text("_bradovusc");
    assert!(text.starts_with("#compdef bradovusc\n"));
    for form in &COMMANDS {
        assert!(text.contains(&format!("        '{}:", form.name)), "{}", form.name);
        assert_eq!(options_for_zsh(&text, form.name), options(form), "{}", form.name);
    }
    read_by("zsh", "_bradovusc");
}

#[test]
fn fish() {
    let text = text("bradovusc.fish");
    let names: Vec<&str> = COMMANDS.iter().map(|form| form.name).collect();
    assert!(text.contains(&format!("set -g __bradovusc_commands {}\n", names.join(" "))));
    let option = |line: &str| {
        line.split(" -l ").nth(1).and_then(|rest| rest.split(' ').next()).map(String::from)
    };
    let commands = |line: &str| {
        let list = line.split("'__fish_seen_subcommand_from ").nth(1);
        list.map(|list| words(list.split('\'').next().unwrap().split(' ')))
    };
    for form in &COMMANDS {
        let is_named = |line: &str| line.contains(&format!(" -f -a {} -d ", form.name));
        assert!(text.lines().any(is_named), "{}", form.name);
        let of_it = |line: &&str| commands(line).is_none_or(|names| names.contains(form.name));
        let given: Words =
            text.lines().filter(of_it).filter_map(option).map(|name| format!("--{name}")).collect();
        assert_eq!(given, options(form), "{}", form.name);
    }
    if read_by("fish", "bradovusc.fish") {
        let line = "source $argv[1]; complete -C 'bradovusc wi'";
        let output = Command::new("fish")
            .args(["--no-config", "-c", line])
            .arg(file("bradovusc.fish"))
            .output()
            .unwrap();
        assert!(String::from_utf8_lossy(&output.stdout).starts_with("withdraw\t"), "{output:?}");
    }
}
