//! How long a storeroom's rules take: seconds by the clock, and seconds of all processors together.
//! Not run by itself: `cargo test --release --test measure -- --ignored --nocapture`.

mod common;

use std::fs;
use std::path::Path;
use std::process::Command;
use std::time::Instant;

use common::{many_rules, program, program_in, Folder};

fn storeroom() -> String {
    let path = Path::new(env!("CARGO_MANIFEST_DIR")).join("examples/storeroom.rules");
    fs::read_to_string(path).unwrap()
}

/// Does the calls, one a line, and prints both times and the last line that was said.
fn timed(folder: &Folder, calls: &str, what: &str) {
    let script = calls.lines().map(|words| format!("\"$@\" {words} >said 2>&1\n"));
    let script: String = script.chain(["times\n".to_string()]).collect();
    let begun = Instant::now();
    let output = Command::new("sh")
        .args(["-c", &script, "sh"])
        .args(program())
        .current_dir(&folder.0)
        .output()
        .unwrap();
    let (took, times) = (begun.elapsed(), String::from_utf8(output.stdout).unwrap());
    // the second line has those of the calls: user and system
    let spent = times.lines().last().unwrap_or_default().replace(' ', " + ");
    let said = fs::read_to_string(folder.0.join("said")).unwrap();
    println!(
        "{:8.2} s, {spent}: {what}: {}",
        took.as_secs_f64(),
        said.lines().last().unwrap_or("")
    );
}

#[test]
fn the_storeroom_s_rules_are_apart() {
    let folder = Folder::new("storeroom");
    fs::write(folder.0.join("storeroom.rules"), storeroom()).unwrap();
    let said = program_in(&folder.0, &["check", "storeroom.rules"]);
    assert_eq!(said.text(), "32 rules, 496 pairs: 0 clashes, 0 not decided, 496 without a clash\n");
}

#[test]
#[ignore = "a measure"]
fn measure() {
    let folder = Folder::new("measure");
    fs::write(folder.0.join("storeroom.rules"), storeroom()).unwrap();
    fs::write(folder.0.join("one.rules"), "one = ONE\n").unwrap();
    for count in [500, 2_000, 20_000] {
        fs::write(folder.0.join(format!("{count}.rules")), many_rules(count)).unwrap();
    }
    for file in ["one", "storeroom", "500", "2000", "20000"] {
        timed(&folder, &format!("check {file}.rules"), &format!("check {file}.rules"));
    }
    for file in ["500", "2000"] {
        timed(
            &folder,
            &format!("check --json {file}.rules"),
            &format!("check --json {file}.rules"),
        );
    }
    let rules = storeroom();
    let names =
        rules.lines().filter(|line| line.starts_with(|sign: char| sign.is_ascii_lowercase()));
    let add = |(number, line): (usize, &str)| {
        let (name, new) =
            (line.split(' ').next().unwrap(), if number == 0 { "--new " } else { "" });
        format!("add {new}stock.cat storeroom.rules {name}\n")
    };
    timed(&folder, &names.enumerate().map(add).collect::<String>(), "add, 32 times");
    timed(&folder, "recheck stock.cat", "recheck stock.cat");
    assert_eq!(program_in(&folder.0, &["recheck", "stock.cat"]).status, 0);
}
