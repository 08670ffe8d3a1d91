//! Large files: parts that are the whole, also by GNU parallel, pairs settled by their fronts, seconds.

mod common;

use std::fs;
use std::process::Command;
use std::time::{Duration, Instant};

use common::{call, many_rules, program, program_in, Folder};

fn with_rules(name: &str, count: usize) -> Folder {
    let folder = Folder::with_files(name);
    fs::write(folder.0.join("many.rules"), many_rules(count)).unwrap();
    folder
}

#[test]
fn parts_are_the_whole() {
    let folder = with_rules("parts", 60);
    for words in [
        &["check", "many.rules"][..],
        &["check", "latch.rules", "spaces.rules", "many.rules"],
        &["check", "many.rules", "--against", "spaces.rules", "--against", "latch.rules"],
        &["check", "apart.rules", "--clashes-only"],
    ] {
        let whole = program_in(&folder.0, &[words, &["--json"]].concat());
        for parts in [1, 2, 3, 7, 40] {
            let (mut joined, mut clash) = (Vec::new(), false);
            for number in 1..=parts {
                let part = format!("--part={number}/{parts}");
                let said = program_in(&folder.0, &[words, &["--json", &part]].concat());
                clash |= said.status == 1;
                joined.extend(said.output);
            }
            assert_eq!(joined, whole.output, "{words:?} {parts}");
            assert_eq!(clash, whole.status == 1, "{words:?} {parts}");
        }
    }
}

/// What the parts count is what the whole counts.
#[test]
fn parts_in_words() {
    let folder = with_rules("parts-words", 40);
    let counts = |text: &str| -> Vec<usize> {
        let last = text.lines().last().unwrap().rsplit_once("part").map_or(text, |(_, rest)| rest);
        let numbers = last.split(|sign: char| !sign.is_ascii_digit() && sign != ',');
        let number = |number: &str| number.replace(',', "").parse().ok();
        numbers.filter_map(number).collect()
    };
    let said = call(&["check", "--part", "2/3", &folder.path("many.rules")]);
    assert!(said.text().contains("40 rules, part 2 of 3, 260 pairs: "), "{}", said.text());
    let parts: Vec<Vec<usize>> = (1..=3)
        .map(|part| format!("{part}/3"))
        .map(|part| counts(&call(&["check", "--part", &part, &folder.path("many.rules")]).text()))
        .collect();
    // part, of, pairs, clashes, not decided, without
    let sum = |index: usize| parts.iter().map(|counts| counts[index]).sum::<usize>();
    assert_eq!(sum(2), 780);
    assert_eq!(sum(3) + sum(4) + sum(5), 780);
    for wrong in ["0/3", "4/3", "1", "1/0", "", "a/b", "1/3/5"] {
        let said = call(&["check", "--part", wrong, &folder.path("many.rules")]);
        assert_eq!(said.status, 3);
        assert!(said.errors.contains(&format!("not '{wrong}'")), "{}", said.errors);
    }
}

/// A job runner spreads the parts: put together in their order they are the whole.
#[test]
fn by_gnu_parallel() {
    let version = Command::new("parallel").arg("--version").output();
    let known = version.is_ok_and(|said| said.stdout.starts_with(b"GNU parallel"));
    if !known {
        println!("skipped: GNU parallel is not here");
        return;
    }
    let folder = with_rules("runner", 200);
    let whole = program_in(&folder.0, &["check", "--json", "many.rules"]);
    let parts: Vec<String> = (1..=8).map(|part| part.to_string()).collect();
    let said = Command::new("parallel")
        .args(["--will-cite", "--keep-order", "--jobs", "3"])
        .args(program())
        .args(["check", "--json", "--part", "{}/8", "many.rules", ":::"])
        .args(parts)
        .env("HOME", &folder.0)
        .current_dir(&folder.0)
        .output()
        .unwrap();
    assert!(said.stdout == whole.output, "{}", String::from_utf8_lossy(&said.stderr));
}

/// Nearly all pairs of a storeroom are settled by their fronts, and those that are have no clash.
#[test]
fn settled_by_fronts() {
    let folder = with_rules("fronts", 500);
    let said = call(&["check", "--json", &folder.path("many.rules")]).text();
    let (mut settled, mut all) = (0, 0);
    for line in said.lines() {
        all += 1;
        if line.ends_with(
            ",\"answer\":\"no clash\",\"number\":1,\"search\":0,\"situations\":0,\"room\":0}",
        ) {
            settled += 1;
        } else {
            assert!(!line.contains("\"room\":0"), "{line}");
        }
    }
    assert_eq!(all, 124_750);
    assert!(settled * 100 > all * 97, "{settled}");
}

/// Rules of which no two are decided: each has a field twice and an open one.
fn open_rules(count: usize) -> String {
    (0..count).map(|number| format!("r{number} = {{x}}{{y}}A{number}{{x}}\n")).collect()
}

#[test]
fn seconds() {
    let folder = Folder::new("seconds");
    fs::write(folder.0.join("open.rules"), open_rules(6)).unwrap();
    let path = folder.path("open.rules");
    let begun = Instant::now();
    let said = call(&["check", "--json", "--seconds", "0.001", &path]);
    // each pair may take longer than its time by its last room alone
    assert!(begun.elapsed() < Duration::from_secs(10), "{:?}", begun.elapsed());
    assert_eq!(said.status, 2);
    let text = said.text();
    assert_eq!(text.lines().count(), 15);
    for line in text.lines() {
        assert!(line.contains("\"answer\":\"not decided\""), "{line}");
        assert!(line.contains("\"limit\":\"seconds\""), "{line}");
    }
    let said = call(&["check", "--seconds=0.001", "--max", "1", &path]);
    assert!(said.text().contains(": not decided: the seconds were over; "), "{}", said.text());
    // a limit of room too: it rises up to that
    let said = call(&["check", "--json", "--seconds", "60", "--room", "700", &path]);
    assert_eq!(said.status, 2);
    assert!(said.text().lines().all(|line| line.contains("\"room\":700,\"limit\":\"room\"")));
    for wrong in ["0", "", "-1", "x", "1e400", "nan", "inf"] {
        let said = call(&["check", "--seconds", wrong, &path]);
        assert_eq!(said.status, 3, "{wrong}");
        assert!(said.errors.contains("--seconds takes a number above 0"), "{}", said.errors);
    }
}

/// Where there is time enough, everything is told as without a limit.
#[test]
fn seconds_enough() {
    let folder = with_rules("enough", 50);
    for file in ["many.rules", "latch.rules", "serial.rules"] {
        let path = folder.path(file);
        let said = call(&["check", "--json", "--seconds", "600", &path]);
        assert_eq!(said, call(&["check", "--json", &path]), "{file}");
    }
}
