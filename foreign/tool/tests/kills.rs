//! `add` ended in the midst, at any moment, and several that begin the same catalogue.

mod common;

use std::fs;
use std::process::{Child, Command, Stdio};
use std::thread::sleep;
use std::time::{Duration, Instant};

use bradovusc_tool::catalogue::BYTES;
use common::{call, program, Dice, Folder};

const KILLS: usize = 200;

fn start(folder: &Folder, words: &[&str]) -> Child {
    let program = program();
    Command::new(&program[0])
        .args(&program[1..])
        .args(words)
        .current_dir(&folder.0)
        .stdout(Stdio::null())
        .stderr(Stdio::piped())
        .spawn()
        .unwrap()
}

/// New files that are left over.
fn left(folder: &Folder) -> Vec<String> {
    let mut names = folder.names();
    names.retain(|name| name.ends_with(".new"));
    names
}

fn rules_in(folder: &Folder) -> usize {
    let listed = call(&["list", &folder.path("stock.cat")]);
    assert_eq!(listed.status, 0, "{listed:?}");
    let text = listed.text();
    text.lines().filter(|line| line.contains(" = R")).count()
}

/// Killed after a time that is as often too short as too long: the catalogue is whole, with the rule
/// or without it, and what is left beside it is gone with the next change.
#[test]
fn killed_at_any_moment() {
    let folder = Folder::new("killed");
    let rules: String =
        (0..32).map(|number| format!("r{number} = R{number}-{{x}}\n  x = [0-9]+\n")).collect();
    fs::write(folder.0.join("many.rules"), rules).unwrap();
    let path = folder.path("stock.cat");
    let begun = Instant::now();
    assert!(start(&folder, &["add", "--new", "stock.cat", "many.rules", "r31"])
        .wait()
        .unwrap()
        .success());
    let usual = begun.elapsed().as_micros() as usize;
    let (mut dice, mut rules, mut killed, mut most_left) = (Dice::new(40), 1, 0, 0);
    for number in 0..KILLS {
        let rule = format!("r{}", rules - 1);
        let mut add = start(&folder, &["add", "stock.cat", "many.rules", &rule]);
        sleep(Duration::from_micros(dice.below(2 * usual) as u64));
        let _ = add.kill();
        killed += usize::from(!add.wait().unwrap().success());
        assert_eq!(fs::metadata(&path).unwrap().len(), BYTES as u64, "{number}");
        let now = rules_in(&folder);
        assert!(now == rules || now == rules + 1, "{number}: {now} rules after {rules}");
        rules = now;
        most_left = most_left.max(left(&folder).len());
        if rules == 20 {
            while rules > 1 {
                assert_eq!(call(&["withdraw", &path, "1"]).status, 0, "{number}");
                rules -= 1;
            }
            assert_eq!(left(&folder), [""; 0], "{number}");
        }
    }
    println!("{killed} of {KILLS} killed, at most {most_left} files left at a time");
    assert!(killed > KILLS / 10, "{killed}");
    // each takes away what the one before has left, so there is never more than one
    assert!(most_left <= 1, "{most_left}");
    assert_eq!(call(&["recheck", &path]).status, 0);
}

/// What killed ones have left is taken away by the next change, and nothing else is: neither what is
/// being written, nor another catalogue's, nor what only looks like it.
#[test]
fn what_was_left() {
    let folder = Folder::with_files("left");
    let rules = folder.path("latch.rules");
    let path = folder.path("stock.cat");
    assert_eq!(call(&["add", "--new", &path, &rules, "mortice"]).status, 0);
    let gone = [".stock.cat.17.0.new", ".stock.cat.4194304.12.new", ".stock.cat.1.1.new"];
    let kept = [
        ".stock.cat.18.0.new",
        ".other.cat.17.0.new",
        ".stock.cat.17.new",
        ".stock.cat.17.0.0.new",
        ".stock.cat.x.0.new",
        "stock.cat.17.0.new",
        ".stock.cat.17.0.old",
    ];
    for name in gone.iter().chain(&kept) {
        fs::write(folder.0.join(name), "left").unwrap();
    }
    let written = fs::File::open(folder.0.join(kept[0])).unwrap();
    written.lock().unwrap();
    let before = folder.names();
    assert_eq!(call(&["list", &path]).status, 0);
    assert_eq!(folder.names(), before);
    // also by one that is refused
    assert_eq!(call(&["add", &path, &rules, "latch"]).status, 1);
    let mut wanted = before;
    wanted.retain(|name| !gone.contains(&name.as_str()));
    assert_eq!(folder.names(), wanted);
    written.unlock().unwrap();
    assert_eq!(call(&["withdraw", &path, "0"]).status, 0);
    assert!(!folder.names().iter().any(|name| name == kept[0]));
}

/// Several begin the same catalogue: one does, and each other one hears that it is there.
#[test]
fn several_begin() {
    let folder = Folder::with_files("begin");
    let words = ["add", "--new", "stock.cat", "latch.rules", "mortice"];
    for _ in 0..20 {
        let started: Vec<Child> = (0..4).map(|_| start(&folder, &words)).collect();
        let mut done = 0;
        for each in started {
            let output = each.wait_with_output().unwrap();
            let said = String::from_utf8(output.stderr).unwrap();
            match output.status.code() {
                Some(0) => done += 1,
                status => {
                    assert_eq!(status, Some(3), "{said}");
                    let there = "stock.cat is there already, so it is not --new";
                    assert_eq!(said, format!("bradovusc: {there}\n"));
                }
            }
        }
        assert_eq!(done, 1);
        assert_eq!(left(&folder), [""; 0]);
        let listed = call(&["list", &folder.path("stock.cat")]).text();
        assert!(listed.ends_with("# 1 rule of 32, 35 bytes of 26,016\n"), "{listed}");
        fs::remove_file(folder.path("stock.cat")).unwrap();
    }
}
