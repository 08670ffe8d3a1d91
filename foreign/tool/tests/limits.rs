//! Great files of mistakes, in little room, and output that nobody reads to its end.

mod common;

use std::fs;
use std::io::Read;
use std::process::{Command, Stdio};

use common::{program, Folder};

/// A file of rules may have so many bytes.
const MOST_FILE: usize = 16 << 20;

/// Files that are one great mistake, two of them as large as a file may be, while the program may have
/// 100 MB.
#[test]
fn mistakes_in_little_room() {
    let folder = Folder::new("great");
    if program().len() > 1 {
        println!("skipped: an emulator needs more room than the program");
        return;
    }
    let files: [(&str, Vec<u8>); 4] = [
        ("8,388,608 mistakes", b"a\n".repeat(MOST_FILE / 2)),
        ("174,761 mistakes", b"a = A\n".repeat(MOST_FILE / 96)),
        ("262,144 mistakes", b"\xFF\xFF\xFF\n".repeat(MOST_FILE / 64)),
        ("1 mistake", vec![b'a'; MOST_FILE]),
    ];
    for (count, bytes) in files {
        fs::write(folder.0.join("great.rules"), bytes).unwrap();
        // a line is read as a whole, with four bytes for each character
        let limit = if count == "1 mistake" { 400_000 } else { 100_000 };
        let output = Command::new("sh")
            .args(["-c", &format!("ulimit -v {limit}; exec \"$@\" check great.rules"), "sh"])
            .args(program())
            .current_dir(&folder.0)
            .output()
            .unwrap();
        assert_eq!(
            (output.status.code(), output.stdout.len()),
            (Some(3), 0),
            "{count}: {output:?}"
        );
        let said = String::from_utf8(output.stderr).unwrap();
        assert!(said.len() < 20_000, "{count}: {} bytes", said.len());
        let told = match count {
            "1 mistake" => format!("great.rules: {count}; nothing was done\n"),
            _ => {
                format!("great.rules: {count}, of which the first 50 are told; nothing was done\n")
            }
        };
        assert!(said.ends_with(&told), "{count}: {said}");
    }
}

/// Whoever reads the output has gone: nothing is said about it, and the status tells it.
#[test]
fn broken_pipes_are_silent() {
    let folder = Folder::new("pipe");
    let clashing: String = (0..300).map(|number| format!("r{number} = {{x}}\n")).collect();
    fs::write(folder.0.join("clash.rules"), clashing).unwrap();
    fs::write(folder.0.join("wrong.rules"), "a\n".repeat(100)).unwrap();
    let program = program();
    for words in [
        &["check", "clash.rules"][..],
        &["check", "--json", "clash.rules"],
        &["check", "--format", "short", "clash.rules"],
        &["check", "--format", "github", "clash.rules"],
        &["check", "--format", "sarif", "clash.rules"],
    ] {
        let mut started = Command::new(&program[0])
            .args(&program[1..])
            .args(words)
            .current_dir(&folder.0)
            .stdin(Stdio::null())
            .stdout(Stdio::piped())
            .stderr(Stdio::piped())
            .spawn()
            .unwrap();
        let mut output = started.stdout.take().unwrap();
        output.read_exact(&mut [0]).unwrap();
        drop(output);
        let ended = started.wait_with_output().unwrap();
        assert_eq!(String::from_utf8_lossy(&ended.stderr), "", "{words:?}");
        assert_eq!(ended.status.code(), Some(4), "{words:?}");
    }
    // nobody reads from the beginning
    for words in ["check clash.rules", "check --json wrong.rules", "--help", "list --json none"] {
        let output = Command::new("sh")
            .args(["-c", &format!("\"$@\" {words} | true"), "sh"])
            .args(&program)
            .current_dir(&folder.0)
            .output()
            .unwrap();
        assert_eq!(String::from_utf8_lossy(&output.stderr), "", "{words}");
    }
}
