//! Every command and every kind of mistake, against the texts in tests/golden.
//!
//! A file `NAME.words` has the words of calls, one a line, done one after the other in a folder with
//! copies of tests/golden/files; `NAME.said` has what they said: standard output as it is, standard
//! error behind `! `, the status in brackets. Two further words change a file: `cut FILE BYTES` and
//! `bytes FILE LENGTH HEX..`, which writes these bytes and zeros up to the length; `show FILE` shows one.
//! A file `NAME.rules` has a mistake, or several of a kind; `NAME.said` has what `check` says of it.
//!
//! `GOLDEN=write` writes the files anew.

mod common;

use std::fmt::Write;
use std::fs;

use common::{call, expected, files, golden, program_in, Folder, Said};

/// Status, output and errors, as they stand in a golden file.
fn shown(said: &Said) -> String {
    let mut text = match String::from_utf8(said.output.clone()) {
        Ok(text) if !text.contains('\0') => text,
        _ => {
            let digits: Vec<String> =
                said.output.iter().map(|byte| format!("{byte:02X}")).collect();
            format!("(bytes) {}\n", digits.join(" "))
        }
    };
    for line in said.errors.lines() {
        let _ = writeln!(text, "! {line}");
    }
    let _ = writeln!(text, "[{}]", said.status);
    text
}

#[test]
fn commands() {
    let mut failed = Vec::new();
    for path in files(&golden("commands"), "words") {
        let name = path.file_stem().unwrap().to_str().unwrap();
        let folder = Folder::with_files(name);
        let mut now = String::new();
        for line in fs::read_to_string(&path).unwrap().lines() {
            let words: Vec<&str> = line.split(' ').filter(|word| !word.is_empty()).collect();
            match words[..] {
                ["cut", file, bytes] => {
                    let file =
                        fs::OpenOptions::new().write(true).open(folder.0.join(file)).unwrap();
                    file.set_len(bytes.parse().unwrap()).unwrap();
                }
                ["bytes", file, length, ref digits @ ..] => {
                    let byte = |digits: &&str| u8::from_str_radix(digits, 16).unwrap();
                    let mut bytes: Vec<u8> = digits.iter().map(byte).collect();
                    bytes.resize(length.parse().unwrap(), 0);
                    fs::write(folder.0.join(file), bytes).unwrap();
                }
                ["show", file] => {
                    let text = fs::read_to_string(folder.0.join(file)).unwrap();
                    let _ = write!(now, "$ cat {file}\n{text}");
                }
                ref words => {
                    let said = program_in(&folder.0, words);
                    let _ = write!(now, "$ bradovusc {line}\n{}", shown(&said));
                }
            }
        }
        if now != expected(&path.with_extension("said"), &now) {
            println!("---- {name}\n{now}");
            failed.push(name.to_string());
        }
    }
    assert!(failed.is_empty(), "{failed:?} say something else");
}

#[test]
fn mistakes() {
    let mut failed = Vec::new();
    let paths = files(&golden("mistakes"), "rules");
    assert!(paths.len() >= 40);
    std::env::set_current_dir(golden("mistakes")).unwrap();
    for path in paths {
        let name = path.file_name().unwrap().to_str().unwrap();
        let said = call(&["check", name]);
        assert_eq!(said.status, 3, "{name}");
        let now = shown(&said);
        if now != expected(&path.with_extension("said"), &now) {
            println!("---- {name}\n{now}");
            failed.push(name.to_string());
        }
        // the same in JSON: as many mistakes, each an object of one line
        let objects = call(&["check", "--json", name]).text();
        let mistakes = objects.lines().filter(|line| line.starts_with("{\"mistake\":"));
        let mistakes = mistakes.filter(|line| line.ends_with('}')).count();
        let told = now.lines().filter(|line| line.starts_with(&format!("! {name}:"))).count();
        assert_eq!(mistakes + 1, told, "{name}");
        // where not all are told, the last object says how many there are
        let more = objects.lines().filter(|line| line.starts_with("{\"mistakes\":")).count();
        assert_eq!(objects.lines().count(), mistakes + more, "{name}");
        assert_eq!(more, usize::from(now.contains(", of which the first 50 are told")), "{name}");
    }
    assert!(failed.is_empty(), "{failed:?} say something else");
}
