//! The examples of docs/NOTATION.md and docs/CI.md: their files of rules, and their commands with what
//! they print.

mod common;

use std::fs;
use std::path::Path;

use common::{program_in, Folder};

/// The indented blocks of the page, without the indent. What stands between fences is none of them.
fn blocks(page: &str) -> Vec<String> {
    let (mut blocks, mut open, mut fenced) = (vec![String::new()], false, false);
    for line in page.lines() {
        fenced ^= line.starts_with("```");
        let inside = line.strip_prefix("    ").filter(|_| !fenced);
        match inside {
            Some(text) => {
                open = true;
                *blocks.last_mut().unwrap() += &format!("{text}\n");
            }
            // a blank line within a block
            None if open && line.is_empty() => *blocks.last_mut().unwrap() += "\n",
            None => {
                open = false;
                blocks.push(String::new());
            }
        }
    }
    blocks.retain(|block| !block.is_empty());
    blocks
}

/// Tries the examples of a page, and counts its files and its commands.
fn tried(name: &str) -> (usize, usize) {
    let page = Path::new(env!("CARGO_MANIFEST_DIR")).join("../../docs").join(name);
    let page = fs::read_to_string(page).unwrap();
    let folder = Folder::new(name);
    let (mut files, mut commands) = (0, 0);
    for block in blocks(&page) {
        let first = block.lines().next().unwrap_or_default();
        if let Some(name) = first.strip_prefix("# ").filter(|name| name.ends_with(".rules")) {
            fs::write(folder.0.join(name), &block).unwrap();
            files += 1;
            continue;
        }
        assert!(first.starts_with("$ bradovusc "), "{block}");
        for example in block.trim_end().split("$ bradovusc ").skip(1) {
            let (words, wanted) = example.split_once('\n').unwrap_or((example, ""));
            let words: Vec<&str> = words.split(' ').collect();
            let said = program_in(&folder.0, &words);
            let text = said.text() + &said.errors;
            assert_eq!(text.trim_end(), wanted.trim_end(), "{words:?}");
            commands += 1;
        }
    }
    (files, commands)
}

#[test]
fn examples_of_the_notation() {
    let (files, commands) = tried("NOTATION.md");
    assert!(files >= 3 && commands >= 12, "{files} {commands}");
}

#[test]
fn examples_of_ci() {
    let (files, commands) = tried("CI.md");
    assert!(files >= 1 && commands >= 4, "{files} {commands}");
}
