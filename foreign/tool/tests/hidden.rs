//! Characters that control the terminal, turn the direction of a line or are not seen, wherever they
//! come from: names of files, words of the command, labels, values of a table, and the rules. Nothing
//! that is told has one.

mod common;

use std::fs;
use std::path::Path;

use bradovusc_tool::notation::visible::is_hidden;
use common::{program_in, Folder};

/// An escape of a terminal, a character that turns the direction, and one without a width.
const HIDDEN: &str = "\u{1B}[31m\u{202E}\u{200B}";

/// Makes the files, each named by a letter and hidden characters; gives their names.
fn files(folder: &Path) -> [String; 6] {
    let h = HIDDEN;
    let files = [
        ("g", "mortice = LT{size}{finish}\n  size = [0-9][0-9]\nlatch = LT{rest}\n".to_string()),
        ("n", "other = KP{x}\n".to_string()),
        ("w", format!("a = LT{h}\n b = {h}\n{h}\nx = {{{h}}}\nc{h} = C\nd = \\{h}\ne = {{f}}\n f = [{h}\n")),
        ("o", "a = {x}{y}A{x}\nb = {x}B{y}{x}\n".to_string()),
        ("e", format!("# {h}\n")),
        ("c", format!("label{h},x\nLT4{h},1\nLT44,2\n")),
    ];
    files.map(|(letter, text)| {
        let name = format!("{letter}{h}.rules");
        fs::write(folder.join(&name), text).unwrap();
        name
    })
}

/// Commands in which every word may have hidden characters.
fn commands(folder: &Path) -> Vec<Vec<String>> {
    let [g, n, w, o, e, c] = files(folder);
    let h = HIDDEN.to_string();
    let (cat, column) = (format!("s{h}.cat"), format!("label{h}"));
    let new = format!("new{h}.rules");
    let lines: [&[&str]; 31] = [
        &["check", &g],
        &["check", &g, "--against", &n],
        &["check", &w],
        &["check", &e],
        &["check", "--room", "20", &o],
        &["check", &column],
        &["pair", &g, "mortice", "latch"],
        &["pair", "--repair", &g, "mortice", "latch"],
        &["pair", "--steps", &g, "mortice", "latch"],
        &["pair", &g, &column, "latch"],
        &["which", &g, &column],
        &["which", &g, "LT44BR", "LT44"],
        &["which", &g, "--csv", &c, "--column", &column],
        &["which", &g, "--csv", &c, "--column", &h],
        &["which", &g, "--csv", &c, "--column", "1", "--separator", &h],
        &["accept", "--new", &new, &n],
        &["accept", &new, &g],
        &["add", "--new", &cat, &g, "mortice"],
        &["add", "--new", &cat, &g, "mortice"],
        &["add", &cat, &g, "latch"],
        &["add", &cat, &g, &h],
        &["list", &g],
        &["check", &cat],
        &["recheck", &cat],
        &["withdraw", &cat, "9"],
        &["withdraw", &cat, &h],
        &[&h],
        &["check", "--room", &h, &g],
        &["check", "--format", &h, &g],
        &["check", "--part", &h, &g],
        &["help", &h],
    ];
    lines.iter().map(|line| line.iter().map(|word| word.to_string()).collect()).collect()
}

#[test]
fn nothing_hidden_is_told() {
    let folder = Folder::new("hidden");
    let mut written_out = 0;
    for command in commands(&folder.0) {
        let mut forms = vec![vec![], vec!["--json"]];
        if matches!(&*command[0], "check" | "recheck" | "pair") {
            forms.extend(["short", "github", "sarif"].map(|form| vec!["--format", form]));
        }
        for form in forms {
            let words = command.iter().map(String::as_str).chain(form).collect::<Vec<_>>();
            let said = program_in(&folder.0, &words);
            let text = said.text() + &said.errors;
            let hidden = text.chars().find(|&sign| is_hidden(sign) && sign != '\n');
            assert_eq!(hidden, None, "{words:?}: {text:?}");
            written_out += usize::from(text.contains("<U+202E>") || text.contains("\\u202e"));
        }
    }
    assert!(written_out > 50, "{written_out}");
}
