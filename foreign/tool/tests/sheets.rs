//! The sheets that the library writes for the tool are those that tools/sheet puts together, for
//! rules that both can say.

mod common;

use std::fs;
use std::path::Path;
use std::process::Command;

use common::{call_with, Dice};

/// A pattern that both read alike, and that the tool does not write shorter: alternatives begin
/// with different letters and end with different digits.
fn pattern(dice: &mut Dice, depth: usize) -> String {
    let leaves = ["L", "T", "4", "7", "-", "$", "%", "[0-9]", "[A-F]", "[C-C]", "\\.", "\\+", "/"];
    match dice.below(if depth == 0 { 1 } else { 4 }) {
        0 => dice.pick(&leaves).replace("[C-C]", "C"),
        1 => (0..2 + dice.below(3)).map(|_| pattern(dice, depth - 1)).collect(),
        2 => format!("({})*", row(dice, depth - 1)),
        _ => format!("(G{0}1|K{0}{0}3|M5)", dice.pick(&leaves).replace("[C-C]", "C")),
    }
}

/// Something that is no repetition itself.
fn row(dice: &mut Dice, depth: usize) -> String {
    format!("Q{}", pattern(dice, depth))
}

/// A side in the notation of the tool and in that of tools/sheet, where the fields are letters.
fn side(dice: &mut Dice, letters: [char; 4]) -> (String, String, usize) {
    let (mut ours, mut theirs, mut fields) = (String::new(), String::new(), 0);
    for _ in 0..1 + dice.below(12) {
        if dice.one_in(3) {
            let field = dice.below((fields + 1).min(4));
            fields = fields.max(field + 1);
            ours += &format!("{{{}}}", letters[field]);
            theirs.push(letters[field]);
        } else {
            let sign = dice.pick(&['0', '9', 'A', 'Z', '-', '.', ' ', '$', '/', '+', '%']);
            ours += &if sign == ' ' { "\\s".to_string() } else { sign.to_string() };
            theirs.push(sign);
        }
    }
    (ours, theirs, fields)
}

#[test]
fn as_tools_sheet_writes_them() {
    let script = Path::new(env!("CARGO_MANIFEST_DIR")).join("../../tools/sheet");
    if !Command::new("python3")
        .arg("--version")
        .output()
        .is_ok_and(|output| output.status.success())
    {
        println!("skipped: no python3 for tools/sheet");
        return;
    }
    assert!(fs::exists(&script).unwrap());
    let mut dice = Dice::new(5);
    for number in 0..30 {
        let (mut text, mut words) = (String::new(), Vec::new());
        let mut patterns = Vec::new();
        for (name, letters) in [("left", ['a', 'b', 'c', 'd']), ("right", ['e', 'f', 'g', 'h'])] {
            let (ours, theirs, fields) = side(&mut dice, letters);
            text += &format!("{name} = {ours}\n");
            words.push(theirs);
            for letter in &letters[..fields] {
                if !dice.one_in(4) {
                    let pattern = pattern(&mut dice, 2);
                    text += &format!("  {letter} = {pattern}\n");
                    patterns.push(format!("{letter}={pattern}"));
                }
            }
        }
        words.extend(patterns);
        let theirs = Command::new("python3").arg(&script).args(&words).output().unwrap();
        assert!(theirs.status.success(), "{words:?}: {theirs:?}");
        let ours = call_with(&["sheet", "-", "left", "right"], text.as_bytes());
        assert_eq!(ours.status, 0, "{number}: {text}{}", ours.errors);
        assert_eq!(ours.output, theirs.stdout, "{number}: {text}");
    }
}
