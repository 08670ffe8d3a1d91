//! The examples print what they must, and mistakes are errors.

#[allow(dead_code)]
#[path = "../examples/latches.rs"]
mod latches;
#[allow(dead_code)]
#[path = "../examples/storeroom.rs"]
mod storeroom;

use bradovusc_asking::{check, pair, rule, Asking, Edition, Room, Status, Wrong};

#[test]
fn two_rules() {
    let wanted = "mortice and rim clash: \"LT00CH\"\n  \
                  mortice (pair:1): size = \"00\", finish = \"CH\"\n  \
                  rim (pair:4): set = \"00\", turn = \"H\"\n\
                  LT stands there\n00 is read by set\nC stands there\nH is read by turn\n";
    assert_eq!(latches::said().unwrap(), wanted);
}

#[test]
fn a_text() {
    let wanted = "mortice and latch clash: \"LT00BR\"\n  \
                  mortice (rules:2): size = \"00\", finish = \"BR\"\n  \
                  latch (rules:7): rest = \"00BR\"\n\
                  3 rules, 3 pairs: 1 clash, 0 not decided, 2 without a clash\n\
                  LT00BR with [(\"size\", \"00\"), (\"finish\", \"BR\")]\n";
    assert_eq!(storeroom::said().unwrap(), wanted);
}

#[test]
fn neither_yes_nor_no() {
    let asking = Asking { room: Room::Fixed(5), ..Asking::default() };
    let pair = asking.pair(&rule("{x}A{y}").field("x", "[0-9]*"), &rule("{z}B{z}")).unwrap();
    assert_eq!((pair.clashes(), pair.label(), pair.left_texts()), (None, None, None));
    assert!(pair.to_string().starts_with("left and right: not decided"), "{pair}");
    let checked = asking.check("a = {x}A{y}\n x = [0-9]*\nb = {z}B{z}\n").unwrap();
    assert_eq!((checked.clashes(), checked.pairs.len()), (None, 1));
}

#[test]
fn no_clash() {
    let pair = pair(&rule("A{x}"), &rule("B{x}")).unwrap();
    assert_eq!(pair.clashes(), Some(false));
    let checked = check("a = A{x}\nb = B{x}\n").unwrap();
    assert_eq!((checked.clashes(), checked.pairs.len(), checked.rules), (Some(false), 0, 2));
}

#[test]
fn mistakes() {
    let wrong = pair(&rule("LT{size"), &rule("A")).unwrap_err();
    assert_eq!(wrong.status(), Status::Fault);
    let words = wrong.to_string();
    assert!(words.starts_with("pair:1:10: "), "{words}");
    assert!(words.ends_with("pair: 1 mistake; nothing was done"), "{words}");
    assert!(matches!(pair(&rule("A#"), &rule("A")), Err(Wrong::Fault(_))));
    assert_eq!(check("# none\n").unwrap_err().status(), Status::NoRule);
    let asking = Asking { edition: Edition::FullAscii, ..Asking::default() };
    let pair = asking.pair(&rule("a{x}"), &rule("{y}b")).unwrap();
    assert_eq!(pair.label().unwrap(), "ab");
}
