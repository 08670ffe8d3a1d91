//! Scripts for other solvers, written by hand: good ones in several layouts,
//! and each fault that a writer may have.

use second::sheet;
use second::smt::compare::says;
use second::write::{field, many, sheet, text, tokens, values};

const A: u8 = 10;

fn said(sheet: &[u8], script: &str) -> Result<(), String> {
    says(script.as_bytes(), &sheet::read(sheet).expect("a good sheet"))
}

/// The script is refused, and these words are in the message.
fn refused(sheet: &[u8], script: &str, words: &str) {
    match said(sheet, script) {
        Ok(()) => panic!("not refused: {words}\n{script}"),
        Err(what) => assert!(what.contains(words), "{words:?} is not in {what:?}\n{script}"),
    }
}

/// Field 0 is digits, field 1 has no pattern, here a and b; `LT`a`-` and b.
fn latches() -> Vec<u8> {
    sheet(&[(0, many(vec![65, 0, 9]))], &tokens("LTa-"), &tokens("b"))
}

const LATCHES: &str = r#"(set-logic QF_S)
(declare-const f0 String)
(declare-const f1 String)
(declare-const f8 String)
(declare-const f9 String)
(assert (= (str.++ "LT" f0 "-" f8) (str.++ f1 f9)))
(assert (str.in_re f0 (re.* (re.range "0" "9"))))
(assert (str.in_re f1 (re.+ (re.union (re.range "0" "9") (re.range "A" "Z") (re.range "-" "/")
  (str.to_re " ") (re.range "$" "%") (str.to_re "+")))))
(assert (str.in_re f8 (re.* (str.to_re " "))))
(assert (str.in_re f9 (re.* (str.to_re " "))))
(check-sat)
"#;

/// The script with one place of it changed.
fn changed(script: &str, from: &str, to: &str) -> String {
    assert_eq!(script.matches(from).count(), 1, "{from} in\n{script}");
    script.replace(from, to)
}

/// The script about latches, changed in one place, is refused.
fn refused_with(from: &str, to: &str, words: &str) {
    refused(&latches(), &changed(LATCHES, from, to), words);
}

/// The script about latches, changed in one place, still says its sheet.
fn good_with(from: &str, to: &str) {
    assert_eq!(said(&latches(), &changed(LATCHES, from, to)), Ok(()), "{to}");
}

// ------------------------------------------------------------- good scripts

#[test]
fn a_good_script() {
    assert_eq!(said(&latches(), LATCHES), Ok(()));
}

#[test]
fn layout_does_not_count() {
    assert_eq!(said(&latches(), &LATCHES.replace('\n', "")), Ok(()));
    assert_eq!(said(&latches(), &LATCHES.replace('\n', "\r\n")), Ok(()));
    assert_eq!(said(&latches(), &LATCHES.replace('(', "\n\t( ").replace(')', "\n)")), Ok(()));
    let comment = " ; (assert false) \" | f0\n";
    assert_eq!(said(&latches(), &LATCHES.replace(")\n", &format!("){comment}"))), Ok(()));
    assert_eq!(said(&latches(), &LATCHES.replace(") (", ")(")), Ok(()));
    assert_eq!(said(&latches(), &(LATCHES.to_string() + "; no line end")), Ok(()));
    assert_eq!(said(&latches(), LATCHES.trim_end()), Ok(()));
}

#[test]
fn other_words_for_the_same() {
    good_with("(declare-const f0 String)", "(declare-fun f0 () String)");
    good_with("(declare-const f0 String)", "(declare-const |f0| |String|)");
    good_with("(str.in_re f0", "(str.in.re |f0|");
    good_with("(str.++ \"LT\" f0 \"-\" f8)", "(str.++ \"LT\" (str.++ f0 (str.++ \"-\" f8)))");
    good_with("(str.++ \"LT\" f0 \"-\" f8)", "(str.++ \"L\" \"\" \"\\u{54}\" f0 \"\\u002D\" f8)");
    good_with("(re.* (re.range \"0\" \"9\"))", "(re.opt (re.+ (re.range \"0\" \"9\")))");
    good_with("(re.* (re.range \"0\" \"9\"))", "(re.* (re.union (re.range \"0\" \"9\") re.none))");
    good_with("QF_S)", "ALL) (set-option :print-success false) (set-info :status unknown)");
    good_with(
        "(set-logic QF_S)",
        "(set-info :smt-lib-version 2.6) (set-option :produce-models true)
         (set-info :source |two \" lines\n;|) (set-info :notes \"a \"\"b\"\"\nc\") (set-info :x (1 #x1F #b01 (y)))
         (set-logic QF_SLIA)",
    );
    good_with("(check-sat)", "(check-sat) (set-info :x) (exit) ; the end\n");
}

#[test]
fn assertions_may_be_joined() {
    let joined = r#"(set-logic QF_S)(declare-fun f8()String)(declare-fun f9()String)
(assert(and(str.in_re f9(re.*(str.to_re" ")))(and(= f8 f9)(str.in_re f8(re.*(str.to_re " "))))))(check-sat)"#;
    assert_eq!(said(&sheet(&[], &[], &[]), joined), Ok(()));
}

#[test]
fn declarations_may_stand_between_assertions() {
    let mixed = r#"(set-logic QF_S)
(declare-const f9 String)
(assert (str.in_re f9 (re.* (str.to_re " "))))
(declare-const f8 String)
(assert (= (str.++ "A" f8) (str.++ "A " f9)))
(assert (str.in_re f8 (re.* (str.to_re " "))))
(check-sat)
"#;
    assert_eq!(said(&sheet(&[], &values("A"), &values("A ")), mixed), Ok(()));
}

#[test]
fn every_sign_of_a_side() {
    let signs = "0123456789ABCDEFGHIJKLMNOPQRSTUVWXYZ-. $/+%";
    let (left, right) = signs.split_at(22);
    let script =
        hidden_ends(&format!("(str.++ \"{left}\" f8)"), &format!("(str.++ \"{right}\" f9)"));
    let good = sheet(&[], &values(left), &values(right));
    assert_eq!(said(&good, &script), Ok(()));
    for (at, sign) in left.char_indices() {
        let other = if sign == '7' { "8" } else { "7" };
        let wrong = [&left[..at], other, &left[at + 1..]].concat();
        let words = format!("left side's token {} is \"{other}\"", at + 1);
        refused(&good, &changed(&script, left, &wrong), &words);
    }
}

/// A script without fields but the hidden ones.
fn hidden_ends(left: &str, right: &str) -> String {
    format!(
        r#"(set-logic QF_S) (declare-const f8 String) (declare-const f9 String)
(assert (= {left} {right}))
(assert (str.in_re f8 (re.* (str.to_re " ")))) (assert (str.in_re f9 (re.* (str.to_re " "))))
(check-sat)"#
    )
}

// -------------------------------------------------------- the script's form

#[test]
fn lexemes_that_are_none() {
    refused_with("\"-\" f8", "\"- f8", "is not closed");
    refused_with("(check-sat)", "(check-sat) \"", "the literal that begins here is not closed");
    refused_with("(check-sat)", "(check-sat) |f0", "the symbol that begins here is not closed");
    refused_with("(declare-const f0", "(declare-const |f\\0|", "a backslash in a quoted symbol");
    refused_with("(check-sat)\n", "(check-sat)\n\0", "byte 0 is no character of a script");
    refused_with("(check-sat)\n", "(check-sat); \0\n", "byte 0 is no character of a script");
    refused_with("(check-sat)\n", "(check-sat)\n\u{e9}", "byte 195 begins no lexeme");
    refused_with("(check-sat)\n", "(check-sat)\n'", "' begins no lexeme");
    refused_with("(check-sat)", "(set-info :x 01) (check-sat)", "01 is no lexeme");
    refused_with("(check-sat)", "(set-info :x 1f) (check-sat)", "1f is no lexeme");
    refused_with("(check-sat)", "(set-info :x #xG) (check-sat)", "#xG is no lexeme");
    refused_with("(check-sat)", "(set-info :) (check-sat)", ": is no lexeme");
}

#[test]
fn parentheses() {
    refused_with("(check-sat)", "(check-sat", "line 12: the parenthesis that opens here");
    refused_with("(check-sat)", "(check-sat))", "line 12: a closing parenthesis too many");
    refused_with("f9)))", "f9))", "line 6: the parenthesis that opens here is not closed");
    let deep = format!("(check-sat) {}{}", "(".repeat(100_000), ")".repeat(100_000));
    refused_with("(check-sat)", &deep, "open parentheses");
}

#[test]
fn each_cut_is_refused() {
    let whole = LATCHES.trim_end();
    for cut in 0..whole.len() {
        refused(&latches(), &whole[..cut], "");
    }
}

#[test]
fn bytes_behind_the_end() {
    refused_with("(check-sat)\n", "(check-sat)\nx", "x is no command");
    refused_with("(check-sat)\n", "(check-sat)\n()", "() is no command");
    refused_with("(check-sat)", "(check-sat) (exit) (exit)", "(exit ..) behind the exit");
    refused_with("(check-sat)", "(check-sat) (exit) 7", "7 behind the exit");
    refused_with("(check-sat)", "(exit) (check-sat)", "(check-sat ..) behind the exit");
}

#[test]
fn commands_that_are_none() {
    refused_with("(check-sat)", "(check-sat) (get-model)", "get-model is no command");
    refused_with("(check-sat)", "(|check-sat|)", "(|check-sat| ..) is no command");
    refused_with("(check-sat)", "(check-sat f0)", "wrong arguments of check-sat");
    refused_with("(check-sat)", "(check-sat) (exit 0)", "wrong arguments of exit");
    refused_with("(declare-const f0 String)", "(declare-const f0)", "wrong arguments of declare");
    refused_with("(declare-const f0", "(declare-fun f0", "wrong arguments of declare-fun");
    refused_with("(declare-const f0", "(declare-fun f0 (String)", "wrong arguments of declare-fun");
    refused_with("(check-sat)", "(assert) (check-sat)", "wrong arguments of assert");
    refused_with("(check-sat)", "(set-info x) (check-sat)", "x is no keyword");
}

#[test]
fn the_check() {
    refused_with("(check-sat)", "", "there is no check-sat");
    refused_with("(check-sat)", "(check-sat) (check-sat)", "a second check-sat");
    let late = "(check-sat) (assert (= f0 f1))";
    refused_with("(check-sat)", late, "an assertion behind the check-sat");
    refused(&latches(), "", "there is no check-sat");
}

#[test]
fn the_logic() {
    refused_with("(set-logic QF_S)", "", "there is no set-logic before this command");
    refused_with("QF_S)", "QF_S) (set-logic QF_S)", "a second set-logic");
    refused_with("QF_S)", "QF_LIA)", "the logic QF_LIA has no strings");
    refused_with("QF_S)", "\"QF_S\")", "is no logic");
    let late = "QF_S) (set-option :produce-models true)";
    refused_with("QF_S)", late, ":produce-models is set behind the logic");
    let old = "(set-info :smt-lib-version 2.5) (set-logic QF_S)";
    refused_with("(set-logic QF_S)", old, "the version is not 2.6");
}

// ------------------------------------------------------------ declarations

#[test]
fn each_field_is_declared_once() {
    let one = "(declare-const f1 String)";
    refused_with(one, "", "f1 is not declared");
    refused_with(one, &one.repeat(2), "f1 is declared twice");
    refused_with(one, &format!("{one} (declare-fun |f1| () String)"), "f1 is declared twice");
    refused_with(
        one,
        &format!("{one} (declare-const f2 String)"),
        "f2 is declared and stands in no",
    );
    refused_with(one, "(declare-const f1 Int)", "a constant of the sort Int");
    refused_with(one, &format!("{one} (declare-const f10 String)"), "f10 is no field's constant");
    refused_with(one, &format!("{one} (declare-const F2 String)"), "F2 is no field's constant");
    refused_with(
        "(check-sat)",
        "(check-sat) (declare-const f2 String)",
        "f2 is declared and stands",
    );
}

#[test]
fn a_constant_is_declared_before_it_is_used() {
    let late = LATCHES.replace("(declare-const f9 String)\n", "");
    let late = changed(&late, "(check-sat)", "(declare-const f9 String) (check-sat)");
    refused(&latches(), &late, "line 5: f9 is not declared");
    refused_with("(str.++ f1 f9)", "(str.++ x f9)", "x is not declared");
}

// ------------------------------------------------------------------- sides

const LEFT: &str = "(str.++ \"LT\" f0 \"-\" f8)";
const RIGHT: &str = "(str.++ f1 f9)";

#[test]
fn the_sides_are_the_sheets() {
    let exchanged = format!("(= {RIGHT} {LEFT})");
    let is = "in the script and";
    refused_with(
        &format!("(= {LEFT} {RIGHT})"),
        &exchanged,
        &format!("the left side's token 1 is f1 {is} \"L\" in the sheet"),
    );
    refused_with(LEFT, "(str.++ \"LT\" f0 \"-\" f9)", &format!("token 5 is f9 {is} f8"));
    refused_with(LEFT, "(str.++ \"LT\" f0 \"-\")", &format!("token 5 is missing {is} f8"));
    refused_with(LEFT, "(str.++ \"LT\" f0 f8)", &format!("token 4 is f8 {is} \"-\""));
    refused_with(LEFT, "(str.++ \"Lt\" f0 \"-\" f8)", &format!("token 2 is \"t\" {is} \"T\""));
    refused_with(LEFT, "(str.++ \"TL\" f0 \"-\" f8)", &format!("token 1 is \"T\" {is} \"L\""));
    refused_with(LEFT, "(str.++ \"LT\" \"f0\" \"-\" f8)", &format!("token 3 is \"f\" {is} f0"));
    refused_with(
        RIGHT,
        "(str.++ f1 f9 f9)",
        "right side's token 3 is f9 in the script and missing",
    );
    refused_with(RIGHT, "f1", &format!("right side's token 2 is missing {is} f9"));
    refused_with(RIGHT, "(str.++ f1 f9 \" \")", "right side's token 3 is \" \"");
}

#[test]
fn hidden_fields_left_out() {
    let without: Vec<&str> =
        LATCHES.lines().filter(|line| !line.contains("f8 S") && !line.contains("f9 S")).collect();
    let without: Vec<&str> = without
        .into_iter()
        .filter(|line| !line.contains("_re f8") && !line.contains("_re f9"))
        .collect();
    let without = without.join("\n").replace(" f8)", ")").replace("(str.++ f1 f9)", "f1");
    refused(&latches(), &without, "f8 is not declared and stands in a side of the sheet");
}

#[test]
fn terms_that_are_none() {
    refused_with(RIGHT, "(str.++ (str.++ f1) f9)", "str.++ of less than two terms");
    refused_with(RIGHT, "(str.++)", "str.++ of less than two terms");
    refused_with(RIGHT, "(str.+ f1 f9)", "(str.+ ..) is no term of a side");
    refused_with(RIGHT, "(str.++ f1 9)", "9 where a constant should stand");
    refused_with(RIGHT, &format!("{RIGHT} f9"), "an equation has two sides");
    refused_with("\"LT\"", "\"L\tT\"", "byte 9 in a literal");
    refused_with("\"LT\"", "\"L\u{e9}\"", "byte 195 in a literal");
}

#[test]
fn one_equation() {
    let equation = format!("(assert (= {LEFT} {RIGHT}))");
    refused_with(&equation, "", "no equation is asserted");
    refused_with(&equation, &equation.repeat(2), "a second equation");
    refused_with(&equation, &format!("(assert (and (= {LEFT} {RIGHT})))"), "and of less than two");
    refused_with(&equation, &format!("(assert (not (= {LEFT} {RIGHT})))"), "is no assertion");
    refused_with(&equation, &format!("{equation} (assert true)"), "true is no assertion");
}

// ------------------------------------------------------------- memberships

const DIGITS: &str = "(assert (str.in_re f0 (re.* (re.range \"0\" \"9\"))))";

#[test]
fn one_membership_for_each_field() {
    refused_with(DIGITS, "", "f0 has 0 memberships instead of one");
    refused_with(DIGITS, &DIGITS.repeat(2), "f0 has 2 memberships instead of one");
    let spaces = "(assert (str.in_re f9 (re.* (str.to_re \" \"))))";
    refused_with(spaces, "", "f9 has 0 memberships instead of one");
    let (front, behind) = LATCHES.split_once("(assert (str.in_re f1").unwrap();
    let (_, behind) = behind.split_once("(assert").unwrap();
    let without = format!("{front}(assert{behind}");
    refused(&latches(), &without, "f1 has 0 memberships instead of one");
    refused_with(
        DIGITS,
        "(assert (str.in_re \"7\" re.all))",
        "\"7\" where a constant should stand",
    );
    refused_with(DIGITS, "(assert (str.in_re f0))", "str.in_re takes a constant and");
    refused_with(DIGITS, "(assert (str.in_re f2 re.all))", "f2 is not declared");
}

#[test]
fn regular_expressions_that_are_none() {
    let of = |regular: &str| DIGITS.replace("(re.* (re.range \"0\" \"9\"))", regular);
    let told = |regular: &str, words: &str| refused_with(DIGITS, &of(regular), words);
    told("(re.union (str.to_re \"0\"))", "re.union of 1 arguments");
    told("(re.++ (str.to_re \"0\"))", "re.++ of 1 arguments");
    told("(re.union)", "re.union of 0 arguments");
    told("(re.* re.all re.all)", "re.* of 2 arguments");
    told("(re.range \"0\")", "re.range of 1 arguments");
    told("(re.range 0 9)", "0 where a literal should stand");
    told("(str.to_re f1)", "f1 where a literal should stand");
    told("(re.comp re.none)", "re.comp makes no regular expression");
    told("(str.to.re \"0\")", "str.to.re makes no regular expression");
    told("\"0\"", "\"0\" is no regular expression");
    told("re.nostr", "re.nostr is no regular expression");
    told("(re.all)", "re.all makes no regular expression");
}

/// The sheet has field 0 with this pattern on the left; the script has this
/// membership for it.
fn membership(pattern: Option<Vec<u8>>, regular: &str) -> Result<(), String> {
    let patterns: Vec<(u8, Vec<u8>)> = pattern.into_iter().map(|pattern| (0, pattern)).collect();
    let script = hidden_ends("(str.++ f0 f8)", "f9")
        .replace("(check-sat)", &format!("(assert (str.in_re f0 {regular})) (check-sat)"));
    let script =
        changed(&script, "(declare-const f8", "(declare-const f0 String) (declare-const f8");
    said(&sheet(&patterns, &[field(0)], &[]), &script)
}

/// The membership takes this text and the field may not hold it.
fn too_many(pattern: Option<Vec<u8>>, regular: &str, text: &str) {
    let told = format!("the membership of f0 takes {text}, which the field may not hold");
    assert_eq!(membership(pattern, regular), Err(told));
}

/// The field may hold this text and the membership doesn't take it.
fn too_few(pattern: Option<Vec<u8>>, regular: &str, text: &str) {
    let told = format!("the membership of f0 doesn't take {text}, which the field may hold");
    assert_eq!(membership(pattern, regular), Err(told));
}

/// "Value order is not ASCII order, so a range is written as a choice of single
/// characters."
#[test]
fn a_range_is_in_value_order() {
    let across = || Some(vec![65, 9, A]);
    assert_eq!(membership(across(), "(re.union (str.to_re \"9\") (str.to_re \"A\"))"), Ok(()));
    too_many(across(), "(re.range \"9\" \"A\")", "\":\"");
    too_few(Some(vec![65, 35, 36]), "(re.range \"Z\" \"-\")", "\"-\"");
    // All the signs behind the letters, as the ends of a range and by mistake
    // with the comma between them.
    too_few(Some(vec![65, 36, 42]), "(re.range \"-\" \"%\")", "\"$\"");
    let with_comma = "(re.union (str.to_re \" \") (re.range \"$\" \"%\") (re.range \"+\" \"/\"))";
    too_many(Some(vec![65, 36, 42]), with_comma, "\",\"");
    assert_eq!(membership(Some(vec![65, 0, 9]), "(re.range \"0\" \"9\")"), Ok(()));
    assert_eq!(membership(Some(vec![65, A, 35]), "(re.range \"A\" \"Z\")"), Ok(()));
}

const ANY: &str = "(re.union (re.range \"0\" \"9\") (re.range \"A\" \"Z\") (re.range \"-\" \"/\")
  (str.to_re \" \") (re.range \"$\" \"%\") (str.to_re \"+\"))";

/// "An open field must be held to the 43 characters."
#[test]
fn an_open_field_is_held_to_the_43() {
    assert_eq!(membership(None, &format!("(re.+ {ANY})")), Ok(()));
    assert_eq!(membership(None, &format!("(re.++ {ANY} (re.* {ANY}))")), Ok(()));
    assert_eq!(membership(None, &format!("(re.++ (re.* {ANY}) {ANY})")), Ok(()));
    assert_eq!(membership(None, &format!("(re.+ (re.+ {ANY}))")), Ok(()));
    too_few(None, ANY, "\"$$\"");
    too_few(None, &format!("(re.++ {ANY} {ANY} (re.* {ANY}))"), "\"$\"");
    too_few(None, "re.none", "\"$\"");
    too_many(None, &format!("(re.+ (re.union {ANY} (re.range \"a\" \"z\")))"), "\"a\"");
    too_many(None, &format!("(re.+ (re.union {ANY} (str.to_re \"*\")))"), "\"*\"");
    too_many(None, &format!("(re.+ (re.union {ANY} (str.to_re \"\"\"\")))"), "\"\"\"\"");
    too_many(None, &format!("(re.+ (re.union {ANY} (str.to_re \"\\u{{0}}\")))"), "\"\\u{0}\"");
    too_many(None, &format!("(re.+ (re.union {ANY} (str.to_re \"\\u2FFF\")))"), "\"\\u{2FFF}\"");
    too_many(None, &format!("(re.++ (re.+ {ANY}) (re.opt (str.to_re \"Aa\")))"), "\"$Aa\"");
    too_many(None, &format!("(re.union (re.+ {ANY}) (str.to_re \"Aa\"))"), "\"Aa\"");
    too_few(None, "(re.+ (re.range \"0\" \"9\"))", "\"$\"");
    for sign in "0123456789ABCDEFGHIJKLMNOPQRSTUVWXYZ-. $/+%".chars() {
        let others: String = "0123456789ABCDEFGHIJKLMNOPQRSTUVWXYZ-. $/+%"
            .chars()
            .filter(|&other| other != sign)
            .map(|other| format!("(str.to_re \"{other}\")"))
            .collect();
        too_few(None, &format!("(re.+ (re.union {others}))"), &format!("\"{sign}\""));
        let all = format!("{others}(str.to_re \"{sign}\")");
        assert_eq!(membership(None, &format!("(re.+ (re.union {all}))")), Ok(()));
    }
}

/// "A field without a pattern shall now hold one character or more."
#[test]
fn a_field_without_a_pattern_is_not_empty() {
    for with_the_empty_text in ["(re.* ANY)", "(re.opt ANY)", "(re.opt (re.+ ANY))", "re.all"] {
        too_many(None, &with_the_empty_text.replace("ANY", ANY), "\"\"");
    }
    too_many(None, "(str.to_re \"\")", "\"\"");
    let spelt = || Some(vec![68, 65, 0, 42]);
    assert_eq!(membership(spelt(), &format!("(re.* {ANY})")), Ok(()));
    too_few(spelt(), &format!("(re.+ {ANY})"), "\"\"");
    let one_or_more = Some(vec![66, 65, 0, 42, 68, 65, 0, 42]);
    assert_eq!(membership(one_or_more, &format!("(re.+ {ANY})")), Ok(()));
}

#[test]
fn a_hidden_field_is_any_number_of_spaces() {
    let hidden = "f8 (re.* (str.to_re \" \"))";
    let takes = "the membership of f8 takes";
    refused_with(hidden, "f8 (re.+ (str.to_re \" \"))", "the membership of f8 doesn't take \"\"");
    refused_with(
        hidden,
        "f8 (re.opt (str.to_re \" \"))",
        "the membership of f8 doesn't take \"  \"",
    );
    refused_with(hidden, "f8 (str.to_re \"\")", "the membership of f8 doesn't take \" \"");
    refused_with(hidden, "f8 re.all", takes);
    refused_with(hidden, &format!("f8 (re.* {ANY})"), takes);
    refused_with(hidden, "f8 (re.* (str.to_re \"  \"))", "the membership of f8 doesn't take \" \"");
}

#[test]
fn the_texts_of_a_pattern() {
    assert_eq!(membership(Some(vec![64]), "(str.to_re \"\")"), Ok(()));
    assert_eq!(membership(Some(text("LT4")), "(str.to_re \"LT4\")"), Ok(()));
    assert_eq!(
        membership(Some(text("LT4")), "(re.++ (str.to_re \"L\") (str.to_re \"T4\"))"),
        Ok(())
    );
    too_few(Some(vec![64]), "re.none", "\"\"");
    too_few(Some(text("LT4")), "(re.++ (str.to_re \"LT4\") re.none)", "\"LT4\"");
    too_many(Some(vec![64]), "(re.opt (str.to_re \"7\"))", "\"7\"");
    too_few(Some(many(vec![A])), "(re.+ (str.to_re \"A\"))", "\"\"");
    too_many(Some(text("A")), "(re.+ (str.to_re \"A\"))", "\"AA\"");
    too_many(Some(text("AB")), "(re.union (str.to_re \"AB\") (str.to_re \"BA\"))", "\"BA\"");
    // Stars of rows against rows of stars.
    let rounds = many(many(text("AB")));
    assert_eq!(membership(Some(rounds.clone()), "(re.* (str.to_re \"AB\"))"), Ok(()));
    too_many(Some(rounds), "(re.++ (re.* (str.to_re \"A\")) (re.* (str.to_re \"B\")))", "\"A\"");
    // A long text that only one of the two takes.
    let sixes = many(text("AAAAAA"));
    let and_twelves =
        "(re.* (re.++ (re.* (str.to_re \"AAAAAA\")) (re.* (str.to_re \"AAAAAAAAAAAA\"))))";
    assert_eq!(membership(Some(sixes.clone()), and_twelves), Ok(()));
    let with_tens = and_twelves.replace("AAAAAAAAAAAA", "AAAAAAAAAA");
    too_many(Some(sixes), &with_tens, "\"AAAAAAAAAA\"");
}

/// An `A` so many characters before the end: the sets that come up are very
/// many, and the pairs that have to be looked at are few.
#[test]
fn many_sets_are_few_pairs() {
    let either = || vec![65, A, A + 1];
    let mut pattern = [vec![66], many(either()), vec![66, A]].concat();
    let mut regular = "(re.++ (re.* EITHER) (str.to_re \"A\")".to_string();
    for number in 0..20 {
        let last = number == 19;
        pattern.extend(if last { either() } else { [vec![66], either()].concat() });
        regular += " EITHER";
    }
    let regular = regular.replace("EITHER", "(re.range \"A\" \"B\")") + ")";
    assert_eq!(membership(Some(pattern.clone()), &regular), Ok(()));
    let one_more = regular.replacen("(str.to_re", "(re.opt (str.to_re \"C\")) (str.to_re", 1);
    too_many(Some(pattern), &one_more, &format!("\"CA{}\"", "A".repeat(20)));
}
