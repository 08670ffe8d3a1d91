//! The commands of a script and the terms in them: "a string constant for each
//! field that stands in a side, hidden ones too, one equation, one membership
//! for each field, and the check command".

use std::collections::BTreeSet;

use super::expressions::{self, Expression, Form};
use super::lexemes::Kind;
use super::literal::{self, Sign};
use super::regular::Regular;
use super::{wrong, Told};
use crate::sheet::ALL_FIELDS;

/// A character or a constant in a side.
#[derive(Clone, Copy, Debug, PartialEq, Eq)]
pub enum Piece {
    Sign(Sign),
    /// The constant of the field with this number.
    Field(u8),
}

/// What a script says.
#[derive(Clone, Debug, PartialEq, Eq)]
pub struct Script {
    /// The fields whose constants are declared.
    pub declared: BTreeSet<u8>,
    pub left: Vec<Piece>,
    pub right: Vec<Piece>,
    /// In the order of the script.
    pub memberships: Vec<(u8, Regular)>,
}

/// SMT-LIB 2.6, chapter 4: these options are set before the logic.
const EARLY_OPTIONS: [&str; 9] = [
    ":global-declarations",
    ":interactive-mode",
    ":produce-assertions",
    ":produce-assignments",
    ":produce-models",
    ":produce-proofs",
    ":produce-unsat-assumptions",
    ":produce-unsat-cores",
    ":random-seed",
];

/// Reads a whole script.
pub fn read(script: &[u8]) -> Told<Script> {
    let mut reader = Reader::default();
    for command in &expressions::read(script)? {
        reader.command(command)?;
    }
    if !reader.checked {
        return Err("there is no check-sat".to_string());
    }
    match reader.equation {
        Some((left, right)) => {
            Ok(Script { declared: reader.declared, left, right, memberships: reader.memberships })
        }
        None => Err("no equation is asserted".to_string()),
    }
}

/// What the commands read so far have said.
#[derive(Default)]
struct Reader {
    logic: bool,
    declared: BTreeSet<u8>,
    equation: Option<(Vec<Piece>, Vec<Piece>)>,
    memberships: Vec<(u8, Regular)>,
    checked: bool,
    ended: bool,
}

impl Reader {
    fn command(&mut self, command: &Expression) -> Told<()> {
        let line = command.line;
        if self.ended {
            return wrong(line, format!("{} behind the exit", command.shown()));
        }
        let Some((name, arguments)) = named(command) else {
            return wrong(line, format!("{} is no command", command.shown()));
        };
        match (name, arguments) {
            ("set-info", [keyword] | [keyword, _]) => info(keyword, arguments.get(1)),
            ("set-option", [keyword] | [keyword, _]) => self.option(keyword),
            ("set-logic", [logic]) => self.set_logic(logic),
            ("declare-const", [constant, sort]) => self.declare(constant, sort),
            ("declare-fun", [constant, none, sort]) if none.form == Form::List(Vec::new()) => {
                self.declare(constant, sort)
            }
            ("assert", [term]) => self.assert(term),
            ("check-sat", []) => self.check(line),
            ("exit", []) => {
                self.ended = true;
                Ok(())
            }
            (
                "set-info" | "set-option" | "set-logic" | "declare-const" | "declare-fun"
                | "assert" | "check-sat" | "exit",
                _,
            ) => wrong(line, format!("wrong arguments of {name}")),
            _ => wrong(line, format!("{name} is no command of these scripts")),
        }
    }

    fn option(&self, keyword: &Expression) -> Told<()> {
        let name = keyword_of(keyword)?;
        if self.logic && EARLY_OPTIONS.contains(&name) {
            return wrong(keyword.line, format!("{name} is set behind the logic"));
        }
        Ok(())
    }

    /// A logic is set once. One whose name has no S has no strings, `ALL` apart.
    fn set_logic(&mut self, logic: &Expression) -> Told<()> {
        let Some(name) = logic.symbol() else {
            return wrong(logic.line, format!("{} is no logic", logic.shown()));
        };
        if self.logic {
            return wrong(logic.line, "a second set-logic");
        }
        if name != "ALL" && !name.contains('S') {
            return wrong(logic.line, format!("the logic {name} has no strings"));
        }
        self.logic = true;
        Ok(())
    }

    /// SMT-LIB 2.6, chapter 4: nothing is declared, asserted or checked before
    /// the logic is set.
    fn behind_logic(&self, line: usize) -> Told<()> {
        if self.logic {
            Ok(())
        } else {
            wrong(line, "there is no set-logic before this command")
        }
    }

    fn declare(&mut self, constant: &Expression, sort: &Expression) -> Told<()> {
        self.behind_logic(constant.line)?;
        if sort.symbol() != Some("String") {
            return wrong(sort.line, format!("a constant of the sort {}", sort.shown()));
        }
        let Some(field) = constant.symbol().and_then(field_of) else {
            return wrong(constant.line, format!("{} is no field's constant", constant.shown()));
        };
        if !self.declared.insert(field) {
            return wrong(constant.line, format!("f{field} is declared twice"));
        }
        Ok(())
    }

    fn check(&mut self, line: usize) -> Told<()> {
        self.behind_logic(line)?;
        if self.checked {
            return wrong(line, "a second check-sat");
        }
        self.checked = true;
        Ok(())
    }

    fn assert(&mut self, term: &Expression) -> Told<()> {
        self.behind_logic(term.line)?;
        if self.checked {
            return wrong(term.line, "an assertion behind the check-sat");
        }
        self.asserted(term)
    }

    /// An equation, a membership, or several terms joined by `and`, which takes
    /// two or more.
    fn asserted(&mut self, term: &Expression) -> Told<()> {
        match term.applied() {
            Some(("and", [])) | Some(("and", [_])) => {
                wrong(term.line, "and of less than two terms")
            }
            Some(("and", terms)) => terms.iter().try_for_each(|term| self.asserted(term)),
            Some(("=", [left, right])) => {
                let sides = (self.side(left)?, self.side(right)?);
                match self.equation.replace(sides) {
                    None => Ok(()),
                    Some(_) => wrong(term.line, "a second equation"),
                }
            }
            Some(("=", _)) => wrong(term.line, "an equation has two sides"),
            Some(("str.in_re" | "str.in.re", [constant, regular])) => {
                let field = self.constant(constant)?;
                self.memberships.push((field, regular_of(regular)?));
                Ok(())
            }
            Some((name @ ("str.in_re" | "str.in.re"), _)) => {
                wrong(term.line, format!("{name} takes a constant and a regular expression"))
            }
            _ => wrong(term.line, format!("{} is no assertion of these scripts", term.shown())),
        }
    }

    /// The field of a constant that is declared.
    fn constant(&self, constant: &Expression) -> Told<u8> {
        let line = constant.line;
        match constant.symbol() {
            None => wrong(line, format!("{} where a constant should stand", constant.shown())),
            Some(name) => match field_of(name) {
                Some(field) if self.declared.contains(&field) => Ok(field),
                _ => wrong(line, format!("{name} is not declared")),
            },
        }
    }

    /// A side as one row of characters and constants. `str.++` takes two terms
    /// or more, each again such a term.
    fn side(&self, term: &Expression) -> Told<Vec<Piece>> {
        match term.applied() {
            Some(("str.++", [])) | Some(("str.++", [_])) => {
                wrong(term.line, "str.++ of less than two terms")
            }
            Some(("str.++", terms)) => {
                let sides: Told<Vec<Vec<Piece>>> =
                    terms.iter().map(|term| self.side(term)).collect();
                Ok(sides?.concat())
            }
            _ => match &term.form {
                Form::Single(Kind::Literal(_)) => {
                    Ok(text(term)?.into_iter().map(Piece::Sign).collect())
                }
                Form::Single(_) => Ok(vec![Piece::Field(self.constant(term)?)]),
                _ => wrong(term.line, format!("{} is no term of a side", term.shown())),
            },
        }
    }
}

/// A command's name is a reserved word, which has no bars.
fn named(command: &Expression) -> Option<(&str, &[Expression])> {
    match &command.form {
        Form::List(parts) => match parts.split_first()? {
            (
                Expression { form: Form::Single(Kind::Symbol { name, quoted: false }), .. },
                arguments,
            ) => Some((name, arguments)),
            _ => None,
        },
        Form::Single(_) => None,
    }
}

fn keyword_of(expression: &Expression) -> Told<&str> {
    match &expression.form {
        Form::Single(Kind::Keyword(keyword)) => Ok(keyword),
        _ => wrong(expression.line, format!("{} is no keyword", expression.shown())),
    }
}

/// "an SMT-LIB 2.6 script": where a script tells its version, it is this one.
fn info(keyword: &Expression, value: Option<&Expression>) -> Told<()> {
    let version = Form::Single(Kind::Number("2.6".to_string()));
    match keyword_of(keyword)? {
        ":smt-lib-version" if value.map(|value| &value.form) != Some(&version) => {
            wrong(keyword.line, "the version is not 2.6")
        }
        _ => Ok(()),
    }
}

/// The constant of field N is named fN.
fn field_of(name: &str) -> Option<u8> {
    (0..ALL_FIELDS as u8).find(|field| name == format!("f{field}"))
}

fn text(term: &Expression) -> Told<Vec<Sign>> {
    match &term.form {
        Form::Single(Kind::Literal(literal)) => {
            literal::text(literal).or_else(|what| wrong(term.line, what))
        }
        _ => wrong(term.line, format!("{} where a literal should stand", term.shown())),
    }
}

/// A regular expression of the theory. `re.++` and `re.union` take two or more.
fn regular_of(term: &Expression) -> Told<Regular> {
    match term.symbol() {
        Some("re.none") => return Ok(Regular::none()),
        Some("re.all") => return Ok(Regular::all()),
        Some("re.allchar") => return Ok(Regular::any_sign()),
        _ => {}
    }
    let Some((name, arguments)) = term.applied() else {
        return wrong(term.line, format!("{} is no regular expression", term.shown()));
    };
    let one = |part: &Expression| regular_of(part).map(Box::new);
    match (name, arguments) {
        ("str.to_re", [literal]) => Ok(Regular::text(&text(literal)?)),
        ("re.range", [lo, hi]) => Ok(Regular::range(&text(lo)?, &text(hi)?)),
        ("re.*", [part]) => Ok(Regular::AnyTimes(one(part)?)),
        ("re.+", [part]) => Ok(Regular::Repeated(one(part)?)),
        ("re.opt", [part]) => Ok(regular_of(part)?.optional()),
        ("re.++", [_, _, ..]) => Ok(Regular::Row(regulars(arguments)?)),
        ("re.union", [_, _, ..]) => Ok(Regular::choice(regulars(arguments)?)),
        ("str.to_re" | "re.range" | "re.*" | "re.+" | "re.opt" | "re.++" | "re.union", _) => {
            wrong(term.line, format!("{name} of {} arguments", arguments.len()))
        }
        _ => wrong(term.line, format!("{name} makes no regular expression of these scripts")),
    }
}

fn regulars(terms: &[Expression]) -> Told<Vec<Regular>> {
    terms.iter().map(regular_of).collect()
}
