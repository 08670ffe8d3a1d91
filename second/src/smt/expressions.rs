//! The expressions of a script, by SMT-LIB 2.6, section 3.2: a lexeme alone, or
//! expressions between parentheses.

use super::lexemes::{self, Kind};
use super::{wrong, Told};

/// Lists stand in each other at most so many deep. A pattern of 192 bytes and a
/// range of 128 characters need far less.
pub const MOST_NESTED: usize = 1_000;

/// An expression and the line in which it begins.
#[derive(Clone, Debug, PartialEq, Eq)]
pub struct Expression {
    pub line: usize,
    pub form: Form,
}

#[derive(Clone, Debug, PartialEq, Eq)]
pub enum Form {
    Single(Kind),
    List(Vec<Expression>),
}

/// All expressions of a script, one behind the other.
pub fn read(script: &[u8]) -> Told<Vec<Expression>> {
    let mut whole = Vec::new();
    // The lists that are open, the innermost last.
    let mut open: Vec<Expression> = Vec::new();
    for lexeme in lexemes::read(script)? {
        let line = lexeme.line;
        let expression = match lexeme.kind {
            Kind::Open if open.len() == MOST_NESTED => {
                return wrong(line, format!("more than {MOST_NESTED} open parentheses"));
            }
            Kind::Open => {
                open.push(Expression { line, form: Form::List(Vec::new()) });
                continue;
            }
            Kind::Close => match open.pop() {
                Some(list) => list,
                None => return wrong(line, "a closing parenthesis too many"),
            },
            kind => Expression { line, form: Form::Single(kind) },
        };
        match open.last_mut() {
            Some(Expression { form: Form::List(parts), .. }) => parts.push(expression),
            _ => whole.push(expression),
        }
    }
    match open.first() {
        Some(list) => wrong(list.line, "the parenthesis that opens here is not closed"),
        None => Ok(whole),
    }
}

impl Expression {
    /// The name of a symbol, with or without bars.
    pub fn symbol(&self) -> Option<&str> {
        match &self.form {
            Form::Single(Kind::Symbol { name, .. }) => Some(name),
            _ => None,
        }
    }

    /// A list's first expression, if it is a symbol, and what follows it.
    pub fn applied(&self) -> Option<(&str, &[Expression])> {
        match &self.form {
            Form::List(parts) => {
                let (first, arguments) = parts.split_first()?;
                Some((first.symbol()?, arguments))
            }
            Form::Single(_) => None,
        }
    }

    /// The first words of it, for messages.
    pub fn shown(&self) -> String {
        match &self.form {
            Form::Single(kind) => kind.shown(),
            Form::List(parts) => match parts.first() {
                None => "()".to_string(),
                Some(Expression { form: Form::Single(kind), .. }) => {
                    format!("({} ..)", kind.shown())
                }
                Some(_) => "((..) ..)".to_string(),
            },
        }
    }
}
