//! A reader of SMT-LIB 2.6 scripts in the Unicode Strings theory.
//!
//! "Please write a sheet out as an SMT-LIB 2.6 script ... It must mean the same
//! question: a reader in our tests gives back the sheet's sides, and its
//! memberships have the same texts." The reader goes from bytes to lexemes, to
//! expressions, to a script, and compares it with the question that the sheet
//! asks. It knows SMT-LIB and the theory, and nothing of how a script is laid
//! out. `write` alone knows that.

pub mod compare;
pub mod expressions;
pub mod language;
pub mod lexemes;
pub mod literal;
pub mod output;
pub mod regular;
pub mod script;
pub mod write;

/// What was read, or what is wrong, in words.
pub type Told<T> = Result<T, String>;

/// Something wrong in this line of a script.
fn wrong<T>(line: usize, what: impl std::fmt::Display) -> Told<T> {
    Err(format!("line {line}: {what}"))
}
