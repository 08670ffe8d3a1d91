//! What ends a command without an answer.

use std::io;
use std::path::Path;

use crate::notation::mistakes::{mistakes_objects, mistakes_words, Mistakes};
use crate::notation::paint::Paint;
use crate::notation::visible::visible;
use crate::report::{fault_object, no_rule_words};
use crate::source::Source;

pub use crate::notation::status::Status;

/// Why there is no answer.
#[derive(Debug)]
pub enum Problem {
    /// Mistakes in a file of rules, in the order of its lines.
    Mistakes(Source, Mistakes),
    /// A fault of a catalogue or of the words of the command.
    Fault(String),
    /// Something that could not be read or written.
    Failure(String),
    /// A file of rules without a rule: it may be cut, or another one than was meant.
    NoRule(String),
    /// Nobody reads the output any more. There is nobody to tell it either.
    BrokenPipe,
}

impl Problem {
    pub fn status(&self) -> Status {
        match self {
            Problem::Mistakes(..) | Problem::Fault(_) => Status::Fault,
            Problem::Failure(_) | Problem::BrokenPipe => Status::Failure,
            Problem::NoRule(_) => Status::NoRule,
        }
    }

    /// A file that could not be read or written.
    pub fn failed(done: &str, path: &Path, error: &io::Error) -> Problem {
        Problem::Failure(format!("{} can't be {done}: {error}", path.display()))
    }

    /// A file of rules without a rule.
    pub fn no_rule(name: &str) -> Problem {
        Problem::NoRule(no_rule_words(name))
    }
}

/// The output is the only thing that is written by `?`.
impl From<io::Error> for Problem {
    fn from(error: io::Error) -> Problem {
        match error.kind() {
            io::ErrorKind::BrokenPipe => Problem::BrokenPipe,
            _ => Problem::Failure(format!("the output can't be written: {error}")),
        }
    }
}

/// Why there is no answer, in words.
pub fn problem_words(problem: &Problem, paint: Paint) -> String {
    match problem {
        Problem::Mistakes(source, mistakes) => mistakes_words(source, mistakes, paint),
        Problem::Fault(words) | Problem::Failure(words) | Problem::NoRule(words) => {
            format!("{} {}\n", paint.wrong("bradovusc:"), visible(words))
        }
        Problem::BrokenPipe => String::new(),
    }
}

/// Why there is no answer, as objects.
pub fn problem_objects(problem: &Problem) -> String {
    match problem {
        Problem::Mistakes(source, mistakes) => {
            let objects = mistakes_objects(source, mistakes).into_iter();
            objects.map(|object| object.done() + "\n").collect()
        }
        Problem::Fault(words) | Problem::Failure(words) | Problem::NoRule(words) => {
            fault_object(words, problem.status()).done() + "\n"
        }
        Problem::BrokenPipe => String::new(),
    }
}
