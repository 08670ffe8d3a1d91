//! A log in SARIF 2.1.0: what code hosts and editors read to show findings at their lines.
//!
//! One log has one run. Its results are written as they come; what is known at the end stands behind
//! them.

use crate::ask::Asked;
use crate::format::{details, sentence};
use crate::json::Object;
use crate::sides::{Place, Side, Title};
use crate::source::{Mistake, Source, Span};
use crate::status::{Problem, Status};

/// What can be found, with its level, in the order of the log's list of rules.
const FINDINGS: [(&str, &str, &str); 3] = [
    ("clash", "error", "Two rules can make the same label."),
    ("not-decided", "warning", "It is not decided whether two rules can make the same label."),
    ("mistake", "error", "A file of rules has a mistake."),
];

const CLASH: usize = 0;
const NOT_DECIDED: usize = 1;
const MISTAKE: usize = 2;

/// The log up to its first result.
pub fn begun() -> String {
    let rule = |(id, level, words): &(&str, &str, &str)| {
        Object::new()
            .text("id", id)
            .object("shortDescription", Object::new().text("text", words))
            .object("defaultConfiguration", Object::new().text("level", level))
    };
    let driver = Object::new()
        .text("name", "bradovusc")
        .text("version", bradovusc::VERSION)
        .list("rules", FINDINGS.iter().map(rule).collect());
    let run = Object::new()
        .object("tool", Object::new().object("driver", driver))
        .text("columnKind", "unicodeCodePoints")
        .list("results", Vec::new());
    let log = Object::new()
        .text("$schema", "https://json.schemastore.org/sarif-2.1.0.json")
        .text("version", "2.1.0")
        .list("runs", vec![run])
        .done();
    log.trim_end_matches("]}]}").to_string()
}

/// The log from its last result on. What ended the command without an answer is a notification.
pub fn ended(status: Status, failed: Option<&str>, properties: Object) -> String {
    let number = usize::from(status.number());
    let mut invocation =
        Object::new().truth("executionSuccessful", failed.is_none()).number("exitCode", number);
    if let Some(words) = failed {
        let notification = Object::new().text("level", "error").object("message", message(words));
        invocation = invocation.list("toolExecutionNotifications", vec![notification]);
    }
    let run = Object::new().list("invocations", vec![invocation]).object("properties", properties);
    // behind the list of results the run goes on
    let rest = run.done();
    format!("],{}]}}\n", rest.trim_start_matches('{'))
}

/// A pair that clashes or is not decided, at the right rule, with the left one beside it.
pub fn pair(left: &Side, right: &Side, asked: &Asked) -> Object {
    let words = [vec![sentence(left, right, asked)], details(left, right, asked)].concat();
    let finding = if asked.answer.clashes() == Some(true) { CLASH } else { NOT_DECIDED };
    let other = located(left).object("message", message(&left.title.to_string()));
    result(finding, &words.join("; "), located(right))
        .list("relatedLocations", vec![other.number("id", 1)])
}

/// What ends a command without an answer, as a whole log.
pub fn problem(problem: &Problem) -> String {
    let status = problem.status();
    match problem {
        Problem::Mistakes(source, mistakes) => {
            let results: Vec<String> =
                mistakes.iter().map(|found| mistake(source, found).done()).collect();
            let counts = Object::new().number("mistakes", mistakes.count());
            begun() + &results.join(",") + &ended(status, None, counts)
        }
        Problem::Fault(words) | Problem::Failure(words) | Problem::NoRule(words) => {
            begun() + &ended(status, Some(words), Object::new())
        }
        Problem::BrokenPipe => String::new(),
    }
}

fn mistake(source: &Source, mistake: &Mistake) -> Object {
    let Mistake { span, words, hint } = mistake;
    let hint = hint.as_ref().map_or(String::new(), |hint| format!("; {hint}"));
    let Span { line, column, width } = *span;
    let region = Object::new()
        .number("startLine", line)
        .number("startColumn", column)
        .number("endColumn", column + width);
    let place = Object::new()
        .object("artifactLocation", Object::new().text("uri", &uri(&source.name)))
        .object("region", region);
    let location = Object::new().object("physicalLocation", place);
    result(MISTAKE, &format!("{words}{hint}"), location)
}

fn result(finding: usize, words: &str, location: Object) -> Object {
    let (id, level, _) = FINDINGS[finding];
    Object::new()
        .text("ruleId", id)
        .number("ruleIndex", finding)
        .text("level", level)
        .object("message", message(words))
        .list("locations", vec![location])
}

fn message(words: &str) -> Object {
    Object::new().text("text", words)
}

/// Where a rule stands: by file and line, and by its name.
fn located(side: &Side) -> Object {
    let mut location = Object::new();
    if let Some(Place { file, line }) = &side.place {
        let mut place =
            Object::new().object("artifactLocation", Object::new().text("uri", &uri(file)));
        if let Some(line) = line {
            place = place.object("region", Object::new().number("startLine", *line));
        }
        location = location.object("physicalLocation", place);
    }
    let name = match &side.title {
        Title::Name(name) => name.clone(),
        Title::Number(number) => number.to_string(),
    };
    location.list("logicalLocations", vec![Object::new().text("name", &name)])
}

/// A file's name as a URI: what is no letter, digit or one of a few signs is written as its code.
fn uri(name: &str) -> String {
    let written = |byte: u8| match byte {
        b'A'..=b'Z' | b'a'..=b'z' | b'0'..=b'9' | b'-' | b'.' | b'_' | b'~' | b'/' => {
            char::from(byte).to_string()
        }
        other => format!("%{other:02X}"),
    };
    let path: String = name.bytes().map(written).collect();
    if path.starts_with('/') {
        format!("file://{path}")
    } else {
        path
    }
}

#[cfg(test)]
mod tests {
    use super::*;

    #[test]
    fn uris() {
        assert_eq!(uri("store/latch.rules"), "store/latch.rules");
        assert_eq!(uri("a b%é:c.rules"), "a%20b%25%C3%A9%3Ac.rules");
        assert_eq!(uri("/rules"), "file:///rules");
    }

    #[test]
    fn a_log_is_whole() {
        let whole = begun() + &ended(Status::Good, None, Object::new().number("rules", 2));
        assert!(whole.starts_with("{\"$schema\":\"https://json.schemastore.org/sarif-2.1.0.json\""));
        assert!(whole.ends_with(
            "\"results\":[],\"invocations\":[{\"executionSuccessful\":true,\"exitCode\":0}],\
             \"properties\":{\"rules\":2}}]}\n"
        ));
        let failed = problem(&Problem::Failure("it failed".to_string()));
        assert!(failed.contains("\"executionSuccessful\":false,\"exitCode\":4"), "{failed}");
        assert!(failed.contains("\"message\":{\"text\":\"it failed\"}"), "{failed}");
    }
}
