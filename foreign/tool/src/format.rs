//! The forms in which pairs are told, and those of one line each: for editors, and for GitHub.

use crate::advice::advice_words;
use crate::ask::Asked;
use crate::notation::mistakes::more_mistakes;
use crate::notation::paint::Paint;
use crate::notation::visible::{visible, visible_sign};
use crate::report::{dropped_words, fields_words, label_words, not_decided_words};
use crate::sarif;
use crate::sides::{Place, Side, Text};
use crate::source::{Mistake, Source};
use crate::status::{problem_objects, problem_words, Problem};

/// In which form it is told.
#[derive(Clone, Copy, Debug, Default, PartialEq, Eq)]
pub enum Format {
    /// Words for people.
    #[default]
    Text,
    /// Objects, one a line.
    Json,
    /// One line a pair, `FILE:LINE: ..`.
    Short,
    /// Commands for the runners of GitHub's workflows.
    Github,
    /// One log in SARIF 2.1.0.
    Sarif,
}

/// The forms by name.
const NAMES: [(&str, Format); 5] = [
    ("text", Format::Text),
    ("json", Format::Json),
    ("short", Format::Short),
    ("github", Format::Github),
    ("sarif", Format::Sarif),
];

impl Format {
    pub fn named(name: &str) -> Result<Format, String> {
        let known = NAMES.iter().find(|(known, _)| *known == name);
        known.map(|(_, format)| *format).ok_or_else(|| {
            let names = NAMES.map(|(name, _)| name).join(", ");
            format!("--format takes one of {names}, not '{name}'")
        })
    }
}

/// What is told of a pair that clashes or is not decided, in one line. The right rule comes first: in
/// a file it is the later one, and beside rules that were there before it is the new one.
pub fn sentence(left: &Side, right: &Side, asked: &Asked) -> String {
    let titles = format!("{} and {}", right.title, left.told());
    match &asked.shared {
        Some(shared) => {
            let dropped = dropped_words(left, right, shared);
            let dropped = dropped.map_or(String::new(), |words| format!(" ({words})"));
            format!("{titles} clash: {}{dropped}", label_words(left.edition, &shared.label))
        }
        None if asked.answer.clashes() == Some(true) => format!("{titles} {}", asked.answer),
        None => format!("{titles}: {}", not_decided_words(asked)),
    }
}

/// What is told besides: of a clash what the fields hold, else what may help.
pub fn details(left: &Side, right: &Side, asked: &Asked) -> Vec<String> {
    match &asked.shared {
        Some(shared) => {
            let held = |(side, texts): (&Side, &[Text])| {
                format!("{}: {}", side.title, fields_words(side, texts))
            };
            [(right, &shared.right[..]), (left, &shared.left[..])].map(held).to_vec()
        }
        None => {
            let words = advice_words(left, right, asked);
            words.lines().map(|line| line.trim().to_string()).collect()
        }
    }
}

/// A line that begins with the place of the right rule.
pub fn short(left: &Side, right: &Side, asked: &Asked) -> String {
    let place = right.place.as_ref().map_or(String::new(), |place| format!("{place}: "));
    format!("{place}{}\n", sentence(left, right, asked))
}

/// What ends a command without an answer, in a form that goes to standard output; in words it goes to
/// standard error.
pub fn problem_on_output(format: Format, problem: &Problem) -> Option<String> {
    match format {
        Format::Text | Format::Short => None,
        Format::Json => Some(problem_objects(problem)),
        Format::Github => Some(github_problem(problem)),
        Format::Sarif => Some(sarif::problem(problem)),
    }
}

/// The same in words, on one line each.
pub fn short_problem(problem: &Problem) -> String {
    match problem {
        Problem::Mistakes(source, mistakes) => {
            let more = more_mistakes(mistakes).map(|words| format!("{}: {words}\n", source.name));
            let told = mistakes.iter().map(|mistake| short_mistake(source, mistake));
            told.chain(more).collect()
        }
        _ => problem_words(problem, Paint::NONE),
    }
}

fn short_mistake(source: &Source, mistake: &Mistake) -> String {
    let Mistake { span, words, hint } = mistake;
    let hint = hint.as_ref().map_or(String::new(), |hint| format!("; {hint}"));
    visible(&format!("{}:{}:{}: {words}{hint}", source.name, span.line, span.column)) + "\n"
}

/// A pair as an annotation at the right rule: an error where it clashes, else a warning.
pub fn github(left: &Side, right: &Side, asked: &Asked) -> String {
    let (level, title) = match asked.answer.clashes() {
        Some(true) => ("error", "Two rules make the same label"),
        _ => ("warning", "Not decided"),
    };
    let words = [vec![sentence(left, right, asked)], details(left, right, asked)].concat();
    let place = right.place.as_ref().map(|Place { file, line }| {
        let line = line.map(|line| ("line", line.to_string()));
        [("file", file.to_string())].into_iter().chain(line).collect::<Vec<_>>()
    });
    let mut properties = place.unwrap_or_default();
    properties.push(("title", title.to_string()));
    annotation(level, &properties, &words.join("\n"))
}

/// What ends a command without an answer, as annotations.
fn github_problem(problem: &Problem) -> String {
    match problem {
        Problem::Mistakes(source, mistakes) => {
            let file = [("file", source.name.clone())];
            let more = more_mistakes(mistakes).map(|words| annotation("error", &file, &words));
            let told = mistakes.iter().map(|mistake| github_mistake(source, mistake));
            told.chain(more).collect()
        }
        Problem::Fault(words) | Problem::Failure(words) | Problem::NoRule(words) => {
            annotation("error", &[], &format!("bradovusc: {words}"))
        }
        Problem::BrokenPipe => String::new(),
    }
}

fn github_mistake(source: &Source, Mistake { span, words, hint }: &Mistake) -> String {
    let properties = [
        ("file", source.name.clone()),
        ("line", span.line.to_string()),
        ("col", span.column.to_string()),
        ("endColumn", (span.column + span.width).to_string()),
    ];
    let hint = hint.as_ref().map_or(String::new(), |hint| format!("\n{hint}"));
    annotation("error", &properties, &format!("{words}{hint}"))
}

/// A command for a runner. What would end it, or a part of it, is written as its code.
pub fn annotation(level: &str, properties: &[(&str, String)], words: &str) -> String {
    let written = |(name, value): &(&str, String)| {
        format!("{name}={}", escaped(value).replace(':', "%3A").replace(',', "%2C"))
    };
    let properties: Vec<String> = properties.iter().map(written).collect();
    let space = if properties.is_empty() { "" } else { " " };
    format!("::{level}{space}{}::{}\n", properties.join(","), escaped(words))
}

fn escaped(text: &str) -> String {
    let escaped = |sign: char| match sign {
        '%' => "%25".to_string(),
        '\r' => "%0D".to_string(),
        '\n' => "%0A".to_string(),
        sign => visible_sign(sign),
    };
    text.chars().map(escaped).collect()
}

#[cfg(test)]
mod tests {
    use super::*;

    #[test]
    fn names() {
        for (name, format) in NAMES {
            assert_eq!(Format::named(name), Ok(format));
        }
        assert!(Format::named("xml").is_err_and(|words| words.contains("github, sarif, not 'xml'")));
    }

    #[test]
    fn what_would_end_a_command_is_written_as_its_code() {
        let place = [("file", "a,b:c%\n.rules".to_string()), ("line", "7".to_string())];
        assert_eq!(
            annotation("error", &place, "50 %: a,b\r\nc"),
            "::error file=a%2Cb%3Ac%25%0A.rules,line=7::50 %25: a,b%0D%0Ac\n"
        );
        assert_eq!(annotation("notice", &[], "a::b"), "::notice::a::b\n");
    }
}
