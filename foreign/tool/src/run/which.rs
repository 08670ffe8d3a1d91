//! `which`: the rules that read a label, with what their fields hold.

use std::path::Path;

use bradovusc::Edition;

use super::{Outcome, Run};
use crate::json::Object;
use crate::labels::{from_lines, from_values, Column, Label};
use crate::matching::{Reader, LONGEST_LABEL};
use crate::notation::paint::Paint;
use crate::notation::visible::{visible, visible_sign};
use crate::report::{
    counted, fields_object, fields_words, grouped, label_words, placed, spelt, summary_of, titled,
};
use crate::sides::{Side, Text};
use crate::status::{Problem, Status};

/// A file of labels may have so many bytes.
const MOST_LABELS: u64 = 256 << 20;

/// How many labels are read by one rule, by several and by none.
#[derive(Clone, Copy, Debug, Default)]
struct Counts {
    one: usize,
    several: usize,
    none: usize,
}

impl Counts {
    fn status(self) -> Status {
        match self {
            Counts { several: 1.., .. } => Status::Clash,
            Counts { none: 1.., .. } => Status::NotRead,
            _ => Status::Good,
        }
    }

    fn all(self) -> usize {
        self.one + self.several + self.none
    }
}

/// A label, and the rules that read it.
struct Found<'a> {
    label: &'a Label,
    edition: Edition,
    /// Its characters by value, or the first sign that is none.
    values: Result<Vec<u8>, char>,
    rules: Vec<(&'a Side, Vec<Text>)>,
}

impl Run<'_> {
    pub(super) fn which(&mut self, file: &Path, words: &[String]) -> Outcome {
        let labels = self.labels(file, words)?;
        let rules = self.rules(file)?;
        let readers: Option<Vec<Reader>> = rules.iter().map(Reader::new).collect();
        let readers = readers
            .ok_or_else(|| Problem::Fault(format!("{} can't be matched", file.display())))?;
        let edition = rules.first().map_or(Edition::Code39, |side| side.edition);
        let mut counts = Counts::default();
        for label in &labels {
            let found = look_up(label, edition, &readers)?;
            match found.rules.len() {
                0 => counts.none += 1,
                1 => counts.one += 1,
                _ => counts.several += 1,
            }
            self.say(&found.words(self.options.paint), || found.object())?;
        }
        self.summary(counts, rules.len())?;
        Ok(counts.status())
    }

    /// The labels that the words say: themselves, the lines of standard input, or a column.
    fn labels(&mut self, file: &Path, words: &[String]) -> Result<Vec<Label>, Problem> {
        let separator = self.options.separator;
        let column = self.options.column.clone().map(|title| Column { title, separator });
        let from = match (&self.options.values, words) {
            (Some(path), []) => path.clone(),
            (Some(_), _) => return fault("labels come from words or from --csv, not from both"),
            (None, []) => "-".into(),
            (None, [only]) if only == "-" => "-".into(),
            (None, words) => return Ok(words.iter().map(|word| Label::word(word)).collect()),
        };
        if from == Path::new("-") && file == from {
            return fault("the rules and the labels can't both come from standard input");
        }
        let name = from.display().to_string();
        let bytes = self.bytes_of(&from, MOST_LABELS)?;
        match (&self.options.values, column) {
            (None, None) => Ok(from_lines(&name, &bytes)),
            (Some(_), Some(column)) => from_values(&name, &bytes, &column),
            (Some(_), None) => {
                fault("--csv goes with --column, the name or the number of a column")
            }
            (None, Some(_)) => fault("--column goes with --csv, the file that has the column"),
        }
    }

    /// What is told behind several labels.
    fn summary(&mut self, counts: Counts, rules: usize) -> Result<(), Problem> {
        let Counts { one, several, none } = counts;
        if self.options.json && self.options.summary {
            let object = summary_of("which");
            let object = object.number("rules", rules).number("labels", counts.all());
            let object = object.number("one", one).number("several", several).number("none", none);
            let status = usize::from(counts.status().number());
            writeln!(self.streams.output, "{}", object.number("status", status).done())?;
        } else if !self.options.json && (self.options.summary || counts.all() != 1) {
            let labels = counted(counts.all(), "label", "labels");
            let [one, several, none] = [one, several, none].map(grouped);
            writeln!(
                self.streams.output,
                "{labels}: {one} read by one rule, {several} by several, {none} by none"
            )?;
        }
        Ok(())
    }
}

fn fault<T>(words: &str) -> Result<T, Problem> {
    Err(Problem::Fault(words.to_string()))
}

/// The rules that read a label.
fn look_up<'a>(
    label: &'a Label,
    edition: Edition,
    readers: &[Reader<'a>],
) -> Result<Found<'a>, Problem> {
    let value = |sign: char| edition.value(sign).ok_or(sign);
    let values: Result<Vec<u8>, char> = label.text.chars().map(value).collect();
    let mut rules = Vec::new();
    if let Ok(values) = &values {
        if values.len() > LONGEST_LABEL {
            return Err(Problem::Fault(format!(
                "{}a label of {} characters: the most are {}",
                place_words(label),
                grouped(values.len()),
                grouped(LONGEST_LABEL)
            )));
        }
        let reads = |reader: &Reader<'a>| Some((reader.side, reader.read(values)?));
        rules.extend(readers.iter().filter_map(reads));
    }
    Ok(Found { label, edition, values, rules })
}

fn place_words(label: &Label) -> String {
    let place = |(file, line): &(String, usize)| format!("{}:{line}: ", visible(file));
    label.place.as_ref().map_or(String::new(), place)
}

impl Found<'_> {
    /// Why no rule can read the label, if it is no label at all.
    fn wrong(&self) -> Option<String> {
        let sign = self.values.as_ref().err()?;
        let code = match self.edition {
            Edition::Code39 => "Code 39",
            Edition::FullAscii => "Full ASCII",
        };
        Some(format!("'{}' is no character of {code}", visible_sign(*sign)))
    }

    fn words(&self, paint: Paint) -> String {
        let label = match &self.values {
            Ok(values) => label_words(self.edition, values),
            Err(_) => format!("\"{}\"", visible(&self.label.text)),
        };
        let front = place_words(self.label) + &label;
        let held = |(side, texts): &(&Side, Vec<Text>)| {
            format!("{}: {}\n", side.told(), fields_words(side, texts))
        };
        match (&self.rules[..], self.wrong()) {
            ([], wrong) => {
                let wrong = wrong.map_or(String::new(), |wrong| format!(": {wrong}"));
                format!("{front} is read by {}{wrong}\n", paint.open("no rule"))
            }
            ([one], _) => format!("{front} is read by {}", held(one)),
            (several, _) => {
                let rules: String = several.iter().map(|one| format!("  {}", held(one))).collect();
                let (count, clash) = (several.len(), paint.wrong("a clash at hand"));
                format!("{front} is read by {count} rules, {clash}:\n{rules}")
            }
        }
    }

    fn object(&self) -> Object {
        let answer = match self.rules.len() {
            0 => "no rule",
            1 => "one rule",
            _ => "clash",
        };
        let mut object = Object::new().text("label", &self.label.text).text("answer", answer);
        let spelt = self.values.as_ref().ok().and_then(|values| spelt(self.edition, values));
        if let Some(spelt) = spelt {
            object = object.text("spelt", &spelt);
        }
        if let Some(wrong) = self.wrong() {
            object = object.text("reason", &wrong);
        }
        if let Some((file, line)) = &self.label.place {
            object = object.text("file", file).number("line", *line);
        }
        let rule = |(side, texts): &(&Side, Vec<Text>)| {
            let object = titled(Object::new(), "rule", &side.title);
            let object = placed(object, "file", "line", side);
            object.object("fields", fields_object(side, texts))
        };
        object.list("rules", self.rules.iter().map(rule).collect())
    }
}
