//! What the library said, in words or in JSON.

use bradovusc::{spelt_bytes, Answer, Edition};

use crate::advice::{advice_objects, advice_words};
use crate::ask::{Asked, Shared};
use crate::json::Object;
use crate::paint::Paint;
use crate::print::told_text;
use crate::sides::{Side, Text, Title};
use crate::source::{Mistake, Source};
use crate::status::Status;

/// The version of the objects: it rises where a key is taken away or changes its meaning.
pub const SCHEMA: usize = 1;

/// What is told at the end of a command that is called so, begun as an object.
pub fn summary_of(command: &str) -> Object {
    Object::new().text("summary", command).number("schema", SCHEMA)
}

/// A side of a situation has at most so many tokens.
pub(crate) const LONGEST_SIDE: usize = 48;

/// What begins all words on a pair that is not decided.
const OPEN: &str = "not decided";

/// A number with a comma before each three digits.
pub fn grouped(number: usize) -> String {
    let digits = number.to_string();
    let mut text = String::new();
    for (index, digit) in digits.chars().enumerate() {
        if index > 0 && (digits.len() - index) % 3 == 0 {
            text.push(',');
        }
        text.push(digit);
    }
    text
}

/// A number of things: "1 rule", "2 rules".
pub fn counted(number: usize, one: &str, many: &str) -> String {
    format!("{} {}", grouped(number), if number == 1 { one } else { many })
}

/// How many pairs were answered in which way.
#[derive(Clone, Copy, Debug, Default, PartialEq, Eq)]
pub struct Tally {
    pub clashes: usize,
    pub not_decided: usize,
    pub apart: usize,
}

impl Tally {
    pub fn count(&mut self, answer: Answer) {
        match answer.clashes() {
            Some(true) => self.clashes += 1,
            Some(false) => self.apart += 1,
            None => self.not_decided += 1,
        }
    }

    /// The counts, behind what an object has already.
    pub fn counts(self, object: Object) -> Object {
        object
            .number("pairs", self.clashes + self.not_decided + self.apart)
            .number("clashes", self.clashes)
            .number("not_decided", self.not_decided)
            .number("no_clash", self.apart)
    }

    /// The last line of what is told about these rules.
    pub fn summary(self, rules: &str, paint: Paint) -> String {
        let clashes = counted(self.clashes, "clash", "clashes");
        let open = format!("{} {OPEN}", grouped(self.not_decided));
        format!(
            "{rules}, {}: {}, {}, {} without a clash\n",
            counted(self.clashes + self.not_decided + self.apart, "pair", "pairs"),
            if self.clashes > 0 { paint.wrong(&clashes) } else { clashes },
            if self.not_decided > 0 { paint.open(&open) } else { open },
            grouped(self.apart),
        )
    }
}

/// Two rules and what was said of them, in words.
pub fn pair_words(left: &Side, right: &Side, asked: &Asked, paint: Paint) -> String {
    let titles = format!("{} and {}", left.title, right.title);
    match (asked.answer, &asked.shared) {
        (Answer::NoClash { count }, _) => {
            let how = match asked.search {
                0 => "their fixed fronts or ends differ".to_string(),
                _ => counted(count, "situation", "situations"),
            };
            let none = paint.good("no clash");
            format!("{titles}: {none}: no label can be made by both ({how})\n")
        }
        (_, Some(shared)) => {
            let label = paint.bold(&label_words(left.edition, &shared.label));
            let (clash, made) =
                (paint.wrong("clash"), shared_lines(left, right, shared, "  ", Side::told));
            format!("{titles} {clash}: {label}\n{made}")
        }
        (answer, None) if answer.clashes() == Some(true) => format!("{titles} {answer}\n"),
        (_, None) => {
            let (words, helps) = (not_decided_words(asked), advice_words(left, right, asked));
            let open = words.replacen(OPEN, &paint.open(OPEN), 1);
            format!("{titles}: {open}\n{helps}")
        }
    }
}

/// What the fields of both rules hold on a label that both make, each on a line behind this indent,
/// and whether spaces at its end are dropped.
pub fn shared_lines(
    left: &Side,
    right: &Side,
    shared: &Shared,
    indent: &str,
    name: fn(&Side) -> String,
) -> String {
    let line = |side: &Side, texts: &[Text]| {
        format!("{indent}{}: {}\n", name(side), fields_words(side, texts))
    };
    let lines = line(left, &shared.left) + &line(right, &shared.right);
    match dropped_words(left, right, shared) {
        Some(words) => format!("{lines}{indent}{words}\n"),
        None => lines,
    }
}

/// That spaces at the end are dropped, where one of the rules has some there: then what the fields
/// hold makes more than the label that is told.
pub fn dropped_words(left: &Side, right: &Side, shared: &Shared) -> Option<String> {
    let (on_left, on_right) = (left.written(&shared.left), right.written(&shared.right));
    let more = |written: &[u8]| written.len() > shared.label.len();
    let made = |side: &Side, written: &[u8]| {
        format!("{} makes {}", side.title, told_text(side.edition, written))
    };
    (more(&on_left) || more(&on_right)).then(|| {
        format!(
            "spaces at the end of a label are dropped: {}, {}",
            made(left, &on_left),
            made(right, &on_right)
        )
    })
}

/// A label as it is told, and as it is spelt where that is another thing.
pub fn label_words(edition: Edition, label: &[u8]) -> String {
    let spelt = spelt(edition, label);
    let spelt = spelt.map_or(String::new(), |signs| format!(", spelt \"{signs}\""));
    told_text(edition, label) + &spelt
}

/// The label as it stands in Code 39, if it is one of Full ASCII.
pub fn spelt(edition: Edition, label: &[u8]) -> Option<String> {
    let mut values = vec![0; spelt_bytes(label.len())];
    match edition {
        Edition::Code39 => None,
        Edition::FullAscii => {
            let written = bradovusc::spell(label, &mut values).written();
            Some(Edition::Code39.text(values.get(..written)?))
        }
    }
}

/// What was spent on a question that is not decided, in a sentence that is neither yes nor no.
pub fn not_decided_words(asked: &Asked) -> String {
    let entered = asked.answer.count();
    let situations = counted(entered, "situation", "situations");
    let were = if entered == 1 { "was" } else { "were" };
    let room = grouped(asked.room);
    match asked.answer {
        answer if asked.given_up => format!(
            "not decided: the seconds were over; {situations} {were} entered, in room for {room} ({})",
            answer.number()
        ),
        Answer::SideTooLong { .. } => format!(
            "not decided: a side grew above {LONGEST_SIDE} tokens; {situations} {were} entered, in \
             room for {room} (19)"
        ),
        Answer::NoRoom { .. } => {
            format!("not decided: room for {room} was not enough; {situations} {were} entered (18)")
        }
        other => format!("not decided: {other}"),
    }
}

/// What the fields of a rule hold.
pub fn fields_words(side: &Side, texts: &[Text]) -> String {
    let held = |(field, name): &(u8, String)| {
        let text = texts.iter().find(|text| text.field == *field);
        text.map(|text| format!("{name} = {}", told_text(side.edition, &text.values)))
    };
    let held: Vec<String> = side.fields.iter().filter_map(held).collect();
    if held.is_empty() {
        "no fields".to_string()
    } else {
        held.join(", ")
    }
}

/// A rule's name or number under a key.
pub fn titled(object: Object, key: &str, title: &Title) -> Object {
    match title {
        Title::Name(name) => object.text(key, name),
        Title::Number(number) => object.number(key, *number),
    }
}

/// Two rules and what was said of them, as an object.
pub fn pair_object(left: &Side, right: &Side, asked: &Asked) -> Object {
    pair_in(Object::new(), left, right, asked)
}

/// The same behind what an object has already.
pub fn pair_in(object: Object, left: &Side, right: &Side, asked: &Asked) -> Object {
    let object = titled(object, "left", &left.title);
    let object = titled(object, "right", &right.title);
    let answer = match asked.answer.clashes() {
        Some(true) => "clash",
        Some(false) => "no clash",
        None => "not decided",
    };
    let mut object = object
        .text("answer", answer)
        .number("number", asked.answer.number() as usize)
        .number("search", usize::from(asked.search))
        .number("situations", asked.answer.count())
        .number("room", asked.room);
    match asked.answer {
        _ if asked.given_up => object = object.text("limit", "seconds"),
        Answer::NoRoom { .. } => object = object.text("limit", "room"),
        Answer::SideTooLong { .. } => object = object.text("limit", "side"),
        _ => (),
    }
    if let Some(shared) = &asked.shared {
        object = object.text("label", &left.edition.text(&shared.label));
        if let Some(signs) = spelt(left.edition, &shared.label) {
            object = object.text("spelt", &signs);
        }
        object = object
            .object("left_fields", fields_object(left, &shared.left))
            .object("right_fields", fields_object(right, &shared.right));
    }
    if asked.answer.clashes() == Some(false) {
        return object;
    }
    let object = placed(object, "left_file", "left_line", left);
    let object = placed(object, "right_file", "right_line", right);
    match asked.answer.clashes() {
        None => object.list("advice", advice_objects(left, right, asked)),
        Some(_) => object,
    }
}

/// Where a rule is from, under two keys.
pub fn placed(object: Object, file: &str, line: &str, side: &Side) -> Object {
    let place = match &side.place {
        Some(place) => place,
        None => return object,
    };
    let object = object.text(file, &place.file);
    match place.line {
        Some(number) => object.number(line, number),
        None => object,
    }
}

/// What the fields of a rule hold, by name.
pub fn fields_object(side: &Side, texts: &[Text]) -> Object {
    side.fields.iter().fold(Object::new(), |object, (field, name)| {
        match texts.iter().find(|text| text.field == *field) {
            Some(text) => object.text(name, &side.edition.text(&text.values)),
            None => object,
        }
    })
}

/// What ends a question without an answer, as an object.
pub fn fault_object(words: &str, status: Status) -> Object {
    Object::new().text("error", words).number("status", usize::from(status.number()))
}

/// That a file of rules has none.
pub fn no_rule_words(file: &str) -> String {
    format!("{file} has no rule; a rule is NAME = TEMPLATE")
}

/// A mistake in a source, as an object.
pub fn mistake_object(source: &Source, mistake: &Mistake) -> Object {
    let object = Object::new()
        .text("mistake", &mistake.words)
        .text("file", &source.name)
        .number("line", mistake.span.line)
        .number("column", mistake.span.column)
        .number("width", mistake.span.width);
    match &mistake.hint {
        Some(hint) => object.text("hint", hint),
        None => object,
    }
}

#[cfg(test)]
mod tests {
    use super::*;

    #[test]
    fn numbers_in_groups() {
        let texts = [0, 7, 999, 1_000, 65_535, 1_234_567].map(grouped);
        assert_eq!(texts, ["0", "7", "999", "1,000", "65,535", "1,234,567"]);
    }
}
