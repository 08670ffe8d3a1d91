//! Reads a file of rules: its lines, and which of them belong together.

use std::collections::HashMap;

use bradovusc::Edition;

use crate::cursor::{is_blank, Cursor, Result};
use crate::mistakes::Mistakes;
use crate::source::{Mistake, Source, Span};
use crate::Rule;

/// The rules of a file, or the mistakes that are found in it: at most one a line.
pub fn read(source: &Source) -> Result<Vec<Rule>, Mistakes> {
    let mut file = File::default();
    for (number, line) in source.lines() {
        let mut cursor =
            Cursor::new(file.edition, without_comment(file.edition, &line.signs), number);
        let result = match line.broken {
            Some(column) => {
                let span = Span { line: number, column, width: 1 };
                Err(Mistake::new(span, "a byte that is no UTF-8"))
            }
            None => file.line(&mut cursor),
        };
        if let Err(mistake) = result {
            file.mistakes.push(mistake);
        }
    }
    file.mistakes.or(file.rules)
}

/// The line that says that a file is Full ASCII.
pub const FULL_ASCII: [&str; 2] = ["full", "ascii"];

/// A line up to its comment. In Full ASCII a # behind a \ is a character.
pub fn without_comment(edition: Edition, signs: &[char]) -> &[char] {
    let mut escaped = false;
    let begins = |&sign: &char| {
        let comment = sign == '#' && !escaped;
        escaped = edition == Edition::FullAscii && sign == '\\' && !escaped;
        comment
    };
    &signs[..signs.iter().position(begins).unwrap_or(signs.len())]
}

fn is_full_ascii(signs: &[char]) -> bool {
    let words = signs.split(|&sign| is_blank(sign)).filter(|word| !word.is_empty());
    words.map(String::from_iter).eq(FULL_ASCII)
}

/// The number of the line that says that a file is Full ASCII, if there is one. The file has no mistake.
pub fn full_ascii_line(source: &Source) -> Option<usize> {
    let says = |signs: &[char]| is_full_ascii(without_comment(Edition::Code39, signs));
    source.lines().find(|(_, line)| says(&line.signs)).map(|(number, _)| number)
}

/// What is read so far.
#[derive(Default)]
struct File {
    edition: Edition,
    rules: Vec<Rule>,
    /// The lines of the rules, by name.
    named: HashMap<String, usize>,
    /// The lines of the last rule's fields, by name.
    given: HashMap<String, usize>,
    /// Whether the last rule's template was read. If it was not, nothing is known of its fields.
    template: bool,
    /// Whether a line of a rule was met, read or not.
    begun: bool,
    mistakes: Mistakes,
}

impl File {
    fn line(&mut self, cursor: &mut Cursor) -> Result<()> {
        let indented = cursor.skip_blanks();
        match cursor.next() {
            None => Ok(()),
            Some(_) if is_full_ascii(cursor.signs) => self.full_ascii(cursor, indented),
            Some(_) if indented => self.field(cursor),
            Some(_) => {
                (self.begun, self.template) = (true, false);
                self.given.clear();
                self.rule(cursor)
            }
        }
    }

    /// full ascii
    fn full_ascii(&mut self, cursor: &mut Cursor, indented: bool) -> Result<()> {
        let start = cursor.at;
        cursor.at = cursor.signs.len();
        let before = self.edition;
        if !self.begun {
            self.edition = Edition::FullAscii;
        }
        let words = match before {
            _ if self.begun => "this line stands behind a rule",
            _ if indented => "this line is indented",
            Edition::FullAscii => "this line stands twice",
            Edition::Code39 => return Ok(()),
        };
        let hint = "a file of Full ASCII says so once, before all rules, in a line of its own";
        Err(Mistake::new(cursor.from(start), words).hint(hint))
    }

    /// NAME = TEMPLATE
    fn rule(&mut self, cursor: &mut Cursor) -> Result<()> {
        let (name, span) = cursor.name_and_sign("a rule is NAME = TEMPLATE")?;
        if let Some(line) = self.named.get(&name) {
            return Err(Mistake::new(span, format!("a second rule {name}"))
                .hint(format!("the first one is in line {line}")));
        }
        let (template, fields) = cursor.template()?;
        self.template = true;
        self.named.insert(name.clone(), span.line);
        self.rules.push(Rule { edition: self.edition, name, span, template, fields });
        Ok(())
    }

    /// NAME = PATTERN, indented
    fn field(&mut self, cursor: &mut Cursor) -> Result<()> {
        let start = cursor.here();
        if !self.begun {
            return Err(Mistake::new(start, "a field's line before any rule")
                .hint("a rule's line is not indented; those of its fields stand below it"));
        }
        let (name, span) = cursor.name_and_sign("a field's line is NAME = PATTERN")?;
        if let Some(line) = self.given.get(&name) {
            return Err(Mistake::new(span, format!("a second line for the field {name}"))
                .hint(format!("the first one is line {line}")));
        }
        self.given.insert(name.clone(), span.line);
        let last = self.rules.last_mut().filter(|_| self.template);
        let stands = |rule: &Rule| rule.fields.iter().any(|field| field.name == name);
        if let Some(rule) = last.as_deref().filter(|rule| !stands(rule)) {
            let names: Vec<&str> = rule.fields.iter().map(|field| &*field.name).collect();
            let hint = match &names[..] {
                [] => {
                    format!("the rule {} has no fields; a field is written {{{name}}}", rule.name)
                }
                names => format!("the rule {} has {}", rule.name, names.join(", ")),
            };
            let words = format!("the field {name} does not stand in its rule");
            return Err(Mistake::new(span, words).hint(hint));
        }
        let pattern = cursor.whole_pattern()?;
        if let Some(rule) = last {
            for field in rule.fields.iter_mut().filter(|field| field.name == name) {
                field.pattern = Some(pattern.clone());
            }
        }
        Ok(())
    }
}
