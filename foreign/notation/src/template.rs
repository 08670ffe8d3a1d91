//! Reads a template: characters and fields.

use crate::cursor::{is_blank, quoted, Cursor, Result};
use crate::source::{Mistake, Span};
use crate::{Field, Stands, Token};

const A_FIELD: &str = "a field is written {name}, where a name has letters, digits, _ and -";
const THE_EMPTY_LABEL: &str = "() is the template of a rule that makes the empty label alone";
const NO_PATTERN: &str = "a template has characters and fields; a pattern stands in the line of a \
                          field, which is indented";

/// A template is read up to so many characters and fields, far more than the library takes.
const MOST_TOKENS: usize = 1_000;

impl Cursor<'_> {
    /// The rest of a rule's line: its template, and the fields of it.
    pub fn template(&mut self) -> Result<(Vec<Token>, Vec<Field>)> {
        let equals = self.from(self.at - 1);
        let (mut tokens, mut fields) = (Vec::new(), Vec::new());
        self.skip_blanks();
        if self.next().is_none() {
            let mistake = Mistake::new(equals, "no template stands behind this =");
            return Err(mistake.hint(THE_EMPTY_LABEL));
        }
        if self.signs[self.at..].starts_with(&['(', ')']) {
            self.at += 2;
            self.skip_blanks();
            return match self.next() {
                None => Ok((tokens, fields)),
                Some(_) => {
                    Err(Mistake::new(self.here(), "something stands behind ()")
                        .hint(THE_EMPTY_LABEL))
                }
            };
        }
        while self.goes_on()? {
            let start = self.at;
            let stands = self.token(&mut fields)?;
            if tokens.len() == MOST_TOKENS {
                let words = format!("more than {MOST_TOKENS} characters and fields in a template");
                return Err(Mistake::new(self.from(start), words));
            }
            tokens.push(Token { stands, span: self.from(start) });
        }
        Ok((tokens, fields))
    }

    /// Whether anything follows but blanks at the end. Blanks before something are a mistake.
    fn goes_on(&mut self) -> Result<bool> {
        let (start, blank) = (self.at, self.next().filter(|&sign| is_blank(sign)));
        self.skip_blanks();
        match (blank, self.next()) {
            (_, None) => Ok(false),
            (None, Some(_)) => Ok(true),
            (Some(blank), Some(_)) => {
                let words = format!("{} in a template", quoted(blank));
                Err(Mistake::new(Span { width: 1, ..self.from(start) }, words)
                    .hint("a space of the label is written \\s"))
            }
        }
    }

    /// A character or a field.
    fn token(&mut self, fields: &mut Vec<Field>) -> Result<Stands> {
        let start = self.at;
        let missing = "a character is missing here";
        let sign = self.take().ok_or_else(|| Mistake::new(self.here(), missing))?;
        match sign {
            '{' => Ok(Stands::Field(self.standing(start, fields)?)),
            '\\' => Ok(Stands::Character(self.escaped(start)?)),
            '[' | ']' | '(' | ')' | '|' | '*' | '?' | '^' => {
                let words = format!("{} in a template", quoted(sign));
                Err(Mistake::new(self.from(start), words).hint(self.and_itself(NO_PATTERN, sign)))
            }
            '}' => Err(Mistake::new(self.from(start), "a } without a { before it")
                .hint(self.and_itself(A_FIELD, sign))),
            sign => match self.plain(sign, start) {
                // it may be the name of a field, for which the brackets are missing
                Err(Mistake { span, words, hint: Some(hint) }) if sign.is_ascii_lowercase() => {
                    Err(Mistake::new(span, words).hint(hint + "; a field is written {name}"))
                }
                result => result.map(Stands::Character),
            },
        }
    }

    /// A field of a template, whose { is taken: its place among the fields.
    fn standing(&mut self, start: usize, fields: &mut Vec<Field>) -> Result<usize> {
        let name = self.name().ok_or_else(|| {
            Mistake::new(self.from(start), "a field without a name")
                .hint(self.and_itself(A_FIELD, '{'))
        })?;
        match self.next() {
            Some('}') => self.at += 1,
            Some(sign) => {
                let words = format!("{} in the name of a field", quoted(sign));
                return Err(Mistake::new(self.here(), words).hint(self.and_itself(A_FIELD, '{')));
            }
            None => {
                let words = "a { without a } behind it";
                return Err(
                    Mistake::new(self.from(start), words).hint(self.and_itself(A_FIELD, '{'))
                );
            }
        }
        let known = fields.iter().position(|field| field.name == name);
        Ok(known.unwrap_or_else(|| {
            fields.push(Field { name, span: self.from(start), pattern: None });
            fields.len() - 1
        }))
    }
}
