//! Reads a pattern.

use bradovusc::Edition;

use crate::characters::{sign, Set};
use crate::cursor::{is_blank, quoted, Cursor, Result};
use crate::print::{character_text, Place};
use crate::source::{Mistake, Span};
use crate::{Kind, Pattern};

/// Brackets within brackets, up to so many.
const MOST_NESTED: usize = 100;

/// The greatest number that a count may have.
const MOST_TIMES: u32 = 9_999;

const NO_BRACKETS: &str = "Code 39 has no brackets";
const A_COUNT: &str = "a count is {3}, {2,4} or {2,}";
const A_SPACE: &str = "a space of the label is written \\s; for mere layout spaces may stand at \
                       both ends, beside | and inside of ( and )";

impl Cursor<'_> {
    /// The rest of a field's line.
    pub fn whole_pattern(&mut self) -> Result<Pattern> {
        let equals = self.from(self.at - 1);
        self.skip_blanks();
        if self.next().is_none() {
            return Err(Mistake::new(equals, "no pattern stands behind this =").hint(
                "() is the empty text; a field without a line of its own holds one character or \
                 more",
            ));
        }
        let pattern = self.choice(0)?;
        match self.next() {
            None => Ok(pattern),
            Some(_) => {
                let mistake = Mistake::new(self.here(), "a ) without a ( before it");
                Err(mistake.hint(self.itself(')', NO_BRACKETS)))
            }
        }
    }

    /// Rows with | between them, up to a ) or the end.
    fn choice(&mut self, nested: usize) -> Result<Pattern> {
        let mut rows = vec![self.row(nested)?];
        while self.take_if('|') {
            rows.push(self.row(nested)?);
        }
        let span = whole(&rows, self.here());
        Ok(Pattern::or(rows, span))
    }

    /// Parts one behind the other, at least one, up to a |, a ) or the end.
    fn row(&mut self, nested: usize) -> Result<Pattern> {
        self.skip_blanks();
        let mut parts = Vec::new();
        while !matches!(self.next(), None | Some('|' | ')')) {
            parts.push(self.part(nested)?);
            let blank = self.at;
            if self.skip_blanks() && !matches!(self.next(), None | Some('|' | ')')) {
                let span = Span { width: 1, ..self.from(blank) };
                let words = format!("{} between two parts of a pattern", quoted(self.signs[blank]));
                return Err(Mistake::new(span, words).hint(A_SPACE));
            }
        }
        if parts.is_empty() {
            let before = self.signs[..self.at].iter().rposition(|&sign| !is_blank(sign));
            let (span, words) = match (self.next(), before) {
                (Some('|'), _) => (self.here(), "nothing stands before this |"),
                (_, Some(index)) if self.signs[index] == '|' => {
                    (Span { width: 1, ..self.from(index) }, "nothing stands behind this |")
                }
                _ => (self.here(), "nothing stands before this )"),
            };
            return Err(Mistake::new(span, words).hint("() is the empty text"));
        }
        let span = whole(&parts, self.here());
        Ok(Pattern::then(parts, span))
    }

    /// One part, with what says how many times.
    fn part(&mut self, nested: usize) -> Result<Pattern> {
        let start = self.at;
        let one = self.one(nested)?;
        let (least, most) = match self.times()? {
            Some(times) => times,
            None => return Ok(one),
        };
        let span = self.from(start);
        let again = self.at;
        if matches!(self.next(), Some('*' | '+' | '?' | '{')) {
            self.at += 1;
            let before: String = self.signs[start..again].iter().collect();
            let (sign, plus) = match self.signs[again] {
                '{' => ("{..}".to_string(), ""),
                '+' => ("+".to_string(), "; the character is written \\+"),
                sign => (sign.to_string(), ""),
            };
            return Err(Mistake::new(self.from(again), "two repetitions, one behind the other")
                .hint(format!("({before}){sign} repeats the repetition{plus}")));
        }
        Ok(Pattern { kind: Kind::Repeat { part: Box::new(one), least, most }, span })
    }

    /// A character, a class, or a pattern in brackets.
    fn one(&mut self, nested: usize) -> Result<Pattern> {
        let start = self.at;
        let missing = "a part of the pattern is missing here";
        let sign = self.take().ok_or_else(|| Mistake::new(self.here(), missing))?;
        let wrong =
            |words: String, hint: &str| Err(Mistake::new(self.from(start), words).hint(hint));
        let set = match sign {
            '.' => Set::all(self.edition),
            '\\' => Set::one(self.edition, self.escaped(start)?),
            '[' => self.class(start)?,
            '(' => return self.group(start, nested + 1),
            '*' | '+' | '?' => {
                let hint = match sign {
                    '+' => "the character is written \\+".to_string(),
                    _ => self.and_itself("* + and ? stand behind what they repeat", sign),
                };
                return wrong(format!("nothing to repeat before {}", quoted(sign)), &hint);
            }
            '{' => {
                let words = "nothing to repeat before '{'".to_string();
                let hint = format!("{A_COUNT}; fields stand in a template alone");
                return wrong(words, &self.and_itself(&hint, sign));
            }
            ']' | '}' => {
                let opening = if sign == ']' { '[' } else { '{' };
                let words = format!("a {sign} without a {opening} before it");
                return wrong(words, &self.itself(sign, NO_BRACKETS));
            }
            '^' => {
                let hint =
                    "a pattern is always of the whole text, so no sign says where it begins; \
                            [^AB] is any character but A and B";
                return wrong("'^' outside of a class".to_string(), &self.and_itself(hint, sign));
            }
            sign => Set::one(self.edition, self.plain(sign, start)?),
        };
        Ok(Pattern { kind: Kind::One(set), span: self.from(start) })
    }

    /// What stands behind a (, up to its ).
    fn group(&mut self, start: usize, nested: usize) -> Result<Pattern> {
        let opening = self.from(start);
        if nested > MOST_NESTED {
            let words = format!("more than {MOST_NESTED} brackets within one another");
            return Err(Mistake::new(opening, words));
        }
        self.skip_blanks();
        if self.take_if(')') {
            return Ok(Pattern { kind: Kind::Empty, span: self.from(start) });
        }
        let unclosed = || Err(Mistake::new(opening, "a ( without a ) behind it"));
        if self.next().is_none() {
            return unclosed();
        }
        let inside = self.choice(nested)?;
        if !self.take_if(')') {
            return unclosed();
        }
        Ok(Pattern { span: self.from(start), ..inside })
    }

    /// How many times, if anything says so.
    fn times(&mut self) -> Result<Option<(u32, Option<u32>)>> {
        let times = match self.next() {
            Some('*') => (0, None),
            Some('+') => (1, None),
            Some('?') => (0, Some(1)),
            Some('{') => return self.count().map(Some),
            _ => return Ok(None),
        };
        self.at += 1;
        Ok(Some(times))
    }

    /// {3}, {2,4} or {2,}
    fn count(&mut self) -> Result<(u32, Option<u32>)> {
        let start = self.at;
        self.at += 1;
        let opening = self.from(start);
        let unclosed = || Mistake::new(opening, "a { without a } behind it").hint(A_COUNT);
        let least = self.number()?.ok_or_else(unclosed)?;
        let most = match (self.take_if(','), self.next()) {
            (false, _) => Some(least),
            (true, Some('}')) => None,
            (true, _) => Some(self.number()?.ok_or_else(unclosed)?),
        };
        match self.take() {
            Some('}') => (),
            Some(sign) => {
                let words = format!("{} in a count", quoted(sign));
                return Err(Mistake::new(self.from(self.at - 1), words).hint(A_COUNT));
            }
            None => return Err(unclosed()),
        }
        match most {
            Some(most) if most < least => {
                let words = format!("a count from {least} down to {most}");
                let hint = "the smaller number stands first";
                Err(Mistake::new(self.from(start), words).hint(hint))
            }
            _ => Ok((least, most)),
        }
    }

    /// A number of a count; none at the end of the line.
    fn number(&mut self) -> Result<Option<u32>> {
        let start = self.at;
        let mut number: u32 = 0;
        while let Some(digit) = self.next().and_then(|sign| sign.to_digit(10)) {
            number = number.saturating_mul(10).saturating_add(digit);
            self.at += 1;
        }
        match self.next() {
            _ if self.at > start => (),
            None => return Ok(None),
            Some(sign) => {
                let words = format!("{} where a count has a number", quoted(sign));
                let hint = format!("{A_COUNT}; fields stand in a template alone");
                return Err(Mistake::new(self.here(), words).hint(hint));
            }
        }
        if number > MOST_TIMES {
            let words = format!("a count above {MOST_TIMES}");
            return Err(Mistake::new(self.from(start), words));
        }
        Ok(Some(number))
    }

    /// What stands behind a [, up to its ].
    fn class(&mut self, start: usize) -> Result<Set> {
        let opening = self.from(start);
        let others = self.take_if('^');
        let (mut set, first) = (Set::none(self.edition), self.at);
        loop {
            let at = self.at;
            match self.next() {
                None => return Err(Mistake::new(opening, "a [ without a ] behind it")),
                Some(']') => break,
                Some(_) => set = set.or(self.member(at == first)?),
            }
        }
        let empty = self.at == first;
        self.at += 1;
        let set = if others { set.rest() } else { set };
        if empty {
            Err(Mistake::new(self.from(start), "a class without a character").hint(
                "[AB] is A or B, [0-9] a digit, [^AB] any character but A and B, . any character",
            ))
        } else if set.is_empty() {
            Err(Mistake::new(self.from(start), "a class that no character is left for"))
        } else {
            Ok(set)
        }
    }

    /// A character of a class, or a range by ASCII.
    fn member(&mut self, first: bool) -> Result<Set> {
        let start = self.at;
        let low = self.character_of_class(first)?;
        let behind = self.signs.get(self.at + 1).copied();
        if self.next() != Some('-') || matches!(behind, None | Some(']')) {
            return Ok(Set::one(self.edition, low));
        }
        self.at += 1;
        let high = self.character_of_class(true)?;
        let edition = self.edition;
        if sign(edition, low) > sign(edition, high) {
            let told = |value| character_text(edition, value, Place::Told);
            let words = format!("a range from '{}' back to '{}'", told(low), told(high));
            let order = match edition {
                Edition::Code39 => ": space $ % + - . / then 0 to 9, then A to Z",
                Edition::FullAscii => "",
            };
            let hint = format!(
                "a range goes by ASCII{order}; the character - is written \\-, or first or last in a \
                 class"
            );
            return Err(Mistake::new(self.from(start), words).hint(hint));
        }
        Ok(Set::signs(edition, sign(edition, low), sign(edition, high)))
    }

    /// A character of a class. A - stands for itself where `dash` says so, and last.
    fn character_of_class(&mut self, dash: bool) -> Result<u8> {
        let start = self.at;
        match self.take() {
            Some('\\') => self.escaped(start),
            Some('-') if !dash && self.next() != Some(']') => {
                let mistake = Mistake::new(self.from(start), "a '-' in the midst of a class");
                Err(mistake.hint("the character - is written \\-, or first or last in a class"))
            }
            Some('^') => {
                let mistake = Mistake::new(self.from(start), "'^' in the midst of a class");
                let hint = "it stands first: [^AB] is any character but A and B";
                Err(mistake.hint(self.and_itself(hint, '^')))
            }
            Some(sign) if is_blank(sign) => {
                let words = format!("{} in a class", quoted(sign));
                Err(Mistake::new(self.from(start), words).hint("the space is written \\s"))
            }
            Some('[') => {
                let hint = self.itself('[', NO_BRACKETS);
                let hint = format!("{hint}; a class has characters and ranges alone");
                Err(Mistake::new(self.from(start), "a [ within a class").hint(hint))
            }
            Some(sign) => self.plain(sign, start),
            None => Err(Mistake::new(self.here(), "a character is missing here")),
        }
    }
}

/// From the first part to the last one.
fn whole(parts: &[Pattern], otherwise: Span) -> Span {
    match parts {
        [first, .., last] => first.span.to(last.span),
        [only] => only.span,
        [] => otherwise,
    }
}
