//! A rule in parts, as a program has it: a template, and the patterns of its fields.

use bradovusc::Edition;

use crate::cursor::is_name;
use crate::read::{without_comment, FULL_ASCII};
use crate::source::Source;

/// A rule in parts. Its fields are its own, whatever those of another rule are called.
#[derive(Clone, Debug, Default, PartialEq, Eq)]
pub struct RuleParts {
    /// By which it is told; where there is none, its place among the rules names it.
    pub name: Option<String>,
    pub template: String,
    /// Names and patterns. A field without one holds one character or more.
    pub fields: Vec<(String, String)>,
}

/// A rule with this template: `rule("LT{size}{finish}").field("size", "[0-9]{2}")`.
pub fn rule(template: &str) -> RuleParts {
    RuleParts { template: template.to_string(), ..RuleParts::default() }
}

impl RuleParts {
    /// With a pattern for one of its fields.
    pub fn field(mut self, name: &str, pattern: &str) -> RuleParts {
        self.fields.push((name.to_string(), pattern.to_string()));
        self
    }

    /// With a name.
    pub fn named(self, name: &str) -> RuleParts {
        RuleParts { name: Some(name.to_string()), ..self }
    }

    /// Its lines in a file of rules.
    fn lines(&self, name: &str, edition: Edition) -> Result<String, String> {
        let mut lines = format!("{}{}\n", front(name)?, one_line(&self.template, edition)?);
        for (field, pattern) in &self.fields {
            lines += &format!("  {}{}\n", front(field)?, one_line(pattern, edition)?);
        }
        Ok(lines)
    }
}

/// The file that has two rules, so that a mistake in one is told at its place. Where they have no
/// names they are called left and right.
pub fn source_of_two(
    edition: Edition,
    left: &RuleParts,
    right: &RuleParts,
) -> Result<Source, String> {
    let mut text = match edition {
        Edition::Code39 => String::new(),
        Edition::FullAscii => FULL_ASCII.join(" ") + "\n",
    };
    for (rule, place) in [(left, LEFT), (right, RIGHT)] {
        text += &rule.lines(rule.name.as_deref().unwrap_or(place), edition)?;
    }
    Ok(Source::new("pair", text.as_bytes()))
}

/// How two rules without names are called.
pub const LEFT: &str = "left";
pub const RIGHT: &str = "right";

/// A name and an equals sign.
fn front(name: &str) -> Result<String, String> {
    if name.is_empty() || !name.chars().all(is_name) {
        return Err(format!("{name:?} is no name: a name has letters, digits, _ and -"));
    }
    Ok(format!("{name} = "))
}

/// A template or a pattern, which must not end its line, nor hide a part of itself as a comment.
fn one_line(part: &str, edition: Edition) -> Result<&str, String> {
    let signs: Vec<char> = part.chars().collect();
    if signs.iter().any(|sign| matches!(sign, '\n' | '\r')) {
        return Err(format!("{part:?} has more than one line"));
    }
    if without_comment(edition, &signs).len() < signs.len() {
        let words = match edition {
            Edition::Code39 => "# is no character of Code 39",
            Edition::FullAscii => "the character # is written \\#",
        };
        return Err(format!("{part:?} has a # that would begin a comment: {words}"));
    }
    Ok(part)
}

#[cfg(test)]
mod tests {
    use super::*;
    use crate::{read, rule_text, Rule};

    fn rules(edition: Edition, left: &RuleParts, right: &RuleParts) -> Vec<Rule> {
        read(&source_of_two(edition, left, right).unwrap()).unwrap()
    }

    #[test]
    fn as_in_a_file() {
        let left = rule("LT{size}{finish}").field("size", "[0-9]{2}").field("finish", "BR|CH");
        let rules = rules(Edition::Code39, &left, &rule("LT{size}").named("rim"));
        let text: String = rules.iter().map(rule_text).collect();
        let wanted =
            "left = LT{size}{finish}\n  size = [0-9]{2}\n  finish = BR|CH\nrim = LT{size}\n";
        assert_eq!(text, wanted);
    }

    #[test]
    fn in_full_ascii() {
        let rules = rules(Edition::FullAscii, &rule("Box\\#{n}"), &rule("{n}").field("n", "a|\\#"));
        assert_eq!(rules[0].edition, Edition::FullAscii);
        assert_eq!(rule_text(&rules[1]), "right = {n}\n  n = a|\\#\n");
    }

    /// Nothing that is given as a part becomes another part, or is left out.
    #[test]
    fn a_part_is_a_part() {
        let said = |left: RuleParts, edition| {
            source_of_two(edition, &left, &rule("A")).map(drop).unwrap_err()
        };
        for edition in [Edition::Code39, Edition::FullAscii] {
            assert_eq!(said(rule("A\nb = C"), edition), "\"A\\nb = C\" has more than one line");
            assert!(said(rule("A\r"), edition).ends_with("has more than one line"));
            assert!(said(rule("{x}").field("x", "A\n y = B"), edition).ends_with("one line"));
            assert!(said(rule("A#B"), edition).contains("would begin a comment"));
            assert!(said(rule("{x}").field("x", "A # B"), edition).contains("comment"));
            for name in ["", "x y", "x=A|", "x\n", "é", "#"] {
                assert!(said(rule("{x}").field(name, "A"), edition).contains("is no name"));
                assert!(said(rule("{x}").named(name), edition).contains("is no name"));
            }
        }
        assert!(said(rule("A\\#"), Edition::Code39).contains("comment"));
        assert!(source_of_two(Edition::FullAscii, &rule("A\\#"), &rule("A")).is_ok());
    }
}
