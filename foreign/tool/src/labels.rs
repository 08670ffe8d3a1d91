//! Labels that are looked up: from words, from lines, or from a column of a file of comma-separated
//! values.

use crate::status::Problem;

/// A label as it was given.
#[derive(Clone, Debug, PartialEq, Eq)]
pub struct Label {
    pub text: String,
    /// The file and the line that it is from; none where it was a word.
    pub place: Option<(String, usize)>,
}

impl Label {
    pub fn word(text: &str) -> Label {
        Label { text: text.to_string(), place: None }
    }
}

/// One label a line. Lines without a character, or with spaces alone, are passed over.
pub fn from_lines(name: &str, bytes: &[u8]) -> Vec<Label> {
    let text = |line: &[u8]| {
        let line = line.strip_suffix(b"\r").unwrap_or(line);
        String::from_utf8_lossy(line).into_owned()
    };
    let lines = bytes.split(|&byte| byte == b'\n').map(text);
    (1..).zip(lines).filter_map(|(line, text)| placed(name, line, text)).collect()
}

fn placed(name: &str, line: usize, text: String) -> Option<Label> {
    let place = Some((name.to_string(), line));
    (!text.trim_matches(' ').is_empty()).then_some(Label { text, place })
}

/// Where the labels stand in a file of values.
#[derive(Clone, Debug, PartialEq, Eq)]
pub struct Column {
    /// Its name in the first row, or its number from 1.
    pub title: String,
    /// What stands between two values.
    pub separator: char,
}

/// The values of a column, from the row below the names on, or from the first row on where the column
/// is told by its number. Values that are empty or have spaces alone are passed over.
pub fn from_values(name: &str, bytes: &[u8], column: &Column) -> Result<Vec<Label>, Problem> {
    let wrong = |line: usize, words: String| Problem::Fault(format!("{name}:{line}: {words}"));
    let text = String::from_utf8_lossy(bytes);
    let text = text.strip_prefix('\u{FEFF}').unwrap_or(&text);
    let rows = rows(text, column.separator).map_err(|(line, words)| wrong(line, words))?;
    let names = rows.first().map_or(&[][..], |row| &row.values);
    let named = names.iter().position(|value| value.trim() == column.title);
    let number = column.title.parse().ok().filter(|&number: &usize| number > 0);
    let (index, first) = match (named, number) {
        (Some(index), _) => (index, 1),
        (None, Some(number)) => (number - 1, 0),
        (None, None) => {
            let names: Vec<&str> = names.iter().map(|value| value.trim()).collect();
            let words = format!("no column '{}'; there is {}", column.title, names.join(", "));
            return Err(wrong(1, words));
        }
    };
    let mut labels = Vec::new();
    for Row { line, mut values } in rows.into_iter().skip(first) {
        if index >= values.len() {
            let words = format!("this row has no column {}: it has {}", index + 1, values.len());
            return Err(wrong(line, words));
        }
        labels.extend(placed(name, line, values.swap_remove(index)));
    }
    Ok(labels)
}

/// The values of a row, and the line in which it begins.
#[derive(Debug, PartialEq, Eq)]
struct Row {
    line: usize,
    values: Vec<String>,
}

/// The rows of a file. A value in quotation marks may have separators, line ends and, each twice,
/// quotation marks. Empty lines are passed over.
fn rows(text: &str, separator: char) -> Result<Vec<Row>, (usize, String)> {
    let mut signs = text.chars().peekable();
    let (mut rows, mut line) = (Vec::new(), 1);
    while signs.peek().is_some() {
        let mut row = Row { line, values: Vec::new() };
        loop {
            let quoted = signs.next_if_eq(&'"').is_some();
            let value = if quoted {
                let value = quoted_value(&mut signs).ok_or((line, UNCLOSED.to_string()))?;
                line += value.matches('\n').count();
                value
            } else {
                let plain = |sign: &char| *sign != separator && *sign != '\n';
                std::iter::from_fn(|| signs.next_if(plain)).collect()
            };
            row.values.push(value);
            if quoted {
                signs.next_if_eq(&'\r');
            }
            match signs.next() {
                Some(sign) if sign == separator => (),
                Some('\n') | None => break,
                Some(sign) => {
                    return Err((line, format!("{sign:?} behind a value in quotation marks")))
                }
            }
        }
        line += 1;
        if let Some(last) = row.values.last_mut() {
            last.truncate(last.trim_end_matches('\r').len());
        }
        if row.values != [""] {
            rows.push(row);
        }
    }
    Ok(rows)
}

const UNCLOSED: &str = "a value in quotation marks that does not end";

/// What stands in quotation marks, of which the first one is taken.
fn quoted_value(signs: &mut std::iter::Peekable<std::str::Chars>) -> Option<String> {
    let mut value = String::new();
    loop {
        match signs.next()? {
            '"' if signs.next_if_eq(&'"').is_none() => return Some(value),
            sign => value.push(sign),
        }
    }
}

#[cfg(test)]
mod tests {
    use super::*;

    fn column(title: &str, separator: char) -> Column {
        Column { title: title.to_string(), separator }
    }

    fn labels(bytes: &str, title: &str) -> Result<Vec<(String, usize)>, String> {
        match from_values("f", bytes.as_bytes(), &column(title, ',')) {
            Ok(labels) => {
                let label = |label: Label| (label.text, label.place.map_or(0, |(_, line)| line));
                Ok(labels.into_iter().map(label).collect())
            }
            Err(Problem::Fault(words)) => Err(words),
            Err(other) => panic!("{other:?}"),
        }
    }

    fn placed(labels: &[(&str, usize)]) -> Vec<(String, usize)> {
        labels.iter().map(|&(text, line)| (text.to_string(), line)).collect()
    }

    #[test]
    fn lines() {
        let labels = from_lines("-", b"LT4 \r\n\n  \nA B\n\xFFx");
        let texts: Vec<(&str, usize)> =
            labels.iter().map(|label| (&*label.text, label.place.as_ref().unwrap().1)).collect();
        assert_eq!(texts, [("LT4 ", 1), ("A B", 4), ("\u{FFFD}x", 5)]);
    }

    #[test]
    fn a_column_by_its_name_or_its_number() {
        let text = "part,label\r\nlatch,LT4\r\n\r\n\"a, b\",\"KP \"\"1\"\"\"\nc,\nd,A\n";
        let wanted = placed(&[("LT4", 2), ("KP \"1\"", 4), ("A", 6)]);
        assert_eq!(labels(text, "label"), Ok(wanted.clone()));
        let all = [placed(&[("label", 1)]), wanted].concat();
        assert_eq!(labels(text, "2"), Ok(all));
        assert_eq!(labels("\u{FEFF}2,1\nA,B\n", "1"), Ok(placed(&[("B", 2)])));
        assert_eq!(labels("", "1"), Ok(Vec::new()));
    }

    #[test]
    fn line_ends_in_a_value_and_other_separators() {
        assert_eq!(labels("x\n\"A\nB\"\nC\n", "x"), Ok(placed(&[("A\nB", 2), ("C", 4)])));
        let labels = from_values("f", b"a;b\nA,B;C\n", &column("b", ';')).unwrap();
        assert_eq!(labels[0].text, "C");
    }

    #[test]
    fn what_is_wrong() {
        for (text, words) in [
            ("", "f:1: no column 'label'; there is "),
            ("part,Label\n", "f:1: no column 'label'; there is part, Label"),
            ("part,label\na,b\nc\n", "f:3: this row has no column 2: it has 1"),
            ("label\n\"A\n", "f:2: a value in quotation marks that does not end"),
            ("label\n\"A\" B\n", "f:2: ' ' behind a value in quotation marks"),
        ] {
            assert_eq!(labels(text, "label"), Err(words.to_string()), "{text}");
        }
    }
}
