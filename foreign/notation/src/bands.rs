//! Which part of a label is read by which part of a rule.

use crate::json::Object;
use crate::sides::{Side, Text};

/// A part of a label that a rule reads at once: a field's text, or fixed characters.
#[derive(Clone, Debug, PartialEq, Eq)]
pub struct Band {
    /// The first character of the label that it has, and the first one behind it.
    pub from: usize,
    pub to: usize,
    pub reads: Reads,
}

/// What reads it.
#[derive(Clone, Debug, PartialEq, Eq)]
pub enum Reads {
    /// Characters of the template, as text.
    Fixed(String),
    /// The field of this name.
    Field(String),
}

/// The bands of the label that a rule makes of these texts, from left to right, without a gap. A field
/// that holds the empty text has a band of no character. The spaces at the end, which are dropped
/// from the label, are in the bands: they end behind it.
pub fn bands(side: &Side, texts: &[Text]) -> Vec<Band> {
    let mut bands: Vec<Band> = Vec::new();
    for &token in &side.tokens {
        let from = bands.last().map_or(0, |band| band.to);
        let field = match token.checked_sub(side.edition.codes()) {
            Some(field) => field,
            None => {
                fixed(&mut bands, from, &side.edition.text(&[token]));
                continue;
            }
        };
        let held = texts.iter().find(|text| text.field == field);
        let to = from + held.map_or(0, |text| text.values.len());
        let name = side.fields.iter().find(|(of, _)| *of == field);
        let name = name.map_or(String::new(), |(_, name)| name.clone());
        bands.push(Band { from, to, reads: Reads::Field(name) });
    }
    bands
}

/// A character of the template: fixed ones that stand together are one band.
fn fixed(bands: &mut Vec<Band>, from: usize, sign: &str) {
    match bands.last_mut() {
        Some(Band { to, reads: Reads::Fixed(text), .. }) => {
            *to += 1;
            *text += sign;
        }
        _ => bands.push(Band { from, to: from + 1, reads: Reads::Fixed(sign.to_string()) }),
    }
}

/// The bands as objects.
pub fn band_objects(bands: &[Band]) -> Vec<Object> {
    let object = |band: &Band| {
        let object = Object::new().number("from", band.from).number("to", band.to);
        match &band.reads {
            Reads::Fixed(text) => object.text("fixed", text),
            Reads::Field(name) => object.text("field", name),
        }
    };
    bands.iter().map(object).collect()
}

#[cfg(test)]
mod tests {
    use super::*;
    use crate::ask::{Buffers, Room};
    use crate::compile::judged;
    use crate::source::Source;

    /// The two rules of a text, their label, and the bands of both in short: "LT|size=00".
    fn read(text: &str) -> (String, [String; 2]) {
        let rules = judged(&Source::new("f", text.as_bytes())).unwrap();
        let asked = Buffers::new().ask(&rules[0], &rules[1], Room::Growing);
        let shared = asked.shared.unwrap();
        let edition = rules[0].edition;
        let short = |side: &Side, texts: &[Text]| {
            let label = [shared.label.clone(), vec![edition.space(); 9]].concat();
            let bands = bands(side, texts);
            assert!(bands.windows(2).all(|two| two[0].to == two[1].from), "{bands:?}");
            assert!(bands.last().map_or(0, |band| band.to) >= shared.label.len(), "{bands:?}");
            let band = |band: &Band| {
                let read = edition.text(&label[band.from..band.to]);
                match &band.reads {
                    Reads::Field(name) => format!("{name}={read}"),
                    Reads::Fixed(text) => {
                        assert_eq!(*text, read);
                        read
                    }
                }
            };
            bands.iter().map(band).collect::<Vec<_>>().join("|")
        };
        let both = [short(&rules[0], &shared.left), short(&rules[1], &shared.right)];
        (edition.text(&shared.label), both)
    }

    #[test]
    fn fields_and_fixed_characters() {
        let text = "a = LT{size}{finish}\n size = [0-9]{2}\n finish = BR|CH|SS\n\
                    b = LT{set}C{turn}\n set = [0-9]+\n turn = H|K|T\n";
        let (label, bands) = read(text);
        assert_eq!(label, "LT00CH");
        assert_eq!(bands, ["LT|size=00|finish=CH", "LT|set=00|C|turn=H"]);
    }

    #[test]
    fn an_empty_text_and_a_field_twice() {
        let text = "a = {x}A{n}-{n}\n x = B*\n n = [0-9]\nb = A7-7\n";
        let (_, bands) = read(text);
        assert_eq!(bands, ["x=|A|n=7|-|n=7", "A7-7"]);
        let (label, bands) = read("a = ()\nb = {x}\n x = A*\n");
        assert_eq!((label.as_str(), bands), ("", ["".to_string(), "x=".to_string()]));
    }

    /// What is dropped from the label stands in the bands all the same.
    #[test]
    fn spaces_at_the_end() {
        let (label, bands) = read("a = LT{x}\nb = L{y}\n y = T\n");
        assert_eq!(label, "LT");
        assert_eq!(bands, ["LT|x= ", "L|y=T"]);
        let (_, bands) = read("full ascii\na = ab\\s\nb = a{y}\n");
        assert_eq!(bands, ["ab ", "a|y=b"]);
    }

    #[test]
    fn as_objects() {
        let fixed = Band { from: 0, to: 2, reads: Reads::Fixed("L\"".to_string()) };
        let field = Band { from: 2, to: 4, reads: Reads::Field("size".to_string()) };
        let object = Object::new().list("bands", band_objects(&[fixed, field]));
        let wanted =
            r#"{"bands":[{"from":0,"to":2,"fixed":"L\""},{"from":2,"to":4,"field":"size"}]}"#;
        assert_eq!(object.done(), wanted);
    }
}
