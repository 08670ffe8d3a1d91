//! Which parts of two rules lie on each other in a label that both make.

use bradovusc::Edition;

use crate::ask::Shared;
use crate::bands::{bands, Band, Reads};
use crate::json::Object;
use crate::notation::{character_text, told_text, Place};
use crate::sides::Side;

/// A part of a label that belongs to one part of each rule.
#[derive(Clone, Debug, PartialEq, Eq)]
pub struct Piece {
    /// Its characters by value.
    pub values: Vec<u8>,
    /// What the left rule and the right one read it with. A rule whose label is at its end has
    /// nothing: the spaces of the other one are dropped.
    pub reads: [Option<Reads>; 2],
}

impl Piece {
    /// The field of the left rule, 0, or the right one, 1, that reads it.
    pub fn field(&self, side: usize) -> Option<&str> {
        match &self.reads[side] {
            Some(Reads::Field(name)) => Some(name),
            Some(Reads::Fixed(_)) | None => None,
        }
    }
}

/// How nothing is shown: spaces that are dropped.
const DROPPED: &str = "\\s*";

/// The label cut wherever a part of one of the rules ends.
pub fn pieces(left: &Side, right: &Side, shared: &Shared) -> Vec<Piece> {
    let sides = [bands(left, &shared.left), bands(right, &shared.right)];
    let mut cuts: Vec<usize> =
        sides.iter().flatten().flat_map(|band| [band.from, band.to]).collect();
    cuts.sort_unstable();
    cuts.dedup();
    // what is dropped from the label stands in the bands
    let mut label = shared.label.clone();
    label.resize(cuts.last().map_or(0, |&last| last.max(label.len())), left.edition.space());
    let piece = |two: &[usize]| {
        let (from, to) = (two[0], two[1]);
        let there = |band: &&Band| band.from <= from && to <= band.to;
        let reads = [&sides[0], &sides[1]]
            .map(|bands| bands.iter().find(there).map(|band| band.reads.clone()));
        Piece { values: label[from..to].to_vec(), reads }
    };
    cuts.windows(2).map(piece).collect()
}

fn part_words(side: &Side, piece: &Piece, place: usize) -> String {
    let fixed = |&value: &u8| character_text(side.edition, value, Place::Template);
    match &piece.reads[place] {
        Some(Reads::Field(name)) => format!("{{{name}}}"),
        Some(Reads::Fixed(_)) => piece.values.iter().map(fixed).collect(),
        None => DROPPED.to_string(),
    }
}

/// The pieces in columns: what the label has, and the parts of the two rules.
pub fn overlap_words(left: &Side, right: &Side, pieces: &[Piece]) -> String {
    let mut table = vec![["label".to_string(), left.title.to_string(), right.title.to_string()]];
    for piece in pieces {
        let text = told_text(left.edition, &piece.values);
        table.push([text, part_words(left, piece, 0), part_words(right, piece, 1)]);
    }
    let width = |column: usize| {
        table.iter().map(|row| row[column].chars().count()).max().unwrap_or_default()
    };
    let (first, second) = (width(0), width(1));
    let row =
        |[text, one, other]: &[String; 3]| format!("  {text:first$}  {one:second$}  {other}\n");
    let rows: String = table.iter().map(row).collect();
    let note = match pieces.iter().any(|piece| piece.reads.contains(&None)) {
        true => {
            format!("  {DROPPED} stands for spaces at the end of a label, which are dropped.\n")
        }
        false => String::new(),
    };
    format!("Which parts overlap:\n{rows}{note}")
}

/// The pieces as objects. A part that is no field has no key.
pub fn overlap_objects(edition: Edition, pieces: &[Piece]) -> Vec<Object> {
    let object = |piece: &Piece| {
        let object = Object::new().text("text", &edition.text(&piece.values));
        ["left_field", "right_field"].into_iter().zip(&piece.reads).fold(object, |object, of| {
            match of {
                (key, Some(Reads::Field(name))) => object.text(key, name),
                (key, None) => object.text(key, DROPPED),
                (_, Some(Reads::Fixed(_))) => object,
            }
        })
    };
    pieces.iter().map(object).collect()
}

#[cfg(test)]
mod tests {
    use super::*;
    use crate::ask::{Buffers, Room};
    use crate::compile::judged;
    use crate::source::Source;

    fn shown(text: &str) -> String {
        let sides = judged(&Source::new("f", text.as_bytes())).unwrap();
        let shared = Buffers::new().ask(&sides[0], &sides[1], Room::Growing).shared.unwrap();
        overlap_words(&sides[0], &sides[1], &pieces(&sides[0], &sides[1], &shared))
    }

    #[test]
    fn a_label_in_pieces() {
        let words = shown("a = LT{x}{y}\n x = 4\n y = CH\nb = LT{n}C{m}\n n = 4\n m = H\n");
        let wanted = "Which parts overlap:
  label  a    b
  \"LT\"   LT   LT
  \"4\"    {x}  {n}
  \"C\"    {y}  C
  \"H\"    {y}  {m}
";
        assert_eq!(words, wanted);
    }

    #[test]
    fn two_standings_side_by_side_are_two_parts() {
        let words = shown("a = {x}{x}\n x = A\nb = {n}\n n = AA\n");
        assert_eq!(words.lines().filter(|line| line.ends_with("{x}  {n}")).count(), 2, "{words}");
    }

    #[test]
    fn spaces_that_are_dropped() {
        let words = shown("a = L{x}\n x = \\s\nb = L\n");
        assert!(words.contains("  \" \"    {x}  \\s*\n"), "{words}");
        assert!(words.ends_with("which are dropped.\n"), "{words}");
    }
}
