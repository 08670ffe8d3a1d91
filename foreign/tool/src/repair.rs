//! What can be done about a clash: further labels of both rules, which parts overlap, and a class or a
//! separator that would part the two.
//!
//! Nothing here is worked out without the library. A further label is one that the library finds for
//! narrower rules, and it counts only if both rules read it. A change counts only if the library, asked
//! about the changed pair, says that no label can be made by both.

use bradovusc::Edition;

use crate::ask::{Room, Shared};
use crate::change::{separated, with_pattern, Change, Kind, Pair};
use crate::json::Object;
use crate::narrow::{characters, narrowed, pattern_of, without, without_in_front};
use crate::notation::characters::Set;
use crate::notation::{told_text, Field, Rule};
use crate::overlap::{overlap_objects, overlap_words, pieces, Piece};
use crate::report::fields_object;
use crate::sides::Side;

/// So many labels are told, the first one among them.
pub const MOST_LABELS: usize = 3;

/// So many narrower rules are tried to find them.
const MOST_TRIES: usize = 200;

/// The room for each question.
const ROOM: Room = Room::Fixed(1_424);

/// What is found about a clash.
pub struct Repair {
    /// Different labels that both rules make, the one that is known first.
    pub labels: Vec<Shared>,
    /// Which parts overlap in the first label.
    pub pieces: Vec<Piece>,
    pub changes: Vec<Change>,
}

/// What can be done about a clash of two of these rules, of which a label is known.
pub fn repair(rules: &[Rule], sides: [&Side; 2], known: &Shared) -> Option<Repair> {
    let mut pair = Pair::new(rules, sides)?;
    let pieces = pieces(sides[0], sides[1], known);
    let labels = pair.labels(known);
    let mut changes = Vec::new();
    for side in [0, 1] {
        changes.extend(pair.class(side, &pieces));
        changes.extend(pair.separator(side));
    }
    Some(Repair { labels, pieces, changes })
}

impl Pair<'_> {
    /// Whether the library says that the two don't clash where one of them is changed.
    fn parts(&mut self, side: usize, rule: &Rule) -> bool {
        self.ask(side, rule, ROOM).and_then(|asked| asked.answer.clashes()) == Some(false)
    }

    /// Different labels, by narrowing what one field may hold, and again from what was found.
    fn labels(&mut self, known: &Shared) -> Vec<Shared> {
        let (mut labels, mut tries) = (vec![known.clone()], 0);
        let mut found = vec![self.rules.map(Rule::clone)];
        for place in 0.. {
            let (Some(rules), Some(shared)) =
                (found.get(place).cloned(), labels.get(place).cloned())
            else {
                break;
            };
            for (side, rule) in narrower(&rules, &shared) {
                if labels.len() == MOST_LABELS || tries == MOST_TRIES {
                    return labels;
                }
                tries += 1;
                let mut narrowed = rules.clone();
                narrowed[side] = rule;
                let Some(shared) = self.ask_both(&narrowed, ROOM).and_then(|asked| asked.shared)
                else {
                    continue;
                };
                let new = labels.iter().all(|known| known.label != shared.label);
                if new && self.both_read(&shared.label) {
                    labels.push(shared);
                    found.push(narrowed);
                }
            }
        }
        labels
    }

    /// A narrower class of a field that parts the two: the one that keeps the most characters.
    fn class(&mut self, side: usize, pieces: &[Piece]) -> Option<Change> {
        let rule = self.rules[side];
        let mut candidates: Vec<(usize, usize, Rule)> = Vec::new();
        for (place, field) in rule.fields.iter().enumerate() {
            let pattern = pattern_of(rule.edition, field);
            for gone in self.in_the_way(side, place, pieces) {
                let whole = without(&pattern, gone);
                let front = without_in_front(&pattern, gone);
                for narrower in whole.into_iter().chain(front) {
                    let lost = gone.and(characters(rule.edition, &pattern)).values().count();
                    candidates.push((lost, place, with_pattern(rule, place, narrower)));
                }
            }
        }
        candidates.sort_by_key(|(lost, ..)| *lost);
        let parts = candidates.into_iter().find(|(_, _, rule)| self.parts(side, rule));
        parts.map(|(_, place, rule)| parting(side, Kind::Class(place), rule))
    }

    /// A character more in the template that parts the two.
    fn separator(&mut self, side: usize) -> Option<Change> {
        let mut candidates = separated(self.rules[side]);
        let (value, rule) = candidates.find(|(_, rule)| self.parts(side, rule))?;
        Some(parting(side, Kind::Separator(value), rule))
    }

    /// Characters that a field might do without: those that the other rule has where they overlap, and
    /// the digits, the letters and the signs as a whole.
    fn in_the_way(&self, side: usize, place: usize, pieces: &[Piece]) -> Vec<Set> {
        let (edition, other) = (self.rules[side].edition, 1 - side);
        let mut sets = Vec::new();
        let name = &self.rules[side].fields[place].name;
        for piece in pieces.iter().filter(|piece| piece.field(side) == Some(name)) {
            let field = piece.field(other).and_then(|name| field_of(self.rules[other], name));
            let there = match field {
                Some(field) => characters(edition, &pattern_of(edition, field)),
                None => set_of(edition, &piece.values),
            };
            sets.extend([there, set_of(edition, &piece.values)]);
        }
        sets.push(sets.iter().copied().fold(Set::none(edition), Set::or));
        let range = |low, high| Set::signs(edition, low, high);
        let (digits, letters) = (range('0', '9'), range('A', 'Z').or(range('a', 'z')));
        sets.extend([digits, letters, digits.or(letters).rest()]);
        let mut known = Vec::new();
        sets.retain(|set| {
            let new = !set.is_empty() && !known.contains(set);
            known.push(*set);
            new
        });
        sets
    }
}

fn parting(side: usize, kind: Kind, rule: Rule) -> Change {
    Change { side, kind, rule, clashes: false, shared: None }
}

/// The left rule, 0, or the right one, 1, with one of its fields narrowed, in several ways.
fn narrower<'a>(
    rules: &'a [Rule; 2],
    held: &'a Shared,
) -> impl Iterator<Item = (usize, Rule)> + 'a {
    let sides = rules.iter().zip([&held.left, &held.right]).enumerate();
    sides.flat_map(|(side, (rule, texts))| {
        rule.fields.iter().enumerate().flat_map(move |(place, field)| {
            let text = texts.iter().find(|text| usize::from(text.field) == place);
            let held = text.map_or(&[][..], |text| &text.values);
            let patterns = narrowed(&pattern_of(rule.edition, field), held);
            patterns.into_iter().map(move |pattern| (side, with_pattern(rule, place, pattern)))
        })
    })
}

fn field_of<'a>(rule: &'a Rule, name: &str) -> Option<&'a Field> {
    rule.fields.iter().find(|field| field.name == name)
}

fn set_of(edition: Edition, values: &[u8]) -> Set {
    values.iter().fold(Set::none(edition), |set, &value| set.or(Set::one(edition, value)))
}

/// What is found, in words.
pub fn repair_words(sides: [&Side; 2], found: &Repair) -> String {
    let edition = sides[0].edition;
    let mut words = String::new();
    if let [_, further @ ..] = &found.labels[..] {
        let told: Vec<String> =
            further.iter().map(|shared| told_text(edition, &shared.label)).collect();
        words += &match told.is_empty() {
            true => "No further label was found.\n".to_string(),
            false => format!("They also clash on {}.\n", told.join(" and ")),
        };
    }
    words += &overlap_words(sides[0], sides[1], &found.pieces);
    if found.changes.is_empty() {
        return words + "No class and no separator was found that would part them.\n";
    }
    words += "What would part them; with each of these alone the library says: no clash.\n";
    for change in &found.changes {
        words += &format!("  {}\n", change.words(sides));
    }
    words
}

/// What is found, behind what an object has already.
pub fn repair_in(object: Object, sides: [&Side; 2], found: &Repair) -> Object {
    let edition = sides[0].edition;
    object
        .list("labels", label_objects(sides, &found.labels))
        .list("overlaps", overlap_objects(edition, &found.pieces))
        .list("repairs", found.changes.iter().map(|change| change.object(sides)).collect())
}

/// Labels that both rules make, as objects.
pub fn label_objects(sides: [&Side; 2], labels: &[Shared]) -> Vec<Object> {
    let label = |shared: &Shared| {
        Object::new()
            .text("label", &sides[0].edition.text(&shared.label))
            .object("left_fields", fields_object(sides[0], &shared.left))
            .object("right_fields", fields_object(sides[1], &shared.right))
    };
    labels.iter().map(label).collect()
}
