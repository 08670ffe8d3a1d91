//! What would help where nothing is decided: a length, a narrower class or a separator with which the
//! library decides. Each is tried, first alone, then in both rules together; what doesn't help is not
//! told.

use crate::advice::SOME_LENGTH;
use crate::ask::{Room, Shared};
use crate::change::{separated, with_pattern, Change, Kind, Pair};
use crate::json::Object;
use crate::narrow::{pattern_of, within};
use crate::notation::characters::Set;
use crate::notation::{told_text, Kind as Takes, Pattern, Rule, Stands};
use crate::repair::{label_objects, MOST_LABELS};
use crate::sides::Side;

/// The room for each question.
const ROOM: Room = Room::Fixed(5_696);

/// So many separators are tried in each rule.
const MOST_SEPARATORS: usize = 12;

/// The lengths and the classes that are tried.
const LENGTHS: [u32; 3] = [SOME_LENGTH, SOME_LENGTH / 2, 1];
const CLASSES: [(char, char); 2] = [('0', '9'), ('A', 'Z')];

/// Changes with which it is decided.
#[derive(Debug, Default)]
pub struct Helps {
    /// Labels that both rules make as they are: what narrower fields hold, the fields may hold too.
    pub labels: Vec<Shared>,
    /// Whether all of them are to be made, and not one alone.
    pub together: bool,
    pub changes: Vec<Change>,
}

/// What would help with two of these rules: changes each of which will do, one of each kind in each
/// rule; where there is none, changes of both rules that will do together.
pub fn helps(rules: &[Rule], sides: [&Side; 2]) -> Helps {
    let Some(mut pair) = Pair::new(rules, sides) else {
        return Helps::default();
    };
    let mut changes = Vec::new();
    for side in [0, 1] {
        let rule = pair.rules[side];
        let lengths = fields(rule).flat_map(|place| {
            LENGTHS.into_iter().filter_map(move |length| with_a_length(rule, place, length))
        });
        changes.extend(pair.first(side, lengths));
        let classes = fields(rule).flat_map(|place| {
            CLASSES.into_iter().filter_map(move |class| with_a_class(rule, place, class))
        });
        changes.extend(pair.first(side, classes));
        let separators = separated(rule).take(MOST_SEPARATORS);
        let separators = separators.map(|(value, rule)| (Kind::Separator(value), rule));
        changes.extend(pair.first(side, separators));
    }
    let together = changes.is_empty();
    if together {
        changes = pair.together();
    }
    let labels = pair.labels_of(&changes);
    if !labels.is_empty() {
        // that they clash is known, so only what parts them helps
        changes.retain(|change| !change.clashes);
    }
    Helps { labels, together, changes }
}

impl Pair<'_> {
    /// The first of these changes with which it is decided.
    fn first(
        &mut self,
        side: usize,
        mut changes: impl Iterator<Item = (Kind, Rule)>,
    ) -> Option<Change> {
        changes.find_map(|(kind, rule)| {
            let asked = self.ask(side, &rule, ROOM)?;
            let clashes = asked.answer.clashes()?;
            Some(Change { side, kind, rule, clashes, shared: asked.shared })
        })
    }

    /// The labels that were found with narrower fields, different ones, if both rules read them.
    fn labels_of(&self, changes: &[Change]) -> Vec<Shared> {
        let mut labels: Vec<Shared> = Vec::new();
        for change in changes.iter().filter(|change| !matches!(change.kind, Kind::Separator(_))) {
            let Some(shared) = &change.shared else {
                continue;
            };
            let new = labels.iter().all(|known| known.label != shared.label);
            if new && labels.len() < MOST_LABELS && self.both_read(&shared.label) {
                labels.push(shared.clone());
            }
        }
        labels
    }

    /// Changes of the fields of both rules with which it is decided.
    fn together(&mut self) -> Vec<Change> {
        for (class, length) in ways() {
            let both = self.rules.map(|rule| changed(rule, class, length));
            let rules = [&both[0], &both[1]].map(|(rule, _)| rule.clone());
            let Some(asked) = self.ask_both(&rules, ROOM) else {
                continue;
            };
            let (Some(clashes), shared) = (asked.answer.clashes(), asked.shared) else {
                continue;
            };
            let of_side = |(side, (rule, kinds)): (usize, (Rule, Vec<Kind>))| {
                let shared = shared.clone();
                let change = move |kind| {
                    let (rule, shared) = (rule.clone(), shared.clone());
                    Change { side, kind, rule, clashes, shared }
                };
                kinds.into_iter().map(change)
            };
            return both.into_iter().enumerate().flat_map(of_side).collect();
        }
        Vec::new()
    }
}

/// The fields of a rule, those that stand most often first.
fn fields(rule: &Rule) -> impl Iterator<Item = usize> {
    let stands = |place: usize| {
        rule.template.iter().filter(|token| token.stands == Stands::Field(place)).count()
    };
    let mut places: Vec<usize> = (0..rule.fields.len()).collect();
    places.sort_by_key(|&place| usize::MAX - stands(place));
    places.into_iter()
}

/// The rule with a length for a field that holds characters of one class, any number of them.
fn with_a_length(rule: &Rule, place: usize, length: u32) -> Option<(Kind, Rule)> {
    let Pattern { kind, span } = pattern_of(rule.edition, &rule.fields[place]);
    let Takes::Repeat { part, least, most: None } = kind else {
        return None;
    };
    let Takes::One(_) = part.kind else {
        return None;
    };
    let times = length.max(least);
    let kind = Takes::Repeat { part, least: times, most: Some(times) };
    Some((Kind::Length(place), with_pattern(rule, place, Pattern { kind, span })))
}

/// The rule with a narrower class for a field: its characters of this range alone.
fn with_a_class(rule: &Rule, place: usize, (low, high): (char, char)) -> Option<(Kind, Rule)> {
    let pattern = pattern_of(rule.edition, &rule.fields[place]);
    let narrower = within(&pattern, Set::signs(rule.edition, low, high))?;
    let another = narrower != pattern;
    another.then(|| (Kind::Class(place), with_pattern(rule, place, narrower)))
}

/// How all fields of both rules are changed: a class, a length, or both.
fn ways() -> impl Iterator<Item = (Option<(char, char)>, Option<u32>)> {
    let lengths = LENGTHS.into_iter().map(|length| (None, Some(length)));
    let classes = CLASSES.into_iter().map(|class| (Some(class), None));
    let both = LENGTHS.into_iter().map(|length| (Some(CLASSES[0]), Some(length)));
    lengths.chain(classes).chain(both)
}

/// A rule with such a change of each of its fields that can be changed so, and the changes.
fn changed(rule: &Rule, class: Option<(char, char)>, length: Option<u32>) -> (Rule, Vec<Kind>) {
    let (mut changed, mut kinds) = (rule.clone(), Vec::new());
    for place in 0..rule.fields.len() {
        let narrower = class.and_then(|class| with_a_class(&changed, place, class));
        let narrower = narrower.into_iter().map(|(kind, rule)| {
            changed = rule;
            kind
        });
        let mut kind: Option<Kind> = narrower.last();
        if let Some((length, rule)) =
            length.and_then(|length| with_a_length(&changed, place, length))
        {
            (changed, kind) = (rule, Some(length));
        }
        kinds.extend(kind);
    }
    (changed, kinds)
}

/// What would help, in words.
pub fn helps_words(sides: [&Side; 2], found: &Helps) -> String {
    let Helps { labels, together, changes } = found;
    let told: Vec<String> =
        labels.iter().map(|shared| told_text(sides[0].edition, &shared.label)).collect();
    let mut words = match told.is_empty() {
        true => String::new(),
        false => format!("They clash as they are, on {}, which both read.\n", told.join(" and ")),
    };
    let answer = |change: &Change| if change.clashes { "they clash" } else { "no clash" };
    let Some(first) = changes.first() else {
        let none = "No length, class or separator was found with which it is decided.\n";
        return words + if labels.is_empty() { none } else { "" };
    };
    let line = |change: &Change| match together {
        true => format!("  {}\n", change.words(sides)),
        false => format!("  {}: {}\n", change.words(sides), answer(change)),
    };
    let how = match together {
        true => format!("all of these together it is decided, {}", answer(first)),
        false => "each of these alone it is decided".to_string(),
    };
    let lines: String = changes.iter().map(line).collect();
    let what = if labels.is_empty() { "help" } else { "part them" };
    words += &format!("What would {what}; with {how}:\n{lines}");
    words
}

/// The same behind what an object has already.
pub fn helps_in(object: Object, sides: [&Side; 2], found: &Helps) -> Object {
    let Helps { labels, together, changes } = found;
    let object_of = |change: &Change| match together {
        true => change.object(sides).truth("together", true),
        false => change.object(sides),
    };
    let object = object.list("labels", label_objects(sides, labels));
    object.list("repairs", changes.iter().map(object_of).collect())
}
