//! The way to a clash, followed as a person would: it ends at the label that the library told, with
//! nothing left to be read, and its fields have read their texts.

mod common;

use std::fs;

use bradovusc::Step;
use bradovusc_tool::ask::{Buffers, Room, Shared};
use bradovusc_tool::run::judged;
use bradovusc_tool::sides::{without_spaces, Side, RIGHT};
use bradovusc_tool::source::Source;
use bradovusc_tool::way::{follow, way_objects, way_words, Done, Row};

use common::{files, golden};

/// What a field has read on the way.
fn read(rows: &[Row], field: u8) -> Vec<u8> {
    let read = rows.iter().filter_map(|row| match row.done {
        Done::Read { character, fields } if fields.contains(&Some(field)) => Some(character),
        _ => None,
    });
    read.collect()
}

fn look(left: &Side, right: &Side, shared: &Shared, steps: &[Step]) {
    let rows = follow(left, right, steps).unwrap();
    assert_eq!(rows.len(), steps.len() + 1);
    let last = rows.last().unwrap();
    assert!(last.sides.iter().all(Vec::is_empty));
    let (mut label, codes) = (last.label.clone(), left.edition.codes());
    without_spaces(left.edition, &mut label);
    assert_eq!(label, shared.label);
    for (first, texts) in [(codes, &shared.left), (codes + RIGHT, &shared.right)] {
        for text in texts {
            assert_eq!(read(&rows, first + text.field), text.values);
        }
    }
    // the label only grows
    assert!(rows.windows(2).all(|two| two[1].label.starts_with(&two[0].label)));
    assert_eq!(way_words(left, right, &rows).lines().count(), rows.len() + 3);
    assert_eq!(way_objects(left, right, &rows).len(), rows.len());
}

#[test]
fn ways_of_all_files() {
    let example = golden("../../examples/storeroom.rules");
    let (mut by_first, mut by_another) = (0, 0);
    for path in files(&golden("files"), "rules").into_iter().chain([example]) {
        let source = Source::new(path.display().to_string(), &fs::read(&path).unwrap());
        // a file with a mistake is among them
        let Ok(rules) = judged(source) else { continue };
        for (number, left) in rules.iter().enumerate() {
            for right in &rules[number..] {
                let asked = Buffers::new().ask(left, right, Room::Fixed(1_000));
                let Some(shared) = &asked.shared else { continue };
                look(left, right, shared, &Buffers::new().way(left, right, &asked).unwrap());
                *if asked.search == 1 { &mut by_first } else { &mut by_another } += 1;
            }
        }
    }
    assert!(by_first > 20 && by_another > 0, "{by_first} {by_another}");
}
