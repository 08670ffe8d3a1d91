//! The way to a clash as a person follows it: both sides with what is still to be read, the label
//! read so far, and each step in words.

use bradovusc::{Edition, Step, WayFound, MOST_STEPS};

use crate::ask::{Asked, Buffers};
use crate::json::Object;
use crate::print::{character_text, told_text, Place};
use crate::report::{grouped, LONGEST_SIDE};
use crate::sides::{Side, RIGHT};

/// The hidden fields of a sheet: the spaces at the end of the left side and of the right one.
fn hidden(edition: Edition) -> [u8; 2] {
    let first = edition.codes() + 2 * RIGHT;
    [first, first + 1]
}

/// How a hidden field is shown. No field has this name.
const SPACES: &str = "\\s*";

/// What was done, and the situation that came of it.
#[derive(Clone, Debug, PartialEq, Eq)]
pub struct Row {
    pub done: Done,
    /// The characters that both sides have read, by value.
    pub label: Vec<u8>,
    /// The tokens that are still to be read, left and right, those of the sheet.
    pub sides: [Vec<u8>; 2],
}

/// What is done at once.
#[derive(Clone, Debug, PartialEq, Eq)]
pub enum Done {
    /// The question is trimmed.
    Start,
    /// A front of the left side, 0, or of the right one, 1, is struck.
    Struck { side: usize, field: u8 },
    /// Both sides read a character; a front that is a field takes it.
    Read { character: u8, fields: [Option<u8>; 2] },
}

/// The rows of a way, or why the library has none.
pub type Way = Result<Vec<Row>, WayFound>;

/// The way to a clash that was found.
pub fn way(left: &Side, right: &Side, asked: &Asked) -> Way {
    let steps = Buffers::new().way(left, right, asked)?;
    follow(left, right, &steps).ok_or(WayFound::NoSolution)
}

/// The rows of a way, the start and then one for each step; none where a step can't be made there,
/// which never is so of a way that the library has written.
pub fn follow(left: &Side, right: &Side, steps: &[Step]) -> Option<Vec<Row>> {
    let (codes, hidden) = (left.edition.codes(), hidden(left.edition));
    let tokens = |side: &Side, first, hidden| [side.renamed(first), vec![hidden]].concat();
    let sides = [tokens(left, 0, hidden[0]), tokens(right, RIGHT, hidden[1])];
    let mut rows = vec![trimmed(codes, Done::Start, Vec::new(), sides)];
    for &step in steps {
        let Row { label, mut sides, .. } = rows.last()?.clone();
        let fronts = [sides[0].first().copied(), sides[1].first().copied()];
        let done = match step {
            Step::StrikeLeft => struck(codes, &mut sides, 0, fronts[0]?)?,
            Step::StrikeRight => struck(codes, &mut sides, 1, fronts[1]?)?,
            Step::Put(character) => put(codes, &mut sides, character, [fronts[0]?, fronts[1]?])?,
        };
        rows.push(trimmed(codes, done, label, sides));
    }
    Some(rows)
}

/// Equal characters, which are below the codes, in front of both sides go to the label.
fn trimmed(codes: u8, done: Done, mut label: Vec<u8>, mut sides: [Vec<u8>; 2]) -> Row {
    let [left, right] = &sides;
    let equal =
        left.iter().zip(right).take_while(|(one, other)| one == other && **one < codes).count();
    label.extend(&left[..equal]);
    sides.iter_mut().for_each(|side| drop(side.drain(..equal)));
    Row { done, label, sides }
}

fn struck(codes: u8, sides: &mut [Vec<u8>; 2], side: usize, field: u8) -> Option<Done> {
    sides.iter_mut().for_each(|side| side.retain(|&token| token != field));
    (field >= codes).then_some(Done::Struck { side, field })
}

fn put(codes: u8, sides: &mut [Vec<u8>; 2], character: u8, fronts: [u8; 2]) -> Option<Done> {
    let taken = |front: u8| (front >= codes).then_some(front);
    if fronts.iter().any(|&front| front < codes && front != character) {
        return None;
    }
    let before = |token: u8| (token >= codes && fronts.contains(&token)).then_some(character);
    for side in sides {
        *side = side.iter().flat_map(|&token| before(token).into_iter().chain([token])).collect();
    }
    Some(Done::Read { character, fields: fronts.map(taken) })
}

/// The names of the two rules' fields.
struct Names<'a> {
    sides: [&'a Side; 2],
}

impl Names<'_> {
    fn edition(&self) -> Edition {
        self.sides[0].edition
    }

    fn is_hidden(&self, field: u8) -> bool {
        hidden(self.edition()).contains(&field)
    }

    /// The field's name in its rule; none of a hidden field.
    fn own(&self, field: u8) -> Option<&str> {
        let (side, number) = match field.checked_sub(self.edition().codes())? {
            number if number < RIGHT => (self.sides[0], number),
            number => (self.sides[1], number - RIGHT),
        };
        side.fields.iter().find(|(of, _)| *of == number).map(|(_, name)| name.as_str())
    }

    /// As it stands in a side or in an object.
    fn shown(&self, field: u8) -> &str {
        self.own(field).unwrap_or(SPACES)
    }

    /// In words: where both rules have a field of that name, with its side.
    fn words(&self, field: u8) -> String {
        let hidden = hidden(self.edition());
        let place = match field {
            _ if field == hidden[0] => return "the spaces on the left".to_string(),
            _ if field == hidden[1] => return "the spaces on the right".to_string(),
            _ if field < self.edition().codes() + RIGHT => "left",
            _ => "right",
        };
        let name = self.shown(field);
        let has = |side: &&Side| side.fields.iter().any(|(_, own)| own == name);
        match self.sides.iter().filter(|side| has(side)).count() {
            2 => format!("the {place} {name}"),
            _ => name.to_string(),
        }
    }

    /// What is still to be read of a side, as in a template.
    fn side(&self, tokens: &[u8]) -> String {
        let shown = |&token: &u8| match self.own(token) {
            Some(name) => format!("{{{name}}}"),
            None if token < self.edition().codes() => {
                character_text(self.edition(), token, Place::Template)
            }
            None => SPACES.to_string(),
        };
        tokens.iter().map(shown).collect()
    }

    fn done(&self, row: &Row) -> String {
        match &row.done {
            Done::Start if row.label.is_empty() => "the two rules".to_string(),
            Done::Start => format!("both begin with {}", told_text(self.edition(), &row.label)),
            Done::Struck { field, .. } => {
                let are = if self.is_hidden(*field) { "are" } else { "is" };
                format!("{} {are} struck", self.words(*field))
            }
            Done::Read { character, fields } => {
                let character = told_text(self.edition(), &[*character]);
                match fields {
                    [Some(left), Some(right)] => {
                        let (left, right) = (self.words(*left), self.words(*right));
                        format!("{left} and {right} read {character}")
                    }
                    [Some(field), None] | [None, Some(field)] => {
                        let other = if fields[0].is_none() { "left" } else { "right" };
                        let reads = if self.is_hidden(*field) { "read" } else { "reads" };
                        let field = self.words(*field);
                        format!("{field} {reads} {character}, which stands on the {other}")
                    }
                    [None, None] => format!("both read {character}"),
                }
            }
        }
    }
}

/// The rows in words, one a line, in columns: the step's number, the label read so far, what is still
/// to be read of the two sides, and what was done.
pub fn way_words(left: &Side, right: &Side, rows: &[Row]) -> String {
    let names = Names { sides: [left, right] };
    let title = |side: &Side| side.title.to_string();
    let mut table = vec![[
        "step".to_string(),
        "label".to_string(),
        title(left),
        title(right),
        "what was done".to_string(),
    ]];
    for (number, row) in rows.iter().enumerate() {
        let [on_left, on_right] = [&row.sides[0], &row.sides[1]].map(|side| names.side(side));
        let label = told_text(left.edition, &row.label);
        table.push([number.to_string(), label, on_left, on_right, names.done(row)]);
    }
    let width = |column: usize| {
        table.iter().map(|row| row[column].chars().count()).max().unwrap_or_default()
    };
    let widths = [width(0), width(1), width(2), width(3)];
    let mut words = String::from("The way to it, step by step:\n");
    for [number, label, left, right, done] in &table {
        words += &format!(
            "  {number:>0$}  {label:1$}  {left:2$}  {right:3$}  {done}\n",
            widths[0], widths[1], widths[2], widths[3]
        );
    }
    words + &format!("{SPACES} is any number of spaces at the end of a label, which are dropped.\n")
}

/// Why there is no way to show, in words. Texts that solve the question get one of two numbers; any
/// other is told in the library's own words.
pub fn reason(none: &WayFound) -> String {
    match none {
        WayFound::SideTooLong => {
            format!("on the way a side would grow above {LONGEST_SIDE} tokens")
        }
        WayFound::TooManySteps => {
            format!("the way would have more than {} steps", grouped(MOST_STEPS))
        }
        other => other.to_string(),
    }
}

/// The way to a clash in words, or why there is none to show.
pub fn steps_words(left: &Side, right: &Side, way: &Way) -> String {
    match way {
        Ok(rows) => way_words(left, right, rows),
        Err(none) => format!("There is no way to show: {}.\n", reason(none)),
    }
}

/// The same behind what an object has already.
pub fn steps_in(object: Object, left: &Side, right: &Side, way: &Way) -> Object {
    match way {
        Ok(rows) => object.list("steps", way_objects(left, right, rows)),
        Err(none) => object.nothing("steps").text("steps_reason", &reason(none)),
    }
}

/// The rows as objects.
pub fn way_objects(left: &Side, right: &Side, rows: &[Row]) -> Vec<Object> {
    let names = Names { sides: [left, right] };
    let object = |row: &Row| {
        let object = Object::new();
        let keys = ["left_field", "right_field"];
        let object = match &row.done {
            Done::Start => object.text("kind", "start"),
            Done::Struck { side, field } => {
                let kind = ["left struck", "right struck"][*side];
                object.text("kind", kind).text(keys[*side], names.shown(*field))
            }
            Done::Read { character, fields } => {
                let object = object.text("kind", "character");
                let object = object.text("character", &left.edition.text(&[*character]));
                keys.iter().zip(fields).fold(object, |object, (key, field)| match field {
                    Some(field) => object.text(key, names.shown(*field)),
                    None => object,
                })
            }
        };
        let [on_left, on_right] = [&row.sides[0], &row.sides[1]].map(|side| names.side(side));
        object
            .text("label", &left.edition.text(&row.label))
            .text("left", &on_left)
            .text("right", &on_right)
    };
    rows.iter().map(object).collect()
}

#[cfg(test)]
mod tests {
    use super::*;
    use crate::ask::way_of;
    use crate::sides::Title;
    use Step::{Put, StrikeLeft, StrikeRight};

    fn side(name: &str, fields: &[&str], tokens: &[u8]) -> Side {
        let fields = (0..).zip(fields).map(|(field, name)| (field, name.to_string())).collect();
        let (edition, title) = (Edition::Code39, Title::Name(name.to_string()));
        let (place, patterns, tokens) = (None, Vec::new(), tokens.to_vec());
        Side { edition, title, place, patterns, tokens, fields }
    }

    /// `LT{size}{finish}` and `LT{set}C{turn}`
    fn latches() -> [Side; 2] {
        [
            side("mortice", &["size", "finish"], &[21, 29, 64, 65]),
            side("rim", &["set", "turn"], &[21, 29, 64, 12, 65]),
        ]
    }

    const LATCHES: [Step; 10] = [
        Put(0),
        Put(0),
        StrikeLeft,
        StrikeRight,
        Put(12),
        Put(17),
        StrikeLeft,
        StrikeLeft,
        StrikeRight,
        StrikeRight,
    ];

    #[test]
    fn the_latches_in_words() {
        let [left, right] = latches();
        let rows = follow(&left, &right, &LATCHES).unwrap();
        assert_eq!(
            way_words(&left, &right, &rows),
            r#"The way to it, step by step:
  step  label     mortice            rim              what was done
     0  "LT"      {size}{finish}\s*  {set}C{turn}\s*  both begin with "LT"
     1  "LT0"     {size}{finish}\s*  {set}C{turn}\s*  size and set read "0"
     2  "LT00"    {size}{finish}\s*  {set}C{turn}\s*  size and set read "0"
     3  "LT00"    {finish}\s*        {set}C{turn}\s*  size is struck
     4  "LT00"    {finish}\s*        C{turn}\s*       set is struck
     5  "LT00C"   {finish}\s*        {turn}\s*        finish reads "C", which stands on the right
     6  "LT00CH"  {finish}\s*        {turn}\s*        finish and turn read "H"
     7  "LT00CH"  \s*                {turn}\s*        finish is struck
     8  "LT00CH"                     {turn}\s*        the spaces on the left are struck
     9  "LT00CH"                     \s*              turn is struck
    10  "LT00CH"                                      the spaces on the right are struck
\s* is any number of spaces at the end of a label, which are dropped.
"#
        );
    }

    #[test]
    fn the_latches_as_objects() {
        let [left, right] = latches();
        let rows = follow(&left, &right, &LATCHES).unwrap();
        let objects = way_objects(&left, &right, &rows);
        assert_eq!(objects.len(), 11);
        let text = |index: usize| objects[index].clone().done();
        let start = r#"{"kind":"start","label":"LT","left":"{size}{finish}\\s*","right":"{set}C{turn}\\s*"}"#;
        assert_eq!(text(0), start);
        let read = r#"{"kind":"character","character":"C","left_field":"finish","label":"LT00C","left":"{finish}\\s*","right":"{turn}\\s*"}"#;
        assert_eq!(text(5), read);
        let struck =
            r#"{"kind":"right struck","right_field":"\\s*","label":"LT00CH","left":"","right":""}"#;
        assert_eq!(text(10), struck);
    }

    /// A field that stands twice: what is put before its second standing is read later.
    #[test]
    fn a_field_that_stands_twice() {
        let left = side("keypad", &["n"], &[64, 36, 64]);
        let right = side("other", &["n"], &[64]);
        let steps = [Put(4), StrikeLeft, Put(36), Put(4), StrikeLeft, StrikeRight, StrikeRight];
        let rows = follow(&left, &right, &steps).unwrap();
        let names = Names { sides: [&left, &right] };
        assert_eq!(names.side(&rows[1].sides[0]), "{n}-4{n}\\s*");
        assert_eq!(names.done(&rows[1]), "the left n and the right n read \"4\"");
        assert_eq!(names.done(&rows[2]), "the left n is struck");
        assert_eq!(names.done(&rows[3]), "the right n reads \"-\", which stands on the left");
        assert_eq!(rows[7].label, [4, 36, 4]);
        assert!(rows[7].sides.iter().all(Vec::is_empty));
    }

    #[test]
    fn spaces_at_the_end() {
        let left = side("plain", &[], &[4]);
        let right = side("spaced", &["x"], &[4, 64]);
        let steps = [Put(38), StrikeLeft, StrikeRight, StrikeRight];
        let rows = follow(&left, &right, &steps).unwrap();
        let names = Names { sides: [&left, &right] };
        assert_eq!(names.done(&rows[1]), "the spaces on the left and x read \" \"");
        assert_eq!(rows[1].label, [4, 38]);
        assert_eq!(names.side(&[38, 68]), "\\s{x}");
        let left = side("spaced", &[], &[4, 38]);
        let rows = follow(&left, &side("plain", &[], &[4]), &[Put(38)]).unwrap();
        let names = Names { sides: [&left, &left] };
        let words = "the spaces on the right read \" \", which stands on the left";
        assert_eq!(names.done(&rows[1]), words);
    }

    /// Each number of the library, from texts that get it.
    #[test]
    fn why_there_is_none_to_show() {
        let [left, right] = latches();
        let record = |field: u8, length: u16| {
            [&b"VA"[..], &[field], &length.to_le_bytes(), &vec![10; length.into()]].concat()
        };
        let open = b"LE\x01\x40RI\x01\x41";
        let long = [&b"LE\x18"[..], &[64; 24], b"RI\x01\x41"].concat();
        let two = |length| [record(0, length), record(1, length)].concat();
        let all = [
            (&long[..], two(2), "on the way a side would grow above 48 tokens"),
            (open, two(65_531), "the way would have more than 65,534 steps"),
            (open, record(0, 1), "no records of the texts"),
            (open, [record(0, 1), record(1, 2)].concat(), "the texts solve nothing"),
            (b"", Vec::new(), "cut short, at offset 0"),
        ];
        for (sheet, texts, words) in all {
            let none = Err(way_of(sheet, &texts).unwrap_err());
            let told = steps_words(&left, &right, &none);
            assert_eq!(told, format!("There is no way to show: {words}.\n"));
            let object = steps_in(Object::new(), &left, &right, &none);
            assert_eq!(object.done(), format!(r#"{{"steps":null,"steps_reason":"{words}"}}"#));
        }
        assert_eq!(way_of(open, &two(65_530)).unwrap().len(), 65_534);
    }

    #[test]
    fn steps_that_can_not_be_made() {
        let [left, right] = latches();
        let fixed = side("fixed", &[], &[4, 5]);
        for steps in [&[StrikeLeft][..], &[Put(5)]] {
            assert_eq!(follow(&fixed, &right, steps), None);
        }
        assert!(follow(&left, &right, &[&LATCHES[..], &[StrikeLeft]].concat()).is_none());
        assert!(follow(&left, &right, &[&LATCHES[..], &[Put(0)]].concat()).is_none());
    }
}
