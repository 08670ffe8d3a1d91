//! One function over the notation and the proved library: a request in JSON in, the tool's JSON out.
//!
//! docs/NOTATION.md has the keys of a request.

use std::sync::Arc;

use bradovusc::{Edition, MOST_SITUATIONS};
use bradovusc_notation::ask::Room;
use bradovusc_notation::bands::band_objects;
use bradovusc_notation::json::Object as Out;
use bradovusc_notation::paint::Paint;
use bradovusc_notation::parts::{source_of_two, RuleParts, LEFT, RIGHT};
use bradovusc_notation::report::{grouped, pair_object, pair_words, summary_of, Tally};
use bradovusc_notation::sides::{find, Side};
use bradovusc_notation::source::Source;
use bradovusc_notation::status::Status;
use bradovusc_notation::way::{steps_in, steps_words};

use crate::json::{self, Object, Value};
use crate::{check_words, rules_of, Asking, Pair, Wrong};

type Result<T, E = String> = std::result::Result<T, E>;

/// What a request asks for.
#[derive(Clone, Debug)]
struct Request {
    sources: Vec<Source>,
    /// Those of which it is asked, by name; all where none are named.
    pairs: Option<Vec<[String; 2]>>,
    room: Room,
    tells: Tells,
}

/// What is told besides.
#[derive(Clone, Copy, Debug, PartialEq, Eq)]
struct Tells {
    steps: bool,
    bands: bool,
    words: bool,
    summary: bool,
    /// Pairs without a clash.
    no_clash: bool,
}

/// Answers a request in JSON: the tool's exit status, and the tool's objects, one a line.
pub fn answer(request: &[u8]) -> (Status, String) {
    let mut lines = String::new();
    let mut tell = |object: Out| lines += &(object.done() + "\n");
    let (answered, shown) = match read(request) {
        Ok(asked) => {
            let shown = asked.tells.words;
            (run(asked, &mut tell), shown)
        }
        Err(words) => (Err(Wrong::Fault(words)), false),
    };
    let status = answered.unwrap_or_else(|wrong| {
        wrong.objects(shown).into_iter().for_each(tell);
        wrong.status()
    });
    (status, lines)
}

/// Asks what is asked for, and tells each pair.
fn run(request: Request, tell: &mut dyn FnMut(Out)) -> Result<Status, Wrong> {
    let Request { sources, pairs, room, tells } = request;
    let file = sources.first().map_or(String::new(), |source| source.name.clone());
    let rules = rules_of(sources)?;
    let named =
        pairs.map(|pairs| named(&rules, &file, &pairs)).transpose().map_err(Wrong::Fault)?;
    let command = if named.is_some() { "pair" } else { "check" };
    let (mut tally, mut kept) = (Tally::default(), Vec::new());
    let mut each = |pair: Pair| {
        tally.count(pair.answer());
        let apart = pair.clashes() == Some(false);
        if tells.no_clash || !apart {
            tell(tells.object(&pair));
        }
        // in words all of them are told together
        if tells.summary && tells.words && !apart {
            kept.push(pair);
        }
    };
    let asking = Asking { room, ..Asking::default() };
    match named {
        None => asking.ask_all(&rules, each),
        Some(pairs) => pairs.iter().for_each(|[left, right]| each(asking.ask(left, right))),
    }
    if tells.summary {
        let object = tally.counts(summary_of(command).number("rules", rules.len()));
        let object = object.number("status", Status::from(tally).number().into());
        let words = check_words(&kept, tally, rules.len());
        tell(if tells.words { object.text("words", &words) } else { object });
    }
    Ok(tally.into())
}

/// The rules of these pairs of names.
fn named(rules: &[Arc<Side>], file: &str, pairs: &[[String; 2]]) -> Result<Vec<[Arc<Side>; 2]>> {
    let rule = |name: &String| find(rules, file, name).cloned();
    pairs.iter().map(|[left, right]| Ok([rule(left)?, rule(right)?])).collect()
}

impl Tells {
    fn object(self, pair: &Pair) -> Out {
        let Pair { left, right, asked } = pair;
        let (mut object, mut words) =
            (pair_object(left, right, asked), pair_words(left, right, asked, Paint::NONE));
        if let (true, Some(way)) = (self.steps, pair.way()) {
            object = steps_in(object, left, right, &way);
            words += &steps_words(left, right, &way);
        }
        if let (true, Some(on_left), Some(on_right)) =
            (self.bands, pair.left_bands(), pair.right_bands())
        {
            object = object
                .list("left_bands", band_objects(&on_left))
                .list("right_bands", band_objects(&on_right));
        }
        if self.words {
            object = object.text("words", &words);
        }
        object
    }
}

/// Reads a request. No key is there twice, none is unknown, and each has a value of its kind.
fn read(request: &[u8]) -> Result<Request> {
    let mut keys = match json::read(request) {
        Ok(Value::Object(keys)) => Keys { of: "the request".to_string(), keys },
        Ok(_) => return Err("the request is no object".to_string()),
        Err(fault) => return Err(format!("the request is no JSON: {fault}")),
    };
    let sources = sources(&mut keys)?;
    let request = Request {
        sources,
        pairs: pairs(&mut keys)?,
        room: room(&mut keys)?,
        tells: Tells {
            steps: keys.truth("steps", false)?,
            bands: keys.truth("bands", false)?,
            words: keys.truth("words", false)?,
            summary: keys.truth("summary", false)?,
            no_clash: keys.truth("no_clash", true)?,
        },
    };
    keys.done()?;
    Ok(request)
}

/// The rules, in one of the three ways in which they can be given.
fn sources(keys: &mut Keys) -> Result<Vec<Source>> {
    let (rules, files) = (keys.text("rules")?, keys.take("files"));
    let (left, right) = (keys.take(LEFT), keys.take(RIGHT));
    match (rules, files, left, right) {
        (Some(text), None, None, None) => Ok(vec![Source::new("rules", text.as_bytes())]),
        (None, Some(Value::List(files)), None, None) => files.into_iter().map(file).collect(),
        (None, Some(_), None, None) => Err("'files' in the request is no list".to_string()),
        (None, None, Some(left), Some(right)) => {
            let (left, right) = (parts(LEFT, left)?, parts(RIGHT, right)?);
            Ok(vec![source_of_two(edition(keys)?, &left, &right)?])
        }
        _ => Err("the request has one of 'rules', 'files', and 'left' with 'right'".to_string()),
    }
}

/// A file: its name, and what it has.
fn file(value: Value) -> Result<Source> {
    let mut keys = Keys::of("a file", value)?;
    let (name, text) = (keys.wanted("name")?, keys.wanted("text")?);
    keys.done()?;
    Ok(Source::new(name, text.as_bytes()))
}

/// A rule in parts.
fn parts(place: &str, value: Value) -> Result<RuleParts> {
    let mut keys = Keys::of(&format!("'{place}'"), value)?;
    let (name, template) = (keys.text("name")?, keys.wanted("template")?);
    let given = match keys.take("fields") {
        Some(value) => Keys::of(&format!("the fields of '{place}'"), value)?,
        None => Keys { of: String::new(), keys: Object::new() },
    };
    keys.done()?;
    let field = |(field, value)| match value {
        Value::Text(pattern) => Ok((field, pattern)),
        _ => Err(format!("'{field}' in {} is no text", given.of)),
    };
    let fields = given.keys.clone().into_iter().map(field).collect::<Result<_>>()?;
    Ok(RuleParts { name, template, fields })
}

/// The edition of rules in parts.
fn edition(keys: &mut Keys) -> Result<Edition> {
    match keys.text("edition")?.as_deref() {
        None | Some("code 39") => Ok(Edition::Code39),
        Some("full ascii") => Ok(Edition::FullAscii),
        Some(other) => {
            Err(format!("'edition' is \"code 39\" or \"full ascii\", and not {other:?}"))
        }
    }
}

/// "all", or a list of lists of two names.
fn pairs(keys: &mut Keys) -> Result<Option<Vec<[String; 2]>>> {
    let wrong = || "'pairs' is \"all\" or a list of lists of two names".to_string();
    let pair = |value| match value {
        Value::List(two) => match &two[..] {
            [Value::Text(left), Value::Text(right)] => Ok([left.clone(), right.clone()]),
            _ => Err(wrong()),
        },
        _ => Err(wrong()),
    };
    match keys.take("pairs") {
        None => Ok(None),
        Some(Value::Text(all)) if all == "all" => Ok(None),
        Some(Value::List(pairs)) => Ok(Some(pairs.into_iter().map(pair).collect::<Result<_>>()?)),
        Some(_) => Err(wrong()),
    }
}

fn room(keys: &mut Keys) -> Result<Room> {
    let number = match keys.take("room") {
        None | Some(Value::Nothing) => return Ok(Room::Growing),
        Some(Value::Number(digits)) => digits.parse().ok(),
        Some(_) => None,
    };
    let known = number.filter(|room| (1..=MOST_SITUATIONS).contains(room));
    let most = grouped(MOST_SITUATIONS);
    known.map(Room::Fixed).ok_or_else(|| format!("'room' is a whole number from 1 to {most}"))
}

/// What is still to be read of an object.
struct Keys {
    /// As it is told.
    of: String,
    keys: Object,
}

impl Keys {
    fn of(what: &str, value: Value) -> Result<Keys> {
        match value {
            Value::Object(keys) => Ok(Keys { of: what.to_string(), keys }),
            _ => Err(format!("{what} is no object")),
        }
    }

    fn take(&mut self, key: &str) -> Option<Value> {
        self.keys.remove(key)
    }

    fn text(&mut self, key: &str) -> Result<Option<String>> {
        match self.take(key) {
            None => Ok(None),
            Some(Value::Text(text)) => Ok(Some(text)),
            Some(_) => Err(format!("'{key}' in {} is no text", self.of)),
        }
    }

    fn wanted(&mut self, key: &str) -> Result<String> {
        self.text(key)?.ok_or_else(|| format!("{} has no '{key}'", self.of))
    }

    fn truth(&mut self, key: &str, otherwise: bool) -> Result<bool> {
        match self.take(key) {
            None => Ok(otherwise),
            Some(Value::Truth(truth)) => Ok(truth),
            Some(_) => Err(format!("'{key}' in {} is neither true nor false", self.of)),
        }
    }

    /// Nothing else is there.
    fn done(self) -> Result<()> {
        match self.keys.keys().next() {
            None => Ok(()),
            Some(key) => Err(format!("{} has a key that means nothing: {key:?}", self.of)),
        }
    }
}
