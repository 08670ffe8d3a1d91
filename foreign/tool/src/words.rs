//! The words of the command line.

use std::ffi::OsString;
use std::path::PathBuf;
use std::time::Duration;

use bradovusc::MOST_SITUATIONS;

use crate::ask::Room;
use crate::format::Format;
use crate::near::nearest;
use crate::notation::paint::Paint;
use crate::pairs::Part;
use crate::report::grouped;

pub const USAGE: &str = "\
bradovusc: can two label rules make the same label?

    bradovusc check FILE..                  every pair of the rules in the files
    bradovusc pair FILE A B                 the rules A and B of FILE
    bradovusc which FILE [LABEL..]          the rules that read a label, with what their fields hold
    bradovusc accept BASE NEW               enters the rules of the file NEW into the file BASE, if no two clash
    bradovusc add CATALOGUE FILE RULE       adds RULE of FILE, if it clashes with no rule that is there
    bradovusc withdraw CATALOGUE NUMBER     takes the rule with this number out
    bradovusc list CATALOGUE                prints the rules
    bradovusc recheck CATALOGUE             every pair of the rules that are there
    bradovusc script FILE A B               writes a script for string solvers such as z3
    bradovusc sheet FILE A B                writes the bytes that ask the library
    bradovusc help [COMMAND]                prints this, or what is there of one command

FILE is a file of rules, or - for standard input. Options:

    --json        prints one JSON object a line
    --format F    check, recheck, pair: text, json, short (one line a pair), github or sarif
    --max N       check, recheck: tells N clashes and N pairs not decided at most, and counts the rest
    --clashes-only
                  check, recheck: tells nothing but clashes
    --summary     check, recheck, which: an object or a line with the counts behind all else
    --steps       pair: the way to the clash, step by step
    --repair      pair: further labels, which parts overlap, and what would part the two
    --against B   check: only pairs with a rule of the files, beside those of the file B
    --part I/N    check: part I of N parts of the pairs
    --seconds N   check, pair, recheck, accept: no larger room once N seconds are spent on a pair
    --csv CSV     which: the labels are in a column of the file CSV
    --column C    which: that column, by its name in the first row, or by its number
    --separator S which: what stands between two values, or tab; else a comma
    --room N      room for N situations, 1 to 65,535; else it grows from 356 to 65,535
    --threads N   so many threads; else as many as there are processors
    --new         add, accept: the file is begun; without it the file must be there
    --bytes N     the catalogue file has N bytes; else 26,016
    --help, -h    prints this
    --version, -V prints the version

Exit status: 0 no clash anywhere, or done; 1 a clash; 2 something not decided, and no clash known;
3 a fault in a file, in a catalogue or in these words; 4 something could not be read or written;
5 a file without a rule; 6 no rule reads a label, and no label is read by several.
";

/// What is to be done.
#[derive(Clone, Debug, PartialEq, Eq)]
pub enum Command {
    Check { files: Vec<PathBuf> },
    Pair { file: PathBuf, left: String, right: String },
    Add { catalogue: PathBuf, file: PathBuf, rule: String },
    Withdraw { catalogue: PathBuf, number: usize },
    List { catalogue: PathBuf },
    Recheck { catalogue: PathBuf },
    Which { file: PathBuf, labels: Vec<String> },
    Accept { base: PathBuf, new: PathBuf },
    Script { file: PathBuf, left: String, right: String },
    Sheet { file: PathBuf, left: String, right: String },
    Help { text: String },
    Version,
}

/// How it is to be done.
#[derive(Clone, Debug, PartialEq, Eq)]
pub struct Options {
    /// The form is JSON.
    pub json: bool,
    pub format: Format,
    /// The colours of words on the output: none where it is no terminal.
    pub paint: Paint,
    /// So many clashes are told, and so many pairs that are not decided.
    pub max: Option<usize>,
    pub clashes_only: bool,
    pub summary: bool,
    pub repair: bool,
    pub room: Room,
    pub threads: Option<usize>,
    pub new: bool,
    pub steps: bool,
    pub bytes: Option<usize>,
    /// The files whose rules are there already.
    pub against: Vec<PathBuf>,
    pub part: Part,
    /// How long a pair may take until no larger room is tried.
    pub seconds: Option<Duration>,
    /// The file of values that has labels, and where in it.
    pub values: Option<PathBuf>,
    pub column: Option<String>,
    pub separator: char,
}

impl Default for Options {
    fn default() -> Options {
        Options {
            json: false,
            format: Format::Text,
            paint: Paint::NONE,
            max: None,
            clashes_only: false,
            summary: false,
            repair: false,
            room: Room::Growing,
            threads: None,
            new: false,
            steps: false,
            bytes: None,
            against: Vec::new(),
            part: Part::WHOLE,
            seconds: None,
            values: None,
            column: None,
            separator: ',',
        }
    }
}

/// A command: its name, the words behind it, and its options besides `--json`.
pub struct Form {
    pub name: &'static str,
    pub words: &'static str,
    pub options: &'static [&'static str],
}

const fn form(name: &'static str, words: &'static str, options: &'static [&'static str]) -> Form {
    Form { name, words, options }
}

impl Form {
    /// Whether so many words may stand behind the name: in brackets are those that may be left out,
    /// and before two dots one that may stand several times.
    fn takes(&self, count: usize) -> bool {
        let words = || self.words.split(' ');
        let least = words().filter(|word| !word.starts_with('[')).count();
        count >= least && (count <= words().count() || self.words.contains(".."))
    }
}

/// All commands.
pub const COMMANDS: [Form; 11] = [
    form(
        "check",
        "FILE..",
        &[
            "--against",
            "--part",
            "--format",
            "--max",
            "--clashes-only",
            "--summary",
            "--room",
            "--seconds",
            "--threads",
        ],
    ),
    form("pair", "FILE A B", &["--format", "--room", "--seconds", "--steps", "--repair"]),
    form("which", "FILE [LABEL..]", &["--csv", "--column", "--separator", "--summary"]),
    form("accept", "BASE NEW", &["--new", "--max", "--room", "--seconds", "--threads"]),
    form("add", "CATALOGUE FILE RULE", &["--room", "--new", "--bytes"]),
    form("withdraw", "CATALOGUE NUMBER", &["--bytes"]),
    form("list", "CATALOGUE", &["--bytes"]),
    form(
        "recheck",
        "CATALOGUE",
        &[
            "--format",
            "--max",
            "--clashes-only",
            "--summary",
            "--room",
            "--seconds",
            "--threads",
            "--bytes",
        ],
    ),
    form("script", "FILE A B", &[]),
    form("sheet", "FILE A B", &[]),
    form("help", "[COMMAND]", &[]),
];

/// The options of all commands.
pub const FOR_ALL: [&str; 3] = ["--json", "--help", "--version"];

/// The options that were given, by name, in their order.
type Given = Vec<&'static str>;

/// Reads the words behind the program's name. The options are handed back also where the words are at
/// fault, so that the fault can be told as they say.
pub fn read(words: &[OsString]) -> (Options, Result<Command, String>) {
    let (mut options, mut given, mut plain) = (Options::default(), Given::new(), Vec::new());
    let result = sort(words, &mut options, &mut given, &mut plain);
    let command = result.and_then(|()| {
        if given.contains(&"--help") {
            Ok(Command::Help { text: USAGE.to_string() })
        } else if given.contains(&"--version") {
            Ok(Command::Version)
        } else {
            command(&plain, &given)
        }
    });
    (options, command)
}

const TRY: &str = "bradovusc --help shows the commands";

/// Puts the options and the other words apart.
fn sort(
    words: &[OsString],
    options: &mut Options,
    given: &mut Given,
    plain: &mut Vec<OsString>,
) -> Result<(), String> {
    // a fault is told in the form that is wanted also where it stands before the word
    options.format = format_of(words);
    options.json = options.format == Format::Json;
    let mut words = words.iter();
    while let Some(word) = words.next() {
        let text = word.to_string_lossy();
        if text == "--" {
            plain.extend(words.cloned());
            return Ok(());
        }
        if !text.starts_with('-') || text == "-" {
            plain.push(word.clone());
            continue;
        }
        let (name, behind) = match text.split_once('=') {
            Some((name, value)) => (name, Some(value.to_string())),
            None => (&*text, None),
        };
        let mut value = || match &behind {
            Some(value) => value.clone(),
            None => words.next().map_or(String::new(), |word| word.to_string_lossy().into()),
        };
        given.push(match set_value(name, &mut value, options)? {
            Some(option) => option,
            None if behind.is_some() => return Err(format!("{name} is no option here; {TRY}")),
            None => set_flag(name, options)
                .ok_or_else(|| format!("{name} is no option; {}", instead(name, all_options())))?,
        });
    }
    Ok(())
}

/// The form that the words ask for, as far as they are right.
fn format_of(words: &[OsString]) -> Format {
    let mut format = Format::Text;
    let mut words = words.iter().map(|word| word.to_string_lossy());
    while let Some(word) = words.next().filter(|word| word != "--") {
        let named = match (&*word, word.strip_prefix("--format=")) {
            ("--json", _) => Format::named("json"),
            ("--format", _) => Format::named(&words.next().unwrap_or_default()),
            (_, Some(name)) => Format::named(name),
            _ => continue,
        };
        format = named.unwrap_or(format);
    }
    format
}

/// The options that have a value.
const VALUED: [&str; 11] = [
    "--room",
    "--threads",
    "--bytes",
    "--max",
    "--against",
    "--part",
    "--seconds",
    "--csv",
    "--column",
    "--separator",
    "--format",
];

/// Sets an option that has a value; none where it is no such option.
fn set_value(
    name: &str,
    value: &mut dyn FnMut() -> String,
    options: &mut Options,
) -> Result<Option<&'static str>, String> {
    let Some(name) = VALUED.into_iter().find(|known| *known == name) else {
        return Ok(None);
    };
    let value = value();
    let wrong = |takes: &str| format!("{name} takes {takes}, not '{value}'");
    let number = |least: usize, most: usize| {
        let known = value.parse().ok().filter(|number| (least..=most).contains(number));
        let takes = || format!("a number from {} to {}", grouped(least), grouped(most));
        known.ok_or_else(|| wrong(&takes()))
    };
    let (of_parts, above) = ("I/N, part I of N from 1 on", "a number above 0");
    match name {
        "--room" => options.room = Room::Fixed(number(1, MOST_SITUATIONS)?),
        "--threads" => options.threads = Some(number(1, 1_024)?),
        "--bytes" => options.bytes = Some(number(0, 1_000_000_000)?),
        "--max" => options.max = Some(number(0, 1_000_000_000)?),
        "--against" => options.against.push(value.into()),
        "--part" => options.part = Part::read(&value).ok_or_else(|| wrong(of_parts))?,
        "--seconds" => options.seconds = Some(seconds(&value).ok_or_else(|| wrong(above))?),
        "--csv" => options.values = Some(value.into()),
        "--column" => options.column = Some(value),
        "--separator" => {
            options.separator = separator(&value).ok_or_else(|| wrong("one sign, or tab"))?;
        }
        // the form is set already
        _ => drop(Format::named(&value)?),
    }
    Ok(Some(name))
}

/// Seconds, of which there may be a part.
fn seconds(text: &str) -> Option<Duration> {
    let digits = text.bytes().all(|sign| sign.is_ascii_digit() || sign == b'.');
    let number: f64 = text.parse().ok().filter(|_| digits)?;
    Duration::try_from_secs_f64(number).ok().filter(|duration| !duration.is_zero())
}

/// What stands between two values.
fn separator(text: &str) -> Option<char> {
    let mut signs = text.chars();
    match (signs.next(), signs.next()) {
        (Some(sign), None) if !matches!(sign, '"' | '\n' | '\r') => Some(sign),
        _ => (text == "tab").then_some('\t'),
    }
}

/// Sets an option that has no value; none where it is no option.
fn set_flag(name: &str, options: &mut Options) -> Option<&'static str> {
    let mut set = |flag: fn(&mut Options) -> &mut bool, name| {
        *flag(options) = true;
        Some(name)
    };
    match name {
        "--json" => Some("--json"),
        "--new" => set(|options| &mut options.new, "--new"),
        "--steps" => set(|options| &mut options.steps, "--steps"),
        "--repair" => set(|options| &mut options.repair, "--repair"),
        "--clashes-only" => set(|options| &mut options.clashes_only, "--clashes-only"),
        "--summary" => set(|options| &mut options.summary, "--summary"),
        "--help" | "-h" => Some("--help"),
        "--version" | "-V" => Some("--version"),
        _ => None,
    }
}

fn command(plain: &[OsString], given: &Given) -> Result<Command, String> {
    let Some((name, words)) = plain.split_first() else {
        return Err(format!("a command is missing; {TRY}"));
    };
    let name = name.to_string_lossy();
    let path = |index: usize| PathBuf::from(&words[index]);
    let text = |index: usize| words[index].to_string_lossy().into_owned();
    let form = form_of(&name)?;
    if name == "help" {
        return help(words);
    }
    if !form.takes(words.len()) {
        return Err(format!("the form is: bradovusc {name} {}", form.words));
    }
    let known = |option: &&str| *option == "--json" || form.options.contains(option);
    if let Some(option) = given.iter().find(|option| !known(option)) {
        return Err(format!("{name} has no option {option}"));
    }
    Ok(match &*name {
        "check" => Command::Check { files: words.iter().map(PathBuf::from).collect() },
        "which" => Command::Which { file: path(0), labels: (1..words.len()).map(text).collect() },
        "accept" => Command::Accept { base: path(0), new: path(1) },
        "pair" => Command::Pair { file: path(0), left: text(1), right: text(2) },
        "add" => Command::Add { catalogue: path(0), file: path(1), rule: text(2) },
        "withdraw" => {
            let number = text(1);
            let known = number.parse().ok();
            let known = known.ok_or(format!("'{number}' is no number of a rule"))?;
            Command::Withdraw { catalogue: path(0), number: known }
        }
        "list" => Command::List { catalogue: path(0) },
        "recheck" => Command::Recheck { catalogue: path(0) },
        "script" => Command::Script { file: path(0), left: text(1), right: text(2) },
        _ => Command::Sheet { file: path(0), left: text(1), right: text(2) },
    })
}

fn form_of(name: &str) -> Result<&'static Form, String> {
    let names = COMMANDS.iter().map(|form| form.name);
    let form = COMMANDS.iter().find(|form| form.name == name);
    form.ok_or_else(|| format!("'{name}' is no command; {}", instead(name, names)))
}

/// Everything, or what is said of one command and its options.
fn help(words: &[OsString]) -> Result<Command, String> {
    let text = match words {
        [] => USAGE.to_string(),
        [name] => {
            let form = form_of(&name.to_string_lossy())?;
            let mut said = false;
            let of_it = |line: &&str| {
                // a line that is indented further goes on with the one before
                said = if line.starts_with("     ") { said } else { says(line, form) };
                said
            };
            USAGE.split_inclusive('\n').filter(of_it).collect()
        }
        _ => return Err("the form is: bradovusc help [COMMAND]".to_string()),
    };
    Ok(Command::Help { text })
}

/// Whether a line of the usage is of this command, or of an option that it has.
fn says(line: &str, form: &Form) -> bool {
    let mut words = line.split([' ', ',']).map(str::trim).filter(|word| !word.is_empty());
    match (line.starts_with("    "), words.next()) {
        (true, Some("bradovusc")) => words.next() == Some(form.name),
        (true, Some(option)) => form.options.contains(&option) || FOR_ALL.contains(&option),
        _ => false,
    }
}

/// The options of every command.
fn all_options() -> impl Iterator<Item = &'static str> {
    FOR_ALL.into_iter().chain(COMMANDS.iter().flat_map(|form| form.options.iter().copied()))
}

/// What may have been meant by a word that is not known; else where to look.
fn instead(word: &str, known: impl Iterator<Item = &'static str>) -> String {
    match nearest(word, known) {
        Some(near) => format!("did you mean {near}?"),
        None => TRY.to_string(),
    }
}

#[cfg(test)]
mod tests {
    use super::*;

    fn told(words: &[&str]) -> String {
        let words: Vec<OsString> = words.iter().map(OsString::from).collect();
        match read(&words).1 {
            Ok(Command::Help { text }) => text,
            other => format!("{other:?}"),
        }
    }

    #[test]
    fn help_in_every_form() {
        for words in [&["help"][..], &["-h"], &["check", "--help"], &["--help", "nonsense"]] {
            assert_eq!(told(words), USAGE, "{words:?}");
        }
    }

    /// Every command and every option has its line, and no other command has it.
    #[test]
    fn help_on_each_command() {
        let lines = |text: &str, front: &str| {
            text.lines().filter(|line| line.trim_start().starts_with(front)).count()
        };
        for form in &COMMANDS {
            let text = told(&["help", form.name]);
            assert!(lines(&text, &format!("bradovusc {}", form.name)) >= 1, "{text}");
            for option in all_options().collect::<std::collections::BTreeSet<_>>() {
                let has = form.options.contains(&option) || FOR_ALL.contains(&option);
                let exact = text.split([' ', ',', '\n']).any(|word| word == option);
                assert_eq!(exact, has, "{} {option}", form.name);
                assert!(USAGE.contains(&format!("    {option}")), "{option}");
            }
        }
    }
}
