//! What the tests share: the tool called within the test and as a program, folders of their own, and
//! numbers that are the same in every run.
#![allow(dead_code)]

use std::ffi::OsString;
use std::fs;
use std::path::{Path, PathBuf};
use std::process::{Command, Stdio};

use bradovusc_tool::notation::paint::Paint;
use bradovusc_tool::run::{run, Streams};
use bradovusc_tool::status::Status;

/// Where the files of the tests stand.
pub fn golden(name: &str) -> PathBuf {
    Path::new(env!("CARGO_MANIFEST_DIR")).join("tests/golden").join(name)
}

/// The files of a folder with this ending, in order.
pub fn files(folder: &Path, ending: &str) -> Vec<PathBuf> {
    let entries = fs::read_dir(folder).unwrap().map(|entry| entry.unwrap().path());
    let mut paths: Vec<PathBuf> =
        entries.filter(|path| path.extension().is_some_and(|given| given == ending)).collect();
    paths.sort();
    paths
}

/// The text of a golden file, or, where `GOLDEN=write` is set, what is now written to it.
pub fn expected(path: &Path, now: &str) -> String {
    if std::env::var_os("GOLDEN").is_some_and(|value| value == "write") {
        fs::write(path, now).unwrap();
    }
    fs::read_to_string(path).unwrap_or_default()
}

/// What a call said.
#[derive(Debug, PartialEq, Eq)]
pub struct Said {
    pub status: i32,
    pub output: Vec<u8>,
    pub errors: String,
}

impl Said {
    pub fn text(&self) -> String {
        String::from_utf8(self.output.clone()).unwrap()
    }
}

/// Calls the tool within the test.
pub fn call(words: &[&str]) -> Said {
    call_with(words, b"")
}

/// The same, with something on its standard input.
pub fn call_with(words: &[&str], mut input: &[u8]) -> Said {
    let words: Vec<OsString> = words.iter().map(OsString::from).collect();
    let (mut output, mut errors) = (Vec::new(), Vec::new());
    let streams = Streams {
        input: &mut input,
        output: &mut output,
        errors: &mut errors,
        terminal: false,
        paint: Paint::NONE,
        errors_paint: Paint::NONE,
    };
    let status: Status = run(&words, streams);
    Said { status: status.number().into(), output, errors: String::from_utf8(errors).unwrap() }
}

/// The words that start the program: its path, behind an emulator's where cargo was told of one.
pub fn program() -> Vec<String> {
    let runner = std::env::var("CARGO_TARGET_X86_64_UNKNOWN_LINUX_GNU_RUNNER").unwrap_or_default();
    let mut words: Vec<String> = runner.split_whitespace().map(String::from).collect();
    words.push(env!("CARGO_BIN_EXE_bradovusc").to_string());
    words
}

/// Calls the tool as a program, in a folder.
pub fn program_in(folder: &Path, words: &[&str]) -> Said {
    let program = program();
    let output = Command::new(&program[0])
        .args(&program[1..])
        .args(words)
        .current_dir(folder)
        .stdin(Stdio::null())
        .output()
        .unwrap();
    let errors = String::from_utf8(output.stderr).unwrap();
    Said { status: output.status.code().unwrap_or(-1), output: output.stdout, errors }
}

/// A folder that is gone when the test is over.
pub struct Folder(pub PathBuf);

impl Folder {
    pub fn new(name: &str) -> Folder {
        let path =
            Path::new(env!("CARGO_TARGET_TMPDIR")).join(format!("{name}.{}", std::process::id()));
        let _ = fs::remove_dir_all(&path);
        fs::create_dir_all(&path).unwrap();
        Folder(path)
    }

    /// With the files of `tests/golden/files`.
    pub fn with_files(name: &str) -> Folder {
        let folder = Folder::new(name);
        for entry in fs::read_dir(golden("files")).unwrap() {
            let entry = entry.unwrap();
            fs::copy(entry.path(), folder.0.join(entry.file_name())).unwrap();
        }
        folder
    }

    pub fn path(&self, name: &str) -> String {
        self.0.join(name).display().to_string()
    }

    /// The names of what is in it.
    pub fn names(&self) -> Vec<String> {
        let entries = fs::read_dir(&self.0).unwrap();
        let mut names: Vec<String> =
            entries.map(|entry| entry.unwrap().file_name().into_string().unwrap()).collect();
        names.sort();
        names
    }
}

impl Drop for Folder {
    fn drop(&mut self) {
        let _ = fs::remove_dir_all(&self.0);
    }
}

/// Numbers that look random and are the same in every run.
pub struct Dice(u64);

impl Dice {
    pub fn new(seed: u64) -> Dice {
        Dice(seed.wrapping_mul(0x9E37_79B9_7F4A_7C15) | 1)
    }

    pub fn below(&mut self, n: usize) -> usize {
        self.0 ^= self.0 >> 12;
        self.0 ^= self.0 << 25;
        self.0 ^= self.0 >> 27;
        (self.0.wrapping_mul(0x2545_F491_4F6C_DD1D) >> 16) as usize % n.max(1)
    }

    pub fn one_in(&mut self, n: usize) -> bool {
        self.below(n) == 0
    }

    pub fn pick<T: Copy>(&mut self, list: &[T]) -> T {
        list[self.below(list.len())]
    }
}

/// Families of ten rules, so many rules in all: fixed characters in front, as labels mostly have, then
/// numbers, finishes and open fields. In each tenth family one rule takes everything.
pub fn many_rules(count: usize) -> String {
    (0..count / 10).map(family).collect()
}

fn family(number: usize) -> String {
    let sign = |of: &str, index: usize| char::from(of.as_bytes()[index % of.len()]);
    let mut front = format!("{}{}", sign("ABCDEFGHIJ", number), sign("KLMNP", number / 10));
    // the first 50 have two characters in front, the others three or four
    let mut rest = number / 50;
    while rest > 0 {
        front.push(sign("QSTUVWXZ1234567890", rest - 1));
        rest = (rest - 1) / 18;
    }
    let last = if number.is_multiple_of(10) { "{rest}" } else { "\\s{rest}" };
    format!(
        "{front}-0 = {front}{{size}}{{finish}}\n  size = [0-9]{{2}}\n  finish = BR|CH|SS|SN|PB\n\
         {front}-1 = {front}-{{n}}\n  n = [0-9]{{4}}\n\
         {front}-2 = {front}/{{colour}}/{{n}}\n  colour = [A-Z]{{2,3}}\n  n = [0-9]+\n\
         {front}-3 = {front}R{{n}}-{{n}}\n  n = [0-9]+\n\
         {front}-4 = {front}X{{rest}}\n\
         {front}-5 = {front}.{{length}}.{{part}}\n  length = [0-9]+\n  part = [05]\n\
         {front}-6 = {front}Y{{name}}{{n}}\n  name = [A-Z]{{1,8}}\n  n = [0-9]*\n\
         {front}-7 = {front}%{{serial}}\n  serial = [0-9A-F]{{6}}\n\
         {front}-8 = {front}+{{a}}+{{b}}\n  a = [0-9A-Z]+\n\
         {front}-9 = {front}{last}\n"
    )
}
