//! The hook of git, in a repository with rules. It needs git and xargs.

mod common;

use std::fs;
use std::os::unix::fs::symlink;
use std::path::Path;
use std::process::{Command, Output};

use common::{program, Folder};

/// A repository with the hook, and a folder with the tool that is on its path.
struct Store {
    folder: Folder,
}

impl Store {
    /// None where git is missing, or the tool runs behind an emulator.
    fn new(name: &str) -> Option<Store> {
        let [tool] = &program()[..] else {
            println!("skipped: the tool runs behind an emulator");
            return None;
        };
        let folder = Folder::new(name);
        for name in ["bin", "store", "tmp"] {
            fs::create_dir(folder.0.join(name)).unwrap();
        }
        symlink(tool, folder.0.join("bin/bradovusc")).unwrap();
        let store = Store { folder };
        if !store.begin() {
            println!("skipped: no git");
            return None;
        }
        let hook = Path::new(env!("CARGO_MANIFEST_DIR")).join("hooks/pre-commit");
        let hooks = store.folder.0.join("store/.git/hooks");
        fs::create_dir_all(&hooks).unwrap();
        fs::copy(hook, hooks.join("pre-commit")).unwrap();
        Some(store)
    }

    fn begin(&self) -> bool {
        let there = Command::new("git").arg("--version").output();
        there.is_ok_and(|output| output.status.success())
            && self.git(&["init", "-q"]).status.success()
    }

    /// Git as if nobody had a configuration, with the tool in front of the path.
    fn git(&self, words: &[&str]) -> Output {
        let path = std::env::var("PATH").unwrap_or_default();
        let mut git = Command::new("git");
        for name in ["GIT_AUTHOR_NAME", "GIT_COMMITTER_NAME"] {
            git.env(name, "store");
        }
        for name in ["GIT_AUTHOR_EMAIL", "GIT_COMMITTER_EMAIL"] {
            git.env(name, "store@store.example");
        }
        git.env("PATH", format!("{}:{path}", self.folder.0.join("bin").display()))
            .env("GIT_CONFIG_NOSYSTEM", "1")
            .env("HOME", &self.folder.0)
            .env("TMPDIR", self.folder.0.join("tmp"))
            .args(words)
            .current_dir(self.folder.0.join("store"))
            .output()
            .unwrap()
    }

    fn write(&self, name: &str, text: &str) {
        let path = self.folder.0.join("store").join(name);
        fs::create_dir_all(path.parent().unwrap()).unwrap();
        fs::write(path, text).unwrap();
    }

    /// Commits what is staged: whether that was done, and what was said.
    fn commit(&self) -> (bool, String) {
        let output = self.git(&["commit", "-q", "-m", "rules"]);
        let said = [output.stdout, output.stderr].concat();
        (output.status.success(), String::from_utf8(said).unwrap())
    }
}

#[test]
fn rules_that_clash_are_not_committed() {
    let Some(store) = Store::new("hook") else { return };
    store.write("notes.txt", "latch = LT{\n");
    store.write("a b/locks.rules", "mortice = LT{n}\n n = [0-9]+\n");
    store.git(&["add", "."]);
    assert_eq!(store.commit(), (true, String::new()));
    // a rule of another file clashes with one that was committed before
    store.write("keys.rules", "key = LT7\n");
    store.git(&["add", "."]);
    let (done, said) = store.commit();
    assert!(!done);
    assert!(
        said.contains("keys.rules:1: key and mortice (a b/locks.rules:1) clash: \"LT7\""),
        "{said}"
    );
    // what is staged counts, and not what lies in the folder
    store.write("keys.rules", "key = KY7\n");
    assert!(!store.commit().0);
    store.git(&["add", "."]);
    store.write("keys.rules", "key = LT7\n");
    assert_eq!(store.commit(), (true, String::new()));
    // nothing of the rules is changed: it is not asked
    store.write("notes.txt", "others\n");
    store.git(&["add", "notes.txt"]);
    assert_eq!(store.commit(), (true, String::new()));
    // a mistake
    store.write("keys.rules", "key = k\n");
    store.git(&["add", "."]);
    let (done, said) = store.commit();
    assert!(!done && said.contains("keys.rules:1:7: 'k' is no character of Code 39"), "{said}");
    assert_eq!(fs::read_dir(store.folder.0.join("tmp")).unwrap().count(), 0, "a folder is left");
}

#[test]
fn files_apart_and_other_names() {
    let Some(store) = Store::new("hook-apart") else { return };
    store.write("one.rules", "a = LT{x}\n");
    store.write("two.rules", "b = LT{x}\n");
    store.git(&["add", "."]);
    assert!(!store.commit().0);
    store.git(&["config", "bradovusc.apart", "true"]);
    assert_eq!(store.commit(), (true, String::new()));
    store.git(&["config", "bradovusc.apart", "false"]);
    store.git(&["config", "bradovusc.rules", "store/*.txt"]);
    store.write("two.rules", "b = LT{x}\nc = L{x}\n");
    store.git(&["add", "."]);
    assert_eq!(store.commit(), (true, String::new()));
    store.write("store/one.txt", "b = LT{x}\nc = L{x}\n");
    store.git(&["add", "."]);
    let (done, said) = store.commit();
    assert!(!done && said.contains("store/one.txt:2: c and b (store/one.txt:1) clash"), "{said}");
}

/// What the framework pre-commit calls, with files behind it.
#[test]
fn the_entry_of_the_framework() {
    let hooks = Path::new(env!("CARGO_MANIFEST_DIR")).join("../../.pre-commit-hooks.yaml");
    let hooks = fs::read_to_string(hooks).unwrap();
    let entry =
        hooks.lines().find_map(|line| line.trim().strip_prefix("entry: bradovusc ")).unwrap();
    let folder = Folder::with_files("framework");
    for (file, status) in [("latch.rules", 1), ("apart.rules", 0), ("mistake.rules", 3)] {
        let words: Vec<&str> = entry.split(' ').chain([file]).collect();
        assert_eq!(common::program_in(&folder.0, &words).status, status, "{file}");
    }
}
