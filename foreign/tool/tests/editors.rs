//! The colours of files of rules in vim and VS Code: of each part of a sample, what it is taken for.

mod common;

use std::fmt::Write;
use std::fs;
use std::path::{Path, PathBuf};
use std::process::{Command, Stdio};

use common::{expected, golden, Folder};

fn editors(name: &str) -> PathBuf {
    Path::new(env!("CARGO_MANIFEST_DIR")).join("editors").join(name)
}

/// What vim takes each character for: one line for each run of characters.
const VIM: &str = "
function! Run() abort
  let l:out = ['filetype ' . &filetype]
  for l:line in range(1, line('$'))
    let [l:text, l:last] = [getline(l:line), '-']
    for l:at in range(1, len(l:text))
      let l:name = synIDattr(synID(l:line, l:at, 1), 'name')
      if l:name !=# l:last
        call add(l:out, l:line . ' ' . (l:name ==# '' ? 'none' : l:name) . ': ')
        let l:last = l:name
      endif
      let l:out[-1] .= l:text[l:at - 1]
    endfor
  endfor
  call writefile(l:out, 'said')
endfunction
";

#[test]
fn vim() {
    let folder = Folder::new("vim");
    fs::copy(golden("editors/sample.rules"), folder.0.join("sample.rules")).unwrap();
    fs::write(folder.0.join("run.vim"), VIM).unwrap();
    let mut vim = Command::new("vim");
    vim.args(["-N", "-es", "-u", "NONE", "-i", "NONE", "--cmd"]);
    vim.arg(format!("set runtimepath^={}", editors("vim").display()));
    for command in ["filetype plugin on", "syntax on", "edit sample.rules", "source run.vim"] {
        vim.args(["-c", command]);
    }
    vim.args(["-c", "call Run()", "-c", "qall!"]).current_dir(&folder.0).stdin(Stdio::null());
    let Ok(output) = vim.output() else {
        println!("skipped: vim is not here");
        return;
    };
    let Ok(said) = fs::read_to_string(folder.0.join("said")) else {
        panic!("{output:?}");
    };
    if said.starts_with("filetype \n") {
        println!("skipped: this vim has no files for colours");
        return;
    }
    assert_eq!(said, expected(&golden("editors/vim.said"), &said));
}

/// Every kind that the grammar for VS Code gives is given to some part of the sample.
#[test]
fn vscode() {
    let program = golden("editors/scopes.py");
    let grammar = editors("vscode/syntaxes/bradovusc.tmLanguage.json");
    let sample = golden("editors/sample.rules");
    let Ok(output) = Command::new("python3").arg(program).args([&grammar, &sample]).output() else {
        println!("skipped: python3 is not here to read the grammar");
        return;
    };
    assert!(output.status.success(), "{}", String::from_utf8_lossy(&output.stderr));
    let said = String::from_utf8(output.stdout).unwrap();
    assert_eq!(said, expected(&golden("editors/vscode.said"), &said));
    let text = fs::read_to_string(grammar).unwrap();
    for name in text.split("\"name\": \"").skip(1).filter_map(|rest| rest.split('"').next()) {
        assert!(name == "Label rules" || said.contains(&format!(" {name}: ")), "{name}");
    }
}

/// What the extension's description names is there, and its version is the tool's.
#[test]
fn the_extension_is_whole() {
    let text = fs::read_to_string(editors("vscode/package.json")).unwrap();
    let mut named = String::new();
    for path in text.split("\"./").skip(1).filter_map(|rest| rest.split('"').next()) {
        assert!(editors("vscode").join(path).is_file(), "{path}");
        let _ = writeln!(named, "{path}");
    }
    assert_eq!(named.lines().count(), 2, "{named}");
    assert!(text.contains(&format!("\"version\": \"{}\"", bradovusc::VERSION)), "{text}");
}
