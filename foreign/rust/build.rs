//! Finds the static library: in the folder that `BRADOVUSC_LIB_DIR` names, and then in no other;
//! else where `tools/build exported` writes it; else in `dist`, which the repository carries.

use std::env;
use std::path::{Path, PathBuf};

const VARIABLE: &str = "BRADOVUSC_LIB_DIR";

/// The library's names: as it is built, and as it is carried and installed.
const NAMES: [&str; 2] = ["exported", "bradovusc"];

fn main() {
    println!("cargo:rerun-if-env-changed={VARIABLE}");
    let (arch, os) = (cargo("CARGO_CFG_TARGET_ARCH"), cargo("CARGO_CFG_TARGET_OS"));
    if (arch.as_str(), os.as_str()) != ("x86_64", "linux") {
        println!("cargo:warning=the library is x86-64 Linux's: for {arch} {os} nothing is linked");
        return;
    }
    let folders = env::var_os(VARIABLE).map_or_else(carried_here, |named| vec![named.into()]);
    let (folder, name) = folders
        .iter()
        .find_map(|folder| Some((folder, found_in(folder)?)))
        .unwrap_or_else(|| panic!("{}", missing_in(&folders)));
    println!("cargo:rerun-if-changed={}", folder.join(file(name)).display());
    println!("cargo:rustc-link-search=native={}", folder.display());
    println!("cargo:rustc-link-lib=static={name}");
}

/// The file of the library of this name.
fn file(name: &str) -> String {
    format!("lib{name}.a")
}

/// The name under which the library stands in a folder.
fn found_in(folder: &Path) -> Option<&'static str> {
    NAMES.into_iter().find(|name| folder.join(file(name)).is_file())
}

/// What is said where none of these folders has the library.
fn missing_in(folders: &[PathBuf]) -> String {
    let folders: Vec<_> = folders.iter().map(|folder| folder.display().to_string()).collect();
    format!(
        "no {} in {}: write it by `tools/build exported`, or name its folder in {VARIABLE}",
        NAMES.map(file).join(" or "),
        folders.join(" or ")
    )
}

/// The folders of this repository in which the library may stand: what was built here comes first.
fn carried_here() -> Vec<PathBuf> {
    let top = Path::new(&cargo("CARGO_MANIFEST_DIR")).join("../..");
    vec![top.join("crates/exported/out"), top.join("dist")]
}

/// A variable that cargo sets for every build script.
fn cargo(name: &str) -> String {
    env::var(name).unwrap_or_default()
}
