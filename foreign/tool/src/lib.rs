//! The tool `bradovusc`: can two label rules of a storeroom make the same label?
//!
//! It reads a file of rules, asks the proved library about pairs of them and says what the library
//! said, all by the package [`notation`]; here are the files, the threads, the terminal and the words
//! of the command. docs/NOTATION.md has the notation, the commands, the JSON and the exit statuses.

pub mod catalogue;
pub mod change;
pub mod colours;
pub mod format;
pub mod kinds;
pub mod labels;
pub mod narrow;
pub mod near;
pub mod overlap;
pub mod pairs;
pub mod parallel;
pub mod progress;
pub mod repair;
pub mod replace;
pub mod run;
pub mod sarif;
pub mod spend;
pub mod status;
pub mod teller;
mod terminal;
pub mod undecided;
pub mod words;

pub use bradovusc_notation as notation;
pub use bradovusc_notation::{
    advice, ask, bands, compile, decompile, json, matching, report, sides, source, told, way,
};
