//! Catalogue files: the library's buffer as it is, read and written so that nothing is lost.
//!
//! A file has as many bytes as the buffer, always the same number. So one that is cut anywhere, also
//! among the zeros at its end or between two rules, is known by its length, and refused.

use std::fs::File;
use std::io::Read;
use std::path::Path;

use bradovusc::{catalogue_bytes, drop_strays_catalogue, MendedCatalogue, MOST_RULES};

use crate::decompile::{entries, Entry};
use crate::kinds;
use crate::replace::Replaced;
use crate::report::grouped;
use crate::sides::Place;
use crate::status::Problem;

/// A catalogue file has so many bytes, unless another number is told: 32 rules always fit.
pub const BYTES: usize = catalogue_bytes(MOST_RULES);

/// So much of another file is looked at to see what it is.
const LOOKED_AT: u64 = 1 << 16;

/// A catalogue that was read from a file.
#[derive(Debug)]
pub struct Catalogue {
    pub bytes: Vec<u8>,
    pub entries: Vec<Entry>,
    /// The file, where it will be replaced.
    replaced: Option<Replaced>,
}

impl Catalogue {
    /// Reads a catalogue of so many bytes.
    pub fn read(path: &Path, bytes: usize) -> Result<Catalogue, Problem> {
        let failed = |error| Problem::failed("read", path, &error);
        let file = File::open(path).map_err(failed)?;
        Catalogue::from_file(path, &file, bytes)
    }

    /// Reads a catalogue that will be replaced. Whoever else would replace it waits meanwhile.
    pub fn read_to_replace(path: &Path, bytes: usize) -> Result<Catalogue, Problem> {
        let (replaced, file) = Replaced::open(path)?;
        let catalogue = Catalogue::from_file(path, &file, bytes)?;
        Ok(Catalogue { replaced: Some(replaced), ..catalogue })
    }

    /// An empty catalogue, for a file that is not there yet.
    pub fn empty(path: &Path, bytes: usize) -> Result<Catalogue, Problem> {
        let replaced = Some(Replaced::begin(path)?);
        Ok(Catalogue { bytes: vec![0; bytes], entries: Vec::new(), replaced })
    }

    fn from_file(path: &Path, file: &File, wanted: usize) -> Result<Catalogue, Problem> {
        let failed = |error| Problem::failed("read", path, &error);
        let name = path.display().to_string();
        let kept = file.metadata().map_err(failed)?;
        let mut bytes = Vec::new();
        if kept.is_dir() || kept.len() == wanted as u64 {
            file.take(wanted as u64).read_to_end(&mut bytes).map_err(failed)?;
        }
        if bytes.len() != wanted || kept.len() != wanted as u64 {
            if bytes.is_empty() && kept.is_file() {
                let _ = file.take(LOOKED_AT).read_to_end(&mut bytes);
            }
            let (has, wanted) = (grouped(kept.len() as usize), grouped(wanted));
            let words = format!(
                "{name} has {has} bytes, and a catalogue has {wanted}: it is cut short, or it is none \
                 (--bytes says another length)"
            );
            return Err(wrong_kind(&name, &bytes, words));
        }
        let Some(mut entries) = entries(&bytes) else {
            return Err(wrong_kind(&name, &bytes, no_catalogue(&name, &bytes)));
        };
        let place = Place { file: name.into(), line: None };
        entries.iter_mut().for_each(|entry| entry.side.place = Some(place.clone()));
        Ok(Catalogue { bytes, entries, replaced: None })
    }

    /// Puts other bytes into the place of a catalogue that was read for it, or begun.
    pub fn replace(self, bytes: &[u8]) -> Result<(), Problem> {
        match self.replaced {
            Some(replaced) => replaced.with(bytes),
            None => Err(Problem::Failure("the catalogue was only read".to_string())),
        }
    }
}

/// That a file is a file of rules, if it is one; else what is wrong with it.
fn wrong_kind(name: &str, bytes: &[u8], otherwise: String) -> Problem {
    Problem::Fault(if kinds::is_rules(bytes) { kinds::rules(name) } else { otherwise })
}

/// That the bytes are no catalogue; of such as versions up to 0.8 took for one, how it is mended.
fn no_catalogue(name: &str, bytes: &[u8]) -> String {
    let words = format!("{name} is no catalogue (34)");
    // what the library can mend was one, but for stray patterns
    match drop_strays_catalogue(&mut bytes.to_vec()) {
        MendedCatalogue::Done => words + STRAYS,
        MendedCatalogue::NoCatalogue => words,
    }
}

const STRAYS: &str =
    ": a rule has a pattern for a field that does not stand in it, so it may be from version 0.8 or \
     before. The program drop_strays, or the library's bradovusc_drop_strays_catalogue, takes such \
     patterns out; that comes before carrying over";
