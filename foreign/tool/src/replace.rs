//! Files that are replaced as a whole, so that a crash loses nothing: a new file is written beside the
//! old one, down to the disk, and is then renamed. Whoever else would replace the file waits meanwhile.

use std::ffi::{OsStr, OsString};
use std::fs::{self, File, Metadata, OpenOptions};
use std::io::{self, Write};
use std::os::unix::ffi::OsStrExt;
use std::os::unix::fs::{fchown, MetadataExt};
use std::path::{Path, PathBuf};

use crate::status::Problem;

/// So many files that crashes left may stand beside a file.
const MOST_TRIES: u32 = 1_000;

/// A file that will be replaced, or one that will be begun.
#[derive(Debug)]
pub struct Replaced {
    /// The file itself, behind all links.
    path: PathBuf,
    /// As it is told.
    name: String,
    /// The old file, locked; none where one is begun.
    locked: Option<File>,
}

impl Replaced {
    /// Opens a file that will be replaced, and hands it out to be read. Whoever else would replace it
    /// waits from now on.
    pub fn open(path: &Path) -> Result<(Replaced, File), Problem> {
        let failed = |error| Problem::failed("read", path, &error);
        loop {
            let file = OpenOptions::new().read(true).write(true).open(path).map_err(failed)?;
            if !file.metadata().map_err(failed)?.is_file() {
                // a device or a pipe would be gone
                let name = path.display();
                return Err(Problem::Fault(format!("{name} is no regular file, so it stays")));
            }
            file.lock().map_err(|error| Problem::failed("locked", path, &error))?;
            // another one may have been put there while this one waited
            let (mine, now) =
                (file.metadata().map_err(failed)?, fs::metadata(path).map_err(failed)?);
            if same(&mine, &now) {
                let (name, path) =
                    (path.display().to_string(), fs::canonicalize(path).map_err(failed)?);
                clear_beside(&path);
                let locked = Some(file.try_clone().map_err(failed)?);
                return Ok((Replaced { path, name, locked }, file));
            }
        }
    }

    /// A file that is not there yet.
    pub fn begin(path: &Path) -> Result<Replaced, Problem> {
        let name = path.display().to_string();
        if fs::symlink_metadata(path).is_ok() {
            return Err(there_already(&name));
        }
        clear_beside(path);
        Ok(Replaced { path: path.to_path_buf(), name, locked: None })
    }

    /// Puts other bytes into the file's place. Whatever happens on the way, the old file or the new
    /// one is there, and whole.
    pub fn with(self, bytes: &[u8]) -> Result<(), Problem> {
        let failed = |error| Problem::failed("written", Path::new(&self.name), &error);
        let old = match &self.locked {
            Some(file) => Some(file.metadata().map_err(failed)?),
            None => None,
        };
        // the new file is open, and so locked, until it has its place
        let (file, new) = write_beside(&self.path, bytes, old.as_ref()).map_err(failed)?;
        let put = match &self.locked {
            Some(_) => fs::rename(&new, &self.path),
            None => put_new(&new, &self.path),
        };
        put.map_err(|error| {
            let _ = fs::remove_file(&new);
            match error.kind() {
                io::ErrorKind::AlreadyExists => there_already(&self.name),
                _ => failed(error),
            }
        })?;
        drop(file);
        // the change is made; that it outlasts a loss of power is asked for, not waited on
        let _ = File::open(folder(&self.path)).and_then(|folder| folder.sync_all());
        Ok(())
    }
}

/// Whoever begins a file and finds one hears this, also where another one was quicker by a moment.
fn there_already(name: &str) -> Problem {
    Problem::Fault(format!("{name} is there already, so it is not --new"))
}

/// Puts a new file to a place where none is. A link is never made over a file that someone else has
/// put there meanwhile; where there are no links, the file is renamed.
fn put_new(new: &Path, path: &Path) -> io::Result<()> {
    match fs::hard_link(new, path) {
        Ok(()) => fs::remove_file(new),
        Err(error) if error.kind() == io::ErrorKind::AlreadyExists => Err(error),
        Err(_) => fs::rename(new, path),
    }
}

/// The folder that a file stands in.
fn folder(path: &Path) -> &Path {
    match path.parent() {
        Some(folder) if folder != Path::new("") => folder,
        _ => Path::new("."),
    }
}

/// Writes a new file beside another one, down to the disk, with the owner and the permissions of the
/// old one.
fn write_beside(path: &Path, bytes: &[u8], old: Option<&Metadata>) -> io::Result<(File, PathBuf)> {
    let (mut file, new) = open_beside(path)?;
    let mut write = || {
        file.write_all(bytes)?;
        if let Some(old) = old {
            // only who may give files away can keep another owner
            let _ = fchown(&file, Some(old.uid()), Some(old.gid()));
            file.set_permissions(old.permissions())?;
        }
        file.sync_all()
    };
    match write() {
        Ok(()) => Ok((file, new)),
        Err(error) => {
            let _ = fs::remove_file(&new);
            Err(error)
        }
    }
}

/// Opens a new file beside another one, and locks it, so that it is seen not to be left over.
fn open_beside(path: &Path) -> io::Result<(File, PathBuf)> {
    let mut tries = 0;
    loop {
        let mut name = front_beside(path);
        name.push(format!("{}.{tries}{END_BESIDE}", std::process::id()));
        let new = folder(path).join(name);
        match OpenOptions::new().write(true).create_new(true).open(&new) {
            Ok(file) => {
                // where nothing can be locked, nothing is ever taken away either
                let _ = file.lock();
                // before it was locked, someone may have taken it for one that is left over
                if fs::metadata(&new)
                    .is_ok_and(|now| file.metadata().is_ok_and(|mine| same(&mine, &now)))
                {
                    return Ok((file, new));
                }
            }
            Err(error) if error.kind() != io::ErrorKind::AlreadyExists => return Err(error),
            Err(error) if tries == MOST_TRIES => return Err(error),
            Err(_) => (),
        }
        tries += 1;
    }
}

/// What the name of a new file begins with, and ends with; between stand two numbers.
fn front_beside(path: &Path) -> OsString {
    let mut front = OsString::from(".");
    front.push(path.file_name().unwrap_or(OsStr::new("file")));
    front.push(".");
    front
}

const END_BESIDE: &str = ".new";

/// Takes away the new files that were left beside a file by who was killed. What someone is still
/// writing is locked.
fn clear_beside(path: &Path) {
    let front = front_beside(path);
    let is_beside = |name: &OsStr| {
        let middle = name.as_bytes().strip_prefix(front.as_bytes());
        let middle = middle.and_then(|rest| rest.strip_suffix(END_BESIDE.as_bytes()));
        let numbers = middle.map(|middle| middle.split(|&byte| byte == b'.').collect::<Vec<_>>());
        let is_number = |part: &&[u8]| !part.is_empty() && part.iter().all(u8::is_ascii_digit);
        numbers.is_some_and(|numbers| numbers.len() == 2 && numbers.iter().all(is_number))
    };
    let entries = fs::read_dir(folder(path)).into_iter().flatten().flatten();
    for entry in entries.filter(|entry| is_beside(&entry.file_name())) {
        let is_file = entry.file_type().is_ok_and(|kind| kind.is_file());
        let left = is_file.then(|| File::open(entry.path())).and_then(Result::ok);
        if left.is_some_and(|file| file.try_lock().is_ok()) {
            let _ = fs::remove_file(entry.path());
        }
    }
}

fn same(one: &Metadata, other: &Metadata) -> bool {
    (one.dev(), one.ino()) == (other.dev(), other.ino())
}
