//! The entries of a catalogue: NAME.net, the original, and the files beside it that have its facts.

use crate::source::{reason, shown, Source};
use std::collections::BTreeSet;
use std::ffi::OsString;
use std::fs;
use std::io::{self, ErrorKind};
use std::path::{Path, PathBuf};

pub const ORIGINAL: &str = "net";
pub const OUT: &str = "out";
pub const COVER: &str = "cover";
pub const CELLS: &str = "cells";
/// The files of an entry.
const ENDINGS: [&str; 4] = [ORIGINAL, OUT, COVER, CELLS];

/// The files of an entry; what is not there is none.
pub struct Entry {
    pub name: String,
    pub original: Option<Vec<u8>>,
    pub out: Option<Vec<u8>>,
    pub cover: Option<Vec<u8>>,
    /// A table of cells, made here or elsewhere.
    pub cells: Option<Vec<u8>>,
}

/// Entries by their paths without an ending, sorted, and why some of what was given has none.
#[derive(Default)]
pub struct Found {
    pub bases: BTreeSet<PathBuf>,
    pub errors: Vec<String>,
}

impl Found {
    /// The entries of folders, with those below them where it is `recursive`, and those of files by any of their names. The files of an
    /// entry may be gone, but not all of them.
    pub fn of(paths: &[PathBuf], recursive: bool) -> Found {
        let mut found = Found::default();
        for path in paths {
            let before = found.bases.len();
            let told = found.errors.len();
            match path.is_dir() {
                true => found.walk(path, recursive),
                false => found.file(path),
            }
            let none = found.bases.len() == before && found.errors.len() == told;
            if path.is_dir() && none && !found.has_some(path) {
                let why = "no NAME.net, NAME.out, NAME.cover or NAME.cells is in it";
                found.errors.push(format!("{}: {why}", shown(path)));
            }
        }
        found
    }

    /// Whether an entry of a folder is known, from an earlier path.
    fn has_some(&self, folder: &Path) -> bool {
        self.bases.iter().any(|base| base.starts_with(folder))
    }

    fn walk(&mut self, folder: &Path, recursive: bool) {
        let listed = fs::read_dir(folder).and_then(Iterator::collect::<io::Result<Vec<_>>>);
        let entries = match listed {
            Ok(entries) => entries,
            Err(error) => return self.failed(folder, &error),
        };
        for entry in entries {
            self.bases.extend(base_of(&entry.path()));
            // A link to a folder is not followed: it may lead back.
            if recursive && entry.file_type().is_ok_and(|kind| kind.is_dir()) {
                self.walk(&entry.path(), recursive);
            }
        }
    }

    fn file(&mut self, path: &Path) {
        let there = |base: &PathBuf| {
            let mut endings = ENDINGS.iter();
            endings.any(|ending| beside(base, ending).symlink_metadata().is_ok())
        };
        match (base_of(path), path.symlink_metadata()) {
            (Some(base), _) if there(&base) => drop(self.bases.insert(base)),
            (_, Err(error)) => self.failed(path, &error),
            _ => {
                let why = "it is no NAME.net, NAME.out, NAME.cover or NAME.cells";
                self.errors.push(format!("{}: {why}", shown(path)));
            }
        }
    }

    fn failed(&mut self, path: &Path, error: &io::Error) {
        let error = format!("{}: {}", shown(path), reason(error));
        self.errors.push(error);
    }
}

/// The path of an entry's file without its ending; none where it is no file of one.
fn base_of(path: &Path) -> Option<PathBuf> {
    let ending = path.extension().and_then(|ending| ending.to_str())?;
    let known = ENDINGS.contains(&ending);
    known.then(|| path.with_extension(""))
}

/// The path of one of an entry's files. Its name may have dots of its own.
pub fn beside(base: &Path, ending: &str) -> PathBuf {
    let mut path: OsString = base.as_os_str().to_owned();
    path.push(".");
    path.push(ending);
    path.into()
}

/// Reads the files of an entry; an error is one that is there and can't be read.
pub fn read(base: &Path) -> Result<Entry, String> {
    type Bytes = io::Result<Vec<u8>>;
    let file = |ending: &str, bytes: fn(&Source) -> Bytes| {
        let source = Source::File(beside(base, ending));
        match bytes(&source) {
            Ok(text) => Ok(Some(text)),
            Err(error) if error.kind() == ErrorKind::NotFound => Ok(None),
            Err(error) => Err(format!("{}: {}", source.name(), reason(&error))),
        }
    };
    Ok(Entry {
        name: shown(base),
        original: file(ORIGINAL, Source::text)?,
        out: file(OUT, Source::text)?,
        // A cover may be longer than any netlist, and so may be a table.
        cover: file(COVER, Source::whole_text)?,
        cells: file(CELLS, Source::whole_text)?,
    })
}

/// How the original of an entry is named.
pub fn original(entry: &str) -> String {
    format!("{entry}.{ORIGINAL}")
}
