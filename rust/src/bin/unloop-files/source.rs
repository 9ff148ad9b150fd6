//! Where a text comes from.

use std::fs::File;
use std::io::{self, Read};
use std::path::{Path, PathBuf};
use unloop::limits::COUNTED_BYTES;

/// More than the longest text: the report of a longer one says by how much, and a huge file costs no more.
const BYTES_READ: u64 = COUNTED_BYTES as u64 + 1;

pub enum Source {
    Input,
    File(PathBuf),
}

/// Whether a path as it was given means standard input.
pub fn is_input(path: &Path) -> bool {
    path == Path::new("-")
}

impl Source {
    /// The file of this path, or standard input for `-`.
    pub fn of(path: PathBuf) -> Source {
        match is_input(&path) {
            true => Source::Input,
            false => Source::File(path),
        }
    }

    /// How reports name it.
    pub fn name(&self) -> String {
        match self {
            Source::Input => "<stdin>".to_string(),
            Source::File(path) => shown(path),
        }
    }

    /// The file's path, where it is one.
    pub fn path(&self) -> Option<&PathBuf> {
        match self {
            Source::Input => None,
            Source::File(path) => Some(path),
        }
    }

    /// The last part of the file's path.
    pub fn last_part(&self) -> String {
        let part = self.path().and_then(|path| path.file_name());
        part.map_or_else(|| self.name(), |part| shown(part.as_ref()))
    }

    /// The file's name without its ending.
    pub fn stem(&self) -> String {
        let stem = self.path().and_then(|path| path.file_stem());
        stem.map_or("stdin".to_string(), |stem| {
            stem.to_string_lossy().into_owned()
        })
    }

    /// All bytes, however many.
    pub fn whole_text(&self) -> io::Result<Vec<u8>> {
        let mut text = Vec::new();
        match self {
            Source::Input => io::stdin().lock().read_to_end(&mut text)?,
            Source::File(path) => File::open(path)?.read_to_end(&mut text)?,
        };
        Ok(text)
    }

    /// The bytes of a netlist; of a text that is too long no more than tells so.
    pub fn text(&self) -> io::Result<Vec<u8>> {
        let mut text = Vec::new();
        match self {
            Source::Input => io::stdin().lock().take(BYTES_READ).read_to_end(&mut text)?,
            Source::File(path) => File::open(path)?.take(BYTES_READ).read_to_end(&mut text)?,
        };
        Ok(text)
    }
}

/// A path in one line, whatever bytes it has.
pub fn shown(path: &Path) -> String {
    let name = path.to_string_lossy();
    name.replace(char::is_control, "?")
}

/// An error in words, without the system's number.
pub fn reason(error: &io::Error) -> String {
    let words = error.to_string();
    match words.split_once(" (os error ") {
        Some((words, _)) => words.to_string(),
        None => words,
    }
}
