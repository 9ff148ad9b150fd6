//! Files that appear whole or not at all: in the folder of `--into` and `--page`, and beside the originals of `--store`.

use crate::naming::name_anew;
use crate::source::{reason, shown};
use std::collections::HashSet;
use std::ffi::{OsStr, OsString};
use std::fs::{self, File, Metadata};
use std::io::{self, ErrorKind, Write};
use std::os::unix::fs::MetadataExt;
use std::path::{Path, PathBuf};
use std::sync::atomic::{AtomicUsize, Ordering};

pub struct Folder {
    path: PathBuf,
    force: bool,
    /// Device and number of each file given.
    originals: HashSet<(u64, u64)>,
    claimed: HashSet<OsString>,
}

impl Folder {
    /// The folder, made where it is missing.
    pub fn open(path: PathBuf, force: bool, files: &[PathBuf]) -> Result<Folder, String> {
        fs::create_dir_all(&path).map_err(|error| about(&path, &reason(&error)))?;
        let found = files.iter().filter_map(|file| fs::metadata(file).ok());
        Ok(Folder {
            originals: found.map(|found| identity(&found)).collect(),
            claimed: HashSet::new(),
            path,
            force,
        })
    }

    /// Takes the file's name here, which a file before it may have taken.
    pub fn claim(&mut self, file: &Path) -> Result<(), String> {
        let name = file.file_name();
        let name = name.ok_or_else(|| about(file, "has no name of its own"))?;
        match self.claimed.insert(name.to_owned()) {
            true => Ok(()),
            false => Err(about(file, "a FILE before it has the same name")),
        }
    }

    /// Puts the rendering of a file here, under the last part of its path.
    pub fn put(&self, file: &Path, rendering: &[u8]) -> Result<(), String> {
        let target = self.path.join(file.file_name().unwrap_or(OsStr::new("")));
        let there = fs::metadata(&target);
        if there.is_ok_and(|there| self.originals.contains(&identity(&there))) {
            return Err(about(&target, "is one of the FILEs, and isn't overwritten"));
        }
        self.moved(&target, rendering).map_err(|error| {
            let exists = !self.force && error.kind() == ErrorKind::AlreadyExists;
            let why = if exists {
                "exists already (--force replaces it)"
            } else {
                &reason(&error)
            };
            about(&target, why)
        })
    }

    /// What stands under a name and is to be replaced; nothing where it is no text, or nothing is replaced here.
    pub fn replaced(&self, name: &Path) -> Option<String> {
        let found = self.force.then(|| fs::read_to_string(self.path.join(name)));
        found?.ok()
    }

    fn moved(&self, target: &Path, rendering: &[u8]) -> io::Result<()> {
        let (held, mut file) = Temporary::new(&self.path)?;
        file.write_all(rendering)?;
        match self.force {
            true => fs::rename(&held.0, target),
            false => name_anew(&held.0, target),
        }
    }
}

/// Puts each content into its file, in the place of what is there, or removes the file. All are made ready before the first is moved.
pub fn replace(files: &[(PathBuf, Option<Vec<u8>>)]) -> Result<(), String> {
    let failed = |path: &Path, error: io::Error| about(path, &reason(&error));
    let mut ready = Vec::new();
    for (path, content) in files {
        let folder = path.parent().filter(|folder| *folder != Path::new(""));
        let made = content.as_ref().map(|content| {
            let (held, mut file) = Temporary::new(folder.unwrap_or(Path::new(".")))?;
            file.write_all(content).map(|()| held)
        });
        ready.push((path, made.transpose().map_err(|error| failed(path, error))?));
    }
    for (path, made) in ready {
        let moved = match made {
            Some(held) => fs::rename(&held.0, path),
            None => fs::remove_file(path),
        };
        moved.map_err(|error| failed(path, error))?;
    }
    Ok(())
}

fn about(path: &Path, what: &str) -> String {
    format!("{}: {what}", shown(path))
}

/// What tells a file from every other.
pub fn identity(found: &Metadata) -> (u64, u64) {
    (found.dev(), found.ino())
}

/// A file of our own that is removed in any case.
struct Temporary(PathBuf);

impl Temporary {
    fn new(folder: &Path) -> io::Result<(Temporary, File)> {
        // A name is taken once: another thread's file is never removed in the place of one that was renamed.
        static TAKEN: AtomicUsize = AtomicUsize::new(0);
        loop {
            let number = TAKEN.fetch_add(1, Ordering::Relaxed);
            let path = folder.join(format!(".unloop-{}-{number}", std::process::id()));
            match File::create_new(&path) {
                Ok(file) => return Ok((Temporary(path), file)),
                Err(error) if error.kind() == ErrorKind::AlreadyExists => {}
                Err(error) => return Err(error),
            }
        }
    }
}

impl Drop for Temporary {
    fn drop(&mut self) {
        // Once renamed it is no longer there.
        let _ = fs::remove_file(&self.0);
    }
}
