//! Standard output, or the file of `-o`.

use crate::failed;
use crate::folder::identity;
use crate::source::{reason, shown};
use std::fs::{self, File};
use std::io::{self, ErrorKind, Write};
use std::path::PathBuf;
use std::sync::OnceLock;

/// The file of `-o` and its name, where it is given.
static FILE: OnceLock<(File, String)> = OnceLock::new();

/// The path of `-o`, where the file is opened when something is written.
static LATER: OnceLock<PathBuf> = OnceLock::new();

/// Has what is written go to a file, which is made or replaced; never one of those that are read.
pub fn open(path: PathBuf, reads: &[PathBuf]) -> Result<(), String> {
    is_no_source(&path, reads)?;
    let name = shown(&path);
    let file = File::create(&path).map_err(|error| format!("{name}: {}", reason(&error)))?;
    FILE.set((file, name)).expect("opened once");
    Ok(())
}

/// The same, but the file stays as it is until something is written.
pub fn open_later(path: PathBuf, reads: &[PathBuf]) -> Result<(), String> {
    is_no_source(&path, reads)?;
    LATER.set(path).expect("given once");
    Ok(())
}

fn is_no_source(path: &PathBuf, reads: &[PathBuf]) -> Result<(), String> {
    let name = shown(path);
    let found = |path: &PathBuf| fs::metadata(path).ok().map(|found| identity(&found));
    let there = found(path);
    match there.is_some() && reads.iter().any(|read| found(read) == there) {
        true => Err(format!(
            "{name}: is one of the FILEs, and isn't overwritten"
        )),
        false => Ok(()),
    }
}

/// It takes no more.
pub struct Stopped;

/// Writes there. That a reader has gone is no news to anyone; other failures are told.
pub fn put(bytes: &[u8]) -> Result<(), Stopped> {
    if let (None, Some(path)) = (FILE.get(), LATER.get()) {
        if let Err(reason) = open(path.clone(), &[]) {
            failed(&reason);
            return Err(Stopped);
        }
    }
    let (written, name) = match FILE.get() {
        Some((file, name)) => ((&*file).write_all(bytes), &name[..]),
        None => {
            let mut output = io::stdout().lock();
            let written = output.write_all(bytes).and_then(|()| output.flush());
            (written, "standard output")
        }
    };
    written.map_err(|error| {
        if error.kind() != ErrorKind::BrokenPipe {
            failed(&format!("{name}: {}", reason(&error)));
        }
        Stopped
    })
}
