//! Gives a whole file its name where nothing has that name yet.

use std::ffi::{c_char, c_int, c_uint, CString};
use std::fs;
use std::io::{self, ErrorKind};
use std::os::unix::ffi::OsStrExt;
use std::path::Path;

/// Gives the file a name that nothing has, even if something comes to it this moment: by a link, which is never made over a file; where the file
/// system has none, by a renaming that replaces nothing. Only where it knows neither, it is looked whether there is something, and then renamed.
pub fn name_anew(file: &Path, name: &Path) -> io::Result<()> {
    let linked = fs::hard_link(file, name);
    let exists = |error: &io::Error| error.kind() == ErrorKind::AlreadyExists;
    match linked {
        Err(error) if !exists(&error) => {}
        done => return done,
    }
    match renamed_anew(file, name) {
        Err(error) if !exists(&error) => {}
        done => return done,
    }
    match name.symlink_metadata() {
        Ok(_) => Err(ErrorKind::AlreadyExists.into()),
        Err(_) => fs::rename(file, name),
    }
}

extern "C" {
    /// Of the system's C library; Rust's own library has no such renaming.
    fn renameat2(
        folder: c_int,
        file: *const c_char,
        new_folder: c_int,
        name: *const c_char,
        flags: c_uint,
    ) -> c_int;
}

/// Paths are from the current folder on, and what has the name is not replaced.
const CURRENT_FOLDER: c_int = -100;
const REPLACE_NOTHING: c_uint = 1;

fn renamed_anew(file: &Path, name: &Path) -> io::Result<()> {
    let (file, name) = (c_path(file)?, c_path(name)?);
    // SAFETY: both are C strings that live until it returns.
    let status = unsafe {
        renameat2(
            CURRENT_FOLDER,
            file.as_ptr(),
            CURRENT_FOLDER,
            name.as_ptr(),
            REPLACE_NOTHING,
        )
    };
    match status {
        0 => Ok(()),
        _ => Err(io::Error::last_os_error()),
    }
}

fn c_path(path: &Path) -> io::Result<CString> {
    Ok(CString::new(path.as_os_str().as_bytes())?)
}
