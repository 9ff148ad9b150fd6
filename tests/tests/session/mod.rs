//! `bin/unloop`, run by each test in a folder of its own, whose name holds a space.

pub use simulator::executed::told;
use simulator::executed::{ended, root, Scratch};
use std::process::{Command, Output};
use std::sync::Once;

/// `bin/unloop` in a folder, built before: only the first run of all may say that it builds.
pub fn command(scratch: &Scratch) -> Command {
    static BUILT: Once = Once::new();
    let path = root().join("bin/unloop");
    BUILT.call_once(|| assert!(ended(&mut Command::new(&path), b"").status.success()));
    let mut command = Command::new(path);
    command.current_dir(scratch.path("."));
    command
}

/// Runs it with standard input that is empty.
pub fn run(scratch: &Scratch, words: &[&str]) -> Output {
    ended(command(scratch).args(words), b"")
}

/// A folder with these files.
pub fn with(files: &[(&str, &str)]) -> Scratch {
    let scratch = Scratch::new();
    files
        .iter()
        .for_each(|(name, text)| scratch.put(name, text));
    scratch
}
