//! tests/soak tells a difference, and ends with it: here with a library in which two operations are exchanged.

use simulator::executed::{ended, library_folder, root, Scratch};
use std::fs;
use std::path::Path;
use std::process::{Command, Output};

fn run(command: &mut Command) -> Output {
    let ended = ended(command, b"");
    assert!(ended.status.success(), "{ended:?}");
    ended
}

/// The library that ships with two of its functions exchanged, in a folder.
fn exchange(folder: &Path, [one, other]: [&str; 2]) {
    let library = folder.join("libexports.a");
    let shipped = library_folder().join("libexports.a");
    let names = folder.join("names");
    let pairs = format!("unloop_{one} unloop_{other}\nunloop_{other} unloop_{one}\n");
    fs::write(&names, pairs).expect("a file");
    let mut objcopy = Command::new("objcopy");
    let mut redefine = std::ffi::OsString::from("--redefine-syms=");
    redefine.push(&names);
    run(objcopy.arg(redefine).arg(shipped).arg(library));
}

/// The soak over a library of this folder, built without optimisation.
fn soak(folder: &Path, built: &Path) -> Command {
    let mut cargo = Command::new(env!("CARGO"));
    cargo.args([
        "build",
        "--offline",
        "--quiet",
        "--bin",
        "soak",
        "--manifest-path",
    ]);
    cargo.arg(root().join("tests/Cargo.toml"));
    cargo.env("UNLOOP_LIBRARY", folder);
    cargo.env("CARGO_TARGET_DIR", built);
    run(&mut cargo);
    Command::new(built.join("debug/soak"))
}

/// Settle and Pass have the same parameters: only what they answer tells that they are exchanged.
#[test]
fn a_difference_is_told_with_its_seed() {
    let [library, built] = [(); 2].map(|()| Scratch::new());
    exchange(&library.path(""), ["settle", "pass"]);
    let mut soak = soak(&library.path(""), &built.path(""));
    let ended = ended(soak.args(["1", "4001"]), b"");
    assert_eq!(ended.status.code(), Some(1), "{ended:?}");
    let told = String::from_utf8_lossy(&ended.stderr);
    assert!(told.contains("Settle in a slice of "), "{told}");
    assert!(told.contains("failed: seed 4001, "), "{told}");
    let told = String::from_utf8_lossy(&ended.stdout);
    assert!(told.starts_with("first seed 4001, "), "{told}");
    assert!(told.ends_with("DIFFERS\n"), "{told}");
}
