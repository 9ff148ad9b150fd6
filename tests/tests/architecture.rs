//! The plan that docs/ARCHITECTURE.md shows is that of crates.txt: its picture, its tables, and the folders.

use simulator::executed::{ended, root};
use std::collections::BTreeSet;
use std::fs;
use std::process::Command;

fn text(path: &str) -> String {
    fs::read_to_string(root().join(path)).unwrap_or_else(|why| panic!("{path}: {why}"))
}

/// The crates of crates.txt.
fn listed() -> BTreeSet<String> {
    let text = text("crates.txt");
    let rows = text.lines().filter(|line| !line.starts_with('#'));
    let names = rows.filter_map(|line| line.split_once([' ', ':']));
    names.map(|(name, _)| name.to_string()).collect()
}

/// What a script of docs/ prints, which is the file that is committed.
fn made(script: &str, file: &str) -> String {
    let printed = ended(&mut Command::new(root().join(script)), b"");
    assert!(printed.status.success(), "{printed:?}");
    let printed = String::from_utf8(printed.stdout).expect("text");
    assert!(printed == text(file), "run {script} > {file}");
    printed
}

/// What docs/picture draws, with crates.txt as it is, is the picture that is committed.
#[test]
fn the_picture_is_drawn_from_crates_txt() {
    let drawn = made("docs/picture", "docs/architecture.svg");
    let rooms = drawn.matches("monospace").count();
    assert_eq!(rooms, listed().len(), "a room for each crate");
}

#[test]
fn every_crate_has_a_row_and_a_folder() {
    let page = text("docs/ARCHITECTURE.md");
    let from = page.find("## The crates").expect("the tables");
    let to = page.find("## The way of a text").expect("their end");
    let rows = page[from..to].lines().filter_map(|line| {
        let cell = line.strip_prefix("| ")?.split(" |").next()?;
        (cell != "crate").then(|| cell.to_string())
    });
    let rows: Vec<String> = rows.collect();
    let once: BTreeSet<String> = rows.iter().cloned().collect();
    assert_eq!(rows.len(), once.len(), "no row twice");
    assert_eq!(once, listed());
    let folders = fs::read_dir(root().join("crates")).expect("crates");
    let folders = folders.map(|entry| entry.expect("an entry").file_name());
    let folders: BTreeSet<String> = folders
        .map(|name| name.into_string().expect("a name"))
        .collect();
    assert_eq!(folders, listed());
}

/// The list of wrong programs that the checker refuses is that of the edits, one row each.
#[test]
fn the_edits_are_listed() {
    let list = made("docs/edits", "docs/MUST_FAIL.md");
    let crates = root().join("crates");
    let edits: usize = listed()
        .iter()
        .map(|name| crates.join(name).join("must-fail"))
        .filter_map(|folder| fs::read_dir(folder).ok())
        .flatten()
        .filter(|entry| entry.as_ref().is_ok_and(|entry| entry.path().is_file()))
        .count();
    assert_eq!(list.matches("\n| `").count(), edits, "a row for each edit");
}
