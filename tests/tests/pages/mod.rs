//! The page of the catalogue, as `bin/unloop --page` writes it, and what is looked for in it.

use crate::session::command;
use simulator::executed::{ended, netlists, root, Scratch};
use std::path::Path;
use std::process::Command;

pub fn stem(path: &Path) -> String {
    path.file_stem().unwrap().to_str().unwrap().to_string()
}

/// The pages of the catalogue in a folder `out`; `Graphviz` is not found where the path is empty.
pub fn pages(dot: bool) -> Scratch {
    let scratch = Scratch::new();
    let mut command = command(&scratch);
    if !dot {
        command = Command::new(root().join("target/driver/release/unloop-files"));
        command
            .current_dir(scratch.path("."))
            .env("PATH", "")
            .arg("no-program");
    }
    let ended = ended(command.args(["--page", "out"]).args(netlists()), b"");
    let (all, errors) = (netlists().len(), String::from_utf8(ended.stderr).unwrap());
    assert!(
        errors.starts_with(&format!("out/index.html: {all} netlists: ")),
        "{errors}"
    );
    assert_eq!((ended.status.code(), ended.stdout.len()), (Some(0), 0));
    scratch
}

/// What stands between two marks, each time.
pub fn between<'a>(text: &'a str, before: &str, behind: &str) -> Vec<&'a str> {
    let parts = text.split(before).skip(1);
    parts
        .map(|part| part.split_once(behind).expect("an end").0)
        .collect()
}

/// The only such place.
#[track_caller]
pub fn only<'a>(text: &'a str, before: &str, behind: &str) -> &'a str {
    match between(text, before, behind)[..] {
        [found] => found,
        ref other => panic!("{} times {before}", other.len()),
    }
}

/// A section of a page.
#[track_caller]
pub fn section<'a>(page: &'a str, id: &str) -> &'a str {
    only(page, &format!("<section id=\"{id}\">"), "</section>")
}

/// The text of a piece of a page: without its elements.
pub fn plain(piece: &str) -> String {
    let mut text = String::new();
    for part in piece.split('<') {
        text += part.split_once('>').map_or(part, |(_, behind)| behind);
    }
    let text = text.replace("&lt;", "<").replace("&gt;", ">");
    text.replace("&quot;", "\"").replace("&amp;", "&")
}
