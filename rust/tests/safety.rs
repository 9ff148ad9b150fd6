//! Each unsafe block says why it is safe.

use std::fs;
use std::path::{Path, PathBuf};

const BLOCK: &str = concat!("unsafe", " {");
const SENTENCE: &str = "// SAFETY: ";

/// The Rust files of this package and of the tests.
fn sources() -> Vec<PathBuf> {
    let root = Path::new(env!("CARGO_MANIFEST_DIR")).join("..");
    let mut folders: Vec<PathBuf> = ["rust", "tests"]
        .iter()
        .flat_map(|package| {
            ["src", "tests", "examples"].map(|folder| root.join(package).join(folder))
        })
        .filter(|folder| folder.exists())
        .collect();
    let mut files = Vec::new();
    while let Some(folder) = folders.pop() {
        for entry in fs::read_dir(&folder).unwrap() {
            let path = entry.unwrap().path();
            match path.is_dir() {
                true => folders.push(path),
                false if path.extension().is_some_and(|end| end == "rs") => files.push(path),
                false => {}
            }
        }
    }
    files
}

#[test]
fn unsafe_blocks_say_why() {
    let mut found = 0;
    for path in sources() {
        let text = fs::read_to_string(&path).unwrap();
        let lines: Vec<&str> = text.lines().map(str::trim_start).collect();
        for (number, line) in lines.iter().enumerate() {
            if line.contains(BLOCK) {
                let comments = lines[..number].iter().rev();
                let mut comments = comments.take_while(|line| line.starts_with("//"));
                let says = comments.any(|line| line.starts_with(SENTENCE));
                assert!(says, "{}:{}: {line}", path.display(), number + 1);
                found += 1;
            }
        }
    }
    assert!(found >= 17, "{found}");
}
