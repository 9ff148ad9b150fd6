//! The documents speak of what is there: every name in backticks, every file, every link; and the first netlist of README goes as it is told.

use simulator::executed::{ended, root, Scratch};
use std::collections::HashSet;
use std::path::Path;
use std::process::Command;
use std::{env, fs};

/// What speaks of today. docs/LANDINGS.md and docs/landings/ are history.
const DOCUMENTS: [&str; 10] = [
    "README.md",
    "CONTRIBUTING.md",
    "docs/SPECIFICATION.md",
    "docs/GUARANTEES.md",
    "docs/ARCHITECTURE.md",
    "docs/DECISIONS.md",
    "docs/KEEPER.md",
    "docs/OPERATIONS.md",
    "docs/CALLING.md",
    "docs/GLOSSARY.md",
];

/// The files that git knows or would take, by their paths in the repository.
fn files() -> Vec<String> {
    let mut command = Command::new("git");
    command.args(["ls-files", "--cached", "--others", "--exclude-standard"]);
    let listed = ended(command.current_dir(root()), b"");
    assert!(listed.status.success(), "{listed:?}");
    let listed = String::from_utf8(listed.stdout).expect("paths");
    let there = |path: &&str| root().join(path).is_file();
    listed
        .lines()
        .filter(there)
        .map(|path| path.to_string())
        .collect()
}

fn is_part_of_a_name(c: char) -> bool {
    c.is_alphanumeric() || c == '_' || c == '-' || c == '′'
}

/// The names in a text: letters, digits, `_` and `-`, as proofs write them, and their parts between hyphens.
fn names(text: &str) -> impl Iterator<Item = &str> {
    let whole = text.split(|c| !is_part_of_a_name(c));
    whole.flat_map(|name| name.split('-').chain([name]))
}

/// Every name that stands in a file which is no document, and every file's and folder's own name.
fn known(files: &[String]) -> HashSet<String> {
    let mut known = HashSet::new();
    for path in files {
        known.extend(names(path).map(str::to_string));
        if DOCUMENTS.contains(&path.as_str()) || path.starts_with("docs/landings") {
            continue;
        }
        if let Ok(text) = fs::read_to_string(root().join(path)) {
            known.extend(names(&text).map(str::to_string));
        }
    }
    known
}

fn document(path: &str) -> String {
    fs::read_to_string(root().join(path)).unwrap_or_else(|why| panic!("{path}: {why}"))
}

/// Stands for a name of the reader's own, as `NAME` and `unloop-PID-N` do; or the toolchain's word for what it refuses.
fn is_placeholder(name: &str) -> bool {
    let parts: Vec<&str> = name.split('-').collect();
    let is_free = |part: &&str| part.chars().all(|c| c.is_uppercase());
    parts.iter().any(is_free) || name == "invalid-entry-clause"
}

/// The lines of a document that are no code, with their numbers.
fn prose(text: &str) -> impl Iterator<Item = (&str, usize)> {
    let lines = text.lines().zip(1..);
    lines.filter(|(line, _)| !line.starts_with("    "))
}

/// The parts of a line between backticks.
fn quoted(line: &str) -> impl Iterator<Item = &str> {
    line.split('`').skip(1).step_by(2)
}

#[test]
fn names_in_backticks_are_there() {
    let known = known(&files());
    let mut gone = Vec::new();
    for path in DOCUMENTS {
        for (line, number) in document(path).lines().zip(1..) {
            for name in quoted(line).flat_map(|part| part.split(|c| !is_part_of_a_name(c))) {
                let is_name = name.len() > 2 && name.starts_with(|c: char| c.is_alphabetic());
                if is_name && !known.contains(name) && !is_placeholder(name) {
                    gone.push(format!("{path}:{number}: {name}"));
                }
            }
        }
    }
    assert!(
        gone.is_empty(),
        "{} names:\n{}",
        gone.len(),
        gone.join("\n")
    );
}

#[test]
fn files_are_there() {
    let files = files();
    let endings = [
        ".antt", ".rt", ".rs", ".md", ".net", ".sh", ".h", ".edit", ".svg",
    ];
    let mut gone = Vec::new();
    for path in DOCUMENTS {
        for (line, number) in prose(&document(path)) {
            let words = line.split(|c: char| c.is_whitespace() || "`()[]<>,;:*|\"'{}".contains(c));
            for word in words.map(|word| word.trim_end_matches('.')) {
                let is_file = endings.iter().any(|ending| {
                    word.ends_with(ending) && word.len() > ending.len() && !word.contains("..")
                });
                let placeholder = word.split('/').any(|part| {
                    let stem = part.split('.').next().unwrap_or_default();
                    stem == "first" || is_placeholder(stem)
                });
                let end = format!("/{word}");
                let there = files
                    .iter()
                    .any(|file| file == word || file.ends_with(&end));
                if is_file && !placeholder && !there && !word.starts_with('/') {
                    gone.push(format!("{path}:{number}: {word}"));
                }
            }
        }
    }
    assert!(
        gone.is_empty(),
        "{} files:\n{}",
        gone.len(),
        gone.join("\n")
    );
}

#[test]
fn links_lead_somewhere() {
    let mut gone = Vec::new();
    for path in DOCUMENTS {
        let text = document(path);
        for part in text.split("](").skip(1) {
            let target = part.split(')').next().unwrap_or_default();
            let file = target.split('#').next().unwrap_or_default();
            let folder = Path::new(path).parent().expect("a file");
            if !file.is_empty() && !root().join(folder).join(file).exists() {
                gone.push(format!("{path}: {target}"));
            }
        }
    }
    assert!(gone.is_empty(), "{}", gone.join("\n"));
}

/// The indented blocks of a document, without their indent.
fn blocks(text: &str) -> Vec<String> {
    let mut blocks = vec![String::new()];
    for line in text.lines() {
        match line.strip_prefix("    ") {
            Some(code) => blocks.last_mut().expect("one").extend([code, "\n"]),
            None if !blocks.last().expect("one").is_empty() => blocks.push(String::new()),
            None => {}
        }
    }
    blocks
}

/// README's first netlist is rendered as it stands there, and its wrong version is refused with these words.
#[test]
fn the_first_netlist() {
    let blocks = blocks(&document("README.md"));
    let at = blocks
        .iter()
        .position(|block| block.contains("bin/unloop first.net"));
    let at = at.expect("the call");
    let (netlist, rendering, report) = (&blocks[at - 1], &blocks[at + 1], &blocks[at + 2]);
    let scratch = Scratch::new();
    let rendered = |text: &str| {
        scratch.put("first.net", text);
        let mut command = Command::new(root().join("bin/unloop"));
        command.arg("first.net").current_dir(scratch.path(""));
        command.env("PATH", env::var_os("PATH").unwrap_or_default());
        ended(&mut command, b"")
    };
    let good = rendered(netlist);
    assert_eq!(String::from_utf8_lossy(&good.stdout), rendering.as_str());
    assert_eq!(good.status.code(), Some(0));
    let wrong = rendered(&netlist.replace("(or s p)", "(or p p)"));
    assert_eq!(String::from_utf8_lossy(&wrong.stderr), report.as_str());
    assert_eq!(wrong.status.code(), Some(1));
}
