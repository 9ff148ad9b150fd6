//! `--page DIR`: a page on netlists that a browser opens from disk. index.html is an overview; each file has a page of its own. All that is
//! told comes from the library's operations and the never lines; what the browser does (sorting, searching, looking values up, moving
//! drawings) is in page.js.
//! With `--audit` the netlists are those of a catalogue's entries, and their pages have what the audit says of them.

mod dot;
mod drawn;
mod entry;
mod excluded;
mod facts;
mod files;
mod html;
mod overview;
mod sheet;
mod svg;
mod texts;

use crate::catalogue::{beside, original, read, Found, CELLS, COVER, ORIGINAL, OUT};
use crate::folder::Folder;
use crate::options::{Audited, Target};
use crate::parallel::in_order;
use crate::source::{reason, shown, Source};
use crate::{tally, Screen};
use entry::Entry;
use facts::Facts;
use std::collections::HashSet;
use std::ops::ControlFlow;
use std::path::{Path, PathBuf};
use std::process::ExitCode;

const STYLE: &str = include_str!("page/page.css");
const SCRIPT: &str = include_str!("page/page.js");

/// A netlist that is on the page: where it is from, its text, and what is stored beside it where that is asked for.
type Read = (Source, Vec<u8>, Option<Facts>);

/// Writes the page. A file that can't be read, or whose page can't be written, is told, and the others are done; an error is a folder that
/// takes no page at all.
pub fn run(target: &Target, files: Vec<PathBuf>) -> Result<ExitCode, String> {
    let (mut netlists, mut errors) = (Vec::new(), Vec::new());
    for source in files.iter().cloned().map(Source::File) {
        match source.text() {
            Ok(text) => netlists.push((source, text, None)),
            Err(error) => errors.push(told(format!("{}: {}", source.name(), reason(&error)))),
        }
    }
    write(target, &files, netlists, errors)
}

/// Writes the page of a catalogue's entries: those that have lost a fact first.
pub fn run_audited(target: &Target, audited: &Audited) -> Result<ExitCode, String> {
    let Found { bases, errors } = Found::of(&audited.paths, audited.recursive);
    let mut errors: Vec<String> = errors.into_iter().map(told).collect();
    let bases: Vec<PathBuf> = bases.into_iter().collect();
    let mut netlists = Vec::new();
    let _ = in_order(
        &bases,
        |base| facts(base),
        |_| {},
        |_, read| {
            match read {
                Ok(read) => netlists.push(read),
                Err(reason) => errors.push(told(reason)),
            }
            ControlFlow::Continue(())
        },
    );
    netlists.sort_by_key(|(_, _, facts)| facts.as_ref().is_some_and(Facts::hold));
    // No file of an entry is overwritten, wherever the page is.
    let of_entry =
        |base: &PathBuf| [ORIGINAL, OUT, COVER, CELLS].map(|ending| beside(base, ending));
    let kept: Vec<PathBuf> = bases.iter().flat_map(of_entry).collect();
    write(target, &kept, netlists, errors)
}

/// The original of an entry, and its facts.
fn facts(base: &Path) -> Result<Read, String> {
    let entry = read(base)?;
    let Some(text) = &entry.original else {
        return Err(format!("{}: no original", original(&entry.name)));
    };
    let facts = Facts::of(base, &entry, text);
    let source = Source::File(beside(base, ORIGINAL));
    Ok((source, text.clone(), Some(facts)))
}

/// Writes the page of netlists; `kept`: the files that it doesn't overwrite, `errors`: what is told of those that can't be read.
fn write(
    target: &Target,
    kept: &[PathBuf],
    netlists: Vec<Read>,
    mut errors: Vec<String>,
) -> Result<ExitCode, String> {
    let entries = entries(netlists);
    if entries.is_empty() {
        return Ok(ExitCode::from(tally::ERROR));
    }
    entries.iter().try_for_each(Entry::looked_at)?;
    let folder = Folder::open(target.folder.clone(), target.force, kept)?;
    put_overview(&folder, &entries, &errors)?;
    let beside = Folder::open(target.folder.join(files::FOLDER), target.force, kept)?;
    let numbered: Vec<usize> = (0..entries.len()).collect();
    let mut done = Vec::new();
    let _ = in_order(
        &numbered,
        |&index| put(&entries, index, &folder, &beside),
        |_| {},
        |index, written| {
            match written {
                Ok(()) => done.push(&entries[index]),
                Err(reason) => errors.push(told(reason)),
            }
            ControlFlow::Continue(())
        },
    );
    Screen::plain().say(&[format!(
        "{}: {}",
        shown(&target.folder.join("index.html")),
        overview::summary(&done, errors.len())
    )]);
    let status = if errors.is_empty() { 0 } else { tally::ERROR };
    Ok(ExitCode::from(status))
}

/// Writes what all pages have in common. The index is first: where a page stands already, nothing else is written.
fn put_overview(folder: &Folder, entries: &[Entry], errors: &[String]) -> Result<(), String> {
    let index = overview::page(entries, errors);
    for (name, content) in [
        ("index.html", &index[..]),
        ("page.css", STYLE),
        ("page.js", SCRIPT),
    ] {
        folder.put(Path::new(name), content.as_bytes())?;
    }
    Ok(())
}

/// Writes the page of an entry and the files beside it. The drawing of a page that was there stays where it would be the same.
fn put(entries: &[Entry], index: usize, folder: &Folder, beside: &Folder) -> Result<(), String> {
    let files = files::files(&entries[index]);
    files
        .iter()
        .try_for_each(|file| file.looked_at(&entries[index]))?;
    let name = Path::new(&entries[index].page);
    let before = folder.replaced(name);
    let page = entry::page(entries, index, &files, before.as_deref());
    folder.put(name, page.as_bytes())?;
    let mut files = files.iter();
    files.try_for_each(|file| beside.put(Path::new(&file.name), &file.content))
}

/// An error that the others go on after.
fn told(reason: String) -> String {
    Screen::plain().say(&[format!("unloop: {reason}")]);
    reason
}

/// The netlists with the names of their pages, and what became of them.
fn entries(netlists: Vec<Read>) -> Vec<Entry> {
    let pages = page_names(netlists.iter().map(|(source, _, _)| source));
    let named: Vec<(Read, String)> = netlists.into_iter().zip(pages).collect();
    let mut entries: Vec<Entry> = Vec::new();
    let _ = in_order(
        &named,
        |((source, text, _), page)| Entry::new(source, page, text),
        |_| {},
        |_, entry| {
            entries.push(entry);
            ControlFlow::Continue(())
        },
    );
    for (entry, ((_, _, facts), _)) in entries.iter_mut().zip(named) {
        entry.facts = facts;
    }
    entries
}

/// The name of each file's page: of its stem, with a number behind it where that is taken.
fn page_names<'a>(sources: impl Iterator<Item = &'a Source>) -> Vec<String> {
    let mut taken = HashSet::from(["index.html".to_string()]);
    let plain = |c: char| {
        if c.is_ascii_alphanumeric() || "-_.".contains(c) {
            c
        } else {
            '_'
        }
    };
    let name = |source: &Source| {
        let stem: String = source.stem().chars().map(plain).collect();
        let mut names = (1..).map(|number| match number {
            1 => format!("{stem}.html"),
            _ => format!("{stem}-{number}.html"),
        });
        names
            .find(|name| taken.insert(name.clone()))
            .unwrap_or_default()
    };
    sources.map(name).collect()
}
