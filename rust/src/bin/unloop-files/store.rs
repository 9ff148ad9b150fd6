//! `--store DIR [NAME ...]`: tells what changes in the facts beside each original, and then writes them.

use crate::audit::{
    audited, becomes_refusal, promised_lines, refused_now, refused_with, weaker, Fact,
};
use crate::catalogue::{beside, read, Entry, Found, CELLS, COVER, ORIGINAL, OUT};
use crate::export::made_from;
use crate::folder::replace;
use crate::looked::looked_at;
use crate::parallel::in_order;
use crate::program::Program;
use crate::report::ENTRIES_TOLD;
use crate::screen::Screen;
use crate::source::shown;
use crate::{put, tally, Stopped};
use std::collections::BTreeSet;
use std::ops::ControlFlow;
use std::path::{Path, PathBuf};
use std::process::ExitCode;
use unloop::audit::{cover_text, entry_lines, Audit, Cover, Never, Rendering};
use unloop::second_look::{Form, Language};
use unloop::{cell_table, module_name, Block, Labels, Refusal};

/// What is to be stored.
#[derive(Debug)]
pub struct Store {
    pub folder: PathBuf,
    /// Of these entries only, where there are any.
    pub names: Vec<PathBuf>,
    pub recursive: bool,
    /// Facts that get weaker too.
    pub force: bool,
}

/// What storing an entry comes to: the changes in words, what gets weaker, and the files; one without content is removed.
struct Plan {
    changes: Vec<String>,
    weaker: Vec<String>,
    files: Vec<(PathBuf, Option<Vec<u8>>)>,
}

/// How many entries are stored, are as they were, would get weaker, or are in error.
#[derive(Default)]
struct Counts {
    stored: usize,
    same: usize,
    weaker: usize,
    errors: usize,
}

impl Counts {
    /// Writes an entry, unless it would get weaker.
    fn store(&mut self, plan: &Plan, force: bool) {
        if !plan.weaker.is_empty() && !force {
            self.weaker += 1;
            return;
        }
        match replace(&plan.files) {
            Ok(()) => self.stored += 1,
            Err(reason) => self.failed(&reason),
        }
    }

    fn failed(&mut self, reason: &str) {
        self.errors += 1;
        Screen::plain().say(&[format!("unloop: {reason}")]);
    }

    /// As `3 entries: 1 stored, 1 as before, 1 weaker and not stored without --force`.
    fn summary(&self) -> String {
        let Counts {
            stored,
            same,
            weaker,
            errors,
        } = self;
        let entries = tally::entries(stored + same + weaker + errors);
        let weaker = match weaker {
            0 => String::new(),
            _ => format!(", {weaker} weaker and not stored without --force"),
        };
        let errors = tally::and_errors(*errors);
        format!("{entries}: {stored} stored, {same} as before{weaker}{errors}\n")
    }

    fn status(&self) -> u8 {
        match (self.errors, self.weaker) {
            (0, 0) => 0,
            (0, _) => tally::REFUSED,
            _ => tally::ERROR,
        }
    }
}

/// Tells of all entries and then writes them; an error is a folder that can't be read, or has no original.
pub fn run(program: &Program, store: &Store) -> Result<ExitCode, String> {
    let bases = bases(store)?;
    let mut counts = Counts::default();
    let mut plans = Vec::new();
    let ended = in_order(
        &bases,
        |base| plan(program, base),
        |_| {},
        |index, plan| {
            let mut lines = String::new();
            match plan {
                Ok(plan) if plan.files.is_empty() => counts.same += 1,
                Ok(plan) => {
                    lines = told(store, &bases[index], &plan);
                    plans.push(plan);
                }
                Err(reason) => counts.failed(&reason),
            }
            match put(lines.as_bytes()) {
                Ok(()) => ControlFlow::Continue(()),
                Err(Stopped) => ControlFlow::Break(()),
            }
        },
    );
    // Who could not be told of a change has not seen it: nothing is written.
    if ended.is_break() {
        return Ok(ExitCode::from(tally::ERROR));
    }
    for plan in plans {
        counts.store(&plan, store.force);
    }
    let status = match put(counts.summary().as_bytes()) {
        Ok(()) => counts.status(),
        Err(Stopped) => tally::ERROR,
    };
    Ok(ExitCode::from(status))
}

/// The entries that have an original, or those that are named.
fn bases(store: &Store) -> Result<Vec<PathBuf>, String> {
    if !store.names.is_empty() {
        let names = store.names.iter();
        let bases = names.map(|name| match name.extension() {
            Some(ending) if ending == ORIGINAL => store.folder.join(name.with_extension("")),
            _ => store.folder.join(name),
        });
        return Ok(bases.collect::<BTreeSet<_>>().into_iter().collect());
    }
    let Found { bases, errors } = Found::of(std::slice::from_ref(&store.folder), store.recursive);
    if let Some(error) = errors.into_iter().next() {
        return Err(error);
    }
    let is_there = |base: &PathBuf| beside(base, ORIGINAL).symlink_metadata().is_ok();
    Ok(bases.into_iter().filter(is_there).collect())
}

/// The lines on an entry, by its name in the folder.
fn told(store: &Store, base: &Path, plan: &Plan) -> String {
    let name = shown(base.strip_prefix(&store.folder).unwrap_or(base));
    let mut lines = format!("{name}: {}\n", plan.changes.join("; "));
    let weaker = plan.weaker.iter();
    lines.extend(weaker.map(|why| format!("  weaker: {why}\n")));
    lines
}

/// What is stored of an entry: what holds stays as it is, a rendering that was made elsewhere too.
fn plan(program: &Program, base: &Path) -> Result<Plan, String> {
    let entry = read(base)?;
    let path = |ending: &str| beside(base, ending);
    let Some(original) = &entry.original else {
        return Err(format!("{}: no original", shown(&path(ORIGINAL))));
    };
    let found = audited(&entry, original);
    let block = Block::read(original);
    let mut files = Vec::new();
    let mut answer = None;
    if found.rendering != Rendering::Holds || becomes_refusal(&found, &entry, &block).is_some() {
        let named = |why| format!("{}: {why}", shown(&path(ORIGINAL)));
        let (output, refusal) = program.answer(original).map_err(named)?;
        answer = Some(refusal);
        files.push((path(OUT), Some(output)));
    }
    let covered = found.never == Never::Holds && found.cover == Cover::Holds;
    // A pin's old name may stand in a cover that says the same.
    if !covered || !found.pins.are_same() {
        let cover = block.as_ref().ok().map(cover_text).map(String::into_bytes);
        files.push((path(COVER), cover));
    }
    let mut changes = changes(&found, &entry, &block, answer);
    let mut weaker = weaker(&found, &entry, &block);
    if let Some((told, cells)) = cells(base, &found, &entry, &block)? {
        let gone = "what is refused has no cells".to_string();
        weaker.extend(cells.is_none().then_some(gone));
        changes.push(told);
        files.push((path(CELLS), cells));
    }
    files.retain(|(path, content)| content.is_some() || path.symlink_metadata().is_ok());
    Ok(Plan {
        changes,
        weaker,
        files,
    })
}

/// What is told of a file that changes, and its content; none where it is removed.
type Changed = (String, Option<Vec<u8>>);

/// The table of cells, where one is stored that doesn't hold: that of the program's rendering, or none where the original is refused. What
/// CompareCells accepts stays as it is, as long as the rendering beside it does.
fn cells(
    base: &Path,
    found: &Audit,
    entry: &Entry,
    block: &Result<Block, Refusal>,
) -> Result<Option<Changed>, String> {
    let (Some(stored), Some(original)) = (&found.cells, &entry.original) else {
        return Ok(None);
    };
    if found.cells_hold() && becomes_refusal(found, entry, block).is_none() {
        return Ok(None);
    }
    let why = Fact::of_cells(stored, entry, block.as_ref().ok());
    let why = why.why().map_or(String::new(), |why| format!(" ({why})"));
    let stem = base.file_name().unwrap_or_default().to_string_lossy();
    let rendering = block.as_ref().ok().and_then(|block| block.render().ok());
    let labels = Labels {
        made_from: Some(made_from(false, &format!("{stem}.net"))),
        ..Labels::from(&module_name(&stem))
    };
    let table = rendering.and_then(|block| cell_table(&block, labels).ok());
    let Some(today) = table.map(String::into_bytes) else {
        return Ok(Some(("cells are gone".to_string(), None)));
    };
    looked_at(original, &today, Form::rendering(Language::Cells))
        .map_err(|why| format!("{}: {why}", shown(&beside(base, CELLS))))?;
    Ok(Some((format!("cells anew{why}"), Some(today))))
}

/// What changes, in words; `answer`: what the program says today, where that is stored.
fn changes(
    found: &Audit,
    entry: &Entry,
    block: &Result<Block, Refusal>,
    answer: Option<Option<Refusal>>,
) -> Vec<String> {
    let new = entry.out.is_none() && entry.cover.is_none();
    let mut told: Vec<String> = new.then(|| "new".to_string()).into_iter().collect();
    told.extend(cover(found, entry, block));
    told.extend(found.pins.in_words("pin"));
    told.extend(found.ports.in_words("port"));
    match (&found.never, block) {
        (Never::Changed(changes), Ok(block)) => told.extend(promised_lines(changes, block)),
        (Never::Illegible { line, reason }, _) => {
            told.push(format!("never lines anew (line {line}: {reason})"));
        }
        (Never::Missing, Ok(block)) => {
            let (names, lines) = (block.input_names(), block.never_lines());
            told.extend(lines.iter().map(|line| line.never_line(&names)));
        }
        _ => {}
    }
    told.extend(answer.map(|answer| rendering(found, entry, block, answer)));
    told
}

fn cover(found: &Audit, entry: &Entry, block: &Result<Block, Refusal>) -> Option<String> {
    let listed = |cover: &[u8]| {
        let mut lines = entry_lines(cover);
        let more = lines.len().saturating_sub(ENTRIES_TOLD);
        lines.truncate(ENTRIES_TOLD);
        match (lines.is_empty(), more) {
            (true, _) => "none".to_string(),
            (_, 0) => lines.join(" | "),
            _ => format!("{} and {more} more", lines.join(" | ")),
        }
    };
    let today = block.as_ref().ok().map(cover_text);
    let today = today.map_or("gone".to_string(), |cover| listed(cover.as_bytes()));
    match (&found.cover, &entry.cover) {
        (Cover::Holds, _) => None,
        (_, None) => Some(format!("cover {today}")),
        (_, Some(stored)) => Some(format!("cover {} → {today}", listed(stored))),
    }
}

/// What becomes of the stored rendering or refusal, and why, unless other pins or ports say it.
fn rendering(
    found: &Audit,
    entry: &Entry,
    block: &Result<Block, Refusal>,
    answer: Option<Refusal>,
) -> String {
    let today = answer.map_or("rendered".to_string(), refused_with);
    let fact = Fact::of_rendering(found, entry, block.as_ref().ok());
    match (&found.rendering, answer) {
        (Rendering::Missing, _) => today,
        (Rendering::Answer { stored, .. }, Some(now)) if now.number() == stored.number() => {
            refused_now(*stored, now)
        }
        (Rendering::Answer { stored, .. }, _) => format!("{} → {today}", refused_with(*stored)),
        (_, Some(_)) => format!("rendered → {today}"),
        (Rendering::Incomparable(Refusal::InterfaceMismatch), None) => "rendered anew".to_string(),
        _ => format!("rendered anew ({})", fact.why().unwrap_or_default()),
    }
}
