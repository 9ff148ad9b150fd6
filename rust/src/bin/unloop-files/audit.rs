//! `--audit PATH ...`: do the rendering, the never lines, the cover and the table of cells that are stored beside each original still hold?

mod fact;
mod promises;
mod weaker;

use crate::catalogue::{original, read, Entry, Found};
use crate::described::{excluded, object, unreadable};
use crate::options::Audited;
use crate::parallel::in_order;
use crate::report::exclusions;
use crate::screen::Screen;
use crate::source::shown;
use crate::{put, tally, Stopped};
pub use fact::{refused_now, refused_with, Fact};
pub use promises::lines as promised_lines;
use std::ops::ControlFlow;
use std::path::{Path, PathBuf};
use std::process::ExitCode;
use unloop::audit::{audit, Audit};
use unloop::json::Json;
use unloop::{Block, Refusal};
pub use weaker::{becomes_refusal, weaker};

/// What is told of an entry.
struct Told {
    holds: bool,
    lines: Vec<String>,
    json: Json,
}

impl Told {
    fn written(&self, json: bool) -> String {
        match json {
            true => format!("{}\n", self.json),
            false => self.lines.join("\n") + "\n",
        }
    }
}

/// What became of the entries so far.
#[derive(Default)]
struct Counts {
    hold: usize,
    lost: usize,
    errors: usize,
    /// What was given and has no entry.
    nothing: usize,
}

impl Counts {
    /// Counts an entry and writes what is told of it; an entry with a file that can't be read is an error and no more.
    fn tell(
        &mut self,
        base: &Path,
        told: Result<Told, String>,
        quiet: bool,
        json: bool,
    ) -> Result<(), Stopped> {
        let written = match told {
            Ok(told) => {
                self.hold += usize::from(told.holds);
                self.lost += usize::from(!told.holds);
                let silent = quiet && told.holds;
                (!silent).then(|| told.written(json))
            }
            Err(reason) => {
                self.errors += 1;
                Screen::plain().say(&[format!("unloop: {reason}")]);
                let object = unreadable(&original(&shown(base)), &reason);
                json.then(|| format!("{object}\n"))
            }
        };
        put(written.unwrap_or_default().as_bytes())
    }

    /// As `3 entries: 1 hold, 1 lost, 1 error`.
    fn summary(&self) -> String {
        let Counts { hold, lost, .. } = self;
        let entries = tally::entries(hold + lost + self.errors);
        let errors = tally::and_errors(self.errors + self.nothing);
        format!("{entries}: {hold} hold, {lost} lost{errors}\n")
    }

    fn status(&self) -> u8 {
        match (self.errors + self.nothing, self.lost) {
            (0, 0) => 0,
            (0, _) => tally::REFUSED,
            _ => tally::ERROR,
        }
    }
}

/// Audits each entry and tells; what has none is told as an error, and the others are done.
pub fn run(asked: &Audited, json: bool) -> ExitCode {
    let Found { bases, errors } = Found::of(&asked.paths, asked.recursive);
    Screen::plain().say(
        &errors
            .iter()
            .map(|why| format!("unloop: {why}"))
            .collect::<Vec<_>>(),
    );
    let bases: Vec<PathBuf> = bases.into_iter().collect();
    let mut counts = Counts {
        nothing: errors.len(),
        ..Counts::default()
    };
    let ended = in_order(
        &bases,
        |base| read(base).map(|entry| told(base, &entry)),
        |_| {},
        |index, told| match counts.tell(&bases[index], told, asked.quiet, json) {
            Ok(()) => ControlFlow::Continue(()),
            Err(Stopped) => ControlFlow::Break(()),
        },
    );
    let summary = if json || bases.is_empty() {
        String::new()
    } else {
        counts.summary()
    };
    let stopped = ended.is_break() || put(summary.as_bytes()).is_err();
    ExitCode::from(match stopped {
        true => tally::ERROR,
        false => counts.status(),
    })
}

/// What is found of an entry that has an original.
pub struct Judged {
    pub holds: bool,
    /// In a few words.
    pub state: String,
    /// Each with the word that its line begins with.
    pub facts: Vec<(&'static str, Fact)>,
    /// Where some are lost: the command that stores today's, and whether they get weaker.
    pub anew: Option<(String, bool)>,
    pub block: Option<Block>,
}

/// What is found of all that is stored beside an original of this text.
pub fn audited(entry: &Entry, original: &[u8]) -> Audit {
    let found = audit(original, entry.out.as_deref(), entry.cover.as_deref());
    found.with_cells(original, entry.cells.as_deref())
}

/// Judges an entry by its files; `original` is the original's text.
pub fn judged(base: &Path, entry: &Entry, original: &[u8]) -> Judged {
    let found = audited(entry, original);
    let block = Block::read(original);
    let weaker = !weaker(&found, entry, &block).is_empty();
    let (holds, block) = (found.holds(), block.ok());
    Judged {
        holds,
        state: state(holds, entry, block.as_ref()),
        facts: Fact::all(&found, entry, block.as_ref()),
        anew: (!holds).then(|| (anew(base, weaker), weaker)),
        block,
    }
}

fn told(base: &Path, entry: &Entry) -> Told {
    let name = original(&entry.name);
    let file = ("file", Json::text(&name));
    let Some(original) = &entry.original else {
        let why = ("error", Json::text("no original"));
        return Told {
            holds: false,
            lines: vec![format!("{name}: lost"), "  no original".to_string()],
            json: Json::Object(object([file, ("holds", Json::Bool(false)), why])),
        };
    };
    let Judged {
        holds,
        state,
        facts,
        anew,
        block,
    } = judged(base, entry, original);
    let mut lines = vec![format!("{name}: {state}")];
    lines.extend(facts.iter().filter_map(|(what, fact)| fact.line(what)));
    let exclusions = block.as_ref().map(exclusions).unwrap_or_default();
    lines.extend(exclusions.iter().map(|line| format!("  {line}")));
    let mut fields = object([file, ("holds", Json::Bool(holds))]);
    // A field is called by the first word of the fact's line.
    let name = |what: &str| what.split(' ').next().unwrap_or(what).to_string();
    fields.extend(
        facts
            .into_iter()
            .map(|(what, fact)| (name(what), fact.json())),
    );
    fields.extend(block.as_ref().map(excluded).unwrap_or_default());
    if let Some((command, weaker)) = anew {
        lines.push(format!("  to store it anew: {command}"));
        fields.extend(object([("weaker", Json::Bool(weaker))]));
    }
    Told {
        holds,
        lines,
        json: Json::Object(fields),
    }
}

/// The command that stores today's facts of an entry.
fn anew(base: &Path, weaker: bool) -> String {
    let folder = base.parent().filter(|folder| *folder != Path::new(""));
    let folder = quoted(folder.unwrap_or(Path::new(".")));
    let name = base.file_name().map(|name| quoted(Path::new(name)));
    let force = if weaker { " --force" } else { "" };
    format!(
        "unloop --store {folder} {}{force}",
        name.unwrap_or_default()
    )
}

/// A path as a shell takes it.
fn quoted(path: &Path) -> String {
    let path = shown(path);
    let plain = |c: char| c.is_alphanumeric() || "-_./+,:@%".contains(c);
    match path.chars().all(plain) && !path.starts_with('-') {
        true => path,
        false => format!("'{}'", path.replace('\'', "'\\''")),
    }
}

/// The state in a few words. A rendering may be stored of an original that does not always settle, as its cover says then.
fn state(holds: bool, entry: &Entry, block: Option<&Block>) -> String {
    let refused = entry.out.as_deref().and_then(Refusal::of_line);
    let sound = block.is_none_or(|block| block.verdict().is_sound());
    match refused {
        _ if !holds => "lost".to_string(),
        Some(refusal) => format!("all hold, {}", refused_with(refusal)),
        None if sound => "all hold".to_string(),
        None => "all hold, but it settles under some settings only".to_string(),
    }
}
