//! An entry of a catalogue: an original, and three facts that are stored beside it: its rendering (or its refusal), its never lines and its
//! cover. Do they still hold? Judged by Read, Render, Compare and Cover; only the lines of the stored cover are read here.
//!
//! A table of cells may stand beside them too, made here or elsewhere: a fourth fact, judged by CompareCells.

mod names;
mod stored;

use crate::{Assignment, Block, CellTable, Disagreement, Refusal};
pub use names::Names;
use std::collections::{BTreeSet, HashSet};
pub use stored::{cover_text, entry_lines};
use stored::{Lines, Pins};

/// What became of a stored rendering.
#[derive(Debug, Clone, PartialEq, Eq)]
pub enum Rendering {
    /// It says what the original says, or the original is refused as is stored.
    Holds,
    Missing,
    /// It shows another value somewhere.
    Differs(Disagreement),
    /// Its text can't be read.
    Illegible(Refusal),
    /// It has a loop, or other pins or ports than the original; [`Audit`] says which.
    Incomparable(Refusal),
    /// It says what the original says, but has never lines, and they are not the original's. One without any is as good as one with them.
    Never(Changes),
    /// The original can't be read any more.
    Original(Refusal),
    /// A refusal is stored, and today the answer is another: none is a rendering.
    Answer {
        stored: Refusal,
        today: Option<Refusal>,
    },
}

/// What became of the stored never lines.
#[derive(Debug, Clone, PartialEq, Eq)]
pub enum Never {
    /// They are the original's, or none are stored of an original that can't be read.
    Holds,
    /// There is no stored cover, which they stand in.
    Missing,
    /// This line can't be read: the number, from 1, and why.
    Illegible {
        line: usize,
        reason: String,
    },
    /// The original can't be read any more.
    Original(Refusal),
    Changed(Changes),
}

/// How never lines are others than before. Their order says nothing, nor does that of a line's pins; a line that is written twice counts
/// twice.
#[derive(Debug, Clone, PartialEq, Eq)]
pub struct Changes {
    /// The lines that were there before and are gone.
    pub gone: Vec<Assignment>,
    /// Those that were not there.
    pub new: Vec<Assignment>,
    /// Those before that name a pin which is gone, as they are written.
    pub gone_with_pins: Vec<String>,
    /// Whether they exclude the settings that were excluded before, and no others.
    pub same_settings: bool,
    /// Whether they exclude a setting that was not excluded before.
    pub more_settings: bool,
}

impl Changes {
    /// From the lines before to those now, in a block with so many inputs; none where they are the same.
    fn between(before: Lines, now: &[Assignment], inputs: usize) -> Option<Changes> {
        let excluded =
            |lines: &[Assignment], setting| lines.iter().any(|line| line.agrees(setting));
        let mut settings = 0..1 << inputs;
        let both = |setting| (excluded(&before.read, setting), excluded(now, setting));
        let same = settings.clone().all(|s| both(s).0 == both(s).1);
        let changes = Changes {
            gone: beyond(&before.read, now),
            new: beyond(now, &before.read),
            same_settings: same && before.gone.is_empty(),
            more_settings: settings.any(|s| both(s) == (false, true)),
            gone_with_pins: before.gone,
        };
        let changed = !changes.gone.is_empty()
            || !changes.new.is_empty()
            || !changes.gone_with_pins.is_empty();
        changed.then_some(changes)
    }
}

/// The lines that the others don't have, or not so often.
fn beyond(lines: &[Assignment], others: &[Assignment]) -> Vec<Assignment> {
    let mut left = others.to_vec();
    let is_beyond = |line: &&Assignment| {
        let place = left.iter().position(|other| other == *line);
        place.map(|place| left.swap_remove(place)).is_none()
    };
    lines.iter().filter(is_beyond).copied().collect()
}

/// What became of a stored cover.
#[derive(Debug, Clone, PartialEq, Eq)]
pub enum Cover {
    /// It is today's, or there is none of an original that can't be read.
    Holds,
    Missing,
    /// Its line can't be read: the number, from 1, and why.
    Illegible {
        line: usize,
        reason: String,
    },
    /// The original can't be read any more.
    Original(Refusal),
    /// This setting was sound, and is not.
    Lost {
        setting: usize,
    },
    /// This setting was not sound, and is.
    Gained {
        setting: usize,
    },
    /// The same settings, but it names pins that are gone.
    Pins,
    /// The same settings, told by other entries than the minimal ones.
    Entries,
}

/// What became of a stored table of cells.
#[derive(Debug, Clone, PartialEq, Eq)]
pub enum Table {
    /// CompareCells accepts it.
    Holds,
    /// It shows another value somewhere.
    Differs(Disagreement),
    /// It is no table, and why.
    Illegible(String),
    /// It has other inputs or ports than the original has pins and ports; these are the table's.
    Strangers { pins: Names, ports: Names },
    /// The original can't be read any more.
    Original(Refusal),
}

/// All of them, and how the pins and ports are others than those that are stored.
#[derive(Debug, Clone, PartialEq, Eq)]
pub struct Audit {
    /// Against the stored rendering's; where none is stored, those that the stored cover names and that are gone.
    pub pins: Names,
    pub ports: Names,
    pub rendering: Rendering,
    pub never: Never,
    pub cover: Cover,
    /// None where no table of cells is stored.
    pub cells: Option<Table>,
}

impl Audit {
    pub fn holds(&self) -> bool {
        self.netlist_holds() && self.cells_hold()
    }

    /// Whether the rendering, the never lines and the cover hold.
    pub fn netlist_holds(&self) -> bool {
        self.rendering == Rendering::Holds
            && self.never == Never::Holds
            && self.cover == Cover::Holds
    }

    /// Whether the table of cells holds, if one is stored.
    pub fn cells_hold(&self) -> bool {
        self.cells
            .as_ref()
            .is_none_or(|cells| *cells == Table::Holds)
    }

    /// The same with a stored table of cells, NAME.cells, where it is there.
    ///
    /// ```
    /// # use unloop::audit::{audit, Table};
    /// let original = b"(in a)\n(in b)\n(gate p (and a q))\n(gate q (or b p))\n(out y q)\n";
    /// let cells = |cells: &[u8]| audit(original, None, None).with_cells(original, Some(cells)).cells;
    /// assert_eq!(cells(b"# inputs 2 a b\n# outputs 1\n# output y 1\n"), Some(Table::Holds));
    /// assert!(matches!(cells(b"# inputs 2 a b\n# outputs 1\n# output y 0\n"), Some(Table::Differs(_))));
    /// assert!(matches!(cells(b"# inputs 2 a c\n# outputs 1\n# output y 0\n"), Some(Table::Strangers { .. })));
    /// assert_eq!(cells(b""), Some(Table::Illegible("no line '# inputs NUMBER NAME ...'".to_string())));
    /// ```
    pub fn with_cells(mut self, original: &[u8], cells: Option<&[u8]>) -> Audit {
        self.cells = cells.map(|cells| judged(original, cells));
        self
    }
}

/// What CompareCells says of a table.
fn judged(original: &[u8], cells: &[u8]) -> Table {
    let block = match Block::read(original) {
        Ok(block) => block,
        Err(refusal) => return Table::Original(refusal),
    };
    let table = match CellTable::read(&String::from_utf8_lossy(cells)) {
        Ok(table) => table,
        Err(error) => return Table::Illegible(error.to_string()),
    };
    match block.compare_table(&table) {
        Ok(None) => Table::Holds,
        Ok(Some(found)) => Table::Differs(found),
        Err(_) => {
            let ports: Vec<String> = table
                .outputs()
                .iter()
                .map(|(port, _)| port.clone())
                .collect();
            // Of a table the names count, in whatever order they stand.
            let between = |theirs: &[String], ours: &[String]| Names {
                reordered: false,
                ..Names::between(theirs, ours)
            };
            Table::Strangers {
                pins: between(table.inputs(), &block.input_names()),
                ports: between(&ports, &block.output_names()),
            }
        }
    }
}

/// Audits an entry from its texts: the original, NAME.out and NAME.cover where they are there.
///
/// ```
/// # use unloop::audit::{audit, Cover, Never, Rendering};
/// let original = b"(in a)\n(in b)\n(gate p (and a q))\n(gate q (or b p))\n(out y q)\n";
/// let made = b"(in a)\n(in b)\n(out y b)\n";
/// let told = audit(original, Some(made), Some(b"always\n"));
/// assert_eq!((told.rendering, told.never, told.cover), (Rendering::Holds, Never::Holds, Cover::Lost { setting: 1 }));
/// assert!(audit(original, Some(made), Some(b"a = 0\nb = 1\n")).holds());
/// let promised = b"(in a)\n(in b)\n(never (a 1))\n(gate p (and a q))\n(gate q (or b p))\n(out y q)\n";
/// let told = audit(promised, Some(made), Some(b"always\n"));
/// assert!(told.cover == Cover::Holds && matches!(told.never, Never::Changed(_)));
/// assert!(audit(promised, Some(made), Some(b"never a = 1\nalways\n")).holds());
/// ```
pub fn audit(original: &[u8], out: Option<&[u8]>, cover: Option<&[u8]>) -> Audit {
    let block = Block::read(original);
    let rendering = match out {
        None => Rendering::Missing,
        Some(out) => match Refusal::of_line(out) {
            Some(stored) => refused(&block, stored),
            None => compared(&block, out),
        },
    };
    let mut found = Audit {
        pins: Names::default(),
        ports: Names::default(),
        rendering,
        never: Never::Holds,
        cover: Cover::Holds,
        cells: None,
    };
    match (&block, cover) {
        (Err(_), None) => {}
        (Err(refusal), Some(_)) => {
            (found.never, found.cover) = (Never::Original(*refusal), Cover::Original(*refusal));
        }
        (Ok(block), cover) => found.read(block, out, cover),
    }
    found
}

impl Audit {
    /// The pins, the ports, the never lines and the cover of a block, against what is stored.
    fn read(&mut self, block: &Block, out: Option<&[u8]>, cover: Option<&[u8]>) {
        let today = block.input_names();
        let theirs = out.and_then(|out| Block::read(out).ok());
        if let Some(theirs) = &theirs {
            self.pins = Names::between(&theirs.input_names(), &today);
            self.ports = Names::between(&theirs.output_names(), &block.output_names());
        }
        let Some(stored) = cover else {
            (self.never, self.cover) = (Never::Missing, Cover::Missing);
            return;
        };
        let pins = Pins {
            today: &today,
            changes: theirs.as_ref().map(|_| &self.pins),
        };
        let (never, unsaid) = promised(block, stored, &pins);
        let (cover, unnamed) = covered(block, stored, &pins);
        if theirs.is_none() {
            let gone = unsaid.into_iter().chain(unnamed);
            let gone: BTreeSet<String> = gone.collect();
            self.pins.gone.extend(gone);
        }
        (self.never, self.cover) = (never, cover);
    }
}

fn refused(block: &Result<Block, Refusal>, stored: Refusal) -> Rendering {
    let rendered = block
        .as_ref()
        .map_err(|refusal| *refusal)
        .and_then(Block::render);
    match rendered.err() {
        Some(refusal) if refusal == stored => Rendering::Holds,
        today => Rendering::Answer { stored, today },
    }
}

fn compared(block: &Result<Block, Refusal>, out: &[u8]) -> Rendering {
    let ours = match block {
        Ok(ours) => ours,
        Err(refusal) => return Rendering::Original(*refusal),
    };
    let theirs = match Block::read(out) {
        Ok(theirs) => theirs,
        Err(refusal) => return Rendering::Illegible(refusal),
    };
    match ours.compare(&theirs) {
        Err(refusal) => Rendering::Incomparable(refusal),
        Ok(Some(found)) => Rendering::Differs(found),
        Ok(None) => match own_promises(ours, &theirs) {
            Some(changes) => Rendering::Never(changes),
            None => Rendering::Holds,
        },
    }
}

/// How the never lines of a rendering that has some differ from the original's.
fn own_promises(ours: &Block, theirs: &Block) -> Option<Changes> {
    let lines = theirs.never_lines();
    match lines.is_empty() {
        true => None,
        false => Changes::between(Lines::of(ours.never_lines()), &lines, ours.inputs()),
    }
}

/// The never lines, and the pins that are gone and that the stored ones name.
fn promised(block: &Block, stored: &[u8], pins: &Pins) -> (Never, Vec<String>) {
    let mut stored = match stored::nevers(stored, pins) {
        Ok(stored) => stored,
        Err((line, reason)) => return (Never::Illegible { line, reason }, Vec::new()),
    };
    let gone = std::mem::take(&mut stored.gone_pins);
    let changes = Changes::between(stored, &block.never_lines(), block.inputs());
    (changes.map_or(Never::Holds, Never::Changed), gone)
}

/// The cover, and the pins that are gone and that the stored one names.
fn covered(block: &Block, stored: &[u8], pins: &Pins) -> (Cover, Vec<String>) {
    let Lines {
        read, gone_pins, ..
    } = match stored::entries(stored, pins) {
        Ok(stored) => stored,
        Err((line, reason)) => return (Cover::Illegible { line, reason }, Vec::new()),
    };
    let cover = match (settled_as(block, &read), gone_pins.is_empty()) {
        (Cover::Holds | Cover::Entries, false) => Cover::Pins,
        (cover, _) => cover,
    };
    (cover, gone_pins)
}

fn settled_as(block: &Block, stored: &[Assignment]) -> Cover {
    let today = block.cover();
    let has =
        |cover: &[Assignment], setting: usize| cover.iter().any(|entry| entry.agrees(setting));
    let mut settings = 0..1 << block.inputs();
    if let Some(setting) = settings
        .clone()
        .find(|&setting| has(stored, setting) && !has(&today, setting))
    {
        return Cover::Lost { setting };
    }
    if let Some(setting) = settings.find(|&setting| has(&today, setting) && !has(stored, setting)) {
        return Cover::Gained { setting };
    }
    let distinct: HashSet<&Assignment> = stored.iter().collect();
    let same = stored.len() == today.len() && today.iter().all(|entry| distinct.contains(entry));
    match same {
        true => Cover::Holds,
        false => Cover::Entries,
    }
}

impl Refusal {
    /// The refusal of the program's line `(refused NUMBER DETAIL)`. No rendering begins so.
    ///
    /// ```
    /// # use unloop::Refusal;
    /// assert_eq!(Refusal::of_line(b"(refused 9 8)\n"), Some(Refusal::NotSettled { setting: 8 }));
    /// assert_eq!(Refusal::of_line(b"(in a)\n"), None);
    /// ```
    pub fn of_line(line: &[u8]) -> Option<Refusal> {
        let line = std::str::from_utf8(line).ok()?;
        let parts = line.strip_prefix("(refused ")?.strip_suffix(")\n")?;
        let (number, detail) = parts.split_once(' ')?;
        Refusal::from_parts(number.parse().ok()?, detail.parse().ok()?)
    }
}
