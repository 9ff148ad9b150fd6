//! What became of one of the facts of an entry, in words and as JSON.

use super::{promises, Entry};
use crate::check::Differs;
use crate::described::{object, pins};
use crate::report::{pins_of, undefined};
use unloop::audit::{Audit, Cover, Names, Never, Rendering, Table};
use unloop::json::Json;
use unloop::{Block, CellTable, Location, Refusal};

pub struct Fact {
    state: &'static str,
    /// In words, where it doesn't hold.
    why: Option<String>,
    fields: Vec<(String, Json)>,
}

impl Fact {
    fn holds() -> Fact {
        Fact {
            state: "holds",
            why: None,
            fields: Vec::new(),
        }
    }

    fn lost(state: &'static str, why: String, fields: Vec<(String, Json)>) -> Fact {
        Fact {
            state,
            why: Some(why),
            fields,
        }
    }

    /// One that is lost with the cover, whose line tells why.
    fn lost_with_the_cover(state: &'static str) -> Fact {
        Fact {
            state,
            ..Fact::holds()
        }
    }

    /// The line that tells of it, if it is lost.
    pub fn line(&self, what: &str) -> Option<String> {
        let why = self.why.as_ref();
        why.map(|why| format!("  {what}: {why}"))
    }

    /// In a word: `holds`, or how it is lost.
    pub fn state(&self) -> &'static str {
        self.state
    }

    /// Why it is lost, in words.
    pub fn why(&self) -> Option<&str> {
        self.why.as_deref()
    }

    pub fn json(self) -> Json {
        let mut fields = object([("state", Json::text(self.state))]);
        fields.extend(self.fields);
        fields.extend(self.why.map(|why| ("why".to_string(), Json::Text(why))));
        Json::Object(fields)
    }

    /// All of them, each with the word that its line begins with; the cells where there are some.
    pub fn all(found: &Audit, entry: &Entry, block: Option<&Block>) -> Vec<(&'static str, Fact)> {
        let mut facts = vec![
            ("rendering", Fact::of_rendering(found, entry, block)),
            ("never lines", Fact::of_never(&found.never, block)),
            ("cover", Fact::of_cover(found, entry, block)),
        ];
        let cells = found.cells.as_ref();
        facts.extend(cells.map(|cells| ("cells", Fact::of_cells(cells, entry, block))));
        facts
    }

    pub fn of_rendering(found: &Audit, entry: &Entry, block: Option<&Block>) -> Fact {
        let out = entry.out.as_deref();
        let theirs = out.and_then(|out| Block::read(out).ok());
        let plain = |state, why| Fact::lost(state, why, Vec::new());
        match &found.rendering {
            Rendering::Holds => Fact::holds(),
            Rendering::Missing => plain("missing", format!("no {}.out", entry.name)),
            Rendering::Illegible(refusal) => {
                let place = located(*refusal, out);
                plain("illegible", format!("it can't be read, {place}"))
            }
            Rendering::Original(refusal) => plain("original", original(*refusal, entry)),
            Rendering::Answer { stored, today } => plain("answer", answers(*stored, *today)),
            Rendering::Incomparable(Refusal::InterfaceMismatch) => {
                let told = [found.pins.in_words("pin"), found.ports.in_words("port")];
                let why = told.concat().join("; ");
                let fields = [("pins", names(&found.pins)), ("ports", names(&found.ports))];
                Fact::lost(Refusal::InterfaceMismatch.word(), why, object(fields))
            }
            Rendering::Incomparable(refusal) => plain(refusal.word(), refusal.to_string()),
            Rendering::Never(changes) => {
                let blocks = block.zip(theirs.as_ref());
                let told =
                    blocks.map(|(ours, theirs)| promises::in_rendering(changes, ours, theirs));
                let (why, fields) = told.unwrap_or_default();
                Fact::lost("never", why, fields)
            }
            Rendering::Differs(found) => {
                let blocks = block.zip(theirs.as_ref());
                let differs = blocks.map(|(ours, theirs)| Differs::new(ours, theirs, *found));
                let told = differs.map(|differs| (differs.to_string(), differs.fields()));
                let (why, fields) = told.unwrap_or_default();
                Fact::lost("differs", why, fields)
            }
        }
    }

    pub fn of_cells(found: &Table, entry: &Entry, block: Option<&Block>) -> Fact {
        let plain = |state, why| Fact::lost(state, why, Vec::new());
        match found {
            Table::Holds => Fact::holds(),
            Table::Illegible(why) => plain("illegible", format!("they can't be read, {why}")),
            Table::Original(refusal) => plain("original", original(*refusal, entry)),
            Table::Strangers { pins, ports } => {
                let told = [pins.in_words("pin"), ports.in_words("port")].concat();
                let why = match told.is_empty() {
                    true => "a pin or port stands there twice".to_string(),
                    false => told.join("; "),
                };
                let fields = [("pins", names(pins)), ("ports", names(ports))];
                Fact::lost(Refusal::InterfaceMismatch.word(), why, object(fields))
            }
            Table::Differs(found) => {
                let text = entry.cells.as_deref().unwrap_or_default();
                let table = CellTable::read(&String::from_utf8_lossy(text)).ok();
                let told = block.zip(table).map(|(ours, table)| {
                    let differs = Differs::of_table(ours, &table, *found);
                    (differs.to_string(), differs.fields())
                });
                let (why, fields) = told.unwrap_or_default();
                Fact::lost("differs", why, fields)
            }
        }
    }

    fn of_never(found: &Never, block: Option<&Block>) -> Fact {
        match found {
            Never::Holds => Fact::holds(),
            Never::Missing => Fact::lost_with_the_cover("missing"),
            Never::Original(_) => Fact::lost_with_the_cover("original"),
            Never::Illegible { line, reason } => {
                Fact::lost("illegible", format!("line {line}: {reason}"), Vec::new())
            }
            Never::Changed(changes) => {
                let told = block.map(|block| promises::in_original(changes, block));
                let (why, fields) = told.unwrap_or_default();
                Fact::lost("changed", why, fields)
            }
        }
    }

    fn of_cover(found: &Audit, entry: &Entry, block: Option<&Block>) -> Fact {
        let plain = |state, why| Fact::lost(state, why, Vec::new());
        // The rendering tells of other pins than its own.
        let told = found.rendering == Rendering::Incomparable(Refusal::InterfaceMismatch);
        let pins = if told {
            Vec::new()
        } else {
            found.pins.in_words("pin")
        };
        let pins: String = pins.iter().map(|pin| format!("{pin}; ")).collect();
        match (&found.cover, block) {
            (Cover::Holds, _) => Fact::holds(),
            (Cover::Missing, _) => plain("missing", format!("no {}.cover", entry.name)),
            (Cover::Illegible { line, reason }, _) => {
                plain("illegible", format!("line {line}: {reason}"))
            }
            (Cover::Original(refusal), _) => plain("original", original(*refusal, entry)),
            (Cover::Lost { setting }, Some(block)) => Fact::of_lost(*setting, &pins, block),
            (Cover::Gained { setting }, Some(block)) => {
                let with = with(block, *setting);
                let why = format!("{pins}not stored as settled{with}, but it is");
                let setting = ("setting", of_setting(block, *setting));
                Fact::lost("gained", why, object([setting]))
            }
            (Cover::Pins, _) => plain("pins", found.pins.in_words("pin").join("; ")),
            _ => plain(
                "entries",
                "the same settings by other entries than the minimal ones".to_string(),
            ),
        }
    }

    /// A cover that has a setting which isn't settled; `pins`: what is told of the pins before it.
    fn of_lost(setting: usize, pins: &str, block: &Block) -> Fact {
        let (ports, with) = (undefined(block, setting), with(block, setting));
        let undefined = ports.join(", ");
        let why = format!("{pins}stored as settled, but not settled{with}: {undefined} undefined");
        let fields = [
            ("setting", of_setting(block, setting)),
            ("undefined", Json::texts(ports)),
        ];
        Fact::lost("lost", why, object(fields))
    }
}

/// Names that are others than before; those of a list that is empty are left out.
fn names(changes: &Names) -> Json {
    let pairs = changes.renamed.iter();
    let renamed = pairs.map(|(old, new)| (old.clone(), Json::text(new)));
    let mut fields = object([
        ("gone", Json::texts(&changes.gone)),
        ("new", Json::texts(&changes.new)),
        ("renamed", Json::Object(renamed.collect())),
        ("reordered", Json::Bool(changes.reordered)),
    ]);
    fields.retain(|(_, value)| match value {
        Json::List(list) => !list.is_empty(),
        Json::Object(fields) => !fields.is_empty(),
        value => *value == Json::Bool(true),
    });
    Json::Object(fields)
}

fn answers(stored: Refusal, today: Option<Refusal>) -> String {
    let today = today.map_or("rendered".to_string(), |today| refused_now(stored, today));
    format!("stored as {}, and now {today}", refused_with(stored))
}

/// A refusal of today; of one with the number of the stored one that its setting or its place is another.
pub fn refused_now(stored: Refusal, today: Refusal) -> String {
    let elsewhere = match (today.number() == stored.number(), today.place()) {
        (false, _) => "",
        (_, Some(_)) => " at another place",
        (_, None) => " at another setting",
    };
    format!("{}{elsewhere}", refused_with(today))
}

/// As `refused with 9 undecided`.
pub fn refused_with(refusal: Refusal) -> String {
    format!("refused with {} {}", refusal.number(), refusal.word())
}

/// As ` with a = 1`; nothing where there are no pins.
pub fn with(block: &Block, setting: usize) -> String {
    match block.inputs() {
        0 => String::new(),
        _ => format!(" with {}", pins_of(block, setting)),
    }
}

fn of_setting(block: &Block, setting: usize) -> Json {
    pins(
        block.assignment(setting).unwrap_or_default(),
        &block.input_names(),
    )
}

fn original(refusal: Refusal, entry: &Entry) -> String {
    let place = located(refusal, entry.original.as_deref());
    format!("the original can't be read, {place}")
}

/// A refusal's word, with its line and column in a text.
fn located(refusal: Refusal, text: Option<&[u8]>) -> String {
    match (refusal.place(), text) {
        (Some(place), Some(text)) => {
            let Location { row, column, .. } = Location::of(text, place);
            format!("line {row}, column {column}: {}", refusal.word())
        }
        _ => refusal.word().to_string(),
    }
}
