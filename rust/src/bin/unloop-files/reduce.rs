//! `--fit` and `--shrink`: of each file the smallest table of cells, or the smallest netlist, that is accepted for it.

use crate::abc::Abc;
use crate::described::{described, excluded, object, unreadable};
use crate::folder::Folder;
use crate::looked::looked_at;
use crate::options::{Reduce, Reduced, Target};
use crate::parallel::in_order;
use crate::report::{notes, report};
use crate::screen::Screen;
use crate::source::{reason, Source};
use crate::{fit, put, shrink, sources, tally, Stopped};
use std::ops::ControlFlow;
use std::path::{Path, PathBuf};
use std::process::ExitCode;
use unloop::json::Json;
use unloop::second_look::{Form, Language};
use unloop::{Block, CellTable, Refusal};

/// A file to be made small: its name, its text and what it is.
pub struct Original<'a> {
    pub source: &'a Source,
    pub text: &'a [u8],
    pub block: &'a Block,
}

/// What was made of a file, and was accepted for it.
pub struct Product {
    /// The table, or the netlist.
    pub text: String,
    /// How small it is, and how it was found, in words behind the file's name.
    pub told: Vec<String>,
    pub fields: Vec<(String, Json)>,
}

/// Something that was accepted, and what it is by.
pub struct Found<T> {
    pub made: T,
    pub by: String,
}

/// The smallest of what is there already and of what is tried, the first of equals; and why others are not taken, each reason once with the
/// number of scripts.
pub fn smallest<T>(
    first: Found<T>,
    size: impl Fn(&T) -> usize,
    tried: impl Iterator<Item = Result<Found<T>, String>>,
) -> (Found<T>, Vec<String>) {
    let mut best = first;
    let mut reasons: Vec<(String, usize)> = Vec::new();
    for found in tried {
        match found {
            Ok(found) if size(&found.made) < size(&best.made) => best = found,
            Ok(_) => {}
            Err(why) => match reasons.iter_mut().find(|(reason, _)| *reason == why) {
                Some((_, count)) => *count += 1,
                None => reasons.push((why, 1)),
            },
        }
    }
    let reasons = reasons.into_iter();
    let told = reasons.map(|(why, count)| format!("{why} ({})", tally::counted(count, "script")));
    (best, told.collect())
}

/// What became of a file.
enum Outcome {
    Made(Vec<u8>, Product),
    Refused(Vec<u8>, Refusal),
    Error(String),
}

/// A file, or why its name can't be taken in the folder.
struct Job {
    source: Source,
    claimed: Result<(), String>,
}

struct Run {
    to: Reduced,
    abc: Option<Abc>,
    folder: Option<Folder>,
    json: bool,
}

/// Makes each file small and tells how; what is refused or can't be written is reported, and the others are done.
pub fn run(asked: Reduce) -> Result<ExitCode, String> {
    let mut folder = match asked.into {
        Some(Target { folder, force }) => Some(Folder::open(folder, force, &asked.files)?),
        None => None,
    };
    let job = |source: Source| Job {
        claimed: match (&mut folder, source.path()) {
            (Some(folder), Some(path)) => folder.claim(&target(asked.to, path)),
            _ => Ok(()),
        },
        source,
    };
    let jobs: Vec<Job> = sources(asked.files).into_iter().map(job).collect();
    let run = Run {
        to: asked.to,
        abc: Abc::found(),
        folder,
        json: asked.json,
    };
    if run.abc.is_none() {
        let why = Abc::missing(run.to.instead());
        Screen::plain().say(&[format!("unloop: {why}")]);
    }
    let mut status = 0;
    let ended = in_order(
        &jobs,
        |job| run.outcome(job),
        |_| {},
        |index, outcome| match run.tell(&jobs[index].source, outcome) {
            Ok(one) => {
                status = status.max(one);
                ControlFlow::Continue(())
            }
            Err(Stopped) => ControlFlow::Break(()),
        },
    );
    Ok(ExitCode::from(match ended.is_break() {
        true => tally::ERROR,
        false => status,
    }))
}

/// The name of what is made of a file, in a folder.
fn target(to: Reduced, path: &Path) -> PathBuf {
    match to {
        Reduced::Cells => path.with_extension("cells"),
        Reduced::Netlist => path.to_path_buf(),
    }
}

impl Reduced {
    /// Whether a text as it is written is accepted for an original's: a look at what the writer made.
    fn is_accepted(self, written: &str, original: &[u8]) -> bool {
        let accepted = Block::read(original).and_then(|block| match self {
            Reduced::Cells => {
                let table = CellTable::read(written).map_err(|_| Refusal::MalformedBlock)?;
                block.compare_table(&table)
            }
            Reduced::Netlist => block.compare(&Block::read(written)?),
        });
        accepted == Ok(None)
    }

    /// What a second look takes it for.
    fn form(self) -> Form<'static> {
        Form::rendering(match self {
            Reduced::Cells => Language::Cells,
            Reduced::Netlist => Language::Netlist,
        })
    }

    /// What is done without ABC.
    fn instead(self) -> &'static str {
        match self {
            Reduced::Cells => "the cells are those of the rendering",
            Reduced::Netlist => "only other orders of the gate lines are tried",
        }
    }
}

impl Run {
    /// What becomes of a file; a table or netlist that is made is then in the folder, if there is one.
    fn outcome(&self, job: &Job) -> Outcome {
        let made = job.claimed.clone().and_then(|()| self.made(&job.source));
        made.unwrap_or_else(Outcome::Error)
    }

    fn made(&self, source: &Source) -> Result<Outcome, String> {
        let text = source
            .text()
            .map_err(|error| format!("{}: {}", source.name(), reason(&error)))?;
        let made = Block::read(&text).and_then(|block| {
            let original = Original {
                source,
                text: &text,
                block: &block,
            };
            match self.to {
                Reduced::Cells => fit::fitted(self.abc.as_ref(), &original),
                Reduced::Netlist => shrink::shrunk(self.abc.as_ref(), &original),
            }
        });
        let product = match made {
            Ok(product) => product,
            Err(refusal) => return Ok(Outcome::Refused(text, refusal)),
        };
        if !self.to.is_accepted(&product.text, &text) {
            let why = "what was made of it reads back as something else, and isn't written";
            return Err(format!("{}: {why}", source.name()));
        }
        looked_at(&text, product.text.as_bytes(), self.to.form())
            .map_err(|why| format!("{}: {why}", source.name()))?;
        if let (Some(folder), Some(path)) = (&self.folder, source.path()) {
            folder.put(&target(self.to, path), product.text.as_bytes())?;
        }
        Ok(Outcome::Made(text, product))
    }

    /// Writes what became of a file, tells how, and gives the status.
    fn tell(&self, source: &Source, outcome: Outcome) -> Result<u8, Stopped> {
        let (name, screen) = (source.name(), Screen::plain());
        let (json, status) = match outcome {
            Outcome::Made(text, product) => {
                if self.folder.is_none() && !self.json {
                    put(product.text.as_bytes())?;
                }
                let told = product.told.iter().map(|line| format!("{name}: {line}"));
                screen.say(&told.chain(notes(&name, &text)).collect::<Vec<String>>());
                (described_product(&name, &text, product), 0)
            }
            Outcome::Refused(text, refusal) => {
                screen.say(&report(refusal, &name, &text));
                (described(&name, &text, Some(refusal), None), tally::REFUSED)
            }
            Outcome::Error(reason) => {
                screen.say(&[format!("unloop: {reason}")]);
                (unreadable(&name, &reason), tally::ERROR)
            }
        };
        if self.json {
            put(format!("{json}\n").as_bytes())?;
        }
        Ok(status)
    }
}

fn described_product(name: &str, text: &[u8], product: Product) -> Json {
    let mut fields = object([("file", Json::text(name)), ("accepted", Json::Bool(true))]);
    fields.extend(product.fields);
    fields.extend(Block::read(text).map_or_else(|_| Vec::new(), |block| excluded(&block)));
    Json::Object(fields)
}
