//! `--design`: a model of any size without its loops.

mod described;
mod told;

use crate::options;
use crate::parallel::in_order;
use crate::screen::Screen;
use crate::source::{reason, shown, Source};
use crate::{put, tally, Stopped};
use std::collections::BTreeSet;
use std::io::{self, IsTerminal};
use std::ops::ControlFlow;
use std::path::PathBuf;
use std::process::ExitCode;
use unloop::design::{Design, Loop, Piece, Promises, Refused};

/// A design, and what became of its loops.
pub struct Finding<'a> {
    name: String,
    design: Design<'a>,
    promises: Promises,
    loops: Vec<Loop>,
    taken: Vec<Result<Piece, Refused>>,
}

/// Takes the loops out and writes the model, where all could be taken out or the rest may stay.
pub fn run(asked: options::Design) -> Result<ExitCode, String> {
    let named = |path: PathBuf| Ok::<_, String>((shown(&path), text_of(&Source::of(path))?));
    let never = asked.never.map(named).transpose()?;
    let source = asked.file.map_or(Source::Input, Source::of);
    let name = source.name();
    let text = text_of(&source)?;
    let design = Design::read(&text, asked.model.as_deref());
    let design = design.map_err(|error| format!("{name}:{error}"))?;
    let promises = never.map_or(Ok(Promises::default()), |(name, text)| {
        let promises = design.promises(&text);
        promises.map_err(|error| format!("{name}:{error}"))
    })?;
    let Some(found) = Finding::of(name, design, promises, asked.json) else {
        return Ok(ExitCode::from(tally::ERROR));
    };
    let refused = found.taken.iter().any(Result::is_err);
    let status = if refused { tally::REFUSED } else { 0 };
    let written = (asked.partial || !refused).then(|| found.written());
    let output = match asked.json {
        true => found.objects(written.as_deref()),
        false => written.unwrap_or_default(),
    };
    if output.is_empty() {
        return Ok(ExitCode::from(status));
    }
    Ok(match put(output.as_bytes()) {
        Ok(()) => ExitCode::from(status),
        Err(Stopped) => ExitCode::from(tally::ERROR),
    })
}

/// All of a file, which must be a text.
fn text_of(source: &Source) -> Result<String, String> {
    let named = |why: &str| format!("{}: {why}", source.name());
    let text = source.whole_text();
    let text = String::from_utf8(text.map_err(|error| named(&reason(&error)))?);
    text.map_err(|_| named("is no text"))
}

impl<'a> Finding<'a> {
    /// Takes out each loop, on all cores, and tells what can't be and what else is to be known.
    fn of(name: String, design: Design<'a>, promises: Promises, json: bool) -> Option<Finding<'a>> {
        let loops = design.loops();
        let screen = Screen::with_progress(loops.len(), !json || !io::stdout().is_terminal());
        let numbers: Vec<usize> = (0..loops.len()).collect();
        let mut taken = Vec::with_capacity(loops.len());
        let ended = in_order(
            &numbers,
            |&number| design.taken_out(number, &promises),
            |number| screen.begin(number, &format!("loops of {name}")),
            |number, piece| {
                if let Err(refused) = &piece {
                    screen.say(&told::refused(&name, &loops[number], refused));
                }
                taken.push(piece);
                ControlFlow::Continue(())
            },
        );
        let found = Finding {
            name,
            design,
            promises,
            loops,
            taken,
        };
        screen.say(&found.told());
        ended.is_continue().then_some(found)
    }

    /// The file, in which loops that were refused stay.
    fn written(&self) -> String {
        let pieces = self.taken.iter().map(|taken| taken.as_ref().ok().cloned());
        self.design.written(&pieces.collect::<Vec<Option<Piece>>>())
    }

    /// The promises that pieces rest on, by number.
    fn rests_on(&self) -> BTreeSet<usize> {
        let pieces = self.taken.iter().flatten();
        pieces
            .flat_map(|piece| piece.promises.iter().copied())
            .collect()
    }
}
