//! `--cover FILE ...`: the never lines and the cover of each netlist, as NAME.cover has them.

use crate::parallel::in_order;
use crate::report::report;
use crate::screen::Screen;
use crate::source::{reason, Source};
use crate::{put, tally, Stopped};
use std::ops::ControlFlow;
use std::process::ExitCode;
use unloop::audit::cover_text;
use unloop::Block;

/// What is said of a file: its cover or the report of a refusal; an error is one that can't be read.
type Said = Result<Result<String, Vec<String>>, String>;

/// Writes each cover. Of more than one file each line has its file's name before it, and an empty cover a line that says so.
pub fn run(sources: &[Source]) -> ExitCode {
    let mut status = 0;
    let ended = in_order(
        sources,
        said,
        |_| {},
        |index, said| {
            let (report, found) = match said {
                Ok(Ok(cover)) => {
                    let written = match sources.len() {
                        1 => cover,
                        _ => named(&sources[index].name(), &cover),
                    };
                    return match put(written.as_bytes()) {
                        Ok(()) => ControlFlow::Continue(()),
                        Err(Stopped) => ControlFlow::Break(()),
                    };
                }
                Ok(Err(report)) => (report, tally::REFUSED),
                Err(reason) => (vec![format!("unloop: {reason}")], tally::ERROR),
            };
            Screen::plain().say(&report);
            status = status.max(found);
            ControlFlow::Continue(())
        },
    );
    ExitCode::from(if ended.is_break() {
        tally::ERROR
    } else {
        status
    })
}

fn said(source: &Source) -> Said {
    let name = source.name();
    let text = source
        .text()
        .map_err(|error| format!("{name}: {}", reason(&error)))?;
    let block = Block::read(&text);
    Ok(block
        .map(|block| cover_text(&block))
        .map_err(|refusal| report(refusal, &name, &text)))
}

fn named(name: &str, cover: &str) -> String {
    match cover.is_empty() {
        true => format!("{name}: settles under no setting\n"),
        false => cover
            .lines()
            .map(|line| format!("{name}: {line}\n"))
            .collect(),
    }
}
