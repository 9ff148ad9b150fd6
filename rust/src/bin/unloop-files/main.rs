//! Runs the program `unloop` on files and reports what it refused; `bin/unloop` starts it with the program's path.
//! What it does is in usage.txt.

mod abc;
mod audit;
mod catalogue;
mod cells;
mod check;
mod check_cells;
mod cover;
mod described;
mod design;
mod export;
mod fit;
mod folder;
mod from_blif;
mod looked;
mod naming;
mod options;
mod output;
mod page;
mod parallel;
mod program;
mod reduce;
mod report;
mod run;
mod screen;
mod sheet;
mod shrink;
mod source;
mod store;
mod tally;

use options::{Asked, Request};
use output::{put, Stopped};
use program::Program;
use run::Run;
use screen::Screen;
use sheet::{Failure, Sheet};
use source::Source;
use std::path::PathBuf;
use std::process::ExitCode;

const USAGE: &str = include_str!("usage.txt");
const VERSION: &str = concat!("unloop ", env!("CARGO_PKG_VERSION"), "\n");

fn main() -> ExitCode {
    let mut arguments = std::env::args_os().skip(1);
    let Some(program) = arguments.next() else {
        return failed("the first argument must be the program's path");
    };
    let asked = options::parse(arguments).and_then(|asked| {
        let Asked {
            request,
            output,
            reads,
        } = asked;
        // Of a design nothing is written before all of it is done.
        let open = match request {
            Request::Design(_) => output::open_later,
            _ => output::open,
        };
        output.map_or(Ok(()), |path| open(path, &reads))?;
        Ok(request)
    });
    match asked {
        Ok(request) => answered(request, Program(program.into())),
        Err(reason) => failed(&reason),
    }
}

fn answered(request: Request, program: Program) -> ExitCode {
    let done = match request {
        Request::Help => return written(USAGE, 0),
        Request::Version => return written(VERSION, 0),
        Request::Sheet { settings, file } => return shown(Sheet { settings, file }),
        Request::RunCells { settings, cells } => cells::run(&settings, &Source::of(cells)),
        Request::Render { files, into, json } => {
            Run::new(program, sources(files), into, json).map(Run::all)
        }
        Request::Check { theirs, ours, json } => {
            check::run(Source::of(theirs), Source::of(ours), json)
        }
        Request::CheckCells { table, ours, json } => {
            check_cells::run(&Source::of(table), &Source::of(ours), json)
        }
        Request::Audit(audited, json) => Ok(audit::run(&audited, json)),
        Request::Store(store) => store::run(&program, &store),
        Request::Cover(files) => Ok(cover::run(&sources(files))),
        Request::Export(export) => export::run(export),
        Request::Reduce(asked) => reduce::run(asked),
        Request::FromBlif(asked) => from_blif::run(asked),
        Request::Design(asked) => design::run(asked),
        Request::Page(target, files) => page::run(&target, files),
        Request::AuditedPage(target, audited) => page::run_audited(&target, &audited),
    };
    done.unwrap_or_else(|reason| failed(&reason))
}

/// The files given, or standard input.
fn sources(files: Vec<PathBuf>) -> Vec<Source> {
    match files.is_empty() {
        true => vec![Source::Input],
        false => files.into_iter().map(Source::of).collect(),
    }
}

/// Writes a sheet's table, or tells why there is none.
fn shown(sheet: Sheet) -> ExitCode {
    match sheet.table() {
        Ok(table) => written(&table, 0),
        Err(Failure::Refused {
            refusal,
            name,
            text,
        }) => {
            Screen::plain().say(&report::report(refusal, &name, &text));
            ExitCode::from(tally::REFUSED)
        }
        Err(Failure::Error(reason)) => failed(&reason),
    }
}

/// Writes a text to standard output and ends with a status.
fn written(text: &str, status: u8) -> ExitCode {
    match put(text.as_bytes()) {
        Ok(()) => ExitCode::from(status),
        Err(Stopped) => ExitCode::from(tally::ERROR),
    }
}

/// An error that leaves nothing to do.
fn failed(reason: &str) -> ExitCode {
    Screen::plain().say(&[format!("unloop: {reason}")]);
    ExitCode::from(tally::ERROR)
}
