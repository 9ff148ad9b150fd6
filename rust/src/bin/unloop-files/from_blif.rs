//! `--from-blif`: a model that another tool wrote, as a netlist.

use crate::folder::identity;
use crate::options::FromBlif;
use crate::report::report;
use crate::screen::Screen;
use crate::source::{reason, shown, Source};
use crate::{put, tally, Stopped};
use std::fs;
use std::path::Path;
use std::process::ExitCode;
use unloop::{Block, Names};

/// Writes the netlist text of a model, and the names that were changed where they are asked for; else they are told.
pub fn run(asked: FromBlif) -> Result<ExitCode, String> {
    let source = asked.file.map_or(Source::Input, Source::of);
    let name = source.name();
    let named = |why: &str| format!("{name}: {why}");
    let text = source.whole_text();
    let text = String::from_utf8(text.map_err(|error| named(&reason(&error)))?);
    let text = text.map_err(|_| named("the model is no text"))?;
    let read = match unloop::from_blif(&text, asked.model.as_deref()) {
        Ok(read) => read,
        Err(error) if error.too_large => return Ok(refused(&[format!("{name}:{error}")])),
        Err(error) => return Err(format!("{name}:{error}")),
    };
    if let Err(refusal) = Block::read(&read.netlist) {
        let name = format!("{name} as a netlist");
        return Ok(refused(&report(refusal, &name, read.netlist.as_bytes())));
    }
    if read.models > 1 {
        let model = read.names.model.as_deref().unwrap_or("");
        let told = format!("{name}: the model {model} of {}", read.models);
        Screen::plain().say(&[told]);
    }
    match &asked.names {
        Some(path) => write_names(path, &source, &read.names)?,
        None => Screen::plain().say(&changed(&name, &read.names)),
    }
    Ok(match put(read.netlist.as_bytes()) {
        Ok(()) => ExitCode::SUCCESS,
        Err(Stopped) => ExitCode::from(tally::ERROR),
    })
}

fn refused(report: &[String]) -> ExitCode {
    Screen::plain().say(report);
    ExitCode::from(tally::REFUSED)
}

/// A line on the pins and ports that have other names, where there are any.
fn changed(name: &str, names: &Names) -> Vec<String> {
    let mut pairs: Vec<String> = Vec::new();
    for (ours, theirs) in names.inputs.iter().chain(&names.ports) {
        pairs.push(format!("{ours} is {theirs}"));
    }
    pairs.dedup();
    let told = format!("{name}: {} (--names NAMES keeps that)", pairs.join(", "));
    (!pairs.is_empty()).then_some(told).into_iter().collect()
}

/// Writes the file of names, which is replaced, but never the model's own.
fn write_names(path: &Path, source: &Source, names: &Names) -> Result<(), String> {
    let found = |path: &Path| fs::metadata(path).ok().map(|found| identity(&found));
    let there = found(path);
    if there.is_some() && there == source.path().and_then(|path| found(path)) {
        let name = shown(path);
        return Err(format!("{name}: is the FILE, and isn't overwritten"));
    }
    let told = |error| format!("{}: {}", shown(path), reason(&error));
    fs::write(path, names.to_string()).map_err(told)
}
