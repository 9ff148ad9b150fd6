//! `--verilog`, `--blif` and `--cells`: renderings, or originals, for tools that nobody here wrote.

use crate::folder::Folder;
use crate::looked::looked_at;
use crate::options::{Export, Form, Target};
use crate::report::{notes_of, report};
use crate::screen::Screen;
use crate::source::{reason, shown, Source};
use crate::{put, sources, tally, Stopped};
use std::collections::HashSet;
use std::fs;
use std::path::{Path, PathBuf};
use std::process::ExitCode;
use unloop::declarations::gate_names;
use unloop::second_look::{self, Language};
use unloop::{blif, cell_table, module_name, verilog, Block, Labels, ModuleName, Names, Refusal};

/// Why a file is not written.
enum Failure {
    Refused(Vec<String>),
    Error(String),
}

/// How files are written, and the names that are taken.
struct Writer {
    form: Form,
    original: bool,
    names: Option<(PathBuf, Names)>,
    folder: Option<Folder>,
    taken: HashSet<String>,
}

/// Writes each rendering, or each original, in a form; what is refused or can't be written is reported, and the others are written.
pub fn run(export: Export) -> Result<ExitCode, String> {
    let names = export.names.map(names_of).transpose()?;
    let folder = match export.into {
        Some(Target { folder, force }) => Some(Folder::open(folder, force, &export.files)?),
        None => None,
    };
    let mut writer = Writer {
        form: export.form,
        original: export.original,
        names,
        folder,
        taken: HashSet::new(),
    };
    let mut status = 0;
    for source in sources(export.files) {
        match writer.write(&source) {
            Ok(Ok(())) => {}
            Ok(Err(Stopped)) => return Ok(ExitCode::from(tally::ERROR)),
            Err(Failure::Refused(report)) => {
                Screen::plain().say(&report);
                status = status.max(tally::REFUSED);
            }
            Err(Failure::Error(reason)) => {
                Screen::plain().say(&[format!("unloop: {reason}")]);
                status = status.max(tally::ERROR);
            }
        }
    }
    Ok(ExitCode::from(status))
}

/// The names that a file tells.
fn names_of(path: PathBuf) -> Result<(PathBuf, Names), String> {
    let name = shown(&path);
    let text = fs::read_to_string(&path).map_err(|error| format!("{name}: {}", reason(&error)))?;
    let names = text.parse().map_err(|error| format!("{name}:{error}"))?;
    Ok((path, names))
}

impl Writer {
    /// Writes a file in its form, under a name that no file before it took, to standard output or the folder.
    fn write(&mut self, source: &Source) -> Result<Result<(), Stopped>, Failure> {
        let name = source.name();
        let text = source.text();
        let text = text.map_err(|error| Failure::Error(format!("{name}: {}", reason(&error))))?;
        let refused = |refusal| Failure::Refused(report(refusal, &name, &text));
        let read = Block::read(&text).map_err(refused)?;
        let labels = self.labels(source, &text, &read).map_err(Failure::Error)?;
        let notes = match self.original {
            true => Vec::new(),
            false => notes_of(&name, &read),
        };
        let form = self.looked_for(&labels.names);
        let written = self.in_form(read, &labels).map_err(refused)?;
        let looked = looked_at(&text, written.as_bytes(), form);
        looked.map_err(|reason| Failure::Error(format!("{name}: {reason}")))?;
        let module = &labels.module;
        if !self.taken.insert(module.to_string()) {
            let reason = format!("{name}: a FILE before it gives the name {module} too");
            return Err(Failure::Error(reason));
        }
        let done = match (&self.folder, source.path()) {
            (Some(folder), Some(path)) => {
                let target = path.with_extension(self.form.ending());
                let put = folder.put(&target, written.as_bytes());
                Ok(put.map_err(Failure::Error)?)
            }
            _ => put(written.as_bytes()),
        };
        Screen::plain().say(&notes);
        Ok(done)
    }

    /// The rendering of a block, or the block itself, in the form.
    fn in_form(&self, read: Block, labels: &Labels) -> Result<String, Refusal> {
        let block = if self.original { read } else { read.render()? };
        let labels = labels.clone();
        match self.form {
            Form::Verilog => Ok(verilog(&block, labels)),
            Form::Blif => Ok(blif(&block, labels)),
            Form::Cells => cell_table(&block, labels),
        }
    }

    /// What the second look at a written file looks for.
    fn looked_for<'a>(&self, names: &'a Names) -> second_look::Form<'a> {
        let language = match self.form {
            Form::Verilog => Language::Verilog,
            Form::Blif => Language::Blif,
            Form::Cells => Language::Cells,
        };
        second_look::Form {
            language,
            loops: self.original,
            pins: &names.inputs,
            ports: &names.ports,
        }
    }

    /// What a file's parts are called: an original's gates as in its text, pins and ports as the names tell. These must be the file's.
    fn labels(&self, source: &Source, text: &[u8], block: &Block) -> Result<Labels, String> {
        let mut labels = Labels {
            made_from: Some(made_from(self.original, &source.last_part())),
            ..Labels::from(&self.module(source))
        };
        if self.original {
            labels.gates = gate_names(text);
        }
        if let Some((path, names)) = &self.names {
            belongs(path, names, block, &source.name())?;
            labels.names = names.clone();
        }
        Ok(labels)
    }

    /// The name of the model that the file was, or of the file.
    fn module(&self, source: &Source) -> ModuleName {
        let told = self
            .names
            .as_ref()
            .and_then(|(_, names)| names.model.as_ref());
        told.map_or_else(|| module_name(&source.stem()), |model| module_name(model))
    }
}

/// The comment that a file of another form begins with: what was written, and of which file.
pub fn made_from(original: bool, file: &str) -> String {
    let what = if original { "original" } else { "rendering" };
    format!("{what} of {file}, by unloop")
}

/// Whether names are those of a block's pins and ports; gates are a rendering's own.
fn belongs(path: &Path, names: &Names, block: &Block, file: &str) -> Result<(), String> {
    let sides = [
        ("pin", &names.inputs, block.input_names()),
        ("port", &names.ports, block.output_names()),
    ];
    for (word, told, known) in sides {
        if let Some((name, _)) = told.iter().find(|(name, _)| !known.contains(name)) {
            return Err(format!("{}: {file} has no {word} {name}", shown(path)));
        }
    }
    Ok(())
}

impl Form {
    /// The ending of a file's name in this form.
    fn ending(self) -> &'static str {
        match self {
            Form::Verilog => "v",
            Form::Blif => "blif",
            Form::Cells => "cells",
        }
    }
}
