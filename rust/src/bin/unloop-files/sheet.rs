//! `--sheet`: a table of a netlist's outputs, a row for each setting of a list.

use crate::source::{reason, Source};
use std::path::{Path, PathBuf};
use unloop::{Assignment, Block, Refusal, Value};

/// What a table is made of.
#[derive(Debug)]
pub struct Sheet {
    pub settings: PathBuf,
    pub file: PathBuf,
}

/// Why there is no table.
pub enum Failure {
    Refused {
        refusal: Refusal,
        name: String,
        text: Vec<u8>,
    },
    Error(String),
}

impl Sheet {
    /// The lines of the table: the pins and the ports, and then a row for each setting.
    pub fn table(self) -> Result<String, Failure> {
        let source = Source::of(self.file);
        let named = |why: &str| Failure::Error(format!("{}: {why}", source.name()));
        let text = source.text().map_err(|error| named(&reason(&error)))?;
        let block = Block::read(&text).map_err(|refusal| Failure::Refused {
            refusal,
            name: source.name(),
            text,
        })?;
        let settings = settings(&self.settings, &block.input_names()).map_err(Failure::Error)?;
        Ok(table(&block, &settings))
    }
}

/// The word that stands for every setting, in the place of a list.
pub const ALL: &str = "all";

/// The settings of a list, one a line, or every setting by its number, where each pin is fixed.
pub fn settings(path: &Path, pins: &[String]) -> Result<Vec<Assignment>, String> {
    if path == Path::new(ALL) {
        let fixed = (1 << pins.len()) - 1;
        let setting = |ones: u16| Assignment { fixed, ones };
        return Ok((0..=fixed).map(setting).collect());
    }
    let source = Source::of(path.to_path_buf());
    let name = source.name();
    let bytes = source
        .whole_text()
        .map_err(|error| format!("{name}: {}", reason(&error)))?;
    let text = String::from_utf8(bytes).map_err(|_| format!("{name}: the list is no text"))?;
    let numbered = text.lines().zip(1..);
    let setting = |(line, row)| {
        Assignment::from_pins(line, pins).map_err(|why| format!("{name}:{row}: {why}"))
    };
    numbered.map(setting).collect()
}

/// A free input is `-` and an undefined output `?`, each below its name.
fn table(block: &Block, settings: &[Assignment]) -> String {
    let (pins, ports) = (block.input_names(), block.output_names());
    let mut lines = row(&pins, &pins, &ports, &ports);
    for (&setting, outputs) in settings.iter().zip(block.sheet(settings)) {
        let given = (0..pins.len()).map(|input| match setting.value(input) {
            Some(value) => u8::from(value).to_string(),
            None => "-".to_string(),
        });
        let shown = outputs.expect("a line names inputs only").into_iter();
        let shown = shown.map(|value| match value {
            Value::Undefined => "?".to_string(),
            value => (value as u8).to_string(),
        });
        lines += &row(
            &pins,
            &given.collect::<Vec<_>>(),
            &ports,
            &shown.collect::<Vec<_>>(),
        );
    }
    lines
}

/// The cells of a row, each as wide as the name above it.
pub fn row(pins: &[String], given: &[String], ports: &[String], shown: &[String]) -> String {
    let side = |names: &[String], cells: &[String]| {
        let cells = names.iter().zip(cells);
        let cells = cells.map(|(name, cell)| format!("{cell:width$}", width = name.len()));
        cells.collect::<Vec<String>>().join(" ")
    };
    let line = format!("{} | {}", side(pins, given), side(ports, shown));
    line.trim_end().to_string() + "\n"
}
