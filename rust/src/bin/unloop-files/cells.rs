//! `--run-cells`: the sheet of a table of cells, a row for each setting of a list.

use crate::report::report;
use crate::screen::Screen;
use crate::sheet::{row, settings};
use crate::source::{reason, shown, Source};
use crate::{tally, written};
use std::path::Path;
use std::process::ExitCode;
use unloop::{Assignment, CellTable, Refusal, TableError};

/// The table of a file, or why its words are no cells; an error is a file that can't be read, or whose lines are no table's.
pub fn table_of(source: &Source) -> Result<Result<CellTable, Refusal>, String> {
    let name = source.name();
    let text = source
        .whole_text()
        .map_err(|error| format!("{name}: {}", reason(&error)))?;
    match CellTable::read(&String::from_utf8_lossy(&text)) {
        Ok(table) => Ok(Ok(table)),
        Err(TableError::Refused(refusal)) => Ok(Err(refusal)),
        Err(TableError::Line { row, why }) => Err(format!("{name}:{row}: {why}")),
        Err(error) => Err(format!("{name}: {error}")),
    }
}

/// Writes the ports that the cells show under each setting; a table that is none, or a setting that leaves an input open, is refused.
pub fn run(list: &Path, source: &Source) -> Result<ExitCode, String> {
    let table = match table_of(source)? {
        Ok(table) => table,
        Err(refusal) => return Ok(refused(refusal, &source.name())),
    };
    let inputs = table.inputs();
    let settings = settings(list, inputs)?;
    let ports = table.outputs().iter().map(|(port, _)| port.clone());
    let ports: Vec<String> = ports.collect();
    let mut lines = row(inputs, inputs, &ports, &ports);
    for (setting, number) in settings.into_iter().zip(1..) {
        let given = values(setting, inputs.len());
        match table.shown(&given) {
            Ok(values) => lines += &row(inputs, &digits(&given), &ports, &digits(&values)),
            Err(refusal) => return Ok(refused(refusal, &format!("{}:{number}", shown(list)))),
        }
    }
    Ok(written(&lines, 0))
}

/// The values of a setting's inputs up to the first that is open; a run refuses fewer than there are inputs.
fn values(setting: Assignment, inputs: usize) -> Vec<bool> {
    (0..inputs)
        .map_while(|input| setting.value(input))
        .collect()
}

fn digits(values: &[bool]) -> Vec<String> {
    let digit = |&value: &bool| u8::from(value).to_string();
    values.iter().map(digit).collect()
}

fn refused(refusal: Refusal, name: &str) -> ExitCode {
    Screen::plain().say(&report(refusal, name, b""));
    ExitCode::from(tally::REFUSED)
}
