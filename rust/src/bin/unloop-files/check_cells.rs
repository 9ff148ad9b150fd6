//! `--check-cells TABLE FILE`: is a table of cells that was made elsewhere as good as FILE?

use crate::cells::table_of;
use crate::check::{block, interface, Compared, Differs, Finding};
use crate::described::object;
use crate::report::report;
use crate::source::Source;
use std::process::ExitCode;
use unloop::json::Json;
use unloop::{CellTable, Refusal};

/// Compares the table with the netlist by CompareCells and tells; an error is a file that can't be read, or is no table.
pub fn run(table: &Source, ours: &Source, json: bool) -> Result<ExitCode, String> {
    let name = table.name();
    let original = match block(ours)? {
        Ok(original) => original,
        Err(refused) => return Ok(refused.tell(json)),
    };
    let cells = match table_of(table)? {
        Ok(cells) => cells,
        Err(refusal) => return Ok(refused(refusal, &name, ours).tell(json)),
    };
    let compared = original.compare_table(&cells);
    let differs = |found| Differs::of_table(&original, &cells, found);
    let finding = Compared {
        names: [name, ours.name()],
        original: &original,
        compared: compared.map(|found| found.map(differs)),
        interface: interface(cells.inputs(), &ports(&cells)),
    };
    Ok(finding.finding().tell(json))
}

fn ports(table: &CellTable) -> Vec<String> {
    let outputs = table.outputs().iter();
    outputs.map(|(port, _)| port.clone()).collect()
}

/// A table whose words are no cells.
fn refused(refusal: Refusal, name: &str, ours: &Source) -> Finding {
    Finding {
        told: Err(report(refusal, name, b"")),
        json: Json::Object(object([
            ("file", Json::text(name)),
            ("original", Json::text(ours.name())),
            ("number", Json::Number(refusal.number())),
            ("word", Json::text(refusal.word())),
        ])),
        accepted: false,
    }
}
