//! `--check THEIRS FILE`: is a loop-free netlist that was made elsewhere as good as FILE?

use crate::described::{described, excluded, object, pins};
use crate::report::{exclusions, pins_of, report};
use crate::screen::Screen;
use crate::source::{reason, Source};
use crate::{tally, written};
use std::process::ExitCode;
use unloop::json::Json;
use unloop::{Block, CellTable, Disagreement, Refusal, Value};

/// What the check of two netlists, or of a table and a netlist, comes to.
pub struct Finding {
    /// For standard output, or a report for standard error.
    pub told: Result<Vec<String>, Vec<String>>,
    pub json: Json,
    pub accepted: bool,
}

impl Finding {
    /// Writes it, and gives the status.
    pub fn tell(self, json: bool) -> ExitCode {
        let status = if self.accepted { 0 } else { tally::REFUSED };
        let lines = match self.told {
            Ok(lines) => lines,
            Err(report) => {
                Screen::plain().say(&report);
                Vec::new()
            }
        };
        match json {
            true => written(&format!("{}\n", self.json), status),
            false => written(
                &lines
                    .iter()
                    .map(|line| format!("{line}\n"))
                    .collect::<String>(),
                status,
            ),
        }
    }
}

/// Compares theirs with ours and tells; an error is a file that can't be read.
pub fn run(theirs: Source, ours: Source, json: bool) -> Result<ExitCode, String> {
    Ok(check(&theirs, &ours)?.tell(json))
}

fn check(theirs: &Source, ours: &Source) -> Result<Finding, String> {
    let (original, made) = match (block(ours)?, block(theirs)?) {
        (Ok(original), Ok(made)) => (original, made),
        (Err(refused), _) | (_, Err(refused)) => return Ok(refused),
    };
    let compared = original.compare(&made);
    let differs = |found| Differs::new(&original, &made, found);
    let interface = interface(&made.input_names(), &made.output_names());
    Ok(Compared {
        names: [theirs.name(), ours.name()],
        original: &original,
        compared: compared.map(|found| found.map(differs)),
        interface,
    }
    .finding())
}

/// What a comparison came to.
pub struct Compared<'a> {
    /// Of what was checked, and of the original.
    pub names: [String; 2],
    pub original: &'a Block,
    pub compared: Result<Option<Differs<'a>>, Refusal>,
    /// The pins and ports of what was checked.
    pub interface: String,
}

impl Compared<'_> {
    pub fn finding(self) -> Finding {
        let [name, original] = &self.names;
        let mut fields = object([
            ("file", Json::text(name)),
            ("original", Json::text(original)),
        ]);
        fields.extend(self.fields());
        fields.extend(excluded(self.original));
        Finding {
            told: self.told(name),
            json: Json::Object(fields),
            accepted: matches!(self.compared, Ok(None)),
        }
    }

    fn told(&self, name: &str) -> Result<Vec<String>, Vec<String>> {
        let excluding = |mut lines: Vec<String>| {
            let exclusions = exclusions(self.original).into_iter();
            lines.extend(exclusions.map(|line| format!("  {line}")));
            lines
        };
        match &self.compared {
            Ok(None) => Ok(excluding(vec![format!("{name}: accepted")])),
            Ok(Some(differs)) => {
                let lines = [format!("{name}: not accepted"), format!("  {differs}")];
                Ok(excluding(lines.into()))
            }
            Err(refusal) => {
                let mut lines = report(*refusal, name, b"");
                if *refusal == Refusal::InterfaceMismatch {
                    let ours = self.original;
                    let must = interface(&ours.input_names(), &ours.output_names());
                    lines.push(format!("  it has      {}", self.interface));
                    lines.push(format!("  but must be {must}"));
                }
                Err(lines)
            }
        }
    }

    /// What it came to, for JSON.
    fn fields(&self) -> Vec<(String, Json)> {
        let accepted = |is: bool| object([("accepted", Json::Bool(is))]);
        match &self.compared {
            Err(refusal) => object([
                ("number", Json::Number(refusal.number())),
                ("word", Json::text(refusal.word())),
            ]),
            Ok(None) => accepted(true),
            Ok(Some(differs)) => [accepted(false), differs.fields()].concat(),
        }
    }
}

/// The block of a file, or what refuses it.
pub fn block(source: &Source) -> Result<Result<Block, Finding>, String> {
    let text = source
        .text()
        .map_err(|error| format!("{}: {}", source.name(), reason(&error)))?;
    Ok(Block::read(&text).map_err(|refusal| Finding {
        told: Err(report(refusal, &source.name(), &text)),
        json: described(&source.name(), &text, Some(refusal), None),
        accepted: false,
    }))
}

/// Where a block, or a table of cells, differs from the original, with both values.
pub struct Differs<'a> {
    ours: &'a Block,
    /// The value that is shown, and should be another.
    shown: &'static str,
    found: Disagreement,
}

impl<'a> Differs<'a> {
    pub fn new(ours: &'a Block, theirs: &Block, found: Disagreement) -> Differs<'a> {
        Differs {
            ours,
            shown: value(theirs, found),
            found,
        }
    }

    /// Of a table whose inputs and ports are the block's.
    pub fn of_table(ours: &'a Block, table: &CellTable, found: Disagreement) -> Differs<'a> {
        let ones = |input: usize| found.setting >> input & 1 == 1;
        let setting: Vec<bool> = (0..ours.inputs()).map(ones).collect();
        let arranged = table.arranged(&ours.input_names(), &ours.output_names());
        let shown = arranged.and_then(|(cells, nodes)| {
            let values = [setting.clone(), cells.run(&setting).ok()?].concat();
            values.get(nodes[found.output]).copied()
        });
        let shown = shown.map_or("u", |one| if one { "1" } else { "0" });
        Differs { ours, shown, found }
    }

    fn port(&self) -> String {
        self.ours.output_names().swap_remove(self.found.output)
    }

    /// The setting, the port and both values.
    pub fn fields(&self) -> Vec<(String, Json)> {
        object([
            (
                "setting",
                pins(
                    self.ours.assignment(self.found.setting).unwrap_or_default(),
                    &self.ours.input_names(),
                ),
            ),
            ("output", Json::text(self.port())),
            ("shown", Json::text(self.shown)),
            ("expected", Json::text(value(self.ours, self.found))),
        ])
    }
}

impl std::fmt::Display for Differs<'_> {
    fn fmt(&self, f: &mut std::fmt::Formatter<'_>) -> std::fmt::Result {
        write!(
            f,
            "{} is {}, not {}",
            self.port(),
            self.shown,
            value(self.ours, self.found)
        )?;
        match self.ours.inputs() {
            0 => Ok(()),
            _ => write!(f, " with {}", pins_of(self.ours, self.found.setting)),
        }
    }
}

/// The value that a block shows where something differs.
fn value(block: &Block, found: Disagreement) -> &'static str {
    let setting = block.setting(found.setting);
    let shown = setting.and_then(|setting| block.shown(&setting));
    match shown.map(|shown| shown[found.output]) {
        Ok(Value::Zero) => "0",
        Ok(Value::One) => "1",
        _ => "u",
    }
}

/// Pins and ports, in order.
pub fn interface(pins: &[String], ports: &[String]) -> String {
    format!("pins {}; ports {}", listed(pins), listed(ports))
}

fn listed(names: &[String]) -> String {
    match names.is_empty() {
        true => "none".to_string(),
        false => names.join(", "),
    }
}
