//! From lines to models.

use super::lines::{logical_lines, LogicalLine};
use super::{BlifError, BlifFile, Instance, Latch, Model, Net, Other, Table};
use std::collections::{HashMap, HashSet};

/// Lines that say how a model is drawn, timed or called, and nothing of what it computes.
const REMARKS: [&str; 17] = [
    ".area",
    ".attr",
    ".cname",
    ".default_input_arrival",
    ".default_input_drive",
    ".default_max_input_load",
    ".default_output_load",
    ".default_output_required",
    ".delay",
    ".input_arrival",
    ".input_drive",
    ".max_input_load",
    ".output_load",
    ".output_required",
    ".wire",
    ".wire_load_slope",
    ".no_merge",
];

/// What stands where a latch has no clock.
const NO_CLOCK: &str = "NIL";

pub fn file(text: &str) -> Result<BlifFile, BlifError> {
    let mut models: Vec<Model> = Vec::new();
    let mut names = HashSet::new();
    let mut open: Option<Reader> = None;
    let mut last = 1;
    for LogicalLine {
        first: line, words, ..
    } in logical_lines(text)
    {
        last = line;
        match (words[0], &mut open) {
            (".model", None) => {
                let reader = Reader::new(&words, line)?;
                if !names.insert(reader.model.name.clone()) {
                    let reason = format!("a second model {}", reader.model.name);
                    return Err(BlifError::at(line, reason));
                }
                open = Some(reader);
            }
            (".end", Some(_)) => {
                let mut model = open.take().map(|reader| reader.model).unwrap_or_default();
                model.end = line;
                models.push(model);
            }
            (".model", Some(reader)) => return Err(reader.unended(line)),
            (word, None) => return Err(BlifError::at(line, format!("{word} outside of a model"))),
            (_, Some(reader)) => reader.line(&words, line)?,
        }
    }
    match open {
        Some(reader) => Err(reader.unended(last)),
        None if models.is_empty() => Err(BlifError::at(last, "no model: .model to .end")),
        None => Ok(BlifFile { models }),
    }
}

/// A model that is being read.
struct Reader {
    model: Model,
    nets: HashMap<String, Net>,
    /// Whether rows may follow: those of the last table.
    in_table: bool,
    /// Whether the last table has a row, which says what it shows.
    has_row: bool,
    /// Behind `.exdc`, where lines tell of conditions and not of the model.
    in_conditions: bool,
}

impl Reader {
    fn new(words: &[&str], line: usize) -> Result<Reader, BlifError> {
        let [_, name] = words else {
            return Err(BlifError::at(line, ".model needs one name"));
        };
        let model = Model {
            name: name.to_string(),
            line,
            ..Model::default()
        };
        Ok(Reader {
            model,
            nets: HashMap::new(),
            in_table: false,
            has_row: false,
            in_conditions: false,
        })
    }

    fn unended(&self, line: usize) -> BlifError {
        BlifError::at(line, format!("{} has no .end", self.model.name))
    }

    fn net(&mut self, name: &str) -> Net {
        if let Some(&net) = self.nets.get(name) {
            return net;
        }
        let net = self.model.nets.len();
        self.model.nets.push(name.to_string());
        self.nets.insert(name.to_string(), net);
        net
    }

    fn nets(&mut self, names: &[&str]) -> Vec<Net> {
        names.iter().map(|name| self.net(name)).collect()
    }

    fn line(&mut self, words: &[&str], line: usize) -> Result<(), BlifError> {
        let (word, rest) = (words[0], &words[1..]);
        if self.in_conditions {
            return Ok(());
        }
        if !word.starts_with('.') {
            return self.row(words, line);
        }
        self.in_table = false;
        match word {
            ".inputs" | ".input" => {
                let nets = self.nets(rest);
                self.model.inputs.extend(nets);
            }
            ".outputs" | ".output" => {
                let nets = self.nets(rest);
                self.model.outputs.extend(nets);
            }
            ".names" => self.table(rest, line)?,
            ".conn" => self.connection(rest, line)?,
            ".latch" => self.latch(rest, line)?,
            ".gate" | ".subckt" => {
                let instance = self.instance(word, rest, line)?;
                match word {
                    ".gate" => self.model.gates.push(instance),
                    _ => self.model.subcircuits.push(instance),
                }
            }
            _ if REMARKS.contains(&word) => {}
            _ => {
                self.in_conditions = word == ".exdc";
                let word = word.to_string();
                self.model.others.push(Other { word, line });
            }
        }
        Ok(())
    }

    fn table(&mut self, names: &[&str], line: usize) -> Result<(), BlifError> {
        let mut inputs = self.nets(names);
        let output = inputs.pop();
        let output = output.ok_or_else(|| BlifError::at(line, ".names without a net"))?;
        self.model.tables.push(Table {
            inputs,
            output,
            rows: Vec::new(),
            shown: true,
            line,
        });
        (self.in_table, self.has_row) = (true, false);
        Ok(())
    }

    /// `.conn FROM TO`: the second net is the first.
    fn connection(&mut self, names: &[&str], line: usize) -> Result<(), BlifError> {
        let [from, to] = self.nets(names)[..] else {
            return Err(BlifError::at(line, ".conn needs two nets"));
        };
        self.model.tables.push(Table {
            inputs: vec![from],
            output: to,
            rows: vec![vec![Some(true)]],
            shown: true,
            line,
        });
        Ok(())
    }

    /// A row, `1-0 1`: a character for each input, and what the output is; a table without inputs has the last alone.
    fn row(&mut self, words: &[&str], line: usize) -> Result<(), BlifError> {
        let wrong = |reason: String| Err(BlifError::at(line, reason));
        let Some(table) = self.model.tables.last_mut().filter(|_| self.in_table) else {
            return wrong(format!("{} stands outside of a table", words[0]));
        };
        let (row, shown) = match (table.inputs.is_empty(), words) {
            (true, [shown]) => ("", *shown),
            (false, [row, shown]) => (*row, *shown),
            _ => return wrong("a row has a character for each input, and the output".to_string()),
        };
        let shown = match shown {
            "0" => false,
            "1" => true,
            _ => return wrong(format!("a table's output is 0 or 1, not {shown}")),
        };
        if self.has_row && shown != table.shown {
            return wrong("rows for 0 and for 1 in one table".to_string());
        }
        let wanted: Option<Vec<_>> = row.chars().map(wanted).collect();
        let wanted = wanted.filter(|wanted| wanted.len() == table.inputs.len());
        let Some(wanted) = wanted else {
            let inputs = table.inputs.len();
            return wrong(format!("{row} is no row of 0, 1 and - for {inputs} inputs"));
        };
        table.rows.push(wanted);
        table.shown = shown;
        self.has_row = true;
        Ok(())
    }

    fn latch(&mut self, words: &[&str], line: usize) -> Result<(), BlifError> {
        let [input, output, rest @ ..] = words else {
            return Err(BlifError::at(line, ".latch needs an input and an output"));
        };
        let control = rest.get(1).filter(|&&name| name != NO_CLOCK);
        let latch = Latch {
            input: self.net(input),
            output: self.net(output),
            control: control.map(|name| self.net(name)),
            rest: rest.iter().map(|word| word.to_string()).collect(),
            line,
        };
        self.model.latches.push(latch);
        Ok(())
    }

    /// `NAME pin=NET pin=NET`, in any order.
    fn instance(&mut self, word: &str, words: &[&str], line: usize) -> Result<Instance, BlifError> {
        let Some((of, pairs)) = words.split_first() else {
            return Err(BlifError::at(line, format!("{word} without a name")));
        };
        let mut pins: Vec<(String, Net)> = Vec::new();
        let mut seen = HashSet::new();
        for pair in pairs {
            let split = pair.split_once('=').filter(|(_, net)| !net.is_empty());
            let Some((pin, net)) = split else {
                return Err(BlifError::at(line, format!("{pair} is not PIN=NET")));
            };
            if !seen.insert(pin) {
                let reason = format!("the pin {pin} of {of} stands there twice");
                return Err(BlifError::at(line, reason));
            }
            pins.push((pin.to_string(), self.net(net)));
        }
        Ok(Instance {
            of: of.to_string(),
            pins,
            line,
        })
    }
}

/// What a character of a row wants of its input.
fn wanted(character: char) -> Option<Option<bool>> {
    match character {
        '0' => Some(Some(false)),
        '1' => Some(Some(true)),
        '-' => Some(None),
        _ => None,
    }
}
