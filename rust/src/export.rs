//! What a block's names become in Verilog and BLIF, whose ports and inputs share one set of names.

use crate::{Block, Names, Operand};
use std::collections::HashSet;
use std::fmt;

/// What the nets of the constants are called behind a prefix.
pub(crate) const CONSTANTS: [&str; 2] = ["zero", "one"];

/// What is put behind a port that has an input's name. The longer name is no netlist's, whose names have at most eight bytes.
pub const OUTPUT_SUFFIX: &str = "__output";

/// What is put behind a gate that has the name of a port which shows something else.
const GATE_SUFFIX: &str = "__gate";

/// What a file that is written for other tools calls a block and its parts, where that is not what the block calls them.
#[derive(Debug, Clone, PartialEq, Eq)]
pub struct Labels {
    /// The module's, model's or table's name.
    pub module: ModuleName,
    /// What the block was made from, for a comment at the beginning.
    pub made_from: Option<String>,
    /// The name of each gate, by number; one without a name is called by its number, and so is each behind the end of the list.
    pub gates: Vec<Option<String>>,
    /// What pins, ports and gates were called elsewhere.
    pub names: Names,
}

impl From<&ModuleName> for Labels {
    fn from(module: &ModuleName) -> Labels {
        Labels {
            module: module.clone(),
            made_from: None,
            gates: Vec::new(),
            names: Names::default(),
        }
    }
}

impl Labels {
    /// A gate's own name.
    pub(crate) fn gate(&self, gate: usize) -> Option<&str> {
        self.gates.get(gate)?.as_deref()
    }

    /// The lines that a file begins with: what it was made from, and the pins that never lines exclude.
    pub fn comments(&self, block: &Block) -> Vec<String> {
        let pins: Vec<String> = block.input_names();
        let pins = pins.into_iter().map(|pin| match self.names.input(&pin) {
            Some(other) => other.to_string(),
            None => pin,
        });
        let pins: Vec<String> = pins.collect();
        let nevers = block.never_lines().into_iter();
        let nevers = nevers.map(|line| line.never_line(&pins));
        self.made_from.iter().cloned().chain(nevers).collect()
    }
}

/// The names of a block's nets, no two the same.
pub(crate) struct Nets {
    pub inputs: Vec<String>,
    /// The ports; one with an input's name has [`OUTPUT_SUFFIX`] behind it.
    pub ports: Vec<String>,
    pub gates: Vec<String>,
    /// What every name that is made up begins with.
    pub prefix: String,
}

impl Nets {
    pub fn of(block: &Block, labels: &Labels) -> Nets {
        let names = &labels.names;
        let inputs = block.input_names().into_iter();
        let inputs = inputs.map(|name| names.input(&name).map_or(name.clone(), str::to_string));
        let inputs: Vec<String> = inputs.collect();
        let mut taken: HashSet<String> = inputs.iter().cloned().collect();
        let mut ports = Vec::new();
        for port in block.output_names() {
            let mut port = names.port(&port).map_or(port.clone(), str::to_string);
            while !taken.insert(port.clone()) {
                port += OUTPUT_SUFFIX;
            }
            ports.push(port);
        }
        let shown = block.outputs_show();
        let mut named = |gate: usize| {
            let own = labels.gate(gate)?;
            let name = names.gate(own).unwrap_or(own);
            let port = ports.iter().position(|port| port == name);
            let name = match port.map(|port| shown[port] == Operand::Gate(gate)) {
                Some(true) => return Some(name.to_string()),
                Some(false) => format!("{name}{GATE_SUFFIX}"),
                None => name.to_string(),
            };
            taken.insert(name.clone()).then_some(name)
        };
        let gates: Vec<Option<String>> = (0..block.gates()).map(&mut named).collect();
        let prefix = free_prefix(&taken);
        let numbered = |(gate, name): (usize, Option<String>)| {
            name.unwrap_or_else(|| format!("{prefix}{gate}"))
        };
        Nets {
            gates: gates.into_iter().enumerate().map(numbered).collect(),
            inputs,
            ports,
            prefix,
        }
    }

    /// The net of an operand.
    pub fn net(&self, operand: Operand, constants: [&str; 2]) -> String {
        match operand {
            Operand::Constant(value) => constants[usize::from(value)].to_string(),
            Operand::Input(input) => self.inputs[input].clone(),
            Operand::Gate(gate) => self.gates[gate].clone(),
        }
    }

    /// Whether a port is the net of a gate, so that nothing more is to be connected.
    pub fn is_gate(&self, port: &String) -> bool {
        self.gates.contains(port)
    }
}

/// `_`, or so many more of them that no name begins so and goes on as one that is made up: with a number, or as a constant.
fn free_prefix(taken: &HashSet<String>) -> String {
    let made_up = |rest: &str| {
        let number = rest.bytes().all(|byte| byte.is_ascii_digit());
        number || CONSTANTS.contains(&rest)
    };
    let is_free = |prefix: &String| {
        let mut rests = taken
            .iter()
            .filter_map(|name| name.strip_prefix(&prefix[..]));
        !rests.any(made_up)
    };
    let mut prefixes = (1..).map(|count| "_".repeat(count));
    prefixes.find(is_free).unwrap_or_default()
}

/// The name of a module, a model or a table: letters, digits and `_`, no digit first. [`module_name`] makes it.
#[derive(Debug, Clone, PartialEq, Eq, Hash)]
pub struct ModuleName(String);

impl ModuleName {
    pub fn as_str(&self) -> &str {
        &self.0
    }
}

impl fmt::Display for ModuleName {
    fn fmt(&self, f: &mut fmt::Formatter<'_>) -> fmt::Result {
        f.write_str(&self.0)
    }
}

/// A name for a module or model, made of a file's: other characters than letters, digits and `_` become `_`, and one is put before a digit.
///
/// ```
/// # use unloop::module_name;
/// assert_eq!(module_name("scaler_2").as_str(), "scaler_2");
/// assert_eq!(module_name("rate-mended").as_str(), "rate_mended");
/// assert_eq!(module_name("4.in").as_str(), "_4_in");
/// assert_eq!(module_name("a b;").as_str(), "a_b_");
/// ```
pub fn module_name(stem: &str) -> ModuleName {
    let byte = |c: char| if c.is_ascii_alphanumeric() { c } else { '_' };
    let name: String = stem.chars().map(byte).collect();
    ModuleName(match name.chars().next() {
        Some(first) if !first.is_ascii_digit() => name,
        _ => format!("_{name}"),
    })
}
