//! A BLIF file as it stands: its models with their nets, tables, gates, subcircuits and latches, of any size and however they are connected.
//! What is made of a model is somebody else's matter (`from_blif`); a line whose word is not known here is kept by that word.

mod flat;
mod lines;
mod reader;

pub(crate) use flat::{Placed, Placement};
pub(crate) use lines::logical_lines;

use std::fmt;

/// Why a file or a model is not read: the line, from 1, and what is wrong with it.
#[derive(Debug, Clone, PartialEq, Eq)]
pub struct BlifError {
    pub line: usize,
    pub reason: String,
    /// Nothing is wrong with the model, which is only too large for a netlist.
    pub too_large: bool,
}

impl BlifError {
    pub(crate) fn at(line: usize, reason: impl Into<String>) -> BlifError {
        BlifError {
            line,
            reason: reason.into(),
            too_large: false,
        }
    }
}

impl fmt::Display for BlifError {
    fn fmt(&self, f: &mut fmt::Formatter<'_>) -> fmt::Result {
        write!(f, "{}: {}", self.line, self.reason)
    }
}

impl std::error::Error for BlifError {}

/// A net, by its place in [`Model::nets`].
pub type Net = usize;

/// The models of a file, in order; no two have the same name.
#[derive(Debug, Clone, PartialEq, Eq)]
pub struct BlifFile {
    pub models: Vec<Model>,
}

/// A model. Each list is in the order of the lines.
#[derive(Debug, Clone, Default, PartialEq, Eq)]
pub struct Model {
    pub name: String,
    /// The line of its `.model`.
    pub line: usize,
    /// The line of its `.end`.
    pub end: usize,
    /// The name of each net.
    pub nets: Vec<String>,
    pub inputs: Vec<Net>,
    pub outputs: Vec<Net>,
    pub tables: Vec<Table>,
    /// The `.gate` lines.
    pub gates: Vec<Instance>,
    /// The `.subckt` lines.
    pub subcircuits: Vec<Instance>,
    pub latches: Vec<Latch>,
    /// Lines of other words.
    pub others: Vec<Other>,
}

/// A `.names` table: the output is `shown` where a row agrees with the inputs, and otherwise the opposite.
#[derive(Debug, Clone, PartialEq, Eq)]
pub struct Table {
    pub inputs: Vec<Net>,
    pub output: Net,
    /// What each row wants of each input; nothing where it has `-`.
    pub rows: Vec<Vec<Option<bool>>>,
    pub shown: bool,
    pub line: usize,
}

/// A cell or a model that is put in: its name, and the net of each pin.
#[derive(Debug, Clone, PartialEq, Eq)]
pub struct Instance {
    pub of: String,
    pub pins: Vec<(String, Net)>,
    pub line: usize,
}

/// A `.latch` line; `rest` is its kind, clock and first value, as far as they are given.
#[derive(Debug, Clone, PartialEq, Eq)]
pub struct Latch {
    pub input: Net,
    pub output: Net,
    /// The net of its clock.
    pub control: Option<Net>,
    pub rest: Vec<String>,
    pub line: usize,
}

/// A line that is no part of what a model computes, or that nothing is known of here.
#[derive(Debug, Clone, PartialEq, Eq)]
pub struct Other {
    pub word: String,
    pub line: usize,
}

impl BlifFile {
    /// The file of a text.
    ///
    /// ```
    /// # use unloop::blif_model::BlifFile;
    /// let file = BlifFile::read(".model m\n.inputs a b\n.outputs y\n.names a \\\n b y\n1- 1 # a row\n-1 1\n.end\n").unwrap();
    /// let model = &file.models[0];
    /// assert_eq!(model.nets, ["a", "b", "y"]);
    /// assert_eq!(model.tables[0].rows, [[Some(true), None], [None, Some(true)]]);
    /// assert_eq!(BlifFile::read(".model m\n.names a y\n").unwrap_err().to_string(), "2: m has no .end");
    /// ```
    pub fn read(text: &str) -> Result<BlifFile, BlifError> {
        reader::file(text)
    }

    /// The model of a name, or the first.
    pub fn model(&self, name: Option<&str>) -> Option<&Model> {
        match name {
            None => self.models.first(),
            Some(name) => self.models.iter().find(|model| model.name == name),
        }
    }
}
