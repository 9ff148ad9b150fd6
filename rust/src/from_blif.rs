//! A BLIF model as a netlist text: tables and cells of catalogue/gates.genlib, its loops kept. What a tool made of a rendering is judged by
//! Compare afterwards, so nothing here is trusted. What a file says is read by `blif_model`, whatever its size.

pub(crate) mod cell;
mod drivers;
mod expression;
mod naming;
mod netlist;

pub(crate) use expression::{computed, Expression};
pub(crate) use netlist::written;

use crate::blif_model::{BlifError, BlifFile, Model};
use crate::Names;

/// The most tables and cells that are looked at, buffers counted, which a netlist has none of.
const PARTS: usize = 1 << 20;

/// The netlist text that a model became.
#[derive(Debug, Clone, PartialEq, Eq)]
pub struct FromBlif {
    pub netlist: String,
    /// What the model and its pins, ports and gates were called, as far as a netlist can't call them so.
    pub names: Names,
    /// How many models the file has.
    pub models: usize,
}

/// The netlist text of a file's first model, whose subcircuits are put in place.
///
/// Inputs and outputs stay in order, and gates stand so that each reads only what stands above it where that can be. A table is the gates
/// of its rows, a buffer the node that it reads, a constant an operand. Names that are no netlist's are changed ([`FromBlif::names`]).
///
/// ```
/// # use unloop::from_blif;
/// let model = ".model m\n.inputs a b\n.outputs a__output y\n.gate nand2 a=b b=new_n12345 O=y\n.names a new_n12345\n0 1\n\
///              .gate buf a=y O=a__output\n.end\n";
/// let text = "(in a)\n(in b)\n(gate _0 (not a))\n(gate y (nand b _0))\n(out a y)\n(out y y)\n";
/// assert_eq!(from_blif(model, None).unwrap().netlist, text);
///
/// let table = ".model rate\n.inputs a[0] a[1] SELECT\n.outputs y\n.names a[0] a[1] SELECT y\n1-0 1\n-11 1\n.end\n";
/// let read = from_blif(table, None).unwrap();
/// assert_eq!(read.netlist, "(in a_0)\n(in a_1)\n(in select)\n(gate y (or (and a_0 (not select)) (and a_1 select)))\n(out y y)\n");
/// assert_eq!(read.names.to_string(), "model rate\nin a_0 a[0]\nin a_1 a[1]\nin select SELECT\n");
/// ```
pub fn from_blif(text: &str, model: Option<&str>) -> Result<FromBlif, BlifError> {
    let file = BlifFile::read(text)?;
    let wanted = chosen(&file, model)?;
    let size = file.size(wanted)?;
    if size > PARTS {
        let reason = format!("{} has {size} tables and cells in all", wanted.name);
        return Err(BlifError {
            too_large: true,
            ..BlifError::at(wanted.line, reason)
        });
    }
    let whole = file.placed(wanted)?;
    refused(&whole)?;
    let (netlist, names) = written(&whole)?;
    Ok(FromBlif {
        netlist,
        names,
        models: file.models.len(),
    })
}

/// The model of a name, or the first.
pub(crate) fn chosen<'a>(file: &'a BlifFile, name: Option<&str>) -> Result<&'a Model, BlifError> {
    file.model(name).ok_or_else(|| {
        let names: Vec<&str> = file.models.iter().map(|model| &model.name[..]).collect();
        let reason = format!(
            "no model is called {}; there is {}",
            name.unwrap_or(""),
            names.join(", ")
        );
        BlifError::at(1, reason)
    })
}

/// The lines that nothing is known of, and why they are not read.
pub(crate) fn unread(model: &Model) -> impl Iterator<Item = (usize, String)> + '_ {
    model.others.iter().map(|other| {
        let reason = match &other.word[..] {
            ".exdc" => ".exdc: conditions that don't matter are never lines of a netlist, to be written by hand".to_string(),
            word => format!("{word} is not read: a model has .names, .gate and .subckt lines"),
        };
        (other.line, reason)
    })
}

/// What a netlist can't say, told by the earliest line that asks for it.
fn refused(model: &Model) -> Result<(), BlifError> {
    let latches = model.latches.iter().map(|latch| {
        let net = &model.nets[latch.output];
        let reason = format!(".latch: {net} keeps a value, and a netlist has no latches");
        (latch.line, reason)
    });
    let strangers = model
        .subcircuits
        .iter()
        .filter(|part| !cell::is_cell(&part.of));
    let strangers = strangers.map(|part| {
        let reason = format!(
            "{} is no model of this file and no cell of the library",
            part.of
        );
        (part.line, reason)
    });
    match latches.chain(unread(model)).chain(strangers).min() {
        Some((line, reason)) => Err(BlifError::at(line, reason)),
        None => Ok(()),
    }
}
