//! What drives each net of a model and what that reads: tables, cells of the library, and what is not looked into.

use crate::blif_model::{BlifError, Model, Net, Placed, Table};
use crate::from_blif::{cell, computed, Expression};
use crate::Kind;
use std::collections::HashSet;

/// Where a driver's line is in the model's lists.
#[derive(Debug, Clone, Copy, PartialEq, Eq)]
pub enum Listed {
    Table(usize),
    Gate(usize),
    Subcircuit(usize),
}

/// A table or a cell.
pub struct Driver {
    pub net: Net,
    /// The nets that what it computes depends on, each once.
    pub reads: Vec<Net>,
    pub line: usize,
    pub listed: Listed,
    /// The instance that it is in.
    pub placement: usize,
    /// What it is where it shows one net, that net's opposite, or a constant.
    pub alias: Option<Source>,
}

/// A constant, or a net or its opposite.
#[derive(Debug, Clone, Copy, PartialEq, Eq)]
pub enum Source {
    Constant(bool),
    Net { net: Net, inverted: bool },
}

pub struct Wiring {
    pub drivers: Vec<Driver>,
    /// By net, the place of its driver.
    pub by_net: Vec<Option<usize>>,
    /// By net, whether something reads it that is no driver: an output, a latch, an instance that is not looked into.
    pub is_shown: Vec<bool>,
}

impl Wiring {
    /// Each net is driven once at most, and each that is read once, unless an instance that is not looked into has it.
    pub fn of(placed: &Placed) -> Result<Wiring, BlifError> {
        let model = &placed.whole;
        let drivers = drivers(placed)?;
        let mut wiring = Wiring {
            by_net: vec![None; model.nets.len()],
            is_shown: vec![false; model.nets.len()],
            drivers,
        };
        let mut outside = vec![false; model.nets.len()];
        let latches = model.latches.iter().map(|latch| (latch.output, latch.line));
        let inputs = model.inputs.iter().map(|&net| (net, model.line));
        for (net, line) in inputs.chain(latches) {
            if std::mem::replace(&mut outside[net], true) {
                return Err(driven_twice(model, net, line));
            }
        }
        for (place, driver) in wiring.drivers.iter().enumerate() {
            let before = wiring.by_net[driver.net].replace(place);
            if before.is_some() || outside[driver.net] {
                return Err(driven_twice(model, driver.net, driver.line));
            }
        }
        wiring.show(model, &mut outside);
        wiring.all_driven(model, &outside)?;
        Ok(wiring)
    }

    /// Marks the nets that are read by what is no driver; those of instances that are not looked into may come from outside too.
    fn show(&mut self, model: &Model, outside: &mut [bool]) {
        let latches = model.latches.iter();
        let latched = latches.flat_map(|latch| [Some(latch.input), latch.control]);
        let shown = model.outputs.iter().copied().chain(latched.flatten());
        shown.for_each(|net| self.is_shown[net] = true);
        let strangers = model
            .subcircuits
            .iter()
            .filter(|part| is_stranger(&part.of));
        for &(_, net) in strangers.flat_map(|part| &part.pins) {
            self.is_shown[net] = true;
            outside[net] |= self.by_net[net].is_none();
        }
    }

    fn all_driven(&self, model: &Model, outside: &[bool]) -> Result<(), BlifError> {
        let read = self.drivers.iter().flat_map(|driver| {
            let nets = driver.reads.iter();
            nets.map(|&net| (net, driver.line))
        });
        let shown = model.outputs.iter().map(|&net| (net, model.end));
        let latched = model.latches.iter().map(|latch| (latch.input, latch.line));
        let mut nets = read.chain(shown).chain(latched);
        match nets.find(|&(net, _)| self.by_net[net].is_none() && !outside[net]) {
            None => Ok(()),
            Some((net, line)) => {
                let reason = format!("nothing drives {}", model.nets[net]);
                Err(BlifError::at(line, reason))
            }
        }
    }

    /// The drivers that a driver reads.
    pub fn read_by(&self, place: usize) -> impl Iterator<Item = usize> + '_ {
        let nets = self.drivers[place].reads.iter();
        nets.filter_map(|&net| self.by_net[net])
    }
}

/// Whether an instance that stayed is of nothing that is known here.
pub fn is_stranger(of: &str) -> bool {
    !cell::is_cell(of)
}

fn driven_twice(model: &Model, net: Net, line: usize) -> BlifError {
    BlifError::at(line, format!("{} is driven twice", model.nets[net]))
}

/// The drivers, instance after instance.
fn drivers(placed: &Placed) -> Result<Vec<Driver>, BlifError> {
    let model = &placed.whole;
    let mut drivers = Vec::with_capacity(model.tables.len() + model.gates.len());
    for (place, table) in model.tables.iter().enumerate() {
        drivers.push(Driver {
            net: table.output,
            reads: read_by_table(table),
            line: table.line,
            listed: Listed::Table(place),
            placement: 0,
            alias: table_alias(table),
        });
    }
    let gates = model.gates.iter().enumerate();
    let gates = gates.map(|(place, gate)| (gate, Listed::Gate(place)));
    let cells = model.subcircuits.iter().enumerate();
    let cells = cells.filter(|(_, part)| !is_stranger(&part.of));
    let cells = cells.map(|(place, part)| (part, Listed::Subcircuit(place)));
    for (instance, listed) in gates.chain(cells) {
        let (net, computed) = cell::computed(instance)?;
        drivers.push(Driver {
            net,
            reads: once(computed.nets()),
            line: instance.line,
            listed,
            placement: 0,
            alias: alias(&computed),
        });
    }
    for driver in &mut drivers {
        driver.placement = placed.placement(driver.listed);
    }
    Ok(drivers)
}

impl Placed {
    /// The instance that a driver is in.
    fn placement(&self, listed: Listed) -> usize {
        let behind = match listed {
            Listed::Table(place) => self.placements.partition_point(|part| part.tables <= place),
            Listed::Gate(place) => self.placements.partition_point(|part| part.gates <= place),
            Listed::Subcircuit(place) => self
                .placements
                .partition_point(|part| part.subcircuits <= place),
        };
        behind - 1
    }
}

/// The nets that a table's rows ask something of; none, where some row asks nothing and the table is constant.
fn read_by_table(table: &Table) -> Vec<Net> {
    let rows = &table.rows;
    if rows.iter().any(|row| row.iter().all(Option::is_none)) {
        return Vec::new();
    }
    let asked = |column: &usize| rows.iter().any(|row| row[*column].is_some());
    let columns = (0..table.inputs.len()).filter(asked);
    once(columns.map(|column| table.inputs[column]).collect())
}

/// Each once, in order.
fn once(mut nets: Vec<Net>) -> Vec<Net> {
    if nets.len() < 8 {
        let mut kept = Vec::with_capacity(nets.len());
        nets.into_iter().for_each(|net| {
            if !kept.contains(&net) {
                kept.push(net);
            }
        });
        return kept;
    }
    let mut seen = HashSet::new();
    nets.retain(|&net| seen.insert(net));
    nets
}

/// Only of short tables, which alone can be an alias as tools write them.
fn table_alias(table: &Table) -> Option<Source> {
    (table.inputs.len() < 2).then(|| alias(&computed(table)))?
}

fn alias(computed: &Expression) -> Option<Source> {
    let of = |net: Net, inverted: bool| Some(Source::Net { net, inverted });
    match computed {
        Expression::Constant(value) => Some(Source::Constant(*value)),
        Expression::Net(net) => of(*net, false),
        Expression::Gate(Kind::Not, operands) => match operands[..] {
            [Expression::Net(net)] => of(net, true),
            _ => None,
        },
        _ => None,
    }
}
