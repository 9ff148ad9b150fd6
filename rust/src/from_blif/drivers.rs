//! What drives each net of a model, buffers seen through.

use super::cell;
use super::expression::{computed, Expression};
use crate::blif_model::{BlifError, Model, Net};
use crate::Kind;
use std::collections::BTreeSet;

/// A line that drives a net.
pub struct Driver {
    pub net: Net,
    pub computed: Expression,
    line: usize,
}

pub struct Drivers {
    /// The lines that drive something, in their order.
    pub lines: Vec<Driver>,
    /// By net, the place of its line.
    by_net: Vec<Option<usize>>,
    /// By net, the constant, or the input or gate's net, that it is through buffers.
    sources: Vec<Expression>,
}

impl Drivers {
    /// Each net is driven once at most, and each that is read once.
    pub fn of(model: &Model) -> Result<Drivers, BlifError> {
        let tables = model.tables.iter().map(|table| Driver {
            net: table.output,
            computed: computed(table),
            line: table.line,
        });
        let mut lines: Vec<Driver> = tables.collect();
        for instance in model.gates.iter().chain(&model.subcircuits) {
            let (net, computed) = cell::computed(instance)?;
            let line = instance.line;
            lines.push(Driver {
                net,
                computed,
                line,
            });
        }
        lines.sort_by_key(|driver| driver.line);
        let mut driven = vec![false; model.nets.len()];
        let inputs = model.inputs.iter().map(|&net| (net, model.line));
        let nets = inputs.chain(lines.iter().map(|driver| (driver.net, driver.line)));
        for (net, line) in nets {
            if std::mem::replace(&mut driven[net], true) {
                let reason = format!("{} is driven twice", model.nets[net]);
                return Err(BlifError::at(line, reason));
            }
        }
        let read = lines.iter().flat_map(|driver| {
            let nets = driver.computed.nets().into_iter();
            nets.map(|net| (net, driver.line))
        });
        let shown = model.outputs.iter().map(|&net| (net, model.end));
        for (net, line) in read.chain(shown) {
            if !driven[net] {
                let reason = format!("nothing drives {}", model.nets[net]);
                return Err(BlifError::at(line, reason));
            }
        }
        Ok(Drivers::without_buffers(lines, model.nets.len()))
    }

    /// The same with every net that is read replaced by what drives it through buffers. In a ring of buffers the first stays as a gate.
    fn without_buffers(mut lines: Vec<Driver>, nets: usize) -> Drivers {
        let mut by_net = vec![None; nets];
        let numbered = lines.iter().enumerate();
        numbered.for_each(|(place, driver)| by_net[driver.net] = Some(place));
        for place in first_of_rings(&lines, &by_net) {
            let ring = std::mem::replace(&mut lines[place].computed, Expression::Constant(true));
            let operands = vec![ring, Expression::Constant(true)];
            lines[place].computed = Expression::Gate(Kind::And, operands);
        }
        let sources = sources(&lines, &by_net);
        for driver in &mut lines {
            let is_gate = matches!(driver.computed, Expression::Gate(..));
            if is_gate {
                let held = std::mem::replace(&mut driver.computed, Expression::Constant(false));
                driver.computed = held.over(&|net| sources[net].clone());
            }
        }
        Drivers {
            lines,
            by_net,
            sources,
        }
    }

    /// The constant, or the input or gate's net, that a net is through buffers.
    pub fn source(&self, net: Net) -> &Expression {
        &self.sources[net]
    }

    /// The places of the lines that are gates, each behind those that it reads as far as that can be, and otherwise as they stand.
    pub fn order(&self) -> Vec<usize> {
        let (mut readers, mut waits) = (
            vec![Vec::new(); self.lines.len()],
            vec![0; self.lines.len()],
        );
        let is_gate = |place: &usize| matches!(self.lines[*place].computed, Expression::Gate(..));
        let gates: Vec<usize> = (0..self.lines.len()).filter(is_gate).collect();
        for &place in &gates {
            let nets = self.lines[place].computed.nets().into_iter();
            for read in nets.filter_map(|net| self.by_net[net]) {
                readers[read].push(place);
                waits[place] += 1;
            }
        }
        let free = gates.iter().copied().filter(|&place| waits[place] == 0);
        let mut ready: BTreeSet<usize> = free.collect();
        let mut order = Vec::with_capacity(gates.len());
        while let Some(place) = ready.pop_first() {
            order.push(place);
            for &reader in &readers[place] {
                waits[reader] -= 1;
                if waits[reader] == 0 {
                    ready.insert(reader);
                }
            }
        }
        order.extend(gates.into_iter().filter(|&place| waits[place] > 0));
        order
    }
}

/// What each net is through buffers, of which no ring is left; however long a row of them is, each is passed once.
fn sources(lines: &[Driver], by_net: &[Option<usize>]) -> Vec<Expression> {
    let mut sources: Vec<Option<Expression>> = vec![None; by_net.len()];
    for start in 0..by_net.len() {
        let (mut net, mut passed) = (start, Vec::new());
        let source = loop {
            if let Some(known) = &sources[net] {
                break known.clone();
            }
            passed.push(net);
            match by_net[net].map(|place| &lines[place].computed) {
                Some(Expression::Net(read)) => net = *read,
                Some(Expression::Constant(value)) => break Expression::Constant(*value),
                _ => break Expression::Net(net),
            }
        };
        for net in passed {
            sources[net] = Some(source.clone());
        }
    }
    let net = |(net, source): (Net, Option<Expression>)| source.unwrap_or(Expression::Net(net));
    sources.into_iter().enumerate().map(net).collect()
}

/// The place of the first line of each ring of buffers.
fn first_of_rings(lines: &[Driver], by_net: &[Option<usize>]) -> Vec<usize> {
    let read = |place: usize| match lines[place].computed {
        Expression::Net(net) => by_net[net],
        _ => None,
    };
    // By place, the start of the walk that came there: one that comes to its own steps has found a ring.
    let mut walked = vec![None; lines.len()];
    let mut found = Vec::new();
    for start in 0..lines.len() {
        let mut at = Some(start);
        while let Some(place) = at.filter(|&place| walked[place].is_none()) {
            walked[place] = Some(start);
            at = read(place);
        }
        let Some(place) = at.filter(|&place| walked[place] == Some(start)) else {
            continue;
        };
        let ring = std::iter::successors(read(place), |&next| read(next).filter(|_| next != place));
        found.extend(ring.min());
    }
    found
}
