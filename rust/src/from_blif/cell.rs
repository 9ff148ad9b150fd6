//! The cells of catalogue/gates.genlib.

use super::expression::Expression;
use crate::blif_model::{BlifError, Instance, Net};
use crate::Kind;

const OPERAND_PINS: [&str; 4] = ["a", "b", "c", "d"];
const OUTPUT_PIN: &str = "O";

/// What a cell of the library does.
#[derive(Debug, Clone, Copy, PartialEq, Eq)]
enum Cell {
    Constant(bool),
    Buffer,
    Gate(Kind),
}

pub fn is_cell(name: &str) -> bool {
    cell(name).is_some()
}

/// A cell by its name, and how many operands it has.
fn cell(name: &str) -> Option<(Cell, usize)> {
    match name {
        "zero" => return Some((Cell::Constant(false), 0)),
        "one" => return Some((Cell::Constant(true), 0)),
        "buf" => return Some((Cell::Buffer, 1)),
        "not" => return Some((Cell::Gate(Kind::Not), 1)),
        _ => {}
    }
    let count = name.chars().last()?.to_digit(10)? as usize;
    let word = &name[..name.len() - 1];
    let mut kinds = Kind::ALL.into_iter().filter(|kind| *kind != Kind::Not);
    let kind = kinds.find(|kind| kind.word() == word)?;
    (2..=4)
        .contains(&count)
        .then_some((Cell::Gate(kind), count))
}

/// What an instance of a cell computes, and the net that it drives.
pub fn computed(instance: &Instance) -> Result<(Net, Expression), BlifError> {
    let (name, pins) = (&instance.of, &instance.pins);
    let wrong = |reason: String| BlifError::at(instance.line, reason);
    let no_cell = || wrong(format!("{name} is no cell of the library"));
    let (cell, count) = cell(name).ok_or_else(no_cell)?;
    let wanted = [&OPERAND_PINS[..count], &[OUTPUT_PIN]].concat();
    let net = |wanted: &&str| {
        let found = pins.iter().find(|(pin, _)| pin == wanted);
        let missing = || wrong(format!("{name} has a pin {wanted}, which is missing"));
        found.map(|(_, net)| *net).ok_or_else(missing)
    };
    let mut nets = wanted.iter().map(net).collect::<Result<Vec<Net>, _>>()?;
    if pins.len() != wanted.len() {
        let (has, given) = (wanted.len(), pins.len());
        return Err(wrong(format!("{name} has {has} pins, not {given}")));
    }
    let output = nets.pop().unwrap_or_default();
    let computed = match cell {
        Cell::Constant(value) => Expression::Constant(value),
        Cell::Buffer => Expression::Net(nets[0]),
        Cell::Gate(kind) => Expression::gate(kind, nets.into_iter().map(Expression::Net)),
    };
    Ok((output, computed))
}
