//! The netlist text of a model without subcircuits.

use super::drivers::Drivers;
use super::expression::Expression;
use super::naming::Naming;
use crate::blif_model::{BlifError, Model, Net};
use crate::limits::{DEPTH, GATES, INPUTS, OUTPUTS, TEXT_BYTES};
use crate::{Kind, Names};
use std::collections::HashSet;

/// The text, and the names that are not the model's.
pub fn written(model: &Model) -> Result<(String, Names), BlifError> {
    let mut seen = HashSet::new();
    if let Some(&net) = model.outputs.iter().find(|&net| !seen.insert(net)) {
        let reason = format!("{} is an output twice", model.nets[net]);
        return Err(BlifError::at(model.line, reason));
    }
    let drivers = Drivers::of(model)?;
    let constants = constants(model, &drivers);
    let gates = gates(&drivers, constants);
    fits(model, &gates)?;
    let nets: Vec<Net> = gates.iter().map(|(net, _)| *net).collect();
    let mut naming = Naming::of(model, &nets);
    let mut text = String::new();
    for &net in &model.inputs {
        text += &format!("(in {})\n", naming.node(net));
    }
    for (net, computed) in &gates {
        let mut further = Vec::new();
        let (expression, _) = nested(computed, &mut naming, &mut further);
        text += &further.concat();
        text += &format!("(gate {} {expression})\n", naming.node(*net));
    }
    for (&net, port) in model.outputs.iter().zip(&naming.ports) {
        let node = match drivers.source(net) {
            Expression::Net(source) => *source,
            constant => first_shown(constants, constant).unwrap_or(net),
        };
        text += &format!("(out {port} {})\n", naming.node(node));
    }
    match text.len() <= TEXT_BYTES {
        true => Ok((text, naming.changed)),
        false => {
            let bytes = text.len();
            let reason = format!("its netlist text has {bytes} bytes, and may have {TEXT_BYTES}");
            Err(too_large(model, &reason))
        }
    }
}

/// The first outputs that show the constants 0 and 1, which get a gate for that.
fn constants(model: &Model, drivers: &Drivers) -> [Option<Net>; 2] {
    [false, true].map(|value| {
        let mut outputs = model.outputs.iter().copied();
        outputs.find(|&net| *drivers.source(net) == Expression::Constant(value))
    })
}

/// The output whose gate a constant is.
fn first_shown(constants: [Option<Net>; 2], constant: &Expression) -> Option<Net> {
    constants[usize::from(*constant == Expression::Constant(true))]
}

/// The gates with their nets, and one for each constant that an output shows.
fn gates(drivers: &Drivers, constants: [Option<Net>; 2]) -> Vec<(Net, Expression)> {
    let order = drivers.order().into_iter();
    let gates = order.map(|place| &drivers.lines[place]);
    let gates = gates.map(|driver| (driver.net, driver.computed.clone()));
    let shown = constants.into_iter().zip([Kind::And, Kind::Or]);
    let shown = shown.filter_map(|(net, kind)| {
        let operands = [false, true].map(Expression::Constant);
        Some((net?, Expression::gate(kind, operands)))
    });
    gates.chain(shown).collect()
}

/// Whether a netlist has room for a model.
fn fits(model: &Model, gates: &[(Net, Expression)]) -> Result<(), BlifError> {
    let gates = gates.iter().map(|(_, computed)| computed.gates()).sum();
    let counts = [
        ("inputs", model.inputs.len(), INPUTS),
        ("outputs", model.outputs.len(), OUTPUTS),
        ("gates", gates, GATES),
    ];
    let over = counts.into_iter().filter(|(_, count, most)| count > most);
    let over = over.map(|(word, count, most)| format!("{count} {word}, and may have {most}"));
    let over: Vec<String> = over.collect();
    match over.is_empty() {
        true => Ok(()),
        false => Err(too_large(
            model,
            &format!("it has {}", over.join("; it has ")),
        )),
    }
}

fn too_large(model: &Model, why: &str) -> BlifError {
    let reason = format!("{} is too large for a netlist: {why}", model.name);
    BlifError {
        too_large: true,
        ..BlifError::at(model.line, reason)
    }
}

/// An expression's text and how deep it is; what would stand too deep is put on lines of its own.
fn nested(
    expression: &Expression,
    naming: &mut Naming,
    further: &mut Vec<String>,
) -> (String, usize) {
    let (kind, operands) = match expression {
        Expression::Constant(value) => return (u8::from(*value).to_string(), 0),
        Expression::Net(net) => return (naming.node(*net).to_string(), 0),
        Expression::Gate(kind, operands) => (kind, operands),
    };
    let (mut text, mut depth) = (format!("({}", kind.word()), 0);
    for operand in operands {
        let (inner, below) = nested(operand, naming, further);
        match below < DEPTH {
            true => {
                text += &format!(" {inner}");
                depth = depth.max(below);
            }
            false => {
                let name = naming.fresh();
                further.push(format!("(gate {name} {inner})\n"));
                text += &format!(" {name}");
            }
        }
    }
    (text + ")", depth + 1)
}
