//! Straight blocks with one thing changed: what a tool gone wrong might send.

use super::Random;
use crate::block::{Block, Kind, Source};

/// What is changed.
#[derive(Debug, Clone, Copy, PartialEq, Eq)]
pub enum Change {
    /// One operand of one gate: a constant, an input or a lower gate.
    Operand,
    /// The kind of one gate that has two operands or more.
    Kind,
    /// The input or gate that one output shows.
    Output,
}

impl Change {
    pub const ALL: [Change; 3] = [Change::Operand, Change::Kind, Change::Output];
}

/// The block with one change; none where there is nothing of that sort, or it came out the same.
pub fn mutant(random: &mut Random, block: &Block, change: Change) -> Option<Block> {
    let mut changed = block.clone();
    let (n, m) = (block.inputs.len(), block.gates.len());
    match change {
        Change::Operand if m > 0 => {
            let gate = random.below(m);
            let operands = &mut changed.gates[gate].operands;
            let place = random.below(operands.len());
            operands[place] = source(random.below(n + gate + 2), n, gate);
        }
        Change::Kind if m > 0 => {
            let gate = &mut changed.gates[random.below(m)];
            if gate.kind != Kind::Not {
                gate.kind = random.pick(&Kind::MANY);
            }
        }
        Change::Output if !block.outputs.is_empty() => {
            let output = random.below(block.outputs.len());
            changed.outputs[output].node = source(random.below(n + m), n, m);
        }
        _ => {}
    }
    (changed != *block).then_some(changed)
}

/// Inputs first, then gates, then the constants.
fn source(number: usize, n: usize, gates: usize) -> Source {
    match number {
        input if input < n => Source::Input(input),
        gate if gate < n + gates => Source::Gate(gate - n),
        constant => Source::Constant(constant > n + gates),
    }
}

/// The block with other input names or ports: one renamed, two exchanged, or the last output missing.
pub fn stranger(random: &mut Random, block: &Block) -> Option<Block> {
    let mut changed = block.clone();
    let (n, k) = (block.inputs.len(), block.outputs.len());
    match random.below(5) {
        0 if n > 0 => {
            let mut used = changed.inputs.clone();
            changed.inputs[random.below(n)] = random.fresh_name(&mut used);
        }
        1 if n > 1 => changed.inputs.swap(0, n - 1),
        2 if k > 1 => {
            let last = changed.outputs[k - 1].port.clone();
            let first = std::mem::replace(&mut changed.outputs[0].port, last);
            changed.outputs[k - 1].port = first;
        }
        3 if k > 0 => {
            changed.outputs.pop();
        }
        _ => {}
    }
    (changed != *block).then_some(changed)
}
