//! Rounds, all gates at once, with each kind's value as SPECIFICATION 3.2 states it. Kept apart from values.rs.

use crate::block::{Block, Gate, Kind, Source};

/// The settled values and the number of rounds that changed something.
pub fn rounds(block: &Block, setting: &[u8]) -> (Vec<u8>, usize) {
    let mut values = vec![2; block.gates.len()];
    let mut changing = 0;
    loop {
        let next = round(block, setting, &values);
        if next == values {
            return (values, changing);
        }
        values = next;
        changing += 1;
    }
}

/// All gates evaluated at once from the values of the round before.
pub fn round(block: &Block, setting: &[u8], before: &[u8]) -> Vec<u8> {
    let gates = block.gates.iter();
    gates.map(|gate| evaluated(gate, setting, before)).collect()
}

/// One gate evaluated from these values.
pub fn evaluated(gate: &Gate, setting: &[u8], values: &[u8]) -> u8 {
    let value = |source: &Source| match *source {
        Source::Constant(false) => 0,
        Source::Constant(true) => 1,
        Source::Input(input) => setting[input],
        Source::Gate(gate) => values[gate],
    };
    let operands: Vec<u8> = gate.operands.iter().map(value).collect();
    stated_value(gate.kind, &operands)
}

/// The three-valued meaning of a kind, word for word.
pub fn stated_value(kind: Kind, operands: &[u8]) -> u8 {
    let all = |value: u8| operands.iter().all(|&operand| operand == value);
    match kind {
        Kind::Not => [1, 0, 2][usize::from(operands[0])],
        Kind::And if operands.contains(&0) => 0,
        Kind::And if all(1) => 1,
        Kind::Or if operands.contains(&1) => 1,
        Kind::Or if all(0) => 0,
        Kind::And | Kind::Or => 2,
        Kind::Nand => stated_value(Kind::Not, &[stated_value(Kind::And, operands)]),
        Kind::Nor => stated_value(Kind::Not, &[stated_value(Kind::Or, operands)]),
        Kind::Xor if operands.contains(&2) => 2,
        Kind::Xor => (operands.iter().filter(|&&operand| operand == 1).count() % 2) as u8,
        Kind::Xnor => stated_value(Kind::Not, &[stated_value(Kind::Xor, operands)]),
    }
}
