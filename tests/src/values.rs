//! Settled values by an event queue. A value is kept as what it may still become:
//! bit 0 for "may be 0", bit 1 for "may be 1", so that 0, 1 and undefined are 1, 2 and 3.

use crate::block::{Block, Gate, Kind, Source};
use std::collections::VecDeque;

/// The code of the undefined value.
pub const UNDEFINED: u8 = 2;

const MAY_BE_0: u8 = 1;
const MAY_BE_1: u8 = 2;

/// The truth table of `xor` over what two values may be; nothing may be neither.
const ODD: [[u8; 4]; 4] = [[0, 0, 0, 0], [0, 1, 2, 3], [0, 2, 1, 3], [0, 3, 3, 3]];

/// The gate's value from its operands' values, all coded 0, 1, 2.
pub fn gate_value(kind: Kind, operands: impl Iterator<Item = u8> + Clone) -> u8 {
    let bits = operands.map(|value| value + 1);
    let some = bits.clone().fold(0, |some, bits| some | bits);
    let all = bits.clone().fold(3, |all, bits| all & bits);
    let odd = bits.fold(MAY_BE_0, |odd, bits| ODD[odd as usize][bits as usize]);
    let and = (all & MAY_BE_1) | (some & MAY_BE_0);
    let or = (some & MAY_BE_1) | (all & MAY_BE_0);
    let bits = match kind {
        Kind::And => and,
        Kind::Or => or,
        Kind::Nand => swapped(and),
        Kind::Nor => swapped(or),
        Kind::Not => swapped(all),
        Kind::Xor => odd,
        Kind::Xnor => swapped(odd),
    };
    bits - 1
}

fn swapped(bits: u8) -> u8 {
    (bits << 1 | bits >> 1) & 3
}

/// The gate's value from the inputs' and the gates' values.
pub fn evaluate(gate: &Gate, setting: &[u8], values: &[u8]) -> u8 {
    let value = |source: &Source| match *source {
        Source::Constant(bit) => u8::from(bit),
        Source::Input(input) => setting[input],
        Source::Gate(gate) => values[gate],
    };
    gate_value(gate.kind, gate.operands.iter().map(value))
}

/// A block with the readers of each gate, ready for many settings.
pub struct Network<'a> {
    block: &'a Block,
    readers: Vec<Vec<usize>>,
}

impl<'a> Network<'a> {
    /// The network of a block.
    pub fn new(block: &'a Block) -> Network<'a> {
        let mut readers = vec![Vec::new(); block.gates.len()];
        for (number, gate) in block.gates.iter().enumerate() {
            gate.gates_read()
                .for_each(|read| readers[read].push(number));
        }
        Network { block, readers }
    }

    /// The settled value of each gate: a gate that becomes defined wakes its readers.
    pub fn settled(&self, setting: &[u8]) -> Vec<u8> {
        let gates = &self.block.gates;
        let mut values = vec![UNDEFINED; gates.len()];
        let mut events: VecDeque<usize> = (0..gates.len()).collect();
        while let Some(number) = events.pop_front() {
            if values[number] != UNDEFINED {
                continue;
            }
            values[number] = evaluate(&gates[number], setting, &values);
            if values[number] != UNDEFINED {
                events.extend(&self.readers[number]);
            }
        }
        values
    }

    /// The value that each output shows under a setting.
    pub fn shown(&self, setting: &[u8]) -> Vec<u8> {
        let values = self.settled(setting);
        let outputs = self.block.outputs.iter();
        outputs
            .map(|output| match output.node {
                Source::Constant(bit) => u8::from(bit),
                Source::Input(input) => setting[input],
                Source::Gate(gate) => values[gate],
            })
            .collect()
    }

    /// For each setting, by number, whether every output shows 0 or 1.
    pub fn settled_settings(&self) -> Vec<bool> {
        let n = self.block.inputs.len();
        let defined = |setting: Vec<u8>| !self.shown(&setting).contains(&UNDEFINED);
        (0..1 << n).map(|s| defined(setting_bytes(s, n))).collect()
    }

    /// For each setting, by number, whether it is in no one's way: settled, or excluded by a never line.
    pub fn sound_settings(&self) -> Vec<bool> {
        let excluded = self.block.excluded_settings().into_iter();
        let both = self.settled_settings().into_iter().zip(excluded);
        both.map(|(settled, excluded)| settled || excluded)
            .collect()
    }

    /// For each setting, by number, whether it counts: settled, and not excluded.
    pub fn counted_settings(&self) -> Vec<bool> {
        let excluded = self.block.excluded_settings().into_iter();
        let both = self.settled_settings().into_iter().zip(excluded);
        both.map(|(settled, excluded)| settled && !excluded)
            .collect()
    }
}

/// The bytes of a setting's number: input i has weight 2^i.
pub fn setting_bytes(number: usize, n: usize) -> Vec<u8> {
    (0..n).map(|i| (number >> i & 1) as u8).collect()
}
