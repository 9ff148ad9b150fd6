//! The blocks and texts of the series.

use super::doubled;
use crate::inputs::{grown, written};
use simulator::block::{Block, Gate, Kind, Source};
use simulator::limits::{GATES, INPUTS, TEXT_BYTES};

/// How many inputs while the gates grow, and gates while the settings do.
pub const FEW_INPUTS: usize = 8;
pub const MIDDLE: usize = 512;

/// A name, and the block of so many inputs and gates.
pub type Family = (&'static str, fn(usize, usize) -> Vec<u16>);

/// The blocks of the first are straight.
pub const FAMILIES: [Family; 3] = [
    ("straight gates that read the four before them", grown),
    ("a chain, each gate reads the next one", chained),
    ("one ring, each gate reads the one before", ringed),
];

/// With the inputs and outputs of straight gates.
fn with_gates(inputs: usize, gates: Vec<Gate>) -> Vec<u16> {
    let straight = Block::from_words(&grown(inputs, gates.len()));
    Block { gates, ..straight }.to_words()
}

fn gate(kind: Kind, operands: Vec<Source>) -> Gate {
    Gate { kind, operands }
}

/// As many rounds as gates.
fn chained(inputs: usize, gates: usize) -> Vec<u16> {
    let one = |number: usize| {
        let next = match number + 1 {
            next if next < gates => Source::Gate(next),
            _ => Source::Constant(true),
        };
        gate(Kind::Nand, vec![Source::Input(number % inputs), next])
    };
    with_gates(inputs, (0..gates).map(one).collect())
}

/// Broken by a constant at its first gate.
fn ringed(inputs: usize, gates: usize) -> Vec<u16> {
    let one = |number: usize| match number.checked_sub(1) {
        Some(before) => gate(Kind::Not, vec![Source::Gate(before)]),
        None => {
            let operands = vec![Source::Gate(gates - 1), Source::Constant(false)];
            gate(Kind::And, operands)
        }
    };
    with_gates(inputs, (0..gates).map(one).collect())
}

/// The most gates, each with so many of its operands.
pub fn crossed(inputs: usize, operands: usize) -> Vec<u16> {
    let mut block = Block::from_words(&grown(inputs, GATES));
    for gate in &mut block.gates {
        gate.operands.truncate(operands);
        if operands == 1 {
            gate.kind = Kind::Not;
        }
    }
    block.to_words()
}

/// Every block that is measured.
pub fn all() -> Vec<Vec<u16>> {
    let gates = doubled(32, GATES);
    let grown_gates = FAMILIES
        .iter()
        .flat_map(|(_, block)| gates.iter().map(|&gates| block(FEW_INPUTS, gates)));
    let settings = (0..=INPUTS).map(|inputs| grown(inputs, MIDDLE));
    let operands = [1, 2, 4].map(|operands| crossed(FEW_INPUTS, operands));
    grown_gates.chain(settings).chain(operands).collect()
}

/// The texts for the operations on bytes: what Write writes, names of eight bytes that each gate reads, and one line.
pub fn grown_texts() -> Vec<(&'static str, Vec<Vec<u8>>)> {
    let gates = doubled(32, GATES);
    let texts = |text: fn(usize) -> Vec<u8>| gates.iter().map(|&gates| text(gates)).collect();
    let as_written = |gates| written(&grown(FEW_INPUTS, gates));
    let lines = doubled(TEXT_BYTES / 32, TEXT_BYTES);
    vec![
        ("read", texts(as_written)),
        ("read long names", texts(long_named)),
        ("write", texts(as_written)),
        (
            "line",
            lines.iter().map(|&bytes| vec![b'x'; bytes]).collect(),
        ),
    ]
}

/// Every name has eight bytes, and each gate reads the last four.
fn long_named(gates: usize) -> Vec<u8> {
    let operands: String = (1..=4)
        .map(|back| format!(" g{:07}", gates - back))
        .collect();
    let gate = |number| format!("(gate g{number:07} (nand{operands}))\n");
    (0..gates).map(gate).collect::<String>().into_bytes()
}
