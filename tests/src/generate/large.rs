//! Blocks at the limits, each the hardest of its kind for some operation.

use super::blocks::shuffled;
use super::Random;
use crate::block::{Block, Gate, Kind, Never, Output, Source};
use crate::limits::{GATES, INPUTS, NEVERS, OUTPUTS};

/// The blocks, by name.
pub fn large() -> Vec<(&'static str, Block)> {
    let mut random = Random::new(1);
    vec![
        ("straight-chain", full(chain(|gate| gate.checked_sub(1)))),
        ("reversed-chain", full(reversed_chain())),
        (
            "shuffled-chain",
            full(shuffled(reversed_chain(), &mut random)),
        ),
        ("straight-fours", full(straight_fours(&mut random, GATES))),
        ("ring-of-1024", full(ring(0, GATES))),
        ("reversed-ring-of-1024", full(reversed_ring(0, GATES))),
        ("shuffled-ring", full(shuffled(ring(0, GATES), &mut random))),
        ("unbroken-ring-of-1024", full(unbroken_ring(GATES))),
        ("ring-of-32", full(ring(0, 32))),
        ("reversed-ring-of-32", full(reversed_ring(0, 32))),
        ("turned-ring-of-32", full(turned_ring(32))),
        ("groups-of-5-and-lone", full(groups_of_5(&mut random))),
        ("half-unneeded", half_unneeded(&mut random)),
        ("half-excluded", half_excluded(&mut random)),
    ]
}

/// The block with the longest text: every limit reached, every name and operand as long as can be.
pub fn longest_written() -> Block {
    let name = |prefix: &str, i: usize| format!("{prefix}{i:07}");
    let gate = Gate {
        kind: Kind::Nand,
        operands: vec![Source::Input(9); 4],
    };
    let output = |i| Output {
        port: name("y", i),
        node: Source::Input(0),
    };
    let never = |i| Never {
        fixed: (1 << INPUTS) - 1,
        ones: i as u16,
    };
    Block {
        inputs: (0..INPUTS).map(|i| name("x", i)).collect(),
        nevers: (0..NEVERS).map(never).collect(),
        gates: vec![gate; GATES],
        outputs: (0..OUTPUTS).map(output).collect(),
    }
}

/// With all inputs, and sixteen outputs at the last gates.
fn full(gates: Vec<Gate>) -> Block {
    let output = |number| Output {
        port: format!("o{number}"),
        node: Source::Gate(gates.len() - 1 - number),
    };
    Block {
        inputs: (0..INPUTS).map(|i| format!("i{i}")).collect(),
        nevers: Vec::new(),
        outputs: (0..OUTPUTS).map(output).collect(),
        gates,
    }
}

/// Straight, and every output shows a gate of the first half: no output needs the second.
fn half_unneeded(random: &mut Random) -> Block {
    let mut block = full(straight_fours(random, GATES));
    for output in &mut block.outputs {
        if let Source::Gate(gate) = &mut output.node {
            *gate -= GATES / 2;
        }
    }
    block
}

/// Straight, and half of the settings never come: those with the first input at 1.
fn half_excluded(random: &mut Random) -> Block {
    let mut block = full(straight_fours(random, GATES));
    block.nevers.push(Never { fixed: 1, ones: 1 });
    block
}

/// A `nand` of an input and another gate, or of two inputs.
fn joined(number: usize, other: Option<usize>) -> Gate {
    let input = Source::Input(number % INPUTS);
    let other = other.map_or(Source::Input((number + 1) % INPUTS), Source::Gate);
    Gate {
        kind: Kind::Nand,
        operands: vec![input, other],
    }
}

fn chain(read: impl Fn(usize) -> Option<usize>) -> Vec<Gate> {
    (0..GATES).map(|gate| joined(gate, read(gate))).collect()
}

fn reversed_chain() -> Vec<Gate> {
    chain(|gate| Some(gate + 1).filter(|&next| next < GATES))
}

/// Each gate reads the four before it, or inputs.
fn straight_fours(random: &mut Random, count: usize) -> Vec<Gate> {
    let operand = |gate: usize, back: usize| match gate.checked_sub(back) {
        Some(read) => Source::Gate(read),
        None => Source::Input((gate + back) % INPUTS),
    };
    let gate = |gate| Gate {
        kind: random.pick(&Kind::MANY),
        operands: (1..=4).map(|back| operand(gate, back)).collect(),
    };
    (0..count).map(gate).collect()
}

/// Each gate `not` of the one before; the first is broken by a constant.
fn ring(base: usize, size: usize) -> Vec<Gate> {
    let not = |rank: usize| Gate {
        kind: Kind::Not,
        operands: vec![Source::Gate(base + rank - 1)],
    };
    let first = Gate {
        kind: Kind::And,
        operands: vec![Source::Gate(base + size - 1), Source::Constant(false)],
    };
    std::iter::once(first).chain((1..size).map(not)).collect()
}

/// Each gate `not` of the one behind it; the last is broken by a constant: as many passes as gates.
fn reversed_ring(base: usize, size: usize) -> Vec<Gate> {
    let mut gates = ring(0, size);
    gates.reverse();
    for operand in gates.iter_mut().flat_map(|gate| &mut gate.operands) {
        if let Source::Gate(read) = operand {
            *operand = Source::Gate(base + size - 1 - *read);
        }
    }
    gates
}

/// Each gate `not` of the one behind it; the first is broken by a constant: one pass fewer than gates.
fn turned_ring(size: usize) -> Vec<Gate> {
    let mut gates = reversed_ring(0, size);
    let number: Vec<usize> = (0..size).map(|gate| (gate + 1) % size).collect();
    gates.rotate_right(1);
    for operand in gates.iter_mut().flat_map(|gate| &mut gate.operands) {
        *operand = operand.renumbered(&number);
    }
    gates
}

/// Nothing breaks it: no gate is ever defined.
fn unbroken_ring(size: usize) -> Vec<Gate> {
    let mut gates = ring(0, size);
    gates[0].operands[1] = Source::Constant(true);
    gates
}

/// 32 reversed rings of 5 and straight gates: 1,024 copies.
fn groups_of_5(random: &mut Random) -> Vec<Gate> {
    let mut gates = straight_fours(random, GATES - 32 * 25);
    for _ in 0..32 {
        gates.extend(reversed_ring(gates.len(), 5));
    }
    gates
}
