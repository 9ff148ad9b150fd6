//! Random blocks.

use super::{nevers, Random, Size};
use crate::block::{Block, Gate, Kind, Output, Source};

/// What the gates may read.
#[derive(Debug, Clone, Copy, PartialEq, Eq)]
pub enum Shape {
    /// Lower gates only.
    Straight,
    /// No loop, but gates in any order.
    Shuffled,
    /// Rings broken by an input whichever value it has, in any order; now and then a chord.
    Rings,
    /// Any gate.
    Wild,
}

impl Shape {
    pub const ALL: [Shape; 4] = [Shape::Straight, Shape::Shuffled, Shape::Rings, Shape::Wild];
}

/// A well-formed block of a shape, at most of a size.
pub fn block(random: &mut Random, shape: Shape, size: Size) -> Block {
    let n = random.between(0, size.inputs);
    let m = random.between(0, size.gates);
    let gates = match shape {
        Shape::Straight => straight(random, n, m),
        Shape::Shuffled => shuffled(straight(random, n, m), random),
        Shape::Rings => shuffled(rings(random, n, m), random),
        Shape::Wild => (0..m).map(|_| gate(random, n, m)).collect(),
    };
    let mut used = Vec::new();
    let inputs = (0..n).map(|_| random.fresh_name(&mut used)).collect();
    Block {
        inputs,
        outputs: outputs(random, n, gates.len(), size.outputs),
        nevers: nevers(random, n, size.nevers),
        gates,
    }
}

fn outputs(random: &mut Random, n: usize, m: usize, most: usize) -> Vec<Output> {
    let count = if n + m == 0 {
        0
    } else {
        random.between(0, most)
    };
    let mut used = Vec::new();
    let output = |_| Output {
        port: random.fresh_name(&mut used),
        node: node(random.below(n + m), n),
    };
    (0..count).map(output).collect()
}

fn node(number: usize, n: usize) -> Source {
    match number < n {
        true => Source::Input(number),
        false => Source::Gate(number - n),
    }
}

/// A constant, an input, or one of the first `readable` gates.
fn source(random: &mut Random, n: usize, readable: usize) -> Source {
    match random.below(8) {
        0 => Source::Constant(random.chance(50)),
        1..=3 if n > 0 => Source::Input(random.below(n)),
        _ if readable > 0 => Source::Gate(random.below(readable)),
        _ => Source::Constant(random.chance(50)),
    }
}

fn gate(random: &mut Random, n: usize, readable: usize) -> Gate {
    let kind = random.pick(&Kind::ALL);
    let count = match kind {
        Kind::Not => 1,
        _ => random.between(2, 4),
    };
    let operands = (0..count).map(|_| source(random, n, readable)).collect();
    Gate { kind, operands }
}

fn straight(random: &mut Random, n: usize, m: usize) -> Vec<Gate> {
    (0..m).map(|number| gate(random, n, number)).collect()
}

/// The same gates in random order.
pub(super) fn shuffled(gates: Vec<Gate>, random: &mut Random) -> Vec<Gate> {
    let new_number = random.permutation(gates.len());
    renumbered(gates, &new_number)
}

/// The same gates under other numbers.
pub(super) fn renumbered(gates: Vec<Gate>, new_number: &[usize]) -> Vec<Gate> {
    let mut moved = gates.clone();
    for (old, mut gate) in gates.into_iter().enumerate() {
        for operand in &mut gate.operands {
            *operand = operand.renumbered(new_number);
        }
        moved[new_number[old]] = gate;
    }
    moved
}

/// Rings of at most 9 gates, `m` in all.
fn rings(random: &mut Random, n: usize, m: usize) -> Vec<Gate> {
    let mut gates = Vec::new();
    while gates.len() < m {
        let size = random.between(1, 9).min(m - gates.len());
        ring(random, n, size, &mut gates);
    }
    gates
}

/// A ring whose gate 0 a value 0 of the breaking source fixes, and whose last gate a value 1.
pub(super) fn ring(random: &mut Random, n: usize, size: usize, gates: &mut Vec<Gate>) {
    let base = gates.len();
    let breaker = match n > 0 && size > 1 {
        true => Source::Input(random.below(n)),
        false => Source::Constant(false),
    };
    for rank in 0..size {
        let mut gate = gate(random, n, base);
        gate.operands.truncate(3);
        if rank == 0 {
            gate.kind = random.pick(&[Kind::And, Kind::Nand]);
            gate.operands[0] = breaker;
        } else if rank == size - 1 {
            gate.kind = random.pick(&[Kind::Or, Kind::Nor]);
            gate.operands[0] = breaker;
        }
        let before = Source::Gate(base + (rank + size - 1) % size);
        let chord = Source::Gate(base + random.below(size));
        let joined = random.below(gate.operands.len() + 1);
        match gate.kind {
            Kind::Not => gate.operands = vec![before],
            _ => gate.operands.insert(joined, before),
        }
        if gate.operands.len() == 3 && random.chance(20) {
            gate.operands.push(chord);
        }
        gates.push(gate);
    }
}
