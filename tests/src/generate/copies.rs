//! Blocks whose rendering has about as many copies as it may have.

use super::blocks::{renumbered, ring, shuffled};
use super::Random;
use crate::block::{Block, Gate, Kind, Output, Source};
use crate::limits::GATES;
use crate::render::copies;

/// A block of rings in some order, which make up to two copies fewer or more than there may be, and lone gates. In some an output shows a
/// gate that waits for itself, so that the block isn't settled either.
pub fn about_1024_copies(random: &mut Random) -> Block {
    let wanted = random.between(GATES - 2, GATES + 2);
    loop {
        let n = random.between(0, 5);
        let mut block = rings(random, n);
        let Some(lone) = wanted.checked_sub(copies(&block)) else {
            continue;
        };
        if block.gates.len() + lone <= GATES {
            block.gates.extend((0..lone).map(|_| lone_gate(random, n)));
            if lone > 0 && random.chance(40) {
                wait_for_itself(&mut block);
            }
            return block;
        }
    }
}

/// One to three rings, in the order of the ring, against it, or in any.
fn rings(random: &mut Random, n: usize) -> Block {
    let mut gates = Vec::new();
    for _ in 0..random.between(1, 3) {
        let size = random.between(8, 33);
        ring(random, n, size, &mut gates);
    }
    let count = gates.len();
    let gates = match random.below(4) {
        0 => gates,
        1 => shuffled(gates, random),
        _ => renumbered(gates, &(0..count).rev().collect::<Vec<usize>>()),
    };
    let output = |number: usize| Output {
        port: format!("y{number}"),
        node: Source::Gate(number * (count - 1)),
    };
    Block {
        inputs: (0..n).map(|i| format!("x{i}")).collect(),
        nevers: super::nevers(random, n, 2),
        outputs: (0..2).map(output).collect(),
        gates,
    }
}

fn lone_gate(random: &mut Random, n: usize) -> Gate {
    let operand = match n {
        0 => Source::Constant(random.chance(50)),
        _ => Source::Input(random.below(n)),
    };
    Gate {
        kind: Kind::Not,
        operands: vec![operand],
    }
}

/// The last gate becomes `not` of itself, and is shown.
fn wait_for_itself(block: &mut Block) {
    let last = block.gates.len() - 1;
    let node = Source::Gate(last);
    block.gates[last].operands = vec![node];
    let port = "waits".to_string();
    block.outputs.push(Output { port, node });
}
