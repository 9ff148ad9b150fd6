//! Render: the loop-free block, its operands found by arithmetic on the places of copies.

use crate::answer::*;
use crate::block::{Block, Gate, Output, Source};
use crate::groups::ordered_groups;
use crate::limits;
use crate::malformed::well_formed;
use crate::passes::passes;
use crate::values::Network;

/// The rendered block; count: words.
pub fn render(block: &[u16], room: usize) -> (Answer, Vec<u16>) {
    told(rendered(block), room)
}

fn rendered(words: &[u16]) -> Outcome<u16> {
    let block = well_formed(words)?;
    let layout = Layout::new(&block);
    refuse_if(layout.copies > limits::GATES, TOO_MANY_COPIES)?;
    let sound = Network::new(&block).sound_settings();
    if let Some(lowest) = sound.iter().position(|&sound| !sound) {
        return Err(Answer::refusal(NOT_SETTLED, lowest));
    }
    let words = layout.rendering(&block).to_words();
    Ok((words.len(), words))
}

/// The copies of every group, as many passes as it needs, whether or not the block is sound.
pub fn copied(block: &Block) -> Block {
    Layout::new(block).rendering(block)
}

/// The copies of these groups, each so many times.
pub fn copied_by(block: &Block, groups: Vec<Vec<usize>>, passes: Vec<usize>) -> Block {
    Layout::of(block, groups, passes).rendering(block)
}

/// How many copies the passes of Render make.
pub fn copies(block: &Block) -> usize {
    Layout::new(block).copies
}

/// Where a gate's copies stand.
#[derive(Clone, Copy, Default)]
struct Seat {
    group: usize,
    /// The number of gates of its group.
    size: usize,
    /// The number of passes of its group.
    passes: usize,
    /// The first copy of its group.
    base: usize,
    /// Its place among its group's gates.
    rank: usize,
}

impl Seat {
    /// The number of the gate's copy in a pass.
    fn copy(self, pass: usize) -> Source {
        Source::Gate(self.base + pass * self.size + self.rank)
    }

    fn last_copy(self) -> Source {
        self.copy(self.passes - 1)
    }
}

struct Layout {
    groups: Vec<Vec<usize>>,
    passes: Vec<usize>,
    seats: Vec<Seat>,
    copies: usize,
}

impl Layout {
    fn new(block: &Block) -> Layout {
        let groups = ordered_groups(block);
        let passes = passes(block, &groups);
        Layout::of(block, groups, passes)
    }

    fn of(block: &Block, groups: Vec<Vec<usize>>, passes: Vec<usize>) -> Layout {
        let mut seats = vec![Seat::default(); block.gates.len()];
        let mut base = 0;
        for (group, gates) in groups.iter().enumerate() {
            let (size, passes) = (gates.len(), passes[group]);
            for (rank, &gate) in gates.iter().enumerate() {
                seats[gate] = Seat {
                    group,
                    size,
                    passes,
                    base,
                    rank,
                };
            }
            base += size * passes;
        }
        Layout {
            groups,
            passes,
            seats,
            copies: base,
        }
    }

    /// The rendering of SPECIFICATION 6.1, whether or not the block is sound.
    fn rendering(&self, block: &Block) -> Block {
        let mut gates = Vec::with_capacity(self.copies);
        for (group, &passes) in self.groups.iter().zip(&self.passes) {
            for pass in 0..passes {
                gates.extend(group.iter().map(|&gate| self.copy(block, gate, pass)));
            }
        }
        let output = |output: &Output| Output {
            port: output.port.clone(),
            node: match output.node {
                Source::Gate(gate) => self.seats[gate].last_copy(),
                kept => kept,
            },
        };
        Block {
            inputs: block.inputs.clone(),
            nevers: block.nevers.clone(),
            gates,
            outputs: block.outputs.iter().map(output).collect(),
        }
    }

    fn copy(&self, block: &Block, gate: usize, pass: usize) -> Gate {
        let original = &block.gates[gate];
        let operands = original.operands.iter();
        Gate {
            kind: original.kind,
            operands: operands
                .map(|&operand| self.operand(operand, self.seats[gate], pass))
                .collect(),
        }
    }

    /// A lower gate of the group stands already in this pass, any other in the pass before.
    fn operand(&self, operand: Source, reader: Seat, pass: usize) -> Source {
        let Source::Gate(gate) = operand else {
            return operand;
        };
        let seat = self.seats[gate];
        if seat.group != reader.group {
            seat.last_copy()
        } else if seat.rank < reader.rank {
            seat.copy(pass)
        } else if pass > 0 {
            seat.copy(pass - 1)
        } else {
            Source::Constant(false)
        }
    }
}
