//! Blocks as they are met: straight logic around loops that the inputs break, 50 to 200 gates, 4 to 8 inputs, at most 1,024 copies.

mod loops;

use super::blocks::renumbered;
use super::Random;
use crate::block::{Block, Gate, Kind, Output, Source};

/// What loops a block has.
#[derive(Debug, Clone, Copy, PartialEq, Eq)]
pub enum Loops {
    None,
    /// Each broken under every setting.
    Broken,
    /// As `Broken`, and a latch, which keeps what it held under some settings.
    Latch,
}

impl Loops {
    /// The loops of a seed's block: broken in eight of ten.
    pub fn of(seed: u64) -> Loops {
        match seed % 10 {
            0 => Loops::None,
            1 => Loops::Latch,
            _ => Loops::Broken,
        }
    }
}

/// A block with such loops.
pub fn typical(random: &mut Random, loops: Loops) -> Block {
    let n = random.between(4, 8);
    let m = random.between(50, 200);
    let mut maker = Maker::new(random, n);
    maker.straight_gates(m / 6);
    if loops != Loops::None {
        maker.loops(m);
    }
    let held = (loops == Loops::Latch).then(|| maker.latch());
    let left = m.saturating_sub(maker.gates.len());
    maker.straight_gates(left);
    // What it holds is shown, or the block would be sound.
    maker.readable.extend(held);
    maker.finished()
}

struct Maker<'a> {
    random: &'a mut Random,
    n: usize,
    gates: Vec<Gate>,
    /// Inputs, and gates of loops and logic that are whole.
    readable: Vec<Source>,
}

impl Maker<'_> {
    fn new(random: &mut Random, n: usize) -> Maker<'_> {
        Maker {
            random,
            n,
            gates: Vec::new(),
            readable: (0..n).map(Source::Input).collect(),
        }
    }

    fn gate(&mut self, kind: Kind, operands: &[Source]) -> Source {
        let operands = operands.to_vec();
        self.gates.push(Gate { kind, operands });
        Source::Gate(self.gates.len() - 1)
    }

    /// The gate that has `count` gates made before it.
    fn later(&self, count: usize) -> Source {
        Source::Gate(self.gates.len() + count)
    }

    fn outside(&mut self) -> Source {
        self.random.pick(&self.readable)
    }

    fn input(&mut self) -> Source {
        Source::Input(self.random.below(self.n))
    }

    fn straight_gates(&mut self, count: usize) {
        for _ in 0..count {
            let kind = self.random.pick(&Kind::ALL);
            let operands = match kind {
                Kind::Not => 1,
                _ => self.random.pick(&[2, 2, 2, 3, 3, 4]),
            };
            let operands: Vec<Source> = (0..operands).map(|_| self.outside()).collect();
            let made = self.gate(kind, &operands);
            self.readable.push(made);
        }
    }

    /// One to four loops, straight gates after each; leaves two of `m` gates.
    fn loops(&mut self, m: usize) {
        for _ in 0..self.random.between(1, 4) {
            if self.gates.len() + 30 > m {
                return;
            }
            match self.random.below(3) {
                0 => self.muxed_loop(),
                1 => self.arbiter(),
                _ => self.crossed_ring(),
            }
            let room = m - 2 - self.gates.len();
            let logic = self.random.between(2, m / 8).min(room);
            self.straight_gates(logic);
        }
    }

    /// The block, with outputs at the last of what may be read; in half of the cases the gates in random order.
    fn finished(self) -> Block {
        let m = self.gates.len();
        let number = match self.random.chance(50) {
            true => self.random.permutation(m),
            false => (0..m).collect(),
        };
        let shown = self.readable.iter().rev().take(self.n).enumerate();
        let output = |(i, node): (usize, &Source)| Output {
            port: format!("y{i}"),
            node: node.renumbered(&number),
        };
        Block {
            inputs: (0..self.n).map(|i| format!("x{i}")).collect(),
            nevers: Vec::new(),
            outputs: shown.map(output).collect(),
            gates: renumbered(self.gates, &number),
        }
    }
}
