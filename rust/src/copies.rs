//! How often each gate is copied in a rendering (SPECIFICATION 6.1): a group as often as a setting that may come needs for its settled
//! values, 64 settings at a time. So it is told by how much a rendering is too large, of which gate each gate of it is a copy, and which
//! order of gates needs fewer copies.

use crate::lanes::{evaluated, Lanes, LANES};
use crate::{Block, Gate, Operand, Value};

/// Of a gate of a rendering: the gate that it is a copy of, and in which of its group's passes.
#[derive(Debug, Clone, Copy, PartialEq, Eq)]
pub struct Copied {
    pub gate: usize,
    /// From 1 on.
    pub pass: usize,
    pub passes: usize,
}

/// The sum over all groups of gates times passes.
pub fn copies(block: &Block) -> usize {
    Batches::of(block).copies()
}

/// What each gate of the rendering is a copy of, in order: group after group, its gates ascending in each pass.
///
/// ```
/// # use unloop::{schedule, Block, Copied, Refusal};
/// let block = Block::read("(in s)\n(gate p (and s q))\n(gate q (or s p))\n(out y q)\n")?;
/// let copied = |gate, pass| Copied { gate, pass, passes: 2 };
/// assert_eq!(schedule(&block), [copied(0, 1), copied(1, 1), copied(0, 2), copied(1, 2)]);
/// # Ok::<(), Refusal>(())
/// ```
pub fn schedule(block: &Block) -> Vec<Copied> {
    let mut copies = Vec::new();
    for (members, passes) in Batches::of(block).groups {
        for pass in 1..=passes {
            let copied = |&gate: &usize| Copied { gate, pass, passes };
            copies.extend(members.iter().map(copied));
        }
    }
    copies
}

/// Up to 64 settings at a time: all settings of a block, and what its gates settle to under them.
pub(crate) struct Batches {
    all: Vec<Batch>,
    /// The gates of each group, and the passes that it needs.
    groups: Vec<(Vec<usize>, usize)>,
}

struct Batch {
    inputs: Vec<Lanes>,
    /// The settings that there are and that may come.
    come: u64,
    values: Vec<Lanes>,
}

impl Batches {
    pub fn of(block: &Block) -> Batches {
        let gates = block.gate_list();
        let found = block.groups();
        let mut groups = vec![(Vec::new(), 1); found.count];
        for (gate, &group) in found.of_gates.iter().enumerate() {
            groups[usize::from(group)].0.push(gate);
        }
        let mut all = Vec::new();
        for first in (0..1 << block.inputs()).step_by(LANES) {
            let mut batch = Batch::of(block, first);
            for (members, passes) in &mut groups {
                let mut needed = Count::below(usize::MAX);
                batch.settle(&gates, members, &mut needed);
                *passes = needed.last.max(*passes);
            }
            all.push(batch);
        }
        Batches { all, groups }
    }

    /// The gates of the rendering as the gates stand.
    pub fn copies(&self) -> usize {
        let groups = self.groups.iter();
        groups.map(|(members, passes)| members.len() * passes).sum()
    }

    /// The gates of each group, ascending, and the passes that it needs as they stand.
    pub fn groups(&self) -> &[(Vec<usize>, usize)] {
        &self.groups
    }

    /// The passes that a group needs with its gates in this order, if they are fewer than `most`, and how many gates were evaluated for that.
    pub fn passes(
        &mut self,
        gates: &[Gate],
        order: &[usize],
        most: usize,
    ) -> (Option<usize>, usize) {
        let (mut needed, mut evaluated) = (1, 0);
        for batch in &mut self.all {
            let held: Vec<Lanes> = order.iter().map(|&gate| batch.values[gate]).collect();
            order
                .iter()
                .for_each(|&gate| batch.values[gate] = Lanes::default());
            let mut count = Count::below(most);
            batch.settle(gates, order, &mut count);
            order
                .iter()
                .zip(held)
                .for_each(|(&gate, value)| batch.values[gate] = value);
            evaluated += count.passes * order.len();
            needed = count.last.max(needed);
            if needed >= most {
                return (None, evaluated);
            }
        }
        (Some(needed), evaluated)
    }
}

/// The passes through a group so far, and the last that changed something under a setting that may come; from `most` on no more are made.
struct Count {
    passes: usize,
    last: usize,
    most: usize,
}

impl Count {
    fn below(most: usize) -> Count {
        Count {
            passes: 0,
            last: 0,
            most,
        }
    }
}

impl Batch {
    /// The settings from `first` on, with nothing settled.
    fn of(block: &Block, first: usize) -> Batch {
        let nevers = block.never_lines();
        let mask = |holds: &dyn Fn(usize) -> bool| {
            (0..LANES)
                .filter(|&lane| holds(first + lane))
                .map(|lane| 1 << lane)
                .sum()
        };
        let inputs =
            (0..block.inputs()).map(|input| Lanes::of(mask(&|setting| setting >> input & 1 == 1)));
        let comes = |setting: usize| {
            setting < 1 << block.inputs() && !nevers.iter().any(|never| never.agrees(setting))
        };
        Batch {
            inputs: inputs.collect(),
            come: mask(&comes),
            values: vec![Lanes::default(); block.gates()],
        }
    }

    /// Settles a group's gates, in order and in place, and counts the passes.
    fn settle(&mut self, gates: &[Gate], members: &[usize], count: &mut Count) {
        loop {
            let (mut changed, mut counted) = (false, false);
            count.passes += 1;
            for &gate in members {
                let value = value_of(&gates[gate], &self.inputs, &self.values);
                let held = self.values[gate];
                let new = (value.zero | value.one) & !(held.zero | held.one);
                changed |= new != 0;
                counted |= new & self.come != 0;
                self.values[gate] = value;
            }
            if counted {
                count.last = count.passes;
            }
            if !changed || count.last >= count.most {
                return;
            }
        }
    }
}

/// What a gate is under the settings of a batch, from the inputs and what the other gates are so far.
fn value_of(gate: &Gate, inputs: &[Lanes], values: &[Lanes]) -> Lanes {
    let operands = gate.operands.iter().map(|operand| match *operand {
        Operand::Constant(value) => Value::from(value).into(),
        Operand::Input(input) => inputs[input],
        Operand::Gate(gate) => values[gate],
    });
    evaluated(gate.kind, operands)
}
