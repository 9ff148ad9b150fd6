//! Gates evaluated one at a time, in any order, from all undefined under a fixed setting (Paper 14), with each gate's value as stated.

use crate::block::Block;
use crate::generate::Random;
use crate::rounds::evaluated;
use crate::values::UNDEFINED;

/// The values that the gates hold after some evaluations.
pub struct Evaluation<'a> {
    block: &'a Block,
    setting: &'a [u8],
    pub values: Vec<u8>,
}

impl<'a> Evaluation<'a> {
    /// Before the first evaluation: every gate undefined.
    pub fn new(block: &'a Block, setting: &'a [u8]) -> Evaluation<'a> {
        let values = vec![UNDEFINED; block.gates.len()];
        Evaluation {
            block,
            setting,
            values,
        }
    }

    /// What the gate would hold after its evaluation.
    pub fn next(&self, gate: usize) -> u8 {
        evaluated(&self.block.gates[gate], self.setting, &self.values)
    }

    /// Evaluates one gate, and gives what it held before.
    pub fn step(&mut self, gate: usize) -> u8 {
        let next = self.next(gate);
        std::mem::replace(&mut self.values[gate], next)
    }

    /// The gates whose evaluation would change them.
    pub fn waiting(&self) -> Vec<usize> {
        let gates = 0..self.values.len();
        gates
            .filter(|&gate| self.next(gate) != self.values[gate])
            .collect()
    }
}

/// How the gate to be evaluated next is chosen.
#[derive(Debug, Clone, Copy, PartialEq, Eq)]
pub enum Order {
    /// None at all.
    Empty,
    /// Any gate each time, for any number of times; some come again, some never.
    Any,
    /// Any but one gate, which is left out.
    LeftOut,
    /// Every gate once, in any order.
    Once,
    /// All gates in one order, again and again until nothing changes.
    Sweeps,
    /// One of those that would change, until there is none.
    Waiting,
    /// A bag of events: a gate that changes puts its readers in, any event is taken.
    Bag,
    /// The same with the newest event taken first.
    Stack,
}

impl Order {
    pub const ALL: [Order; 8] = [
        Order::Empty,
        Order::Any,
        Order::LeftOut,
        Order::Once,
        Order::Sweeps,
        Order::Waiting,
        Order::Bag,
        Order::Stack,
    ];

    /// Whether it goes on until no gate's evaluation would change it.
    pub fn is_complete(self) -> bool {
        matches!(
            self,
            Order::Sweeps | Order::Waiting | Order::Bag | Order::Stack
        )
    }

    /// Evaluates gates in such an order; `after` is told each gate and what it held before.
    pub fn run(
        self,
        random: &mut Random,
        evaluation: &mut Evaluation,
        mut after: impl FnMut(&Evaluation, usize, u8),
    ) {
        let m = evaluation.values.len();
        let mut step = |evaluation: &mut Evaluation, gate: usize| {
            let before = evaluation.step(gate);
            after(evaluation, gate, before);
            before != evaluation.values[gate]
        };
        match self {
            _ if m == 0 => {}
            Order::Empty => {}
            Order::Any => {
                for _ in 0..random.below(4 * m + 1) {
                    step(evaluation, random.below(m));
                }
            }
            Order::LeftOut => {
                let (left_out, count) = (random.below(m), random.below(6 * m + 1));
                for gate in (0..count).map(|_| random.below(m)) {
                    if gate != left_out {
                        step(evaluation, gate);
                    }
                }
            }
            Order::Once => {
                for gate in random.permutation(m) {
                    step(evaluation, gate);
                }
            }
            Order::Sweeps => {
                let order = random.permutation(m);
                // All of them are evaluated, whichever changed.
                while order.iter().filter(|&&gate| step(evaluation, gate)).count() > 0 {}
            }
            Order::Waiting => loop {
                let waiting = evaluation.waiting();
                if waiting.is_empty() {
                    return;
                }
                step(evaluation, random.pick(&waiting));
            },
            Order::Bag | Order::Stack => {
                let mut events = random.permutation(m);
                while !events.is_empty() {
                    let newest = events.len() - 1;
                    let taken = if self == Order::Stack {
                        newest
                    } else {
                        random.below(newest + 1)
                    };
                    let gate = events.swap_remove(taken);
                    if step(evaluation, gate) {
                        let gates = evaluation.block.gates.iter().enumerate();
                        let readers = gates
                            .filter(|(_, reader)| reader.gates_read().any(|read| read == gate));
                        events.extend(readers.map(|(number, _)| number));
                    }
                }
            }
        }
    }
}
