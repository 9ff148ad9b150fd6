//! Settle by rounds that look only at the readers of what changed, and Pass by one sweep.

use super::block::Block;
use super::gate::Gate;
use super::readers::Readers;
use super::{handed_over, refused};
use unloop::raw::Reply;

const UNDEFINED: u8 = 2;

/// The settled value of each gate; count: rounds.
pub fn settle(words: &[u16], setting: &[u8], result: &mut [u8]) -> Reply {
    let Some(block) = Block::of(words) else {
        return refused(6, 0);
    };
    if is_bad(setting, &block) {
        return refused(7, 0);
    }
    let mut network = Network::of(&block);
    let rounds = network.settle(setting);
    handed_over(&network.values[block.n..block.n + block.m], rounds, result)
}

/// A block ready to be settled under many settings.
pub struct Network {
    n: usize,
    gates: Vec<Gate>,
    readers: Readers,
    /// Of inputs, gates, the two constants, and for an operand that is absent.
    pub values: Vec<u8>,
    /// The gates that changed in a round, and the values that they get in the next.
    changed: Vec<u16>,
    found: Vec<(u16, u8)>,
}

impl Network {
    pub fn of(block: &Block) -> Network {
        let gates = Gate::all(block);
        Network {
            n: block.n,
            readers: Readers::all(block, &gates),
            values: undefined(block),
            changed: Vec::with_capacity(block.m),
            found: Vec::with_capacity(block.m),
            gates,
        }
    }

    /// The rounds that changed something.
    pub fn settle(&mut self, setting: &[u8]) -> usize {
        let n = self.n;
        self.values[..n].copy_from_slice(setting);
        self.values[n..n + self.gates.len()].fill(UNDEFINED);
        (0..self.gates.len() as u16).for_each(|gate| self.look_at(gate));
        let mut rounds = 0;
        while !self.found.is_empty() {
            rounds += 1;
            self.changed.clear();
            for (gate, value) in self.found.drain(..) {
                // It is found as often as it reads something that changed.
                let kept = &mut self.values[n + usize::from(gate)];
                if *kept == UNDEFINED {
                    *kept = value;
                    self.changed.push(gate);
                }
            }
            for place in 0..self.changed.len() {
                for reader in self.readers.range(self.changed[place].into()) {
                    self.look_at(self.readers.list[reader]);
                }
            }
        }
        rounds
    }

    fn look_at(&mut self, gate: u16) {
        if self.values[self.n + usize::from(gate)] == UNDEFINED {
            let value = self.gates[usize::from(gate)].value(&self.values);
            if value != UNDEFINED {
                self.found.push((gate, value));
            }
        }
    }
}

/// The values before the first round, with all inputs undefined.
fn undefined(block: &Block) -> Vec<u8> {
    let mut values = vec![UNDEFINED; block.n + block.m];
    values.extend([0, 1, 3]);
    values
}

/// The values of a straight block in one sweep; count: gates.
pub fn pass(words: &[u16], setting: &[u8], result: &mut [u8]) -> Reply {
    let Some(block) = Block::of(words) else {
        return refused(6, 0);
    };
    if !block.is_straight() {
        return refused(10, 0);
    }
    if is_bad(setting, &block) {
        return refused(7, 0);
    }
    let mut values = undefined(&block);
    values[..block.n].copy_from_slice(setting);
    for gate in Gate::all(&block) {
        values[usize::from(gate.place)] = gate.value(&values);
    }
    handed_over(&values[block.n..block.n + block.m], block.m, result)
}

fn is_bad(setting: &[u8], block: &Block) -> bool {
    setting.len() != block.n || setting.iter().any(|&value| value > 2)
}
