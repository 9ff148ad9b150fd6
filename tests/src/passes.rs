//! How many passes Render gives each group, by events in the order of passes: when a gate becomes defined, its readers behind it in the
//! group may do so in the same pass, the others in the next. The latest of these passes is what a setting needs.

use crate::block::Block;
use crate::values::{evaluate, setting_bytes, Network, UNDEFINED};
use std::cmp::Reverse;
use std::collections::BinaryHeap;

/// The passes of each group: at least one, and as many as the settings that aren't excluded need, settled or not.
pub fn passes(block: &Block, groups: &[Vec<usize>]) -> Vec<usize> {
    let network = Network::new(block);
    let excluded = block.excluded_settings();
    let mut passes = vec![1; groups.len()];
    let loops: Vec<(usize, Loop)> = groups
        .iter()
        .enumerate()
        .filter(|(_, gates)| gates.len() > 1)
        .map(|(number, gates)| (number, Loop::new(block, gates)))
        .collect();
    for number in (0..excluded.len()).filter(|&number| !excluded[number]) {
        let setting = setting_bytes(number, block.inputs.len());
        let settled = network.settled(&setting);
        for (group, gates) in &loops {
            passes[*group] = passes[*group].max(gates.latest(&setting, settled.clone()));
        }
    }
    passes
}

/// A group of more than one gate: its gates, ascending, and for each the places of its readers in the group.
struct Loop<'a> {
    block: &'a Block,
    gates: &'a [usize],
    readers: Vec<Vec<usize>>,
}

impl<'a> Loop<'a> {
    fn new(block: &'a Block, gates: &'a [usize]) -> Loop<'a> {
        let mut readers = vec![Vec::new(); gates.len()];
        for (place, &gate) in gates.iter().enumerate() {
            for read in block.gates[gate].gates_read() {
                if let Ok(read) = gates.binary_search(&read) {
                    readers[read].push(place);
                }
            }
        }
        Loop {
            block,
            gates,
            readers,
        }
    }

    /// The pass in which the last of its gates becomes defined, from undefined ones, where other gates have these values; else the first.
    fn latest(&self, setting: &[u8], mut values: Vec<u8>) -> usize {
        for &gate in self.gates {
            values[gate] = UNDEFINED;
        }
        let first = (0..self.gates.len()).map(|place| Reverse((1, place)));
        let mut events: BinaryHeap<Reverse<(usize, usize)>> = first.collect();
        let mut latest = 1;
        while let Some(Reverse((pass, place))) = events.pop() {
            let gate = self.gates[place];
            if values[gate] != UNDEFINED {
                continue;
            }
            values[gate] = evaluate(&self.block.gates[gate], setting, &values);
            if values[gate] != UNDEFINED {
                latest = pass;
                let later = |&reader: &usize| (pass + usize::from(reader <= place), reader);
                events.extend(self.readers[place].iter().map(later).map(Reverse));
            }
        }
        latest
    }
}
