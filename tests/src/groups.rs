//! Groups: strongly connected gates by Tarjan's algorithm, then numbered by the rule of SPECIFICATION 5.

use crate::answer::{told, Answer, Outcome};
use crate::block::Block;
use crate::malformed::well_formed;
use std::cmp::Reverse;
use std::collections::{BTreeSet, BinaryHeap};

/// Each gate's group number, a word each; count: groups.
pub fn groups(block: &[u16], room: usize) -> (Answer, Vec<u16>) {
    told(grouped(block), room)
}

fn grouped(words: &[u16]) -> Outcome<u16> {
    let block = well_formed(words)?;
    let groups = ordered_groups(&block);
    let mut numbers = vec![0; block.gates.len()];
    for (number, group) in groups.iter().enumerate() {
        group.iter().for_each(|&gate| numbers[gate] = number as u16);
    }
    Ok((groups.len(), numbers))
}

/// The groups in their order, each with its gates ascending.
pub fn ordered_groups(block: &Block) -> Vec<Vec<usize>> {
    let components = Tarjan::components(block);
    let mut home = vec![0; block.gates.len()];
    for (index, gates) in components.iter().enumerate() {
        gates.iter().for_each(|&gate| home[gate] = index);
    }
    let order = numbering(block, &components, &home);
    order.iter().map(|&i| components[i].clone()).collect()
}

/// The gates of each loop: groups of several gates, and gates that read themselves.
pub fn loops(block: &Block) -> Vec<Vec<usize>> {
    let reads_itself = |gate: usize| block.gates[gate].gates_read().any(|read| read == gate);
    let mut groups = ordered_groups(block);
    groups.retain(|group| group.len() > 1 || reads_itself(group[0]));
    groups
}

/// The components one by one: of those that wait for none, the one with the lowest gate is next.
fn numbering(block: &Block, components: &[Vec<usize>], home: &[usize]) -> Vec<usize> {
    let reads = |index: usize| -> BTreeSet<usize> {
        let gates = components[index].iter().map(|&gate| &block.gates[gate]);
        let read = gates.flat_map(|gate| gate.gates_read());
        read.map(|g| home[g]).filter(|&h| h != index).collect()
    };
    let mut waits: Vec<usize> = Vec::new();
    let mut readers = vec![Vec::new(); components.len()];
    for index in 0..components.len() {
        let read = reads(index);
        waits.push(read.len());
        read.iter().for_each(|&r| readers[r].push(index));
    }
    let entry = |index: usize| Reverse((components[index][0], index));
    let ready = (0..components.len()).filter(|&i| waits[i] == 0);
    let mut ready: BinaryHeap<_> = ready.map(entry).collect();
    let mut order = Vec::new();
    while let Some(Reverse((_, index))) = ready.pop() {
        order.push(index);
        for &reader in &readers[index] {
            waits[reader] -= 1;
            if waits[reader] == 0 {
                ready.push(entry(reader));
            }
        }
    }
    order
}

/// Tarjan's algorithm: visiting order, lowest visit reached, and the gates not yet in a component.
struct Tarjan<'a> {
    block: &'a Block,
    visit: Vec<Option<usize>>,
    low: Vec<usize>,
    stack: Vec<usize>,
    on_stack: Vec<bool>,
    visits: usize,
    found: Vec<Vec<usize>>,
}

impl Tarjan<'_> {
    /// The strongly connected components, each ascending.
    fn components(block: &Block) -> Vec<Vec<usize>> {
        let m = block.gates.len();
        let mut search = Tarjan {
            block,
            visit: vec![None; m],
            low: vec![0; m],
            stack: Vec::new(),
            on_stack: vec![false; m],
            visits: 0,
            found: Vec::new(),
        };
        for gate in 0..m {
            if search.visit[gate].is_none() {
                search.connect(gate);
            }
        }
        search.found
    }

    fn connect(&mut self, gate: usize) {
        let own = self.visits;
        self.visits += 1;
        self.visit[gate] = Some(own);
        self.low[gate] = own;
        self.stack.push(gate);
        self.on_stack[gate] = true;
        for read in self.block.gates[gate].gates_read() {
            match self.visit[read] {
                None => {
                    self.connect(read);
                    self.low[gate] = self.low[gate].min(self.low[read]);
                }
                Some(visit) if self.on_stack[read] => {
                    self.low[gate] = self.low[gate].min(visit);
                }
                Some(_) => {}
            }
        }
        if self.low[gate] == own {
            self.close(gate);
        }
    }

    /// Takes the component of `gate` off the stack.
    fn close(&mut self, gate: usize) {
        let bottom = self.stack.iter().rposition(|&g| g == gate);
        let mut component = self.stack.split_off(bottom.expect("on the stack"));
        component.iter().for_each(|&g| self.on_stack[g] = false);
        component.sort_unstable();
        self.found.push(component);
    }
}
