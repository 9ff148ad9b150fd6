//! Render: the passes counted while the loops settle, then the copies in order, with a table of each gate's newest copy.

use super::block::{Block, ZERO};
use super::decided::Decided;
use super::gate::Gate;
use super::groups::Groups;
use super::lanes::Order;
use super::{handed_over, refused};
use unloop::raw::Reply;

const MOST_COPIES: usize = 1_024;

/// The rendered block; count: words.
pub fn render(words: &[u16], rendered: &mut [u16]) -> Reply {
    let Some(block) = Block::of(words) else {
        return refused(6, 0);
    };
    let gates = Gate::all(&block);
    let groups = Groups::in_order(&block, &gates);
    let mut passes = Passes {
        counts: vec![1; groups.iter().count()],
        copies: block.m,
    };
    let sizes: Vec<usize> = groups.iter().map(<[u16]>::len).collect();
    let mut on_loop = |group: usize, needed| passes.raise(group, needed, sizes[group]);
    let Some(decided) = Decided::by_groups(&block, &gates, &groups, Order::OneWay, &mut on_loop)
    else {
        return refused(8, 0);
    };
    if let Some(setting) = decided.lowest_undecided() {
        return refused(9, setting);
    }
    let result = rendering(&block, &groups, &passes);
    handed_over(&result, result.len(), rendered)
}

/// The passes that each group needs, and the copies of all.
struct Passes {
    counts: Vec<usize>,
    copies: usize,
}

impl Passes {
    /// A group of this size needs so many at least. Nothing once the copies don't fit.
    fn raise(&mut self, group: usize, needed: usize, size: usize) -> Option<()> {
        let more = needed.saturating_sub(self.counts[group]);
        self.counts[group] += more;
        self.copies += more * size;
        (self.copies <= MOST_COPIES).then_some(())
    }
}

fn rendering(block: &Block, groups: &Groups, passes: &Passes) -> Vec<u16> {
    let mut result = Vec::with_capacity(block.head.len() + 5 * (passes.copies + 16));
    result.extend_from_slice(block.head);
    result[1] = passes.copies as u16;
    let n = block.n;
    // By node: itself where it is an input, else the newest copy.
    let mut newest: Vec<u16> = (0..n as u16).collect();
    newest.resize(n + block.m, ZERO);
    let mut next = n as u16;
    for (group, &passes) in groups.iter().zip(&passes.counts) {
        for &gate in std::iter::repeat_n(group, passes).flatten() {
            let mut words = block.gates[usize::from(gate)];
            let count = usize::from(words[0] / 8);
            for word in words[1..=count].iter_mut().filter(|word| **word < ZERO) {
                *word = newest[usize::from(*word)];
            }
            result.extend(words);
            newest[n + usize::from(gate)] = next;
            next += 1;
        }
    }
    for (output, node) in block.outputs.iter().zip(block.shown()) {
        result.extend_from_slice(&output[..4]);
        result.push(newest[node]);
    }
    result
}
