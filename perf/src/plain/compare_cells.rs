//! CompareCells: the outputs of a block, under every settled setting, against the nodes of cells that are to show them, until two differ. A
//! cell's value under many settings is a choice among the sixteen bits of its truth word, halved by each operand.

use super::block::{Block, ONE, ZERO};
use super::cells::are_legal;
use super::decided::{by_width, lowest_difference};
use super::gate::Gate;
use super::groups::Groups;
use super::lanes::{to_its_end, Lanes, Order};
use super::pair::Set;
use super::{done, refused};
use std::array::from_fn;
use unloop::raw::Reply;

/// Count: the lowest output that differs, from 1; detail: the lowest setting under which one does.
pub fn compare_cells(ours: &[u16], cells: &[u16], shown: &[u16]) -> Reply {
    let Some(ours) = Block::of(ours) else {
        return refused(6, 0);
    };
    let (cells, rest) = cells.as_chunks::<5>();
    if !are_legal(ours.n, cells, rest) {
        return refused(6, 0);
    }
    if shown.len() != ours.outputs.len() {
        return refused(12, 0);
    }
    let nodes = ours.n + cells.len();
    if shown.iter().any(|&node| usize::from(node) >= nodes) {
        return refused(6, 0);
    }
    match by_width!(ours.n, first_difference(&ours, cells, shown)) {
        Some((setting, output)) => done(output + 1, setting),
        None => done(0, 0),
    }
}

/// A cell with the places of its operands: the nodes, and the two constants behind them.
struct Cell {
    operands: [u16; 4],
    truth: u16,
}

/// The lowest setting under which an output differs, and the lowest such output.
fn first_difference<const W: usize>(
    ours: &Block,
    cells: &[[u16; 5]],
    shown: &[u16],
) -> Option<(usize, usize)> {
    let gates = Gate::all(ours);
    let groups = Groups::of(ours, &gates);
    let mut lanes = Lanes::<W>::new(ours, &gates, &groups, Order::ThereAndBack);
    let nodes = ours.n + cells.len();
    let cells: Vec<Cell> = cells.iter().map(|cell| decoded(cell, nodes)).collect();
    let mut values = vec![[0; W]; nodes];
    values.extend([[0; W], [u64::MAX; W]]);
    for base in (0..1 << ours.n).step_by(64 * W) {
        let coming = lanes.start(base);
        lanes.settle(&coming, &mut to_its_end)?;
        for (value, pair) in values.iter_mut().zip(&lanes.pairs[..ours.n]) {
            *value = pair[1];
        }
        for (number, cell) in cells.iter().enumerate() {
            values[ours.n + number] = chosen(cell, &values);
        }
        let ones = ours.shown().zip(shown);
        let ones = ones.map(|(our, &their)| (&lanes.pairs[our][1], &values[usize::from(their)]));
        if let Some((setting, output)) = lowest_difference(&lanes.decided(&coming), ones) {
            return Some((base + setting, output));
        }
    }
    None
}

fn decoded(&[a, b, c, d, truth]: &[u16; 5], nodes: usize) -> Cell {
    let place = |word: u16| match word {
        ZERO => nodes as u16,
        ONE => nodes as u16 + 1,
        node => node,
    };
    Cell {
        operands: [a, b, c, d].map(place),
        truth,
    }
}

/// The bit that a cell's operands choose, under each setting.
fn chosen<const W: usize>(cell: &Cell, values: &[Set<W>]) -> Set<W> {
    let [a, b, c, d] = cell.operands.map(|place| &values[usize::from(place)]);
    from_fn(|i| {
        let bit = |place: usize| u64::from(cell.truth >> place & 1).wrapping_neg();
        let by = |operand: u64, low: u64, high: u64| low ^ (low ^ high) & operand;
        let eighths: [u64; 8] = from_fn(|place| by(a[i], bit(2 * place), bit(2 * place + 1)));
        let quarters: [u64; 4] =
            from_fn(|place| by(b[i], eighths[2 * place], eighths[2 * place + 1]));
        let halves: [u64; 2] =
            from_fn(|place| by(c[i], quarters[2 * place], quarters[2 * place + 1]));
        by(d[i], halves[0], halves[1])
    })
}
