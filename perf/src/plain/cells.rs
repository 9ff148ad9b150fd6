//! Cells: each kind's truth word by folding the columns of a truth table. Run: one look into the truth word a cell.

use super::block::{Block, ONE, ZERO};
use super::gate::{Kind, KINDS};
use super::{handed_over, refused};
use unloop::raw::Reply;

/// Bit b of column i is bit i of b.
const COLUMNS: [u16; 4] = [0xaaaa, 0xcccc, 0xf0f0, 0xff00];

/// The truth word of a kind with so many operands.
fn truth(kind: Kind, count: usize) -> u16 {
    let columns = COLUMNS[..count].iter();
    match kind {
        Kind::And => columns.fold(u16::MAX, |all, column| all & column),
        Kind::Or => columns.fold(0, |some, column| some | column),
        Kind::Xor => columns.fold(0, |odd, column| odd ^ column),
        Kind::Not | Kind::Nand => !truth(Kind::And, count),
        Kind::Nor => !truth(Kind::Or, count),
        Kind::Xnor => !truth(Kind::Xor, count),
    }
}

/// A straight block as cells; count: words.
pub fn cells(words: &[u16], cells: &mut [u16]) -> Reply {
    let Some(block) = Block::of(words) else {
        return refused(6, 0);
    };
    if !block.is_straight() {
        return refused(10, 0);
    }
    let Some((lent, _)) = cells.split_at_mut_checked(5 * block.m) else {
        return refused(11, 0);
    };
    for (cell, gate) in lent.chunks_exact_mut(5).zip(block.gates) {
        let (kind, count) = (KINDS[usize::from(gate[0] % 8)], usize::from(gate[0] / 8));
        cell[..4].copy_from_slice(&gate[1..]);
        cell[count..4].fill(ZERO);
        cell[4] = truth(kind, count);
    }
    super::done(lent.len(), 0)
}

/// The value of each cell; count: cells.
pub fn run(inputs: usize, cells: &[u16], setting: &[u8], values: &mut [u8]) -> Reply {
    let (cells, rest) = cells.as_chunks::<5>();
    if !are_legal(inputs, cells, rest) {
        return refused(6, 0);
    }
    if setting.len() != inputs || setting.iter().any(|&value| value > 1) {
        return refused(7, 0);
    }
    // The nodes, and the two constants behind them.
    let nodes = inputs + cells.len();
    let mut bits = setting.to_vec();
    bits.resize(nodes, 0);
    bits.extend([0, 1]);
    let place = |word: u16| match word {
        ZERO => nodes,
        ONE => nodes + 1,
        node => usize::from(node),
    };
    for (number, &[a, b, c, d, truth]) in cells.iter().enumerate() {
        let [a, b, c, d] = [a, b, c, d].map(|word| bits[place(word)]);
        bits[inputs + number] = (truth >> (a | b << 1 | c << 2 | d << 3) & 1) as u8;
    }
    handed_over(&bits[inputs..nodes], cells.len(), values)
}

/// Whether words are cells: whole ones, not too many, each over what stands before it.
pub fn are_legal(inputs: usize, cells: &[[u16; 5]], rest: &[u16]) -> bool {
    inputs <= 12 && cells.len() <= 1_024 && rest.is_empty() && are_earlier(inputs, cells)
}

/// Whether each operand is an input, a constant or an earlier cell.
fn are_earlier(inputs: usize, cells: &[[u16; 5]]) -> bool {
    let earlier = |(node, cell): (usize, &[u16; 5])| {
        let mut operands = cell[..4].iter();
        operands.all(|&word| word >= ZERO || usize::from(word) < node)
    };
    (inputs..).zip(cells).all(earlier)
}
