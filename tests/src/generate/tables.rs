//! Cells with a list of the nodes that show a block's outputs: legal ones with one thing changed, and ones that no block is compared with.

use super::{foreign_cells, Random};
use crate::block::{ONE_WORD, ZERO_WORD};
use crate::limits::{CELL_WORDS, OPERANDS};

/// Cells, and a word for each output.
pub type Table = (Vec<u16>, Vec<u16>);

/// One bit of a truth word, one operand, and one word of the list changed, of legal cells over n inputs with a list of their nodes.
pub fn changed_tables(random: &mut Random, n: usize, cells: &[u16], list: &[u16]) -> Vec<Table> {
    let count = cells.len() / CELL_WORDS;
    let mut tables = Vec::new();
    if count > 0 {
        let number = random.below(count);
        let mut other = cells.to_vec();
        other[CELL_WORDS * number + OPERANDS] ^= 1 << random.below(16);
        tables.push((other, list.to_vec()));
        let mut other = cells.to_vec();
        let operand = match random.below(n + number + 2) {
            node if node < n + number => node as u16,
            node if node == n + number => ZERO_WORD,
            _ => ONE_WORD,
        };
        other[CELL_WORDS * number + random.below(OPERANDS)] = operand;
        tables.push((other, list.to_vec()));
    }
    if n + count > 0 && !list.is_empty() {
        let mut other = list.to_vec();
        other[random.below(list.len())] = random.below(n + count) as u16;
        tables.push((cells.to_vec(), other));
    }
    tables
}

/// Cells of other origin, cells with a word replaced, and lists that are too long, too short, or have a word that is no node.
pub fn strange_tables(random: &mut Random, n: usize, cells: &[u16], list: &[u16]) -> Vec<Table> {
    let foreign = foreign_cells(random, n, 9);
    let of_foreign = list.iter().map(|_| random.below(n + 9) as u16).collect();
    let longer = [list, &[0]].concat();
    let mut tables = vec![(foreign, of_foreign), (cells.to_vec(), longer)];
    if let Some((_, shorter)) = list.split_last() {
        tables.push((cells.to_vec(), shorter.to_vec()));
        let nodes = n + cells.len() / CELL_WORDS;
        let mut other = list.to_vec();
        other[random.below(list.len())] = match random.below(3) {
            0 => random.pick(&[ZERO_WORD, ONE_WORD]),
            1 => nodes as u16,
            _ => random.between(nodes, usize::from(u16::MAX)) as u16,
        };
        tables.push((cells.to_vec(), other));
    }
    if !cells.is_empty() {
        let mut other = cells.to_vec();
        other[random.below(cells.len())] = random.below(65_536) as u16;
        tables.push((other, list.to_vec()));
        let part = cells.len() - random.between(1, CELL_WORDS - 1);
        tables.push((cells[..part].to_vec(), list.to_vec()));
    }
    tables
}
