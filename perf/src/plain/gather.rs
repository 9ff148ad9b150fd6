//! Gather and Scatter: the same renumbering, by the order of the groups and by a list.

use super::block::{Block, ZERO};
use super::gate::Gate;
use super::groups::Groups;
use super::{done, handed_over, refused};
use unloop::raw::Reply;

/// The gates by group, and the list of their old numbers; count: the block's words.
pub fn gather(words: &[u16], gathered: &mut [u16], order: &mut [u16]) -> Reply {
    let Some(block) = Block::of(words) else {
        return refused(6, 0);
    };
    let list = Groups::in_order(&block, &Gate::all(&block)).members;
    if gathered.len() < words.len() || order.len() < list.len() {
        return refused(11, 0);
    }
    let mut number_of = vec![0; list.len()];
    for (number, &gate) in (0..).zip(&list) {
        number_of[usize::from(gate)] = number;
    }
    gathered[..words.len()].copy_from_slice(&renumbered(words, &block, &number_of));
    handed_over(&list, words.len(), order)
}

/// The way back; count: words.
pub fn scatter(words: &[u16], order: &[u16], original: &mut [u16]) -> Reply {
    let Some(block) = Block::of(words) else {
        return refused(6, 0);
    };
    let mut seen = vec![false; block.m];
    let mut once = |&number: &u16| {
        let seen = seen.get_mut(usize::from(number));
        seen.is_some_and(|seen| !std::mem::replace(seen, true))
    };
    if order.len() != block.m || !order.iter().all(&mut once) {
        return refused(13, 0);
    }
    let Some(lent) = original.get_mut(..words.len()) else {
        return refused(11, 0);
    };
    lent.copy_from_slice(&renumbered(words, &block, order));
    done(words.len(), 0)
}

/// The block where each gate has a new number.
fn renumbered(words: &[u16], block: &Block, number_of: &[u16]) -> Vec<u16> {
    let n = block.n;
    let node = |word: u16| match usize::from(word).checked_sub(n) {
        Some(gate) if word < ZERO => n as u16 + number_of[gate],
        _ => word,
    };
    let mut result = words.to_vec();
    let (gates, outputs) = result[block.head.len()..].split_at_mut(5 * block.m);
    for (gate, &number) in block.gates.iter().zip(number_of) {
        let copy = &mut gates[5 * usize::from(number)..][..5];
        copy.copy_from_slice(gate);
        let count = usize::from(gate[0] / 8);
        copy[1..=count]
            .iter_mut()
            .for_each(|word| *word = node(*word));
    }
    for output in outputs.chunks_exact_mut(5) {
        output[4] = node(output[4]);
    }
    result
}
