//! Gather: the gates numbered afresh by sorting them by group. Scatter: the way back, by sorting them by the list of old numbers.

use crate::answer::*;
use crate::block::{Block, Gate, Output};
use crate::groups::groups;
use crate::limits::GATES;
use crate::malformed::well_formed;

/// The block with the gates of each group side by side, and the list of old numbers in the new order; count: the block's words.
pub fn gather(block: &[u16], room: usize, list_room: usize) -> (Answer, Vec<u16>, Vec<u16>) {
    let refused = |refusal: Answer| (refusal, Vec::new(), Vec::new());
    let (words, order) = match gathered(block) {
        Ok(found) => found,
        Err(refusal) => return refused(refusal),
    };
    match words.len() > room || order.len() > list_room {
        true => refused(Answer::refusal(NO_ROOM, 0)),
        false => (Answer::success(words.len()), words, order),
    }
}

fn gathered(words: &[u16]) -> Result<(Vec<u16>, Vec<u16>), Answer> {
    let block = well_formed(words)?;
    let (_, group) = groups(words, GATES);
    Ok(gathered_by(&block, &group))
}

/// The words and the list, by the number of each gate's group.
pub fn gathered_by(block: &Block, group: &[u16]) -> (Vec<u16>, Vec<u16>) {
    let mut order: Vec<usize> = (0..block.gates.len()).collect();
    // The sort is stable: gates of one group stay ascending.
    order.sort_by_key(|&gate| group[gate]);
    let mut new_number = vec![0; order.len()];
    for (new, &old) in order.iter().enumerate() {
        new_number[old] = new;
    }
    let gates = order.iter().map(|&old| &block.gates[old]);
    let gates = gates.map(|gate| moved(gate, &new_number)).collect();
    let gathered = with_gates(block, gates, &new_number);
    let order = order.into_iter().map(|old| old as u16).collect();
    (gathered.to_words(), order)
}

/// The block whose gates have the numbers of the list, in place of their own; count: words.
pub fn scatter(block: &[u16], order: &[u16], room: usize) -> (Answer, Vec<u16>) {
    told(scattered(block, order), room)
}

fn scattered(words: &[u16], order: &[u16]) -> Outcome<u16> {
    let block = well_formed(words)?;
    refuse_if(!is_permutation(order, block.gates.len()), NOT_A_PERMUTATION)?;
    let words = scattered_by(&block, order);
    Ok((words.len(), words))
}

/// The words of the block whose gates have the numbers of the list.
pub fn scattered_by(block: &Block, order: &[u16]) -> Vec<u16> {
    let old_number: Vec<usize> = order.iter().map(|&old| old.into()).collect();
    let gates = block.gates.iter().map(|gate| moved(gate, &old_number));
    let mut numbered: Vec<(u16, Gate)> = order.iter().copied().zip(gates).collect();
    numbered.sort_by_key(|&(old, _)| old);
    let gates = numbered.into_iter().map(|(_, gate)| gate).collect();
    with_gates(block, gates, &old_number).to_words()
}

/// Each number below `count`, once.
pub fn is_permutation(list: &[u16], count: usize) -> bool {
    let mut sorted = list.to_vec();
    sorted.sort_unstable();
    sorted
        .iter()
        .map(|&number| usize::from(number))
        .eq(0..count)
}

/// The gate where gates have new numbers.
fn moved(gate: &Gate, new_number: &[usize]) -> Gate {
    let operands = gate.operands.iter();
    Gate {
        kind: gate.kind,
        operands: operands.map(|o| o.renumbered(new_number)).collect(),
    }
}

/// The block with these gates, its outputs where gates have new numbers.
fn with_gates(block: &Block, gates: Vec<Gate>, new_number: &[usize]) -> Block {
    let output = |output: &Output| Output {
        port: output.port.clone(),
        node: output.node.renumbered(new_number),
    };
    Block {
        inputs: block.inputs.clone(),
        nevers: block.nevers.clone(),
        gates,
        outputs: block.outputs.iter().map(output).collect(),
    }
}
