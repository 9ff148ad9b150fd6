//! Settle and Pass: the values of a block under one setting.

use crate::answer::*;
use crate::block::Block;
use crate::malformed::well_formed;
use crate::rounds::rounds;
use crate::values::{evaluate, Network, UNDEFINED};

/// The settled value of each gate, a byte each; count: rounds.
pub fn settle(block: &[u16], setting: &[u8], room: usize) -> (Answer, Vec<u8>) {
    told(settled(block, setting), room)
}

fn settled(words: &[u16], setting: &[u8]) -> Outcome<u8> {
    let block = well_formed(words)?;
    refuse_if(is_bad(setting, &block), BAD_SETTING)?;
    let (_, count) = rounds(&block, setting);
    Ok((count, Network::new(&block).settled(setting)))
}

/// The values of a straight block in one sweep, a byte each; count: m.
pub fn pass(block: &[u16], setting: &[u8], room: usize) -> (Answer, Vec<u8>) {
    told(passed(block, setting), room)
}

fn passed(words: &[u16], setting: &[u8]) -> Outcome<u8> {
    let block = well_formed(words)?;
    refuse_if(!block.is_straight(), NOT_STRAIGHT)?;
    refuse_if(is_bad(setting, &block), BAD_SETTING)?;
    let values = sweep(&block, setting);
    Ok((values.len(), values))
}

/// Each gate of a straight block evaluated once, ascending, from the values just found.
pub fn sweep(block: &Block, setting: &[u8]) -> Vec<u8> {
    let mut values = Vec::with_capacity(block.gates.len());
    for gate in &block.gates {
        values.push(evaluate(gate, setting, &values));
    }
    values
}

/// Not exactly n bytes, or a byte above 2.
fn is_bad(setting: &[u8], block: &Block) -> bool {
    setting.len() != block.inputs.len() || setting.iter().any(|&value| value > UNDEFINED)
}
