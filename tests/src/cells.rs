//! Cells: a straight block as cells of four operands and a truth word, and a run of cells.
//! Truth words are found for all sixteen operand bits at once, and read by halving.

use crate::answer::*;
use crate::block::{Block, Gate, Kind, ONE_WORD, ZERO_WORD};
use crate::limits::{
    CELL_WORDS, GATES, GATE_WORDS, HEAD_WORDS, INPUTS, NAME_WORDS, NEVER_WORDS, OPERANDS,
};
use crate::malformed::well_formed;

/// Bit b of word i is bit i of b.
const COLUMNS: [u16; OPERANDS] = [0xAAAA, 0xCCCC, 0xF0F0, 0xFF00];

/// The cells of a straight block, five words each; count: words.
pub fn cells(block: &[u16], room: usize) -> (Answer, Vec<u16>) {
    told(made(block), room)
}

fn made(words: &[u16]) -> Outcome<u16> {
    let block = well_formed(words)?;
    refuse_if(!block.is_straight(), NOT_STRAIGHT)?;
    let cells = cells_of(&block, words);
    Ok((cells.len(), cells))
}

/// The cells of a straight block that is stored as these words.
pub fn cells_of(block: &Block, words: &[u16]) -> Vec<u16> {
    let first = HEAD_WORDS + NAME_WORDS * block.inputs.len() + NEVER_WORDS * block.nevers.len();
    let stored = words[first..].chunks(GATE_WORDS);
    let mut cells = Vec::with_capacity(CELL_WORDS * block.gates.len());
    for (gate, stored) in block.gates.iter().zip(stored) {
        cells.extend(cell(gate, stored));
    }
    cells
}

/// The operand words as they are stored, constant 0 for those that aren't used, and the truth word.
fn cell(gate: &Gate, stored: &[u16]) -> [u16; CELL_WORDS] {
    let mut cell = [ZERO_WORD; CELL_WORDS];
    let used = gate.operands.len();
    cell[..used].copy_from_slice(&stored[1..=used]);
    cell[OPERANDS] = truth_word(gate.kind, used);
    cell
}

/// The truth word of a kind with so many operands.
pub fn truth_word(kind: Kind, used: usize) -> u16 {
    let columns = &COLUMNS[..used];
    let and = columns.iter().fold(u16::MAX, |all, column| all & column);
    let or = columns.iter().fold(0, |some, column| some | column);
    let xor = columns.iter().fold(0, |odd, column| odd ^ column);
    match kind {
        Kind::And => and,
        Kind::Or => or,
        Kind::Xor => xor,
        Kind::Not | Kind::Nand => !and,
        Kind::Nor => !or,
        Kind::Xnor => !xor,
    }
}

/// The value of each cell under a setting of 0s and 1s, a byte each; count: cells.
pub fn run(inputs: usize, cells: &[u16], setting: &[u8], room: usize) -> (Answer, Vec<u8>) {
    told(ran(inputs, cells, setting), room)
}

fn ran(inputs: usize, cells: &[u16], setting: &[u8]) -> Outcome<u8> {
    refuse_if(is_malformed(inputs, cells), MALFORMED_BLOCK)?;
    let bad = setting.len() != inputs || setting.iter().any(|&value| value > 1);
    refuse_if(bad, BAD_SETTING)?;
    let mut nodes = setting.to_vec();
    for cell in cells.chunks(CELL_WORDS) {
        nodes.push(value(cell, &nodes));
    }
    let values = nodes.split_off(inputs);
    Ok((values.len(), values))
}

/// Above a limit, part of a cell, or an operand that is no input, constant or earlier cell.
pub fn is_malformed(inputs: usize, cells: &[u16]) -> bool {
    let (whole, rest) = (cells.len() / CELL_WORDS, cells.len() % CELL_WORDS);
    let constant = |word: u16| word == ZERO_WORD || word == ONE_WORD;
    let legal = |(number, cell): (usize, &[u16])| {
        let mut operands = cell[..OPERANDS].iter();
        operands.all(|&word| constant(word) || usize::from(word) < inputs + number)
    };
    inputs > INPUTS || whole > GATES || rest > 0 || !cells.chunks(CELL_WORDS).enumerate().all(legal)
}

/// The last operand says which half of the truth word is kept, and so on down to the first.
fn value(cell: &[u16], nodes: &[u8]) -> u8 {
    let mut kept = cell[OPERANDS];
    for place in (0..OPERANDS).rev() {
        let bit = match cell[place] {
            ZERO_WORD => 0,
            ONE_WORD => 1,
            node => nodes[usize::from(node)],
        };
        let half = 1 << place;
        kept = if bit == 1 { kept >> half } else { kept };
        kept &= (1 << half) - 1;
    }
    kept as u8
}
