//! Cells that no block of ours was made into, and words that are no cells.

use super::Random;
use crate::block::{Kind, ONE_WORD, ZERO_WORD};
use crate::cells::truth_word;
use crate::limits::{CELL_WORDS, GATES, INPUTS, OPERANDS};

/// Legal cells over so many inputs: any truth words, and operands that are constants, inputs or earlier cells, absent ones in any place.
pub fn foreign_cells(random: &mut Random, inputs: usize, count: usize) -> Vec<u16> {
    let mut words = Vec::with_capacity(CELL_WORDS * count);
    for number in 0..count {
        words.extend((0..OPERANDS).map(|_| operand(random, inputs + number)));
        words.push(any_truth_word(random));
    }
    words
}

/// A constant, or one of so many nodes, the newest more often.
fn operand(random: &mut Random, nodes: usize) -> u16 {
    match random.below(8) {
        0 => ZERO_WORD,
        1 => ONE_WORD,
        2 if nodes > 0 => (nodes - 1) as u16,
        _ if nodes > 0 => random.below(nodes) as u16,
        _ => random.pick(&[ZERO_WORD, ONE_WORD]),
    }
}

/// Any word, a kind's, or one with a single bit set or not.
fn any_truth_word(random: &mut Random) -> u16 {
    match random.below(8) {
        0 => {
            let used = random.between(2, OPERANDS);
            truth_word(random.pick(&Kind::MANY), used)
        }
        1 => 1 << random.below(16),
        2 => !(1 << random.below(16)),
        3 => random.pick(&[0, u16::MAX]),
        _ => random.below(65_536) as u16,
    }
}

/// The rule broken, the number of inputs and the words, for each rule; made from legal cells.
pub fn malformed_cells(
    random: &mut Random,
    inputs: usize,
    cells: &[u16],
) -> Vec<(&'static str, usize, Vec<u16>)> {
    let above = [
        ("an input above the limit", INPUTS + 1),
        ("inputs that are legal in 16 bits", (1 << 16) + inputs),
        ("inputs that are legal in 32 bits", (1 << 32) + inputs),
        ("the top bit of the inputs", (1 << 63) + inputs),
        ("the greatest number of inputs", usize::MAX),
    ];
    let mut made = Vec::new();
    for (rule, inputs) in above {
        made.push((rule, inputs, cells.to_vec()));
    }
    let cut = random.between(1, CELL_WORDS - 1);
    let longer = |words: usize| [cells, &vec![ZERO_WORD; words]].concat();
    made.push(("part of a cell more", inputs, longer(cut)));
    made.push((
        "a cell above the limit",
        inputs,
        vec![ZERO_WORD; CELL_WORDS * (GATES + 1)],
    ));
    made.push((
        "more words than a number of 16 bits",
        inputs,
        vec![ZERO_WORD; CELL_WORDS << 14],
    ));
    if let Some(last) = cells.len().checked_sub(cut) {
        made.push(("part of a cell fewer", inputs, cells[..last].to_vec()));
    }
    made.extend(bad_operands(random, inputs, cells));
    made
}

/// One operand of some cell: the cell itself, a later one, or no node at all.
fn bad_operands(
    random: &mut Random,
    inputs: usize,
    cells: &[u16],
) -> Vec<(&'static str, usize, Vec<u16>)> {
    let count = cells.len() / CELL_WORDS;
    if count == 0 {
        return Vec::new();
    }
    let number = random.below(count);
    let nodes = inputs + count;
    let words = [
        ("a cell that reads itself", inputs + number),
        (
            "a cell that reads a later one",
            random.between(inputs + number, nodes - 1),
        ),
        ("an operand that is no node", nodes),
        ("operand 65,533", 65_533),
        ("operand 32,768", 32_768),
    ];
    let place = CELL_WORDS * number + random.below(OPERANDS);
    let with = |(rule, word): (&'static str, usize)| {
        let mut cells = cells.to_vec();
        cells[place] = word as u16;
        (rule, inputs, cells)
    };
    words.map(with).into()
}

/// A setting of 0s and 1s; now and then one byte more or fewer, or a byte of 2 and above.
pub fn cell_setting(random: &mut Random, inputs: usize) -> Vec<u8> {
    let length = match random.below(12) {
        0 => inputs + 1,
        1 => inputs.saturating_sub(1),
        _ => inputs,
    };
    let mut setting: Vec<u8> = (0..length).map(|_| random.below(2) as u8).collect();
    if length > 0 && random.chance(12) {
        setting[random.below(length)] = random.pick(&[2, 2, 3, 128, 255]);
    }
    setting
}
