//! Random never lines, and texts whose never lines Read may refuse.

use super::Random;
use crate::block::{Block, Never};
use crate::limits::INPUTS;

/// At most so many lines over n inputs, none in a third of the cases; some are equal, some contradict each other, some exclude one
/// setting alone, and now and then all settings are excluded.
pub fn nevers(random: &mut Random, n: usize, most: usize) -> Vec<Never> {
    if n == 0 || most == 0 || random.chance(33) {
        return Vec::new();
    }
    let mut lines: Vec<Never> = Vec::new();
    for _ in 0..random.between(1, most) {
        let line = match random.below(10) {
            0 if !lines.is_empty() => random.pick(&lines),
            1 if !lines.is_empty() => contrary(random.pick(&lines)),
            2..=4 => never(random, (1 << n) - 1),
            5 => {
                let input = random.below(n);
                never(random, 1 << input)
            }
            _ => {
                let fixed = random.between(1, (1 << n) - 1) | random.below(1 << n);
                never(random, fixed)
            }
        };
        lines.push(line);
    }
    if lines.len() > 1 && random.chance(10) {
        let input = random.below(n);
        lines[0] = never(random, 1 << input);
        lines[1] = contrary(lines[0]);
    }
    lines
}

/// A line that fixes these inputs.
fn never(random: &mut Random, fixed: usize) -> Never {
    let ones = random.below(1 << INPUTS) & fixed;
    Never {
        fixed: fixed as u16,
        ones: ones as u16,
    }
}

/// A line that fixes the same inputs at the other values.
fn contrary(line: Never) -> Never {
    let ones = line.fixed & !line.ones;
    Never { ones, ..line }
}

/// The text of a line, its pairs in random order.
pub fn never_text(random: &mut Random, inputs: &[String], line: Never) -> String {
    let order = random.permutation(inputs.len());
    let fixed = order.into_iter().filter(|&i| line.fixed >> i & 1 == 1);
    let pairs = fixed.map(|i| format!(" ({} {})", inputs[i], line.ones >> i & 1));
    format!("(never{})\n", pairs.collect::<String>())
}

/// The text with one more never line behind its inputs that Read refuses, or a line that it may take in a place where it may not.
pub fn strange_never(random: &mut Random, text: &[u8], block: &Block) -> Vec<u8> {
    let name = match block.inputs.len() {
        0 => "a".to_string(),
        n => block.inputs[random.below(n)].clone(),
    };
    let value = random.below(2);
    let line = match random.below(12) {
        0 => format!("(never ({name} {value}) ({name} 0))\n"),
        1 => format!("(never ({name} 1) (_q 0) ({name} {value}))\n"),
        2 => format!("(never ({} {value}))\n", other_name(random, block)),
        3 => format!("(never ({name} 0) ({} 1))\n", other_name(random, block)),
        4 => "(never)\n".to_string(),
        5 => format!("(never ({name} 2))\n"),
        6 => format!("(never ({name}))\n"),
        7 => format!("(never ({name} 1)({name} 0))\n"),
        8 => format!("(never  ({name} 1))\n"),
        9 => format!("(never ({name} 1) )\n"),
        10 => format!("(never ({name} 1)\n"),
        _ => format!("(never ({name} {value}))\n"),
    };
    let lines: Vec<&[u8]> = text.split_inclusive(|&byte| byte == b'\n').collect();
    let n = block.inputs.len();
    let before = match random.below(4) {
        0 => random.below(lines.len() + 1),
        _ => random.between(n, n + block.nevers.len()),
    };
    let (front, back) = lines.split_at(before);
    [&front.concat(), line.as_bytes(), &back.concat()].concat()
}

/// A port's name, a gate's as Write gives it, or one that is nowhere declared.
fn other_name(random: &mut Random, block: &Block) -> String {
    match random.below(3) {
        0 if !block.outputs.is_empty() => {
            let output = random.below(block.outputs.len());
            block.outputs[output].port.clone()
        }
        1 => "_0".to_string(),
        _ => random.fresh_name(&mut block.inputs.clone()),
    }
}
