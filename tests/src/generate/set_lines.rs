//! Random inputs of the program `bench`: netlists of all kinds, and set lines that it answers or refuses.

use super::{near_a_limit, spoiled, text, Random, Size};
use crate::block::Block;
use crate::limits::TEXT_BYTES;

/// A netlist, an empty line and about so many set lines, with the block; some of the lines hold an LF in their midst.
pub fn bench_input(random: &mut Random, size: Size, lines: usize) -> Vec<u8> {
    let (mut input, block) = text(random, size);
    input.push(b'\n');
    for _ in 0..lines {
        input.extend(set_line(random, &block));
    }
    if random.chance(40) {
        let last = set_line(random, &block);
        input.extend(&last[..random.below(last.len() + 1)]);
    }
    input
}

/// An input whose netlist may be refused, with no empty line behind it, or another one in its midst.
pub fn odd_bench_input(random: &mut Random, size: Size) -> Vec<u8> {
    let (mut input, block) = text(random, size);
    match random.below(6) {
        0 => input = near_a_limit(random, 1),
        1 => input.insert(random.below(input.len() + 1), b'\n'),
        2 => input.clear(),
        3 => return input,
        _ => input = spoiled(random, &input),
    }
    input.push(b'\n');
    for _ in 0..random.below(5) {
        input.extend(set_line(random, &block));
    }
    input
}

/// Inputs with a netlist as long as it may be, one byte longer, and far longer; the last two with and without an empty line.
pub fn long_bench_inputs(random: &mut Random) -> Vec<Vec<u8>> {
    let mut inputs = Vec::new();
    let block = text(random, Size::SMALL).1;
    for (length, lines) in [(0, 3), (1, 3), (1, 0), (5_000, 3), (200_000, 0)] {
        // Out of form, and crowded, which both come behind the length.
        for unit in ["(in a)\n", "(gate p (not 0)) "] {
            let mut input = unit.repeat((TEXT_BYTES + length) / unit.len() + 1);
            input.truncate(TEXT_BYTES + length - 1);
            let mut input = input.into_bytes();
            input.push(b'\n');
            if lines > 0 {
                input.push(b'\n');
            }
            (0..lines).for_each(|_| input.extend(set_line(random, &block)));
            inputs.push(input);
        }
    }
    inputs
}

/// A line with its LF.
pub fn set_line(random: &mut Random, block: &Block) -> Vec<u8> {
    let line = |random: &mut Random, names: &[String]| {
        let pair = |name| format!(" ({name} {})", random.below(2));
        let pairs: String = names.iter().map(pair).collect();
        format!("(set{pairs})\n").into_bytes()
    };
    let n = block.inputs.len();
    let order = random.permutation(n);
    let count = random.below(n + 1);
    let mut names: Vec<String> = order[..count]
        .iter()
        .map(|&input| block.inputs[input].clone())
        .collect();
    match random.below(10) {
        0..=3 => line(random, &names),
        4 => {
            let legal = line(random, &names);
            spoiled(random, &legal)
        }
        5 | 6 => {
            for _ in 0..random.between(1, 2) {
                let name = other_name(random, &names);
                names.insert(random.below(names.len() + 1), name);
            }
            line(random, &names)
        }
        // As many pairs as inputs, or one more.
        7 => {
            let more = n + random.below(2);
            names.resize_with(more, || "a".to_string());
            line(random, &names)
        }
        8 => line_out_of_form(random, &names),
        _ => long_line(random),
    }
}

/// A name that is given already, or that is no input's.
fn other_name(random: &mut Random, names: &[String]) -> String {
    match random.below(5) {
        0 | 1 if !names.is_empty() => names[random.below(names.len())].clone(),
        2 => "_".to_string(),
        3 => "_0".to_string(),
        _ => random.fresh_name(&mut Vec::new()),
    }
}

fn line_out_of_form(random: &mut Random, names: &[String]) -> Vec<u8> {
    let name = names.first().map_or("a", String::as_str);
    let lines = [
        "\n".to_string(),
        "(set )\n".to_string(),
        "(set)\r\n".to_string(),
        "(set) \n".to_string(),
        format!("(set ({name} 2))\n"),
        format!("(set ({name} u))\n"),
        format!("(set ({name}  1))\n"),
        format!("(set ({name} 1) )\n"),
        format!("(set ({name} 1)) \n"),
        format!("(set ({name} 1)\n"),
        "(set (abcdefghi 1))\n".to_string(),
        "(set (9 1))\n".to_string(),
        "(set ( 1))\n".to_string(),
        "(show)\n".to_string(),
    ];
    lines[random.below(lines.len())].clone().into_bytes()
}

/// Far longer than any line in form.
fn long_line(random: &mut Random) -> Vec<u8> {
    let times = random.between(1, 3_000);
    let line = match random.below(4) {
        0 => format!("(set{}", " (a 1)".repeat(times)),
        1 => format!("(set ({}", "a".repeat(times)),
        2 => " ".repeat(times),
        _ => format!("(set){}", "(set)".repeat(times)),
    };
    (line + ")\n").into_bytes()
}
