//! Texts as long as can be, each the hardest of its kind for Read.

use crate::limits::{GATES, INPUTS, NEVERS, OUTPUTS, TEXT_BYTES};

/// The texts, by name.
pub fn long_texts() -> Vec<(&'static str, Vec<u8>)> {
    vec![
        ("full", full()),
        ("crowded-pairs", crowded_pairs()),
        ("crowded", crowded()),
    ]
}

/// Every limit reached, names of eight bytes, four operands to a gate, each the name of one of the last gates.
fn full() -> Vec<u8> {
    let last = |back: usize| format!("g{:07}", GATES - 1 - back);
    let operands: Vec<String> = (0..4).map(last).collect();
    let operands = operands.join(" ");
    let inputs = (0..INPUTS).map(|i| format!("(in x{i:07})\n"));
    // Three pairs a line: with all ten the text would be too long.
    let pairs = |value: usize| (0..3).map(move |i| format!(" (x{i:07} {})", value >> i & 1));
    let nevers = (0..NEVERS).map(|line| format!("(never{})\n", pairs(line).collect::<String>()));
    let gates = (0..GATES).map(|i| format!("(gate g{i:07} (nand {operands}))\n"));
    let outputs = (0..OUTPUTS).map(|i| format!("(out y{i:07} {})\n", last(i)));
    let text: String = inputs.chain(nevers).chain(gates).chain(outputs).collect();
    text.into_bytes()
}

/// About the greatest length: one never line of thousands of names, of which only the last stands there before.
fn crowded_pairs() -> Vec<u8> {
    let mut text = "(in p0)\n(never".to_string();
    for name in 0.. {
        let pair = format!(" (p{name} 1)");
        if text.len() + pair.len() + " (p0 1))\n".len() > TEXT_BYTES {
            break;
        }
        text += &pair;
    }
    (text + " (p0 1))\n").into_bytes()
}

/// The greatest length, of the grammar, and above the limit on gates.
fn crowded() -> Vec<u8> {
    let line = |name: &str| format!("(gate {name} (not (nor 0 1)))\n");
    let short = line("p");
    // A line with a name one byte longer for each byte that is left over.
    let (lines, left) = (TEXT_BYTES / short.len(), TEXT_BYTES % short.len());
    let text = short.repeat(lines - left) + &line("_p").repeat(left);
    text.into_bytes()
}
