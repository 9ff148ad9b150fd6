//! Random texts that Read may refuse: spoiled ones, and ones over a limit.

use super::Random;
use crate::limits;

/// The text with one to three small changes; it may still be legal.
pub fn spoiled(random: &mut Random, text: &[u8]) -> Vec<u8> {
    let mut text = text.to_vec();
    for _ in 0..random.between(1, 3) {
        change(random, &mut text);
    }
    text
}

fn change(random: &mut Random, text: &mut Vec<u8>) {
    let place = random.below(text.len() + 1);
    let byte = match random.below(8) {
        0 => random.below(256) as u8,
        _ => random.pick(b"() \n01_abdeginoprtuvxyz9"),
    };
    match random.below(6) {
        0 => text.truncate(place),
        1 => text.insert(place, byte),
        2 if place < text.len() => drop(text.remove(place)),
        3 if place < text.len() => text[place] = byte,
        4 => repeat_line(random, text),
        _ => rename(random, text),
    }
}

/// Writes one of the lines again somewhere, whole.
fn repeat_line(random: &mut Random, text: &mut Vec<u8>) {
    let lines: Vec<&[u8]> = text.split_inclusive(|&b| b == b'\n').collect();
    if lines.is_empty() {
        return;
    }
    let line = random.pick(&lines).to_vec();
    let before = random.below(lines.len() + 1);
    let at: usize = lines[..before].iter().map(|line| line.len()).sum();
    text.splice(at..at, line);
}

/// Puts another letter in the place of one.
fn rename(random: &mut Random, text: &mut [u8]) {
    let letters = |&i: &usize| text[i].is_ascii_lowercase();
    let places: Vec<usize> = (0..text.len()).filter(letters).collect();
    if !places.is_empty() {
        text[random.pick(&places)] = random.pick(b"abpqxy");
    }
}

/// A text of the grammar with one limit of refusal 3 passed by one.
pub fn over_a_limit(random: &mut Random) -> Vec<u8> {
    near_a_limit(random, 1)
}

/// A text of the grammar at one limit of refusal 3, or `more` above it.
pub fn near_a_limit(random: &mut Random, more: usize) -> Vec<u8> {
    let lines =
        |count: usize, line: &dyn Fn(usize) -> String| -> String { (0..count).map(line).collect() };
    let repeated = random.chance(50);
    let number = |i: usize| if repeated { 0 } else { i };
    let text = match random.below(5) {
        0 => lines(limits::INPUTS + more, &|i| format!("(in a{})\n", number(i))),
        1 => lines(limits::GATES + more, &|i| {
            format!("(gate a{} (not 0))\n", number(i))
        }),
        2 => {
            "(in a0)\n".to_string()
                + &lines(limits::NEVERS + more, &|i| {
                    format!("(never (a{} 1))\n", number(i))
                })
        }
        3 => lines(limits::OUTPUTS + more, &|i| {
            format!("(out a{} b)\n", number(i))
        }),
        _ => lines((limits::GATES + more) / 5, &|i| {
            let inner = "(and (not 0) (not 1) (not 0) (not 1))";
            format!("(gate a{} {inner})\n", number(i))
        }),
    };
    text.into_bytes()
}
