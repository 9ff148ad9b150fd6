//! What stands beside a netlist of `catalogue/`: NAME.out and, where the text can be read, NAME.cover.

use crate::answer::{NOT_SETTLED, TOO_MANY_COPIES};
use crate::block::{Block, Never};
use crate::groups::ordered_groups;
use crate::limits::GATES;
use crate::passes::passes;
use crate::values::Network;
use crate::{cover, read, render, unloop};

/// What the program must write for a text: its rendering, or the line that refuses it.
pub fn out(text: &[u8]) -> Vec<u8> {
    unloop(text)
}

/// The cover of a text, one entry a line; none where the text can't be read.
pub fn cover_of(text: &[u8]) -> Option<String> {
    let (answer, words) = read(text, usize::MAX);
    let covered = || cover_lines(&words, &cover(&words, usize::MAX).1);
    (answer.number == 0).then(covered)
}

/// NAME.cover: the never lines of the text, and behind them its cover; none where the text can't be read.
pub fn stored_cover(text: &[u8]) -> Option<String> {
    Some(never_lines(&read(text, usize::MAX).1) + &cover_of(text)?)
}

/// The never lines of a block, each as `never a = 1, b = 1`, in order.
pub fn never_lines(words: &[u16]) -> String {
    let block = Block::from_words(words);
    let line = |never: &Never| {
        let pins = pins(&block.inputs, never.fixed, never.ones);
        format!("never {pins}\n")
    };
    block.nevers.iter().map(line).collect()
}

/// Two words an entry as lines: `a = 0, b = 1`, or `always` for the entry that fixes no input.
pub fn cover_lines(words: &[u16], entries: &[u16]) -> String {
    let names = Block::from_words(words).inputs;
    let line = |entry: &[u16]| match pins(&names, entry[0], entry[1]) {
        none if none.is_empty() => "always\n".to_string(),
        pins => pins + "\n",
    };
    entries.chunks(2).map(line).collect()
}

/// The pins that two masks fix, as `a = 0, b = 1`.
fn pins(names: &[String], fixed: u16, ones: u16) -> String {
    let fixed = (0..names.len()).filter(|i| fixed >> i & 1 == 1);
    let pins = fixed.map(|i| format!("{} = {}", names[i], ones >> i & 1));
    pins.collect::<Vec<String>>().join(", ")
}

/// A netlist's row in README.md's table: its gates, its loops as gates times passes, and the gate lines of its rendering: with as many passes
/// as a group has gates, and with as many as it needs.
pub fn row(name: &str, text: &[u8]) -> String {
    let (answer, words) = read(text, usize::MAX);
    if answer.number != 0 {
        let refused = refused(answer.number);
        return format!("| {name} | - | - | {refused} | {refused} |");
    }
    let block = Block::from_words(&words);
    let groups = ordered_groups(&block);
    let passes = passes(&block, &groups);
    let needed = groups.iter().zip(passes);
    let loops = needed.filter(|(gates, _)| gates.len() > 1);
    let loops = loops.map(|(gates, passes)| format!("{} × {passes}", gates.len()));
    let loops = match loops.collect::<Vec<String>>().join(", ") {
        none if none.is_empty() => "none".to_string(),
        loops => loops,
    };
    let squares: usize = groups.iter().map(|gates| gates.len() * gates.len()).sum();
    let sound = !Network::new(&block).sound_settings().contains(&false);
    let before = match (squares > GATES, sound) {
        (true, _) => refused(TOO_MANY_COPIES),
        (_, false) => refused(NOT_SETTLED),
        _ => squares.to_string(),
    };
    let (answer, rendered) = render(&words, usize::MAX);
    let now = match answer.number {
        0 => rendered[1].to_string(),
        number => refused(number),
    };
    format!(
        "| {name} | {} | {loops} | {before} | {now} |",
        block.gates.len()
    )
}

fn refused(number: usize) -> String {
    format!("refused {number}")
}
