//! Blocks that break one rule of the stored block each.

use super::Random;
use crate::block::{Block, Gate, Kind, Never, Output, Source, ONE_WORD, ZERO_WORD};
use crate::limits::*;

/// A `not`, and the other kinds with two, three and four operands.
const ADDED_GATES: usize = 1 + Kind::MANY.len() * 3;

/// The rule broken and the words, for each rule; made from a well-formed block.
pub fn malformed(random: &mut Random, block: &Block) -> Vec<(&'static str, Vec<u16>)> {
    let block = filled(random, block);
    let mut made = lengths(random, &block);
    made.extend(limits(&block));
    made.extend(names(random, &block));
    made.extend(nevers(random, &block));
    made.extend(gates(random, &block));
    made.extend(outputs(random, &block));
    made
}

/// The same of the rules from before there were never lines, on words as they were then.
pub fn malformed_before(random: &mut Random, block: &Block) -> Vec<(&'static str, Vec<u16>)> {
    let block = filled(random, block).without_nevers();
    let mut made = lengths(random, &block);
    made.extend(limits(&block));
    made.extend(names(random, &block));
    made.extend(gates(random, &block));
    made.extend(outputs(random, &block));
    made.retain(|(_, words)| words.get(OLD_HEAD_WORDS) == Some(&0));
    for (_, words) in &mut made {
        words.remove(OLD_HEAD_WORDS);
    }
    let mut crowded = block.clone();
    crowded.inputs = (0..=OLD_INPUTS).map(|i| format!("i{i}")).collect();
    made.push(("an input more than there were", crowded.to_old_words()));
    made.push(("words of today", block.to_words()));
    for (rule, length) in [("no words", 0), ("one word", 1), ("two words", 2)] {
        made.push((rule, vec![0; length]));
    }
    made
}

/// The block with two inputs, a never line, a gate of each kind and count, and two outputs at least.
fn filled(random: &mut Random, block: &Block) -> Block {
    let mut block = block.clone();
    let mut used = block.inputs.clone();
    block.gates.truncate(GATES - ADDED_GATES);
    block.outputs.clear();
    while block.inputs.len() < 2 {
        block.inputs.push(random.fresh_name(&mut used));
    }
    if block.nevers.is_empty() {
        block.nevers.push(Never { fixed: 3, ones: 1 });
    }
    let (n, m) = (block.inputs.len(), block.gates.len());
    for operand in block.gates.iter_mut().flat_map(|gate| &mut gate.operands) {
        match operand {
            Source::Gate(gate) if *gate >= m => *operand = Source::Gate(m),
            Source::Input(input) if *input >= n => *operand = Source::Input(0),
            _ => {}
        }
    }
    block.gates.push(one_operand());
    for kind in Kind::MANY {
        for count in 2..=OPERANDS {
            let operands = vec![Source::Input(1); count];
            block.gates.push(Gate { kind, operands });
        }
    }
    let mut used = Vec::new();
    for node in [Source::Input(1), Source::Gate(0)] {
        let port = random.fresh_name(&mut used);
        block.outputs.push(Output { port, node });
    }
    block
}

fn one_operand() -> Gate {
    Gate {
        kind: Kind::Not,
        operands: vec![Source::Input(1)],
    }
}

/// The words with one of them replaced.
fn with(words: &[u16], place: usize, word: u16) -> Vec<u16> {
    let mut words = words.to_vec();
    words[place] = word;
    words
}

fn lengths(random: &mut Random, block: &Block) -> Vec<(&'static str, Vec<u16>)> {
    let words = block.to_words();
    let cut = random.below(words.len());
    let longer = [words.clone(), vec![0]].concat();
    let mut longest = words.clone();
    longest.resize(random.between(BLOCK_WORDS, BLOCK_WORDS + 2), 0);
    let mut far_longer = words.clone();
    far_longer.resize(70_000, 0);
    vec![
        ("no words", Vec::new()),
        ("three words", vec![0, 0, 0]),
        ("cut off", words[..cut].to_vec()),
        ("one word short", words[..words.len() - 1].to_vec()),
        ("one word more", longer),
        ("about as many words as a block may have", longest),
        ("more words than a number of 16 bits", far_longer),
        (
            "an input too many in the head",
            with(&words, 0, words[0] + 1),
        ),
        ("a gate too few in the head", with(&words, 1, words[1] - 1)),
        ("65,535 outputs in the head", with(&words, 2, 65_535)),
        (
            "a never line too many in the head",
            with(&words, 3, words[3] + 1),
        ),
        ("65,535 never lines in the head", with(&words, 3, 65_535)),
    ]
}

fn limits(block: &Block) -> Vec<(&'static str, Vec<u16>)> {
    let [mut inputs, mut gates, mut outputs] = [(); 3].map(|()| block.clone());
    inputs.inputs = (0..=INPUTS).map(|i| format!("i{i}")).collect();
    gates.gates.resize_with(GATES + 1, one_operand);
    let output = |number| Output {
        port: format!("o{number}"),
        node: Source::Input(0),
    };
    outputs.outputs = (0..=OUTPUTS).map(output).collect();
    vec![
        ("11 inputs", inputs.to_words()),
        ("1,025 gates", gates.to_words()),
        ("17 outputs", outputs.to_words()),
    ]
}

fn names(random: &mut Random, block: &Block) -> Vec<(&'static str, Vec<u16>)> {
    let bad = [
        ("no bytes in a name", ""),
        ("a digit first", "7a"),
        ("an underscore first", "_a"),
        ("a capital letter", "aA"),
        ("a space", "a a"),
        ("a byte below the letters", "a`"),
        ("a byte above the letters", "a{"),
        ("a byte below the digits", "a/"),
        ("a byte above the digits", "a:"),
        ("a zero byte inside", "a\0a"),
        ("a zero byte first", "\0a"),
        ("a zero byte, then the last", "abc\0\0\0\0a"),
        ("a byte above 127", "a\u{80}"),
    ];
    let mut made = Vec::new();
    for (rule, name) in bad {
        let mut block = block.clone();
        match random.chance(50) {
            true => block.inputs[random.below(2)] = name.to_string(),
            false => block.outputs[random.below(2)].port = name.to_string(),
        }
        made.push((rule, block.to_words()));
    }
    let [mut inputs, mut ports] = [(); 2].map(|()| block.clone());
    inputs.inputs[1] = inputs.inputs[0].clone();
    ports.outputs[1].port = ports.outputs[0].port.clone();
    made.push(("an input name twice", inputs.to_words()));
    made.push(("a port twice", ports.to_words()));
    made
}

fn nevers(random: &mut Random, block: &Block) -> Vec<(&'static str, Vec<u16>)> {
    let words = block.to_words();
    let n = block.inputs.len();
    let line = random.below(block.nevers.len());
    let at = HEAD_WORDS + NAME_WORDS * n + NEVER_WORDS * line;
    let Never { fixed, ones } = block.nevers[line];
    let (beyond, last) = (1 << n, 32_768);
    let masks = |fixed: u16, ones: u16| with(&with(&words, at, fixed), at + 1, ones);
    let mut nine = block.clone();
    nine.nevers.resize(NEVERS + 1, block.nevers[line]);
    let mut made = vec![
        ("a never line that fixes nothing", masks(0, 0)),
        ("ones of no fixed input", masks(0, 1)),
        ("a fixed bit at n", masks(fixed | beyond, ones)),
        ("only a fixed bit at n", masks(beyond, 0)),
        (
            "a fixed bit at n and at 1",
            masks(fixed | beyond, ones | beyond),
        ),
        ("the top fixed bit", masks(fixed | last, ones)),
        ("a value bit at n", masks(fixed, ones | beyond)),
        ("the top value bit", masks(fixed, ones | last)),
        ("nine never lines", nine.to_words()),
    ];
    let free = (0..n).map(|i| 1 << i).find(|bit| fixed & bit == 0);
    made.extend(free.map(|bit| ("a value bit outside", masks(fixed, ones | bit))));
    made.push(("a value bit outside, alone", masks(1, 2)));
    made
}

fn gates(random: &mut Random, block: &Block) -> Vec<(&'static str, Vec<u16>)> {
    let words = block.to_words();
    let nodes = (block.inputs.len() + block.gates.len()) as u16;
    let gates_at = HEAD_WORDS + NAME_WORDS * block.inputs.len() + NEVER_WORDS * block.nevers.len();
    let place = |gate: usize| gates_at + GATE_WORDS * gate;
    let at = place(random.below(block.gates.len()));
    let one_at = place(block.gates.len() - ADDED_GATES);
    let (kind, count) = (words[at] % 8, words[at] / 8);
    let last = at + usize::from(count);
    let used = at + random.between(1, usize::from(count));
    vec![
        ("kind 7", with(&words, at, 7 + 8 * count)),
        ("no operands", with(&words, at, kind)),
        ("five operands", with(&words, at, kind + 8 * 5)),
        ("bits beyond the count", with(&words, at, words[at] + 64)),
        (
            "the top bit of a kind word",
            with(&words, at, words[at] + 32_768),
        ),
        ("an and with one operand", with(&words, one_at, 1 + 8)),
        ("an xor with one operand", with(&words, one_at, 5 + 8)),
        ("an xnor with one operand", with(&words, one_at, 6 + 8)),
        ("a not with two operands", with(&words, at, 2 * 8)),
        ("a word after the operands", with(&words, one_at + 2, 1)),
        ("the last unused word", with(&words, one_at + 4, 65_535)),
        (
            "an operand fewer in the count",
            with(&with(&words, last, 1), at, words[at] - 8),
        ),
        ("an operand that is no node", with(&words, used, nodes)),
        ("operand 65,533", with(&words, used, ZERO_WORD - 1)),
    ]
}

fn outputs(random: &mut Random, block: &Block) -> Vec<(&'static str, Vec<u16>)> {
    let words = block.to_words();
    let nodes = (block.inputs.len() + block.gates.len()) as u16;
    let at = words.len() - 1 - OUTPUT_WORDS * random.below(2);
    vec![
        ("an output that is no node", with(&words, at, nodes)),
        ("an output 65,533", with(&words, at, ZERO_WORD - 1)),
        ("an output of constant 0", with(&words, at, ZERO_WORD)),
        ("an output of constant 1", with(&words, at, ONE_WORD)),
    ]
}
