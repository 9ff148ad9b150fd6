//! A block as lists of inputs, gates and outputs, and its form as 16-bit words.

use crate::limits::{block_words, GATE_WORDS, HEAD_WORDS, NAME_WORDS, NEVER_WORDS, OUTPUT_WORDS};

/// The operand word of constant 0.
pub const ZERO_WORD: u16 = 65_534;
/// The operand word of constant 1.
pub const ONE_WORD: u16 = 65_535;

/// The kind of a gate, coded by its place in this list.
#[derive(Debug, Clone, Copy, PartialEq, Eq)]
pub enum Kind {
    Not,
    And,
    Or,
    Nand,
    Nor,
    Xor,
    Xnor,
}

impl Kind {
    pub const ALL: [Kind; 7] = [
        Kind::Not,
        Kind::And,
        Kind::Or,
        Kind::Nand,
        Kind::Nor,
        Kind::Xor,
        Kind::Xnor,
    ];
    /// The kinds of two to four operands.
    pub const MANY: [Kind; 6] = [
        Kind::And,
        Kind::Or,
        Kind::Nand,
        Kind::Nor,
        Kind::Xor,
        Kind::Xnor,
    ];

    /// The word of the netlist text for this kind.
    pub fn keyword(self) -> &'static str {
        ["not", "and", "or", "nand", "nor", "xor", "xnor"][self as usize]
    }
}

/// Where a value comes from.
#[derive(Debug, Clone, Copy, PartialEq, Eq)]
pub enum Source {
    Constant(bool),
    Input(usize),
    Gate(usize),
}

impl Source {
    /// The same source where gates have new numbers.
    pub fn renumbered(self, new_number: &[usize]) -> Source {
        match self {
            Source::Gate(gate) => Source::Gate(new_number[gate]),
            kept => kept,
        }
    }
}

/// A gate: its kind and its operands.
#[derive(Debug, Clone, PartialEq, Eq)]
pub struct Gate {
    pub kind: Kind,
    pub operands: Vec<Source>,
}

impl Gate {
    /// The numbers of the gates that this gate reads.
    pub fn gates_read(&self) -> impl Iterator<Item = usize> + '_ {
        self.operands.iter().filter_map(|operand| match operand {
            Source::Gate(gate) => Some(*gate),
            _ => None,
        })
    }
}

/// A never line: the masks of the inputs that it fixes and of those at 1.
#[derive(Debug, Clone, Copy, PartialEq, Eq)]
pub struct Never {
    pub fixed: u16,
    pub ones: u16,
}

/// An output: its port and the input or gate it shows.
#[derive(Debug, Clone, PartialEq, Eq)]
pub struct Output {
    pub port: String,
    pub node: Source,
}

/// A block; gate names aren't kept.
#[derive(Debug, Clone, PartialEq, Eq, Default)]
pub struct Block {
    pub inputs: Vec<String>,
    pub nevers: Vec<Never>,
    pub gates: Vec<Gate>,
    pub outputs: Vec<Output>,
}

impl Block {
    /// The stored words of the block. No rule is checked.
    pub fn to_words(&self) -> Vec<u16> {
        let [n, m, k, l] = self.counts();
        let mut words = Vec::with_capacity(block_words(n, l, m, k));
        words.extend([n, m, k, l].map(|count| count as u16));
        words.extend(self.inputs.iter().flat_map(|name| name_words(name)));
        words.extend(self.nevers.iter().flat_map(|line| [line.fixed, line.ones]));
        self.put_gates_and_outputs(&mut words);
        words
    }

    /// The words that the block had before there were never lines, which are left out. No rule is checked.
    pub fn to_old_words(&self) -> Vec<u16> {
        let [n, m, k, _] = self.counts();
        let mut words = Vec::with_capacity(block_words(n, 0, m, k));
        words.extend([n, m, k].map(|count| count as u16));
        words.extend(self.inputs.iter().flat_map(|name| name_words(name)));
        self.put_gates_and_outputs(&mut words);
        words
    }

    /// Inputs, gates, outputs and never lines, as they are counted at the head.
    fn counts(&self) -> [usize; HEAD_WORDS] {
        [
            self.inputs.len(),
            self.gates.len(),
            self.outputs.len(),
            self.nevers.len(),
        ]
    }

    fn put_gates_and_outputs(&self, words: &mut Vec<u16>) {
        let n = self.inputs.len();
        words.extend(self.gates.iter().flat_map(|gate| gate_words(gate, n)));
        for output in &self.outputs {
            words.extend(name_words(&output.port));
            words.push(source_word(output.node, n));
        }
    }

    /// The block that well-formed words store.
    pub fn from_words(words: &[u16]) -> Block {
        let [n, m, k, l] = [0, 1, 2, 3].map(|i| usize::from(words[i]));
        let (names, rest) = words[HEAD_WORDS..block_words(n, l, m, k)].split_at(NAME_WORDS * n);
        let (nevers, rest) = rest.split_at(NEVER_WORDS * l);
        let (gates, outputs) = rest.split_at(GATE_WORDS * m);
        let never = |w: &[u16]| Never {
            fixed: w[0],
            ones: w[1],
        };
        Block {
            inputs: names.chunks(NAME_WORDS).map(name_of).collect(),
            nevers: nevers.chunks(NEVER_WORDS).map(never).collect(),
            gates: gates.chunks(GATE_WORDS).map(|w| gate_of(w, n)).collect(),
            outputs: outputs
                .chunks(OUTPUT_WORDS)
                .map(|w| output_of(w, n))
                .collect(),
        }
    }

    /// The block without its never lines.
    pub fn without_nevers(&self) -> Block {
        Block {
            nevers: Vec::new(),
            ..self.clone()
        }
    }

    /// For each setting, by number, whether it agrees with a never line: line by line, every part of the inputs that the line leaves
    /// free is added to its ones.
    pub fn excluded_settings(&self) -> Vec<bool> {
        let settings = 1 << self.inputs.len();
        let mut excluded = vec![false; settings];
        for never in &self.nevers {
            let free = (settings - 1) & !usize::from(never.fixed);
            let mut part = free;
            loop {
                excluded[usize::from(never.ones) | part] = true;
                if part == 0 {
                    break;
                }
                part = (part - 1) & free;
            }
        }
        excluded
    }

    /// Whether each gate reads only inputs, constants and lower gates.
    pub fn is_straight(&self) -> bool {
        let mut gates = self.gates.iter().enumerate();
        gates.all(|(number, gate)| gate.gates_read().all(|read| read < number))
    }
}

fn name_words(name: &str) -> [u16; NAME_WORDS] {
    let byte = |place: usize| name.as_bytes().get(place).copied().unwrap_or(0);
    std::array::from_fn(|word| u16::from_le_bytes([byte(2 * word), byte(2 * word + 1)]))
}

fn name_of(words: &[u16]) -> String {
    let bytes = words.iter().flat_map(|word| word.to_le_bytes());
    bytes.take_while(|&b| b != 0).map(char::from).collect()
}

fn source_word(source: Source, n: usize) -> u16 {
    match source {
        Source::Constant(false) => ZERO_WORD,
        Source::Constant(true) => ONE_WORD,
        Source::Input(input) => input as u16,
        Source::Gate(gate) => (n + gate) as u16,
    }
}

fn source_of(word: u16, n: usize) -> Source {
    match word {
        ZERO_WORD => Source::Constant(false),
        ONE_WORD => Source::Constant(true),
        node if usize::from(node) < n => Source::Input(node.into()),
        node => Source::Gate(usize::from(node) - n),
    }
}

fn gate_words(gate: &Gate, n: usize) -> [u16; GATE_WORDS] {
    let mut words = [0; GATE_WORDS];
    words[0] = gate.kind as u16 + 8 * gate.operands.len() as u16;
    for (word, &operand) in words[1..].iter_mut().zip(&gate.operands) {
        *word = source_word(operand, n);
    }
    words
}

fn gate_of(words: &[u16], n: usize) -> Gate {
    let count = usize::from(words[0] / 8);
    let operands = words[1..=count].iter();
    Gate {
        kind: Kind::ALL[usize::from(words[0] % 8)],
        operands: operands.map(|&word| source_of(word, n)).collect(),
    }
}

fn output_of(words: &[u16], n: usize) -> Output {
    Output {
        port: name_of(&words[..NAME_WORDS]),
        node: source_of(words[NAME_WORDS], n),
    }
}
