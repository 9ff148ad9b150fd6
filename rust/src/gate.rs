//! A block's gates and outputs as lists, for what writes a block in another form. Read from the stored words; assumes that they are a block's.

use crate::limits::{GATE_WORDS, HEAD_WORDS, NAME_WORDS, NEVER_WORDS};
use crate::Block;

/// The operand word of the constant 0; the next is that of the constant 1.
pub(crate) const ZERO: u16 = 65_534;

/// What a gate computes.
#[derive(Debug, Clone, Copy, PartialEq, Eq, Hash)]
pub enum Kind {
    Not,
    And,
    Or,
    Nand,
    Nor,
    Xor,
    Xnor,
}

impl Kind {
    /// All kinds, each at its stored number.
    pub const ALL: [Kind; 7] = [
        Kind::Not,
        Kind::And,
        Kind::Or,
        Kind::Nand,
        Kind::Nor,
        Kind::Xor,
        Kind::Xnor,
    ];

    /// Its word in a netlist text, which is also Verilog's.
    pub const fn word(self) -> &'static str {
        ["not", "and", "or", "nand", "nor", "xor", "xnor"][self as usize]
    }

    /// Its value where every operand is 0 or 1, as many as the kind may have.
    pub(crate) fn of_bits(self, bits: impl Iterator<Item = bool> + Clone) -> bool {
        let odd = |bits: &mut dyn Iterator<Item = bool>| bits.filter(|&bit| bit).count() % 2 == 1;
        match self {
            Kind::Not | Kind::Nand => !bits.clone().all(|bit| bit),
            Kind::And => bits.clone().all(|bit| bit),
            Kind::Or => bits.clone().any(|bit| bit),
            Kind::Nor => !bits.clone().any(|bit| bit),
            Kind::Xor => odd(&mut bits.clone()),
            Kind::Xnor => !odd(&mut bits.clone()),
        }
    }
}

/// Where a value comes from.
#[derive(Debug, Clone, Copy, PartialEq, Eq, Hash)]
pub enum Operand {
    Constant(bool),
    Input(usize),
    Gate(usize),
}

/// A gate: its kind and what it reads.
#[derive(Debug, Clone, PartialEq, Eq, Hash)]
pub struct Gate {
    pub kind: Kind,
    pub operands: Vec<Operand>,
}

impl Gate {
    /// The gates that it reads.
    pub fn gates_read(&self) -> impl Iterator<Item = usize> + '_ {
        self.operands.iter().filter_map(|operand| match operand {
            Operand::Gate(gate) => Some(*gate),
            _ => None,
        })
    }
}

impl Block {
    /// The gates, by number.
    ///
    /// ```
    /// # use unloop::{Block, Kind, Operand, Refusal};
    /// let block = Block::read("(in a)\n(gate p (and a (not p) 1))\n(out y p)\n")?;
    /// let gates = block.gate_list();
    /// assert_eq!((gates[0].kind, &gates[0].operands[..]), (Kind::Not, &[Operand::Gate(1)][..]));
    /// let read = [Operand::Input(0), Operand::Gate(0), Operand::Constant(true)];
    /// assert_eq!((gates[1].kind, &gates[1].operands[..]), (Kind::And, &read[..]));
    /// assert_eq!(block.outputs_show(), [Operand::Gate(1)]);
    /// # Ok::<(), Refusal>(())
    /// ```
    pub fn gate_list(&self) -> Vec<Gate> {
        let nevers = NEVER_WORDS * usize::from(self.words()[3]);
        let first = HEAD_WORDS + NAME_WORDS * self.inputs() + nevers;
        let gates = self.words()[first..].chunks(GATE_WORDS);
        gates
            .take(self.gates())
            .map(|words| self.gate(words))
            .collect()
    }

    /// The input or gate that each output shows.
    pub fn outputs_show(&self) -> Vec<Operand> {
        let node = |output: &[u16]| self.operand(output[NAME_WORDS]);
        self.stored_outputs().map(node).collect()
    }

    /// The number of that input, or the gate's behind the inputs.
    pub(crate) fn nodes_shown(&self) -> impl Iterator<Item = usize> + '_ {
        self.stored_outputs()
            .map(|output| output[NAME_WORDS].into())
    }

    fn gate(&self, words: &[u16]) -> Gate {
        let count = usize::from(words[0] / 8);
        let operands = words[1..=count].iter();
        Gate {
            kind: Kind::ALL[usize::from(words[0] % 8)],
            operands: operands.map(|&word| self.operand(word)).collect(),
        }
    }

    fn operand(&self, word: u16) -> Operand {
        let node = usize::from(word);
        match node.checked_sub(self.inputs()) {
            _ if word >= ZERO => Operand::Constant(word > ZERO),
            None => Operand::Input(node),
            Some(gate) => Operand::Gate(gate),
        }
    }

    /// The gates of each strongly connected group that is a loop: more than one gate, or one that reads itself.
    ///
    /// ```
    /// # use unloop::{Block, Refusal};
    /// let block = Block::read("(gate p (not r))\n(gate q (and q 0))\n(gate r (not p))\n(gate s (not q))\n")?;
    /// assert_eq!(block.loops(), [vec![0, 2], vec![1]]);
    /// # Ok::<(), Refusal>(())
    /// ```
    pub fn loops(&self) -> Vec<Vec<usize>> {
        let (gates, groups) = (self.gate_list(), self.groups());
        let mut members = vec![Vec::new(); groups.count];
        for (gate, &group) in groups.of_gates.iter().enumerate() {
            members[usize::from(group)].push(gate);
        }
        let reads_itself = |gate: usize| gates[gate].gates_read().any(|read| read == gate);
        members.retain(|group| group.len() > 1 || reads_itself(group[0]));
        members
    }

    /// The loop that each gate is in, by its number in [`Block::loops`].
    pub fn loops_of_gates(&self) -> Vec<Option<usize>> {
        let mut loops = vec![None; self.gates()];
        for (number, members) in self.loops().into_iter().enumerate() {
            members
                .into_iter()
                .for_each(|gate| loops[gate] = Some(number));
        }
        loops
    }

    /// How many settings may come: those that no never line excludes.
    pub fn settings_that_come(&self) -> usize {
        let nevers = self.never_lines();
        let comes = |setting: &usize| !nevers.iter().any(|never| never.agrees(*setting));
        (0..1 << self.inputs()).filter(comes).count()
    }
}
