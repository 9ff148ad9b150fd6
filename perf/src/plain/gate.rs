//! Gates, decoded once, and the evaluation of bytes through a table.

use super::block::{Block, ZERO};

#[derive(Clone, Copy, PartialEq, Eq)]
pub enum Kind {
    Not,
    And,
    Or,
    Nand,
    Nor,
    Xor,
    Xnor,
}

pub const KINDS: [Kind; 7] = [
    Kind::Not,
    Kind::And,
    Kind::Or,
    Kind::Nand,
    Kind::Nor,
    Kind::Xor,
    Kind::Xnor,
];

impl Kind {
    /// The controlling value and the value that it forces; with all operands at the other value the gate has the other one too.
    /// `not` is such a kind of one operand.
    pub fn row(self) -> Option<(usize, usize)> {
        const ROWS: [Option<(usize, usize)>; 7] = [
            Some((0, 1)),
            Some((0, 0)),
            Some((1, 1)),
            Some((0, 1)),
            Some((1, 0)),
            None,
            None,
        ];
        ROWS[self as usize]
    }
}

/// A gate and its place in the list of values: inputs, gates, constant 0, constant 1, absent. Its operands are such places too.
#[derive(Clone, Copy)]
pub struct Gate {
    pub kind: Kind,
    count: u8,
    operands: [u16; 4],
    pub place: u16,
}

impl Gate {
    /// The gates of a block.
    pub fn all(block: &Block) -> Vec<Gate> {
        let nodes = (block.n + block.m) as u16;
        let gates = block.gates.iter().enumerate();
        gates
            .map(|(number, words)| Gate::of(words, (block.n + number) as u16, nodes))
            .collect()
    }

    fn of(&[first, a, b, c, d]: &[u16; 5], place: u16, nodes: u16) -> Gate {
        let count = (first / 8) as u8;
        let operand = |number: u8, word: u16| match number < count {
            true if word >= ZERO => nodes + (word - ZERO),
            true => word,
            false => nodes + 2,
        };
        Gate {
            kind: KINDS[usize::from(first % 8)],
            count,
            operands: [operand(0, a), operand(1, b), operand(2, c), operand(3, d)],
            place,
        }
    }

    pub fn operands(&self) -> &[u16] {
        &self.operands[..usize::from(self.count)]
    }

    /// The numbers of the gates that it reads, where there are n inputs and m gates.
    pub fn gates_read(&self, n: usize, m: usize) -> impl Iterator<Item = usize> + '_ {
        let numbers = self.operands().iter();
        let numbers = numbers.map(move |&place| usize::from(place).wrapping_sub(n));
        numbers.filter(move |&number| number < m)
    }

    /// The value from bytes: 0, 1, 2 for undefined, 3 for absent.
    pub fn value(&self, values: &[u8]) -> u8 {
        let codes = self.operands.map(|place| values[usize::from(place)]);
        let index = codes[0] | codes[1] << 2 | codes[2] << 4 | codes[3] << 6;
        TABLE[self.kind as usize][usize::from(index)]
    }
}

/// Each kind's value by its operands' codes, at weights 1, 4, 16 and 64.
const TABLE: [[u8; 256]; 7] = {
    let mut table = [[3; 256]; 7];
    let mut index = 0;
    while index < 256 {
        // How many operands are 0, 1 and undefined.
        let mut counts = [0; 4];
        let mut rest = index;
        while rest > 0 || counts[0] + counts[1] + counts[2] + counts[3] < 4 {
            counts[rest % 4] += 1;
            rest /= 4;
        }
        let [zeros, ones, undefined, _] = counts;
        let and = if zeros > 0 {
            0
        } else {
            1 + (undefined > 0) as u8
        };
        let or = if ones > 0 {
            1
        } else {
            2 * (undefined > 0) as u8
        };
        let xor = if undefined > 0 { 2 } else { ones % 2 };
        table[Kind::And as usize][index] = and;
        table[Kind::Or as usize][index] = or;
        table[Kind::Xor as usize][index] = xor;
        table[Kind::Not as usize][index] = not(and);
        table[Kind::Nand as usize][index] = not(and);
        table[Kind::Nor as usize][index] = not(or);
        table[Kind::Xnor as usize][index] = not(xor);
        index += 1;
    }
    table
};

const fn not(value: u8) -> u8 {
    [1, 0, 2][value as usize]
}
