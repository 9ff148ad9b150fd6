//! Small blocks, sixty-four settings at a time. A node is two words, a lane's bit in which says whether it may still be 0, and whether it may
//! still be 1: undefined is both. All gates are evaluated at once, round after round; a set of gates is a word too.
//! The plain simulator takes one setting after the other: tests/tests/small.rs compares the two.

use crate::answer::{Answer, INTERFACE_MISMATCH, MALFORMED_BLOCK, NOT_STRAIGHT};
use crate::block::{Block, Gate, Kind, Source, ONE_WORD, ZERO_WORD};
use crate::cells::is_malformed;
use crate::generate::Random;
use crate::limits::{CELL_WORDS, OPERANDS};
use crate::render::copied_by;

/// The most inputs of a small block: its settings of 0s and 1s take at most half of the lanes.
pub const INPUTS: usize = 5;
/// The most gates of one.
pub const GATES: usize = 64;
pub const LANES: usize = 64;

/// Word i has the bits of the lanes whose number has bit i.
const COLUMNS: [u64; INPUTS] = [
    0xAAAA_AAAA_AAAA_AAAA,
    0xCCCC_CCCC_CCCC_CCCC,
    0xF0F0_F0F0_F0F0_F0F0,
    0xFF00_FF00_FF00_FF00,
    0xFFFF_0000_FFFF_0000,
];

pub fn is_small(block: &Block) -> bool {
    block.inputs.len() <= INPUTS && block.gates.len() <= GATES
}

/// What a node may still be in each lane.
#[derive(Debug, Clone, Copy, PartialEq, Eq)]
pub struct May {
    pub zero: u64,
    pub one: u64,
}

impl May {
    const UNDEFINED: May = May {
        zero: u64::MAX,
        one: u64::MAX,
    };

    fn constant(bit: bool) -> May {
        let [zero, one] = if bit { [0, u64::MAX] } else { [u64::MAX, 0] };
        May { zero, one }
    }

    fn and(self, other: May) -> May {
        May {
            zero: self.zero | other.zero,
            one: self.one & other.one,
        }
    }

    fn or(self, other: May) -> May {
        May {
            zero: self.zero & other.zero,
            one: self.one | other.one,
        }
    }

    fn odd(self, other: May) -> May {
        May {
            zero: self.zero & other.zero | self.one & other.one,
            one: self.zero & other.one | self.one & other.zero,
        }
    }

    fn not(self) -> May {
        May {
            zero: self.one,
            one: self.zero,
        }
    }

    /// The lanes where it is 0 or 1.
    pub fn defined(self) -> u64 {
        self.zero ^ self.one
    }

    /// Its value in a lane, coded 0, 1, 2.
    pub fn value(self, lane: usize) -> u8 {
        (self.zero >> lane & 1) as u8 + 2 * (self.one >> lane & 1) as u8 - 1
    }
}

/// A setting for each lane: first those of 0s and 1s, by number, then random ones that may leave inputs undefined.
pub struct Settings {
    n: usize,
    bytes: [[u8; INPUTS]; LANES],
    inputs: Vec<May>,
}

impl Settings {
    pub fn new(random: &mut Random, n: usize) -> Settings {
        let mut bytes = [[0; INPUTS]; LANES];
        for (lane, setting) in bytes.iter_mut().enumerate() {
            let (mut left, values) = match lane >> n {
                0 => (lane, 2),
                _ => (random.below(243), 3),
            };
            for value in setting {
                *value = (left % values) as u8;
                left /= values;
            }
        }
        let lanes = |input: usize, other: u8| {
            let lanes = bytes.iter().enumerate();
            lanes.fold(0, |set, (lane, setting)| {
                set | u64::from(setting[input] != other) << lane
            })
        };
        let may = |input: usize| May {
            zero: lanes(input, 1),
            one: lanes(input, 0),
        };
        let inputs = (0..n).map(may).collect();
        Settings { n, bytes, inputs }
    }

    /// The setting of a lane.
    pub fn bytes(&self, lane: usize) -> &[u8] {
        &self.bytes[lane][..self.n]
    }

    /// How many settings of 0s and 1s there are.
    pub fn full(&self) -> usize {
        1 << self.n
    }
}

/// The lanes of the settings of 0s and 1s of n inputs.
fn full_lanes(n: usize) -> u64 {
    (1 << (1 << n)) - 1
}

/// Those that agree with a partial assignment.
fn agreeing(n: usize, fixed: usize, ones: usize) -> u64 {
    let inputs = (0..n).filter(|input| fixed >> input & 1 == 1);
    inputs.fold(full_lanes(n), |lanes, input| match ones >> input & 1 {
        0 => lanes & !COLUMNS[input],
        _ => lanes & COLUMNS[input],
    })
}

fn evaluated(gate: &Gate, inputs: &[May], values: &[May]) -> May {
    let operands = gate.operands.iter().map(|source| match *source {
        Source::Constant(bit) => May::constant(bit),
        Source::Input(input) => inputs[input],
        Source::Gate(gate) => values[gate],
    });
    match gate.kind {
        Kind::And => operands.fold(May::constant(true), May::and),
        Kind::Not | Kind::Nand => operands.fold(May::constant(true), May::and).not(),
        Kind::Or => operands.fold(May::constant(false), May::or),
        Kind::Nor => operands.fold(May::constant(false), May::or).not(),
        Kind::Xor => operands.fold(May::constant(false), May::odd),
        Kind::Xnor => operands.fold(May::constant(false), May::odd).not(),
    }
}

/// Each gate of a straight block once, ascending.
pub fn swept(block: &Block, settings: &Settings) -> Vec<May> {
    let mut values = Vec::with_capacity(block.gates.len());
    for gate in &block.gates {
        values.push(evaluated(gate, &settings.inputs, &values));
    }
    values
}

/// A small block, what it settles to in each lane, and its groups.
pub struct Small<'a> {
    block: &'a Block,
    settings: &'a Settings,
    pub gates: Vec<May>,
    /// By lane, how many rounds changed something.
    pub rounds: [u8; LANES],
    /// The lanes of settings of 0s and 1s that agree with a never line.
    excluded: u64,
    /// The groups in their order, each with its gates ascending.
    pub groups: Vec<Vec<usize>>,
}

impl<'a> Small<'a> {
    pub fn new(block: &'a Block, settings: &'a Settings) -> Small<'a> {
        let (gates, rounds) = settled(block, settings);
        let nevers = block.nevers.iter();
        let n = block.inputs.len();
        let excluded = nevers.map(|never| agreeing(n, never.fixed.into(), never.ones.into()));
        Small {
            block,
            settings,
            gates,
            rounds,
            excluded: excluded.fold(0, |set, lanes| set | lanes),
            groups: groups(block),
        }
    }

    /// What each output shows.
    pub fn outputs(&self) -> impl Iterator<Item = May> + '_ {
        shown(self.block, self.settings, &self.gates)
    }

    /// The settings where each output is 0 or 1.
    fn defined(&self) -> u64 {
        let full = full_lanes(self.settings.n);
        self.outputs().fold(full, |set, may| set & may.defined())
    }

    fn sound(&self) -> u64 {
        self.defined() | self.excluded
    }

    fn counted(&self) -> u64 {
        self.defined() & !self.excluded
    }

    /// The lowest setting that is neither settled nor excluded.
    pub fn unsettled(&self) -> Option<usize> {
        let others = full_lanes(self.settings.n) & !self.sound();
        (others != 0).then(|| others.trailing_zeros() as usize)
    }

    pub fn verdict(&self) -> Answer {
        Answer {
            number: 0,
            count: self.counted().count_ones() as usize,
            detail: self.unsettled().unwrap_or(self.settings.full()),
        }
    }

    /// The words of its cover: every partial assignment, and whether one input less may be fixed.
    pub fn cover(&self) -> Vec<u16> {
        let (n, all) = (self.settings.n, self.settings.full());
        let unsound = !self.sound();
        let mut sound = [[false; 1 << INPUTS]; 1 << INPUTS];
        let mut words = Vec::new();
        for fixed in 0..all {
            for ones in (0..=fixed).filter(|ones| ones & !fixed == 0) {
                sound[fixed][ones] = agreeing(n, fixed, ones) & unsound == 0;
                let mut bits = (0..n).map(|i| 1 << i).filter(|bit| fixed & bit != 0);
                if sound[fixed][ones] && bits.all(|bit| !sound[fixed & !bit][ones & !bit]) {
                    words.extend([fixed as u16, ones as u16]);
                }
            }
        }
        words
    }

    /// The number of each gate's group.
    pub fn group_numbers(&self) -> Vec<u16> {
        let mut numbers = vec![0; self.block.gates.len()];
        for (number, group) in self.groups.iter().enumerate() {
            group.iter().for_each(|&gate| numbers[gate] = number as u16);
        }
        numbers
    }

    /// What the passes of Render make of it, sound or not.
    pub fn copied(&self) -> Block {
        let passes = self.groups.iter().map(|group| self.passes(group));
        copied_by(self.block, self.groups.clone(), passes.collect())
    }

    /// Sweeps over the group's gates from undefined ones, until none of them changes in a setting that isn't excluded.
    fn passes(&self, group: &[usize]) -> usize {
        if group.len() == 1 {
            return 1;
        }
        let lanes = full_lanes(self.settings.n) & !self.excluded;
        let mut values = self.gates.clone();
        group.iter().for_each(|&gate| values[gate] = May::UNDEFINED);
        let mut passes = 0;
        loop {
            let mut changed = 0;
            for &gate in group {
                let next = evaluated(&self.block.gates[gate], &self.settings.inputs, &values);
                changed |= lanes & (next.defined() ^ values[gate].defined());
                values[gate] = next;
            }
            if changed == 0 {
                return passes.max(1);
            }
            passes += 1;
        }
    }

    /// Compare with another block.
    pub fn compared(&self, theirs: &Block) -> Answer {
        if !theirs.is_straight() {
            return Answer::refusal(NOT_STRAIGHT, 0);
        }
        let ports = self.block.outputs.iter().map(|output| &output.port);
        let their_ports = theirs.outputs.iter().map(|output| &output.port);
        if self.block.inputs != theirs.inputs || !ports.eq(their_ports) {
            return Answer::refusal(INTERFACE_MISMATCH, 0);
        }
        let swept = swept(theirs, self.settings);
        self.judged(shown(theirs, self.settings, &swept).map(|may| may.one))
    }

    /// CompareCells with cells and a list of nodes.
    pub fn compared_cells(&self, cells: &[u16], list: &[u16]) -> Answer {
        let n = self.settings.n;
        let nodes = n + cells.len() / CELL_WORDS;
        let number = match () {
            () if is_malformed(n, cells) => MALFORMED_BLOCK,
            () if list.len() != self.block.outputs.len() => INTERFACE_MISMATCH,
            () if list.iter().any(|&node| usize::from(node) >= nodes) => MALFORMED_BLOCK,
            () => {
                let ran = ran(cells, self.settings);
                return self.judged(list.iter().map(|&node| ran[usize::from(node)]));
            }
        };
        Answer::refusal(number, 0)
    }

    /// The lowest setting that counts where an output isn't the one of these lanes of 1s, and the lowest such output, counted from 1.
    fn judged(&self, theirs: impl Iterator<Item = u64>) -> Answer {
        let counted = self.counted();
        let pairs = self.outputs().zip(theirs).enumerate();
        let others = pairs.map(|(output, (our, their))| (counted & (our.one ^ their), output));
        let others = others.filter(|(lanes, _)| *lanes != 0);
        let lowest = others
            .map(|(lanes, output)| (lanes.trailing_zeros(), output))
            .min();
        Answer {
            number: 0,
            count: lowest.map_or(0, |(_, output)| output + 1),
            detail: lowest.map_or(0, |(lane, _)| lane as usize),
        }
    }
}

/// What a block's outputs show where its gates have these values.
fn shown<'a>(
    block: &'a Block,
    settings: &'a Settings,
    values: &'a [May],
) -> impl Iterator<Item = May> + 'a {
    block.outputs.iter().map(|output| match output.node {
        Source::Constant(bit) => May::constant(bit),
        Source::Input(input) => settings.inputs[input],
        Source::Gate(gate) => values[gate],
    })
}

/// The settled values, and by lane how many rounds changed something.
fn settled(block: &Block, settings: &Settings) -> (Vec<May>, [u8; LANES]) {
    let mut values = vec![May::UNDEFINED; block.gates.len()];
    let mut next = values.clone();
    let mut rounds = [0; LANES];
    loop {
        let mut changed = 0;
        for (number, gate) in block.gates.iter().enumerate() {
            next[number] = evaluated(gate, &settings.inputs, &values);
            changed |= next[number].defined() ^ values[number].defined();
        }
        if changed == 0 {
            return (values, rounds);
        }
        for (lane, rounds) in rounds.iter_mut().enumerate() {
            *rounds += (changed >> lane & 1) as u8;
        }
        std::mem::swap(&mut values, &mut next);
    }
}

/// By what each gate reaches: of the groups that read no group still to come, the one with the lowest gate is next.
fn groups(block: &Block) -> Vec<Vec<usize>> {
    let m = block.gates.len();
    let set = |gate: &Gate| gate.gates_read().fold(0_u64, |set, read| set | 1 << read);
    let reads: Vec<u64> = block.gates.iter().map(set).collect();
    let mut reached = reads.clone();
    for middle in 0..m {
        for gate in 0..m {
            if reached[gate] >> middle & 1 == 1 {
                reached[gate] |= reached[middle];
            }
        }
    }
    let joined = |gate: usize, other: usize| {
        gate == other || reached[gate] >> other & reached[other] >> gate & 1 == 1
    };
    let mut found = Vec::new();
    let mut waiting = (0..m).fold(0_u64, |set, gate| set | 1 << gate);
    while waiting != 0 {
        let mut gates = (0..m).filter(|gate| waiting >> gate & 1 == 1);
        let ready = gates.find_map(|gate| {
            let group: Vec<usize> = (0..m).filter(|&other| joined(gate, other)).collect();
            let set = group.iter().fold(0, |set, gate| set | 1 << gate);
            let read = group.iter().fold(0, |set, &gate| set | reads[gate]);
            (read & waiting & !set == 0).then_some((group, set))
        });
        let (group, set) = ready.expect("no group waits for itself");
        waiting &= !set;
        found.push(group);
    }
    found
}

/// Each node of a run of legal cells: the lanes where it is 1, of those of settings of 0s and 1s.
pub fn ran(cells: &[u16], settings: &Settings) -> Vec<u64> {
    let mut nodes: Vec<u64> = settings.inputs.iter().map(|may| may.one).collect();
    for cell in cells.chunks(CELL_WORDS) {
        nodes.push(cell_value(cell, &nodes));
    }
    nodes
}

/// Of each pair of what is left of the truth word, an operand takes one.
fn cell_value(cell: &[u16], nodes: &[u64]) -> u64 {
    let mut left: [u64; 1 << OPERANDS] =
        std::array::from_fn(|bit| u64::from(cell[OPERANDS] >> bit & 1).wrapping_neg());
    for (place, &operand) in cell[..OPERANDS].iter().enumerate() {
        let one = match operand {
            ZERO_WORD => 0,
            ONE_WORD => u64::MAX,
            node => nodes[usize::from(node)],
        };
        for pair in 0..1 << (OPERANDS - 1 - place) {
            left[pair] = left[2 * pair] & !one | left[2 * pair + 1] & one;
        }
    }
    left[0]
}
