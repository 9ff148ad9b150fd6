//! Seeded random blocks and texts, and the means to tell which one failed.

pub mod blocks;
pub mod cells;
pub mod copies;
pub mod designs;
pub mod large;
pub mod long;
pub mod malformed;
pub mod models;
pub mod mutants;
pub mod nevers;
pub mod orders;
pub mod set_lines;
pub mod spoiled;
pub mod tables;
pub mod texts;
pub mod typical;
pub mod wide;

pub use blocks::{block, Shape};
pub use cells::{cell_setting, foreign_cells, malformed_cells};
pub use copies::about_1024_copies;
pub use large::{large, longest_written};
pub use long::long_texts;
pub use malformed::{malformed, malformed_before};
pub use models::model;
pub use mutants::{mutant, stranger, Change};
pub use nevers::{nevers, strange_never};
pub use orders::{bad_orders, order};
pub use set_lines::{bench_input, long_bench_inputs, odd_bench_input, set_line};
pub use spoiled::{near_a_limit, over_a_limit, spoiled};
pub use tables::{changed_tables, strange_tables};
pub use texts::text;
pub use typical::{typical, Loops};
pub use wide::widest_cover;

use crate::block::Block;
use std::ops::Range;

/// A xorshift generator.
pub struct Random(u64);

impl Random {
    /// The generator of a seed; near seeds give unrelated numbers.
    pub fn new(seed: u64) -> Random {
        let mut random = Random(seed.wrapping_add(1).wrapping_mul(0x9E37_79B9_7F4A_7C15) | 1);
        for _ in 0..8 {
            random.number();
        }
        random
    }

    /// The next 64 bits.
    pub fn number(&mut self) -> u64 {
        self.0 ^= self.0 << 13;
        self.0 ^= self.0 >> 7;
        self.0 ^= self.0 << 17;
        self.0
    }

    /// A number from 0 to `bound` - 1.
    pub fn below(&mut self, bound: usize) -> usize {
        ((self.number() >> 16) % bound as u64) as usize
    }

    /// A number from `least` to `most`.
    pub fn between(&mut self, least: usize, most: usize) -> usize {
        least + self.below(most - least + 1)
    }

    /// True in `percent` of 100 cases.
    pub fn chance(&mut self, percent: usize) -> bool {
        self.below(100) < percent
    }

    /// One element of a list.
    pub fn pick<T: Copy>(&mut self, list: &[T]) -> T {
        list[self.below(list.len())]
    }

    /// The numbers below `count` in random order.
    pub fn permutation(&mut self, count: usize) -> Vec<usize> {
        let mut order: Vec<usize> = (0..count).collect();
        for i in (1..count).rev() {
            order.swap(i, self.below(i + 1));
        }
        order
    }

    /// A legal name of an input or a port that `used` doesn't hold; it is added there.
    pub fn fresh_name(&mut self, used: &mut Vec<String>) -> String {
        loop {
            let mut bytes = vec![self.pick(b"abcdefghijklmnopqrstuvwxyz")];
            for _ in 1..self.between(1, crate::limits::NAME_BYTES) {
                bytes.push(self.pick(b"abcdefghijklmnopqrstuvwxyz0123456789_"));
            }
            let name: String = bytes.into_iter().map(char::from).collect();
            if !used.contains(&name) {
                used.push(name.clone());
                return name;
            }
        }
    }
}

/// The most inputs, never lines, gates (or gate lines) and outputs to generate.
#[derive(Debug, Clone, Copy)]
pub struct Size {
    pub inputs: usize,
    pub nevers: usize,
    pub gates: usize,
    pub outputs: usize,
}

impl Size {
    /// Blocks small enough to try every setting often.
    pub const SMALL: Size = Size {
        inputs: 5,
        nevers: crate::limits::NEVERS,
        gates: 9,
        outputs: 4,
    };
    /// Blocks that Verdict is quick on.
    pub const MIDDLE: Size = Size {
        gates: 120,
        ..Size::LARGE
    };
    /// Blocks up to every limit.
    pub const LARGE: Size = Size {
        inputs: crate::limits::INPUTS,
        nevers: crate::limits::NEVERS,
        gates: crate::limits::GATES,
        outputs: crate::limits::OUTPUTS,
    };
}

/// Checks a block, and its words, for each seed; the shapes take turns.
pub fn for_blocks(
    seeds: Range<u64>,
    size: Size,
    mut check: impl FnMut(&mut Random, &Block, &[u16]),
) {
    for seed in seeds {
        let mut random = Random::new(seed);
        let shape = Shape::ALL[seed as usize % Shape::ALL.len()];
        let block = block(&mut random, shape, size);
        let words = block.to_words();
        let _report = Report(|| format!("seed {seed}, {shape:?}, {words:?}, {block:?}"));
        check(&mut random, &block, &words);
    }
}

/// Checks a block as they are met, and its words, for each seed.
pub fn for_typical_blocks(seeds: Range<u64>, mut check: impl FnMut(&mut Random, &Block, &[u16])) {
    for seed in seeds {
        let mut random = Random::new(seed);
        let block = typical(&mut random, Loops::of(seed));
        let words = block.to_words();
        let _report = Report(|| format!("seed {seed}, typical, {words:?}, {block:?}"));
        check(&mut random, &block, &words);
    }
}

/// Checks a text that Read takes, and its block, for each seed.
pub fn for_texts(seeds: Range<u64>, size: Size, mut check: impl FnMut(&mut Random, &[u8], &Block)) {
    for seed in seeds {
        let mut random = Random::new(seed);
        let (text, block) = text(&mut random, size);
        let _report = Report(|| format!("seed {seed}, text {}", text.escape_ascii()));
        check(&mut random, &text, &block);
    }
}

/// Prints what it is told to if a panic unwinds past it.
pub struct Report<F: Fn() -> String>(pub F);

impl<F: Fn() -> String> Drop for Report<F> {
    fn drop(&mut self) {
        if std::thread::panicking() {
            // One string is one write, which what other threads print of their panics doesn't break up.
            let line = format!("failed: {}\n", self.0());
            eprint!("{line}");
        }
    }
}
