//! Compare, the library's against the simulator's: renderings, right ones and ones with a change, and blocks that are no match.

use super::compare_pair;
use crate::answer::{INTERFACE_MISMATCH, MALFORMED_BLOCK};
use crate::block::Block;
use crate::generate::{for_blocks, malformed, mutant, nevers, stranger, Change, Random, Size};
use crate::limits::{GATES, NEVERS};
use crate::render::copied;
use crate::Answer;
use std::ops::Range;

/// What Compare answers where theirs is as good as ours.
pub const ACCEPTED: Answer = Answer {
    number: 0,
    count: 0,
    detail: 0,
};

/// How many mutants were caught, and how many show the same under every settled setting.
#[derive(Default)]
pub struct Mutants {
    pub caught: [usize; 3],
    pub equal: [usize; 3],
    /// Those accepted that would be caught without the never lines of ours.
    pub hidden: usize,
}

impl Mutants {
    /// Compares mutants of what the passes of Render make of a block, whether or not the block is sound.
    pub fn of(&mut self, random: &mut Random, block: &Block, words: &[u16], each: usize) {
        let rendering = copied(block);
        if rendering.gates.len() > GATES {
            return;
        }
        assert_eq!(compare_pair(words, &rendering.to_words()), ACCEPTED);
        let mut other_lines = rendering.clone();
        other_lines.nevers = nevers(random, block.inputs.len(), NEVERS);
        assert_eq!(compare_pair(words, &other_lines.to_words()), ACCEPTED);
        for change in Change::ALL {
            let mutants = (0..each).filter_map(|_| mutant(random, &rendering, change));
            for mut mutant in mutants.collect::<Vec<Block>>() {
                let told = compare_pair(words, &mutant.to_words());
                assert_eq!(told.number, 0);
                // The never lines of theirs play no part, and without ours no fewer settings count.
                mutant.nevers = nevers(random, block.inputs.len(), NEVERS);
                assert_eq!(compare_pair(words, &mutant.to_words()), told);
                let all = compare_pair(&block.without_nevers().to_words(), &mutant.to_words());
                assert!(told == ACCEPTED || all != ACCEPTED);
                self.hidden += usize::from(told == ACCEPTED && all != ACCEPTED);
                let counted = match told == ACCEPTED {
                    true => &mut self.equal,
                    false => &mut self.caught,
                };
                counted[change as usize] += 1;
            }
        }
    }
}

/// Blocks with mutants of what the passes of Render make of them, so many for each change.
pub fn blocks(seeds: Range<u64>, size: Size, each: usize) -> Mutants {
    let mut mutants = Mutants::default();
    for_blocks(seeds, size, |random, block, words| {
        mutants.of(random, block, words, each);
    });
    mutants
}

/// Blocks with themselves, and with what is refused: 6 for either block, then 10 for theirs, then 12.
pub fn refused_pairs(seeds: Range<u64>) {
    let refused = |number: usize| Answer::refusal(number, 0);
    for_blocks(seeds, Size::SMALL, |random, block, words| {
        compare_pair(words, words);
        let rendering = copied(block);
        let others = (0..3).filter_map(|_| stranger(random, &rendering));
        for other in others.collect::<Vec<Block>>() {
            let told = compare_pair(words, &other.to_words());
            assert_eq!(told, refused(INTERFACE_MISMATCH));
        }
        for (_, torn) in malformed(random, block).into_iter().take(2) {
            assert_eq!(compare_pair(&torn, words), refused(MALFORMED_BLOCK));
            assert_eq!(compare_pair(words, &torn), refused(MALFORMED_BLOCK));
        }
    });
}
