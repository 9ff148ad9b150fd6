//! Verdict: the settled settings counted.

use super::block::Block;
use super::decided::Decided;
use super::{done, refused};
use unloop::raw::Reply;

/// Count: settled settings; detail: the lowest other, or 2^n if none.
pub fn verdict(words: &[u16]) -> Reply {
    let Some(block) = Block::of(words) else {
        return refused(6, 0);
    };
    let decided = Decided::of(&block);
    let size = |set: &[u64]| {
        set.iter()
            .map(|word| word.count_ones() as usize)
            .sum::<usize>()
    };
    done(
        size(&decided.coming) - size(&decided.undecided),
        decided.lowest_undecided().unwrap_or(1 << block.n),
    )
}
