//! The generators that the benchmark uses make what they say.

use simulator::block::Block;
use simulator::generate::{for_typical_blocks, wide::WIDEST_COVER, widest_cover, Loops};
use simulator::limits::{BLOCK_WORDS, GATES};
use simulator::malformed::is_malformed;
use simulator::{cover, groups, render, verdict};
use std::cell::Cell;

#[test]
fn typical_blocks_are_as_described() {
    let seed = Cell::new(0);
    for_typical_blocks(0..400, |_, block, words| {
        let loops = Loops::of(seed.get());
        seed.set(seed.get() + 1);
        assert!(!is_malformed(words));
        assert!((4..=8).contains(&block.inputs.len()));
        assert!((50..=200).contains(&block.gates.len()));
        let looped = groups(words, GATES).0.count < block.gates.len();
        assert_eq!(looped, loops != Loops::None);
        let sound = verdict(words).detail == 1 << block.inputs.len();
        assert_eq!(sound, loops != Loops::Latch);
        let number = if sound { 0 } else { 9 };
        assert_eq!(render(words, BLOCK_WORDS).0.number, number);
    });
}

/// Both orders of gates are met.
#[test]
fn typical_blocks_in_both_orders() {
    let forward = |block: &Block, least: usize| {
        let gates = block.gates.iter().enumerate();
        let ahead = gates.filter(|(number, gate)| gate.gates_read().any(|read| read > *number));
        ahead.count() > least
    };
    let shuffled = Cell::new(0);
    for_typical_blocks(0..400, |_, block, _| {
        shuffled.set(shuffled.get() + usize::from(forward(block, 20)));
    });
    assert!((120..=280).contains(&shuffled.get()), "{shuffled:?}");
}

#[test]
fn widest_cover_has_its_entries() {
    let words = widest_cover().to_words();
    let (told, entries) = cover(&words, usize::MAX);
    assert_eq!((told.number, told.count), (0, WIDEST_COVER));
    assert_eq!(entries.len(), 2 * WIDEST_COVER);
}
