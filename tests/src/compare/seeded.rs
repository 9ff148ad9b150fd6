//! Comparisons on generated input of one kind, for each of some seeds.

use super::{
    compare_block, compare_brought, compare_lines, compare_text, compare_written, mangled,
};
use crate::answer::NOT_SETTLED;
use crate::block::Block;
use crate::cover::entries;
use crate::generate;
use crate::generate::{
    for_blocks, for_texts, for_typical_blocks, long_texts, malformed, malformed_before,
    near_a_limit, spoiled, strange_never, Random, Report, Size,
};
use crate::limits::{BLOCK_WORDS, COVER_WORDS, GATES, OLD_INPUTS, TEXT_BYTES};
use crate::render::copied;
use crate::rounds::rounds;
use crate::values::Network;
use crate::Answer;
use std::ops::Range;
use unloop::raw;

/// Blocks in every operation.
pub fn blocks(seeds: Range<u64>, size: Size) {
    for_blocks(seeds, size, |random, _, words| compare_block(random, words));
}

/// Blocks as they are met, in every operation.
pub fn typical_blocks(seeds: Range<u64>) {
    for_typical_blocks(seeds, |random, _, words| compare_block(random, words));
}

/// Blocks whose rendering has about as many copies as it may have, in every operation.
pub fn about_1024_copies(seeds: Range<u64>) {
    for seed in seeds {
        let mut random = Random::new(seed);
        let block = generate::about_1024_copies(&mut random);
        let _report = Report(|| format!("seed {seed}, about 1,024 copies, {block:?}"));
        compare_block(&mut random, &block.to_words());
    }
}

/// Blocks written and read back.
pub fn written_blocks(seeds: Range<u64>, size: Size) {
    for_blocks(seeds, size, |_, _, words| compare_written(words));
}

/// Blocks that break each rule of the stored block.
pub fn malformed_words(seeds: Range<u64>) {
    for_blocks(seeds, Size::SMALL, |random, block, _| {
        for (rule, words) in malformed(random, block) {
            let _report = Report(|| format!("{rule}, {words:?}"));
            compare_block(random, &words);
        }
    });
}

/// Blocks with one or two words replaced.
pub fn mangled_words(seeds: Range<u64>) {
    for_blocks(seeds, Size::SMALL, |random, _, words| {
        let words = mangled(random, words);
        let _report = Report(|| format!("mangled {words:?}"));
        compare_block(random, &words);
    });
}

/// Blocks as they were stored before there were never lines, brought over: each in every operation, and again answer by answer by what held
/// before.
pub fn brought_blocks(seeds: Range<u64>, size: Size) {
    for_blocks(seeds, size, |random, block, _| {
        let block = block.without_nevers();
        let old = block.to_old_words();
        compare_brought(&old);
        let mut words = vec![9_999; BLOCK_WORDS];
        let told = raw::bring(&old, &mut words);
        if OLD_INPUTS < block.inputs.len() {
            // No block had so many inputs then.
            assert_eq!((told.number, told.count), (6, 0));
            return;
        }
        assert_eq!((told.number, told.count), (0, old.len() + 1));
        words.truncate(told.count);
        assert_eq!(words, block.to_words());
        compare_block(random, &words);
        answers_as_before(random, &block, &words);
    });
}

/// Verdict, Cover, Settle and Render of words brought over, by definitions that know of no never lines.
fn answers_as_before(random: &mut Random, block: &Block, words: &[u16]) {
    let settled = Network::new(block).settled_settings();
    let lowest = settled.iter().position(|&settled| !settled);
    let told = Answer::from(raw::verdict(words));
    let count = settled.iter().filter(|&&settled| settled).count();
    assert_eq!(told.count, count);
    assert_eq!(told.detail, lowest.unwrap_or(settled.len()));
    let mut found = vec![0; COVER_WORDS];
    let count = raw::cover(words, &mut found).count;
    found.truncate(2 * count);
    let expected = entries(&settled).into_iter();
    let expected: Vec<u16> = expected
        .flat_map(|(mask, ones)| [mask as u16, ones as u16])
        .collect();
    assert_eq!(found, expected);
    let setting: Vec<u8> = block.inputs.iter().map(|_| random.below(3) as u8).collect();
    let (values, changing) = rounds(block, &setting);
    let mut found = vec![9; values.len()];
    let told = raw::settle(words, &setting, &mut found);
    assert_eq!((told.number, told.count, found), (0, changing, values));
    let mut found = vec![0; BLOCK_WORDS];
    let told = Answer::from(raw::render(words, &mut found));
    let rendering = copied(block);
    if rendering.gates.len() > GATES {
        return;
    }
    match lowest {
        Some(lowest) => assert_eq!(told, Answer::refusal(NOT_SETTLED, lowest)),
        None => assert_eq!(found[..told.count], rendering.to_words()),
    }
}

/// Words that broke a rule of the stored block before there were never lines, and old words with one or two of them replaced.
pub fn malformed_old_words(seeds: Range<u64>) {
    for_blocks(seeds, Size::SMALL, |random, block, _| {
        for (rule, words) in malformed_before(random, block) {
            let _report = Report(|| rule.to_string());
            compare_brought(&words);
        }
        compare_brought(&mangled(random, &block.to_old_words()));
    });
}

/// Legal texts with a never line that is out of form, at a wrong place, or names what it may not.
pub fn texts_with_a_strange_never(seeds: Range<u64>) {
    for_texts(seeds, Size::SMALL, |random, text, block| {
        compare_text(&strange_never(random, text, block));
    });
}

/// Texts that Read takes.
pub fn legal_texts(seeds: Range<u64>, size: Size) {
    for_texts(seeds, size, |_, text, _| compare_text(text));
}

/// Texts with a few small changes.
pub fn spoiled_texts(seeds: Range<u64>, size: Size) {
    for_texts(seeds, size, |random, text, _| {
        compare_text(&spoiled(random, text));
    });
}

/// Texts at a limit of refusal 3 or one above it, each also spoiled.
pub fn texts_near_a_limit(seeds: Range<u64>) {
    for seed in seeds {
        let mut random = Random::new(seed);
        let text = near_a_limit(&mut random, seed as usize % 2);
        let _report = Report(|| format!("seed {seed}"));
        compare_text(&text);
        compare_text(&spoiled(&mut random, &text));
    }
}

/// The longest texts spoiled, then filled up with LF to about the greatest length.
pub fn longest_texts(seeds: Range<u64>) {
    for seed in seeds {
        let mut random = Random::new(seed);
        let _report = Report(|| format!("seed {seed}"));
        for (_, text) in long_texts() {
            let mut text = spoiled(&mut random, &text);
            compare_text(&text);
            text.resize(random.between(TEXT_BYTES - 1, TEXT_BYTES + 1), b'\n');
            compare_text(&text);
        }
    }
}

/// Line in legal texts, each also spoiled.
pub fn lines(seeds: Range<u64>) {
    for_texts(seeds, Size::SMALL, |random, text, _| {
        compare_lines(text);
        compare_lines(&spoiled(random, text));
    });
}
