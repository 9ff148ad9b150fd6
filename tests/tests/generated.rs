//! The claims of docs/SPECIFICATION.md on generated blocks.

mod common;

use common::answer;
use simulator::block::{Block, Source};
use simulator::generate::{about_1024_copies, for_blocks, Random, Size};
use simulator::groups::ordered_groups;
use simulator::limits::{BLOCK_WORDS, COVER_WORDS, GATES, WRITTEN_BYTES};
use simulator::malformed::is_malformed;
use simulator::passes::passes;
use simulator::rounds::rounds;
use simulator::settle::sweep;
use simulator::values::{setting_bytes, Network};
use simulator::*;

/// A few blocks up to every limit.
const LARGE: std::ops::Range<u64> = 0..40;

#[test]
fn written_blocks_read_back() {
    let check = |_: &mut Random, _: &Block, words: &[u16]| {
        assert!(!is_malformed(words));
        let (told, text) = write(words, WRITTEN_BYTES);
        assert_eq!(told, answer(0, text.len(), 0));
        let told = answer(0, words.len(), 0);
        assert_eq!(read(&text, BLOCK_WORDS), (told, words.to_vec()));
    };
    for_blocks(0..20_000, Size::SMALL, check);
    for_blocks(LARGE, Size::LARGE, check);
}

#[test]
fn events_and_rounds_agree() {
    let check = |random: &mut Random, block: &Block, words: &[u16]| {
        let network = Network::new(block);
        for _ in 0..8 {
            let setting: Vec<u8> = block.inputs.iter().map(|_| random.below(3) as u8).collect();
            let (values, count) = rounds(block, &setting);
            assert_eq!(network.settled(&setting), values, "setting {setting:?}");
            assert!(count <= block.gates.len());
            let told = (answer(0, count, 0), values);
            assert_eq!(settle(words, &setting, GATES), told);
        }
    };
    for_blocks(0..20_000, Size::SMALL, check);
    for_blocks(LARGE, Size::LARGE, check);
}

#[test]
fn straight_blocks() {
    let mut straight = 0;
    let mut check = |random: &mut Random, block: &Block, words: &[u16]| {
        let m = block.gates.len();
        let setting: Vec<u8> = block.inputs.iter().map(|_| random.below(3) as u8).collect();
        if !block.is_straight() {
            let told = pass(words, &setting, GATES);
            return assert_eq!(told, (answer(10, 0, 0), vec![]));
        }
        straight += 1;
        let (_, settled) = settle(words, &setting, GATES);
        let told = pass(words, &setting, GATES);
        assert_eq!(told, (answer(0, m, 0), settled));
        let told = answer(0, words.len(), 0);
        assert_eq!(render(words, BLOCK_WORDS), (told, words.to_vec()));
    };
    for_blocks(0..20_000, Size::SMALL, &mut check);
    for_blocks(LARGE, Size::LARGE, &mut check);
    assert!(straight > 2_000);
}

/// The value that an output shows.
fn shown(node: Source, setting: &[u8], values: &[u8]) -> u8 {
    match node {
        Source::Input(input) => setting[input],
        Source::Gate(gate) => values[gate],
        Source::Constant(_) => unreachable!("an output is no constant"),
    }
}

/// Demand 3, with the sum of SPECIFICATION 6, for a rendering that Render answered with 0.
fn check_rendering(block: &Block, words: &[u16], copies: usize) {
    assert!(!is_malformed(words));
    let rendered = Block::from_words(words);
    assert!(rendered.is_straight());
    assert_eq!(rendered.gates.len(), copies);
    assert_eq!(rendered.inputs, block.inputs);
    assert_eq!(rendered.nevers, block.nevers);
    let ports =
        |block: &Block| -> Vec<String> { block.outputs.iter().map(|o| o.port.clone()).collect() };
    assert_eq!(ports(&rendered), ports(block));
    let network = Network::new(block);
    let excluded = block.excluded_settings();
    for number in (0..excluded.len()).filter(|&number| !excluded[number]) {
        let setting = setting_bytes(number, block.inputs.len());
        let (settled, swept) = (network.settled(&setting), sweep(&rendered, &setting));
        for (output, copy) in block.outputs.iter().zip(&rendered.outputs) {
            let value = shown(output.node, &setting, &settled);
            assert_eq!(
                shown(copy.node, &setting, &swept),
                value,
                "setting {number}"
            );
        }
    }
}

/// The sum of each group's gates times its passes.
fn copies(block: &Block) -> usize {
    let groups = ordered_groups(block);
    let passes = passes(block, &groups).into_iter();
    passes
        .zip(&groups)
        .map(|(passes, gates)| passes * gates.len())
        .sum()
}

#[test]
fn renderings() {
    let mut answered = [0; 12];
    let mut loops_rendered = 0;
    let mut check = |_: &mut Random, block: &Block, words: &[u16]| {
        let (told, result) = render(words, BLOCK_WORDS);
        let (sum, verdict) = (copies(block), verdict(words));
        let settings = 1 << block.inputs.len();
        let expected = match (sum > GATES, verdict.detail == settings) {
            (true, _) => answer(8, 0, 0),
            (_, false) => answer(9, 0, verdict.detail),
            _ => answer(0, result.len(), 0),
        };
        assert_eq!(told, expected);
        answered[told.number] += 1;
        if told.number == 0 {
            check_rendering(block, &result, sum);
            loops_rendered += usize::from(sum > block.gates.len());
        }
    };
    for_blocks(0..20_000, Size::SMALL, &mut check);
    for_blocks(LARGE, Size::LARGE, &mut check);
    let middle = Size {
        gates: 120,
        ..Size::LARGE
    };
    for_blocks(100..160, middle, &mut check);
    for seed in 0..200 {
        let mut random = Random::new(seed);
        let block = about_1024_copies(&mut random);
        let sum = copies(&block);
        assert!((GATES - 2..=GATES + 2).contains(&sum), "{sum}");
        check(&mut random, &block, &block.to_words());
    }
    println!("answers by number {answered:?}, {loops_rendered} with copies");
    assert!(answered[8] > 50 && answered[9] > 1_000 && loops_rendered > 1_000);
}

#[test]
fn covers() {
    for_blocks(0..20_000, Size::SMALL, |_, block, words| {
        let settings = 1 << block.inputs.len();
        let (told, entries) = cover(words, COVER_WORDS);
        assert_eq!(told, answer(0, entries.len() / 2, 0));
        let contained = |setting: u16| entries.chunks(2).any(|e| setting & e[0] == e[1]);
        let (settled, excluded) = (
            Network::new(block).settled_settings(),
            block.excluded_settings(),
        );
        let is_excluded = |setting: u16| excluded[usize::from(setting)];
        for setting in 0..settings {
            let sound = settled[usize::from(setting)] || is_excluded(setting);
            assert_eq!(contained(setting), sound);
        }
        let counted = (0..settings).filter(|&setting| !is_excluded(setting));
        let count = counted.filter(|&setting| contained(setting)).count();
        let lowest = (0..settings).find(|&setting| !contained(setting));
        let detail = lowest.unwrap_or(settings).into();
        assert_eq!(verdict(words), answer(0, count, detail));
        assert_eq!(entries == [0, 0], lowest.is_none());
    });
}

/// An operation answers alike with exactly enough room and more, and 11 with one less.
fn check_room<T: Clone + PartialEq + std::fmt::Debug>(run: impl Fn(usize) -> (Answer, Vec<T>)) {
    let (told, result) = run(usize::MAX);
    assert_eq!(run(result.len()), (told, result.clone()));
    if told.number == 0 && !result.is_empty() {
        assert_eq!(run(result.len() - 1), (answer(11, 0, 0), vec![]));
        assert_eq!(run(0), (answer(11, 0, 0), vec![]));
    }
}

#[test]
fn room() {
    let check = |_: &mut Random, block: &Block, words: &[u16]| {
        let setting = vec![1; block.inputs.len()];
        let text = write(words, WRITTEN_BYTES).1;
        check_room(|room| read(&text, room));
        check_room(|room| write(words, room));
        check_room(|room| settle(words, &setting, room));
        check_room(|room| pass(words, &setting, room));
        check_room(|room| cover(words, room));
        check_room(|room| groups(words, room));
        check_room(|room| render(words, room));
        let old = block.to_old_words();
        check_room(|room| bring(&old, room));
    };
    for_blocks(0..2_000, Size::SMALL, check);
    for_blocks(0..8, Size::LARGE, check);
}

#[test]
fn unloop_is_read_render_write() {
    for_blocks(0..2_000, Size::SMALL, |_, _, words| {
        let text = write(words, WRITTEN_BYTES).1;
        let (told, rendered) = render(words, BLOCK_WORDS);
        let expected = match told.number {
            0 => write(&rendered, WRITTEN_BYTES).1,
            number => format!("(refused {number} {})\n", told.detail).into_bytes(),
        };
        assert_eq!(unloop(&text), expected);
    });
}
