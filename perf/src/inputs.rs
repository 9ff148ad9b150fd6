//! What the operations are measured on.

use crate::operations::{Two, WithCells};
use simulator::block::{Block, Gate, Kind, Source};
use simulator::compare::cells::list_of;
use simulator::executed::root;
use simulator::generate::{for_typical_blocks, large, long_texts, longest_written, widest_cover};
use simulator::limits::{BLOCK_WORDS, CELL_WORDS, GATES, OLD_INPUTS, TEXT_BYTES, WRITTEN_BYTES};
use std::fs;
use std::ops::Range;
use unloop::raw;

/// Inputs that are measured together, by name.
pub type Set<I> = (String, Vec<I>);

/// A block and a setting of its inputs.
pub type UnderSetting = (Vec<u16>, Vec<u8>);

/// Seeds of the typical blocks: 16 sound ones with loops, two without a loop, two that aren't sound.
const TYPICAL: Range<u64> = 0..20;

/// Twenty typical blocks, and one of the largest for each name.
pub fn blocks(largest: &[&str]) -> Vec<Set<Vec<u16>>> {
    let one = |name: &&str| (name.to_string(), vec![named(name).to_words()]);
    let typical = ("typical".to_string(), typical());
    std::iter::once(typical)
        .chain(largest.iter().map(one))
        .collect()
}

/// Each input of these sets as another one, where it has one.
fn mapped<I, J>(sets: Vec<Set<I>>, other: impl Fn(I) -> Option<J>) -> Vec<Set<J>> {
    let set = |(name, inputs): Set<I>| (name, inputs.into_iter().filter_map(&other).collect());
    sets.into_iter().map(set).collect()
}

/// The same as they were stored before there were never lines.
pub fn old_blocks(largest: &[&str]) -> Vec<Set<Vec<u16>>> {
    mapped(blocks(largest), |words| {
        Some(Block::from_words(&words).to_old_words())
    })
}

/// The same with a setting each, all inputs 1.
pub fn settings(largest: &[&str]) -> Vec<Set<UnderSetting>> {
    mapped(blocks(largest), |words| Some(under_ones(words)))
}

fn under_ones(words: Vec<u16>) -> UnderSetting {
    let setting = vec![1; usize::from(words[0])];
    (words, setting)
}

/// The renderings of the typical blocks, and large straight blocks.
pub fn straight(largest: &[&str]) -> Vec<Set<Vec<u16>>> {
    let mut sets = blocks(largest);
    let renderings = typical().into_iter().filter_map(|words| rendered(&words));
    sets[0] = ("typical-rendered".to_string(), renderings.collect());
    sets
}

/// The same with a setting each, all inputs 1.
pub fn straight_settings(largest: &[&str]) -> Vec<Set<UnderSetting>> {
    mapped(straight(largest), |words| Some(under_ones(words)))
}

/// The cells of straight blocks, with a setting each, all inputs 1.
pub fn cells(largest: &[&str]) -> Vec<Set<UnderSetting>> {
    mapped(straight_settings(largest), |(words, setting)| {
        Some((cells_of(&words), setting))
    })
}

/// The cells of a straight block.
pub fn cells_of(words: &[u16]) -> Vec<u16> {
    let mut cells = vec![0; CELL_WORDS * GATES];
    let told = raw::cells(words, &mut cells);
    assert_eq!(told.number, 0, "straight");
    cells.truncate(told.count);
    cells
}

/// Blocks and what Render makes of them; without those that it refuses.
pub fn with_renderings(largest: &[&str]) -> Vec<Set<Two>> {
    mapped(blocks(largest), |words| {
        rendered(&words).map(|rendered| (words, rendered))
    })
}

/// Blocks with the cells of what Render makes of them, and the nodes that show the outputs there.
pub fn with_cells(largest: &[&str]) -> Vec<Set<WithCells>> {
    mapped(with_renderings(largest), |(words, rendered)| {
        let shown = list_of(&Block::from_words(&rendered));
        Some((words, cells_of(&rendered), shown))
    })
}

/// What Gather makes of blocks: other blocks, and the lists of old numbers.
pub fn gathered(largest: &[&str]) -> Vec<Set<Two>> {
    mapped(blocks(largest), |words| {
        let [mut gathered, mut order] =
            [words.len(), usize::from(words[1])].map(|room| vec![0; room]);
        let told = raw::gather(&words, &mut gathered, &mut order);
        (told.number == 0).then_some((gathered, order))
    })
}

/// What Render makes of a block, if it does.
pub fn rendered(words: &[u16]) -> Option<Vec<u16>> {
    let mut rendered = vec![0; BLOCK_WORDS];
    let told = raw::render(words, &mut rendered);
    rendered.truncate(told.count);
    (told.number == 0).then_some(rendered)
}

/// The texts of the typical blocks, and each of the longest texts.
pub fn texts() -> Vec<Set<Vec<u8>>> {
    let typical = typical().iter().map(|words| written(words)).collect();
    let longest = long_texts().into_iter();
    let longest = longest.map(|(name, text)| (name.to_string(), vec![text]));
    std::iter::once(("typical".to_string(), typical))
        .chain(longest)
        .collect()
}

/// The texts of the typical blocks, and one line as long as a text may be, each with a place in its middle.
pub fn places() -> Vec<Set<(Vec<u8>, usize)>> {
    let typical = typical().iter().map(|words| written(words)).collect();
    let sets = vec![
        ("typical".to_string(), typical),
        ("longest".to_string(), vec![vec![b'x'; TEXT_BYTES]]),
    ];
    mapped(sets, |text| {
        let middle = text.len() / 2;
        Some((text, middle))
    })
}

/// The text of a block.
pub fn written(words: &[u16]) -> Vec<u8> {
    let mut text = vec![0; WRITTEN_BYTES];
    let told = raw::write(words, &mut text);
    text.truncate(told.count);
    text
}

fn typical() -> Vec<Vec<u16>> {
    typical_blocks(TYPICAL)
}

/// The typical blocks of these seeds.
pub fn typical_blocks(seeds: Range<u64>) -> Vec<Vec<u16>> {
    let mut blocks = Vec::new();
    for_typical_blocks(seeds, |_, _, words| blocks.push(words.to_vec()));
    blocks
}

/// All of the largest blocks.
pub fn large_blocks() -> Vec<Vec<u16>> {
    let blocks = large().into_iter();
    blocks.map(|(_, block)| block.to_words()).collect()
}

/// The catalogue's netlists that can be read, by name.
pub fn catalogue() -> Vec<Vec<u16>> {
    let entries = fs::read_dir(root().join("catalogue")).expect("catalogue/");
    let mut paths: Vec<_> = entries
        .map(|entry| entry.expect("an entry").path())
        .collect();
    paths.retain(|path| path.extension().is_some_and(|ending| ending == "net"));
    paths.sort();
    let texts = paths.iter().map(|path| fs::read(path).expect("a netlist"));
    let blocks = texts.filter_map(|text| unloop::Block::read(text).ok());
    blocks.map(|block| block.words().to_vec()).collect()
}

/// One of the largest blocks.
pub fn named(name: &str) -> Block {
    match name {
        "longest" => longest_written(),
        "longest-before" => longest_before(),
        "most-entries" => widest_cover(),
        "two-way-row" => two_way_row(),
        _ => {
            let found = large().into_iter().find(|(other, _)| *other == name);
            found.expect("a block of this name").1
        }
    }
}

/// The block with the longest text that Bring takes: it has ten inputs and no never lines.
fn longest_before() -> Block {
    let mut block = longest_written().without_nevers();
    block.inputs.truncate(OLD_INPUTS);
    block
}

/// The first of the straight gates of four operands, over the first inputs; the outputs show the last gates.
pub fn grown(inputs: usize, gates: usize) -> Vec<u16> {
    let mut block = named("straight-fours");
    block.inputs.truncate(inputs);
    block.gates.truncate(gates);
    for operand in block.gates.iter_mut().flat_map(|gate| &mut gate.operands) {
        if let Source::Input(input) = *operand {
            let kept = input.checked_rem(inputs);
            *operand = kept.map_or(Source::Constant(false), Source::Input);
        }
    }
    for (number, output) in block.outputs.iter_mut().enumerate() {
        output.node = Source::Gate(gates - 1 - number);
    }
    block.to_words()
}

/// A row of gates that each read both neighbours. Where the first input is 0, a 0 runs from the first gate to the last, elsewhere from the
/// last to the first: so, whatever the order, half of the settings have a value that runs against it.
fn two_way_row() -> Block {
    let last = GATES - 1;
    let first_input = Source::Input(0);
    let gate = |number: usize| {
        let (kind, operands) = match number {
            0 => (Kind::And, [first_input, Source::Gate(1)]),
            _ if number == last => (Kind::Nor, [Source::Gate(last - 1), first_input]),
            _ => (Kind::And, [number - 1, number + 1].map(Source::Gate)),
        };
        Gate {
            kind,
            operands: operands.to_vec(),
        }
    };
    Block {
        gates: (0..GATES).map(gate).collect(),
        ..named("straight-fours")
    }
}
