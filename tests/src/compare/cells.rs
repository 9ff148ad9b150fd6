//! Cells, Run and CompareCells, the library's against the simulator's, and both ends of the way from a block to a run.

use super::tally::{count, count_answer, Operation};
use super::{compare, mangled};
use crate::block::{Block, Output, Source};
use crate::foreign::shown;
use crate::generate::{
    cell_setting, changed_tables, for_blocks, foreign_cells, malformed, malformed_cells,
    strange_tables, Random, Report, Size,
};
use crate::limits::{BLOCK_WORDS, CELL_WORDS, GATES, INPUTS};
use crate::render::copied;
use crate::values::{setting_bytes, Network};
use crate::Answer;
use std::ops::Range;
use unloop::raw;

/// Compares Cells on words.
pub fn compare_cells(words: &[u16]) {
    let _report = Report(|| format!("cells of {words:?}"));
    count(|tally| tally.made += 1);
    compare(
        Operation::Cells,
        9_999,
        crate::cells(words, usize::MAX),
        |cells| raw::cells(words, cells),
    );
}

/// Compares Run on any number of inputs, words and setting.
pub fn compare_run(inputs: usize, cells: &[u16], setting: &[u8]) {
    let _report = Report(|| format!("run of {inputs} inputs, {cells:?}, setting {setting:?}"));
    count(|tally| tally.runs += 1);
    let expected = crate::run(inputs, cells, setting, usize::MAX);
    compare(Operation::Run, 9, expected, |values| {
        raw::run(inputs, cells, setting, values)
    });
}

/// Compares Cells on a straight block, and Run on its cells under some settings of 0s and 1s with the library's own Pass.
pub fn compare_straight(random: &mut Random, block: &Block, settings: usize) {
    let (words, n, m) = (block.to_words(), block.inputs.len(), block.gates.len());
    compare_cells(&words);
    let mut cells = vec![0; CELL_WORDS * m];
    assert_eq!(raw::cells(&words, &mut cells).number, 0);
    for _ in 0..settings {
        let setting = setting_bytes(random.below(1 << n), n);
        compare_run(n, &cells, &setting);
        let [mut ran, mut passed] = [(); 2].map(|()| vec![9; m]);
        let told = raw::run(n, &cells, &setting, &mut ran);
        assert_eq!((told.number, told.count), (0, m));
        raw::pass(&words, &setting, &mut passed);
        assert_eq!(ran, passed, "setting {setting:?}");
        compare_run(n, &cells, &cell_setting(random, n));
    }
}

/// Blocks, straight or not, in Cells; then what the passes of Render make of them.
pub fn blocks(seeds: Range<u64>, size: Size) {
    for_blocks(seeds, size, |random, block, words| {
        compare_cells(words);
        let straight = copied(block);
        if straight.gates.len() <= GATES {
            compare_straight(random, &straight, 2);
        }
    });
}

/// Words that break each rule of the stored block, and blocks with one or two words replaced.
pub fn malformed_words(seeds: Range<u64>) {
    for_blocks(seeds, Size::SMALL, |random, block, words| {
        for (rule, words) in malformed(random, block) {
            let _report = Report(|| rule.to_string());
            compare_cells(&words);
        }
        (0..4).for_each(|_| compare_cells(&mangled(random, words)));
    });
}

/// Cells made by no block of ours; then each rule of cells broken, and some words replaced.
pub fn foreign(seeds: Range<u64>, most: usize) {
    for seed in seeds {
        let _report = Report(|| format!("seed {seed}"));
        let mut random = Random::new(seed);
        let inputs = random.between(0, INPUTS);
        let count = random.between(0, most);
        let cells = foreign_cells(&mut random, inputs, count);
        for _ in 0..4 {
            compare_run(inputs, &cells, &cell_setting(&mut random, inputs));
        }
        let other = random.between(0, INPUTS + 1);
        compare_run(other, &cells, &cell_setting(&mut random, other));
        if !cells.is_empty() {
            let mangled = mangled(&mut random, &cells);
            compare_run(inputs, &mangled, &cell_setting(&mut random, inputs));
        }
    }
}

/// Words that are no cells.
pub fn malformed_runs(seeds: Range<u64>) {
    for seed in seeds {
        let mut random = Random::new(seed);
        let inputs = random.between(0, INPUTS);
        let count = random.between(0, 20);
        let cells = foreign_cells(&mut random, inputs, count);
        for (rule, inputs, cells) in malformed_cells(&mut random, inputs, &cells) {
            let _report = Report(|| format!("seed {seed}, {rule}"));
            compare_run(
                inputs,
                &cells,
                &cell_setting(&mut random, inputs.min(INPUTS)),
            );
        }
    }
}

/// Original, rendered, made into cells and run, by the library: each output of the original under every setting that isn't excluded.
/// Gives whether the block was rendered.
pub fn whole_way(block: &Block, words: &[u16]) -> bool {
    let mut rendered = vec![0; BLOCK_WORDS];
    let told = raw::render(words, &mut rendered);
    if told.number != 0 {
        return false;
    }
    rendered.truncate(told.count);
    let outputs = Block::from_words(&rendered).outputs;
    let mut cells = vec![0; CELL_WORDS * GATES];
    let told = raw::cells(&rendered, &mut cells);
    assert_eq!(told.number, 0);
    cells.truncate(told.count);
    let n = block.inputs.len();
    let network = Network::new(block);
    let excluded = block.excluded_settings();
    for number in (0..excluded.len()).filter(|&number| !excluded[number]) {
        let setting = setting_bytes(number, n);
        let mut values = vec![9; cells.len() / CELL_WORDS];
        assert_eq!(raw::run(n, &cells, &setting, &mut values).number, 0);
        let ran = outputs.iter().map(|output| match output.node {
            Source::Input(input) => setting[input],
            Source::Gate(gate) => values[gate],
            Source::Constant(_) => unreachable!("an output is no constant"),
        });
        let settled = network.settled(&setting);
        assert!(ran.eq(shown(block, &setting, &settled)), "setting {number}");
    }
    true
}

/// Compares CompareCells on any words, and gives its answer.
pub fn compare_table(block: &[u16], cells: &[u16], list: &[u16]) -> Answer {
    let _report = Report(|| format!("compare cells {block:?} with {cells:?}, list {list:?}"));
    let told = Answer::from(raw::compare_cells(block, cells, list));
    assert_eq!(told, crate::compared_cells(block, cells, list));
    count(|tally| tally.tables += 1);
    count_answer(Operation::CompareCells, told.number);
    told
}

/// The nodes that a block's outputs show, as a list of words.
pub fn list_of(block: &Block) -> Vec<u16> {
    let word = |output: &Output| match output.node {
        Source::Input(input) => input,
        Source::Gate(gate) => block.inputs.len() + gate,
        Source::Constant(_) => unreachable!("an output is no constant"),
    };
    let words = block.outputs.iter().map(word);
    words.map(|word| word as u16).collect()
}

/// How many legal tables with one thing changed were caught, and how many show the same under every setting that counts.
#[derive(Debug, Default)]
pub struct Changed {
    pub caught: usize,
    pub equal: usize,
}

/// A block with the cells of what the passes of Render make of it; then with one thing of them changed, and with strange ones.
pub fn compare_tables(random: &mut Random, block: &Block, words: &[u16], changed: &mut Changed) {
    let straight = copied(block);
    if straight.gates.len() > GATES {
        return;
    }
    let (n, list) = (block.inputs.len(), list_of(&straight));
    let cells = crate::cells(&straight.to_words(), usize::MAX).1;
    assert_eq!(compare_table(words, &cells, &list), Answer::success(0));
    for (cells, list) in changed_tables(random, n, &cells, &list) {
        let told = compare_table(words, &cells, &list);
        assert_eq!(told.number, 0);
        match told.count {
            0 => changed.equal += 1,
            _ => changed.caught += 1,
        }
    }
    for (cells, list) in strange_tables(random, n, &cells, &list) {
        compare_table(words, &cells, &list);
    }
    compare_table(&mangled(random, words), &cells, &list);
}

/// Blocks with right tables, changed ones and strange ones.
pub fn tables(seeds: Range<u64>, size: Size) -> Changed {
    let mut changed = Changed::default();
    for_blocks(seeds, size, |random, block, words| {
        compare_tables(random, block, words, &mut changed);
    });
    changed
}
