//! Writes cases for the fuzzer to begin with into a folder: `seeds FOLDER`. Each operation gets generated input as the comparisons have it.

use simulator::block::Block;
use simulator::compare::cases::Case;
use simulator::compare::cells::list_of;
use simulator::compare::tally::Operation;
use simulator::generate::{
    bad_orders, block, cell_setting, foreign_cells, large, long_texts, malformed, mutant,
    near_a_limit, order, spoiled, strange_never, stranger, text, Change, Random, Shape, Size,
};
use simulator::limits::{GATES, TEXT_BYTES};
use simulator::render::copied;
use simulator::specimens::{reversed_ring, words_of};
use std::path::Path;
use std::{env, fs};

/// Seeds of the generators.
const SEEDS: u64 = 30;

/// The operations on one list of words.
const ON_WORDS: [Operation; 8] = [
    Operation::Write,
    Operation::Verdict,
    Operation::Cover,
    Operation::Groups,
    Operation::Render,
    Operation::Bring,
    Operation::Cells,
    Operation::Gather,
];

fn main() {
    let folder = env::args().nth(1).expect("usage: seeds FOLDER");
    let cases = (0..SEEDS).flat_map(|seed| {
        let mut random = Random::new(seed);
        let shape = Shape::ALL[seed as usize % Shape::ALL.len()];
        let block = block(&mut random, shape, Size::SMALL);
        let mut cases = of_texts(&mut random);
        cases.extend(of_words(&mut random, &block));
        cases.extend(of_settings(&mut random, &block));
        cases.extend(of_renderings(&mut random, &block));
        cases.extend(of_lists(&mut random, &block));
        cases
    });
    for (number, Case(bytes)) in cases.chain(of_rings()).chain(of_limits()).enumerate() {
        let path = Path::new(&folder).join(format!("seed-{number:04}"));
        fs::write(path, bytes).expect("a folder that can be written");
    }
}

/// Rings of as many copies as there may be, and one more.
fn of_rings() -> Vec<Case> {
    let most = reversed_ring(32, 31);
    let more = most.clone() + "(gate lone (not 0))\n";
    let rings = [most, more].map(|text| words_of(&text));
    let render = |words: &Vec<u16>| Case::of(Operation::Render).words(words);
    rings.iter().map(render).collect()
}

/// Texts and blocks about the limits, which are long.
fn of_limits() -> Vec<Case> {
    let mut random = Random::new(SEEDS);
    let mut texts: Vec<Vec<u8>> = long_texts().into_iter().map(|(_, text)| text).collect();
    texts.extend((0..6).map(|over| near_a_limit(&mut random, over % 2)));
    texts.push(vec![b'\n'; TEXT_BYTES + 1]);
    let texts = texts
        .iter()
        .map(|text| Case::of(Operation::Read).bytes(text));
    let blocks = large().into_iter().map(|(_, block)| block.to_words());
    let render = blocks.map(|words| Case::of(Operation::Render).words(&words));
    texts.chain(render).collect()
}

fn of_texts(random: &mut Random) -> Vec<Case> {
    let (legal, block) = text(random, Size::SMALL);
    let strange = strange_never(random, &legal, &block);
    let spoiled = spoiled(random, &legal);
    let place = random.below(legal.len() + 1);
    let line = Case::of(Operation::Line).number(place).bytes(&legal);
    let read = |text: &Vec<u8>| Case::of(Operation::Read).bytes(text);
    let texts = [legal, strange, spoiled];
    texts.iter().map(read).chain([line]).collect()
}

fn of_words(random: &mut Random, block: &Block) -> Vec<Case> {
    let mut lists = vec![block.to_words(), block.without_nevers().to_old_words()];
    lists.extend(
        malformed(random, block)
            .into_iter()
            .map(|(_, words)| words)
            .take(2),
    );
    let straight = copied(block);
    if straight.gates.len() <= GATES / 16 {
        lists.push(straight.to_words());
    }
    let each = |words: &Vec<u16>| ON_WORDS.map(|operation| Case::of(operation).words(words));
    lists.iter().flat_map(each).collect()
}

fn of_settings(random: &mut Random, block: &Block) -> Vec<Case> {
    let (words, n) = (block.to_words(), block.inputs.len());
    let setting: Vec<u8> = (0..n).map(|_| random.below(3) as u8).collect();
    let values = [Operation::Settle, Operation::Pass];
    let values = values.map(|operation| Case::of(operation).measured(&words).bytes(&setting));
    let masks = (0..8).flat_map(|_| {
        let fixed = random.below(1 << n) as u16;
        [fixed, fixed & random.below(1 << 16) as u16]
    });
    let masks: Vec<u16> = masks.collect();
    let sheet = Case::of(Operation::Sheet).measured(&words).words(&masks);
    values.into_iter().chain([sheet]).collect()
}

/// Compare, CompareCells and Run on what the passes make of a block, and on others.
fn of_renderings(random: &mut Random, block: &Block) -> Vec<Case> {
    let (words, n, straight) = (block.to_words(), block.inputs.len(), copied(block));
    if straight.gates.len() > GATES / 16 {
        return Vec::new();
    }
    let cells = simulator::cells(&straight.to_words(), usize::MAX).1;
    let foreign = foreign_cells(random, n, 6);
    let mut others = vec![straight.clone()];
    others.extend(mutant(random, &straight, Change::Operand));
    others.extend(stranger(random, &straight));
    let compare = Case::of(Operation::Compare);
    let compare = compare.measured(&words).0;
    let pairs = others
        .iter()
        .map(|other| Case(compare.clone()).words(&other.to_words()));
    let mut cases: Vec<Case> = pairs.collect();
    for cells in [cells, foreign] {
        let setting = cell_setting(random, n);
        let run = Case::of(Operation::Run).number(n);
        cases.push(run.measured(&cells).bytes(&setting));
        let table = Case::of(Operation::CompareCells).measured(&words);
        cases.push(table.measured(&cells).words(&list_of(&straight)));
    }
    cases
}

fn of_lists(random: &mut Random, block: &Block) -> Vec<Case> {
    let (words, m) = (block.to_words(), block.gates.len());
    let mut lists = vec![order(random, m)];
    lists.extend(
        bad_orders(random, m)
            .into_iter()
            .map(|(_, list)| list)
            .take(2),
    );
    let scatter = |list: &Vec<u16>| Case::of(Operation::Scatter).measured(&words).words(list);
    lists.iter().map(scatter).collect()
}
