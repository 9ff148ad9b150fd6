//! CompareCells on the cells of renderings, right ones, changed ones and strange ones, against the simulator's brute force.

use simulator::answer::Answer;
use simulator::block::Block;
use simulator::compare::cells::{compare_table, compare_tables, list_of, tables, Changed};
use simulator::compare::foreign::ACCEPTED;
use simulator::compare::tally::{answered_often, print_compared};
use simulator::generate::{
    for_blocks, for_typical_blocks, foreign_cells, large, malformed, Random, Size,
};
use simulator::limits::{CELL_WORDS, GATES, INPUTS};
use simulator::render::{copied, render};
use simulator::specimens::words_of;
use simulator::{cells, compared_cells};
use unloop::{Cells, Disagreement, Refusal};

fn refusal(number: usize) -> Answer {
    Answer::refusal(number, 0)
}

#[test]
fn tables_of_small_blocks() {
    let Changed { caught, equal } = tables(0..6_000, Size::SMALL);
    println!("{caught} caught, {equal} equal under every setting that counts");
    assert!(caught > 1_000 && equal > 1_000, "{caught} {equal}");
    answered_often(&[0, 6, 12], 5_000);
}

#[test]
fn tables_of_middle_and_typical_blocks() {
    let mut changed = tables(0..60, Size::MIDDLE);
    for_typical_blocks(0..60, |random, block, words| {
        compare_tables(random, block, words, &mut changed);
    });
    assert!(changed.caught > 20, "{changed:?}");
    print_compared();
}

/// Whatever the simulator's Cells makes of what its Render makes of a block is accepted, with the rendering's own nodes.
#[test]
fn made_cells_are_accepted() {
    let mut rendered = 0;
    for_blocks(0..4_000, Size::SMALL, |_, _, words| {
        let (told, rendering) = render(words, usize::MAX);
        if told.number == 0 {
            rendered += 1;
            let made = cells(&rendering, usize::MAX).1;
            let list = list_of(&Block::from_words(&rendering));
            assert_eq!(compare_table(words, &made, &list), ACCEPTED);
        }
    });
    assert!(rendered > 1_000, "{rendered}");
}

/// The largest blocks with the cells of what the passes make of them, and the most cells and inputs with cells of other origin.
#[test]
fn largest_tables() {
    let mut random = Random::new(2);
    for (_, block) in large() {
        let (words, n) = (block.to_words(), block.inputs.len());
        let straight = copied(&block);
        if straight.gates.len() <= GATES {
            let made = cells(&straight.to_words(), usize::MAX).1;
            assert_eq!(compare_table(&words, &made, &list_of(&straight)), ACCEPTED);
        }
        let foreign = foreign_cells(&mut random, n, GATES);
        let nodes = block.outputs.iter().map(|_| random.below(n + GATES) as u16);
        compare_table(&words, &foreign, &nodes.collect::<Vec<u16>>());
        let more = foreign_cells(&mut random, n, GATES + 1);
        assert_eq!(compare_table(&words, &more, &[]), refusal(6));
    }
    print_compared();
}

/// A disagreement under the last setting alone, and at the last output: the only one is found, and the lowest of several.
#[test]
fn lowest_disagreement() {
    let names: String = (0..INPUTS).map(|i| format!("(in i{i})\n")).collect();
    let words = words_of(&format!("{names}(out y i0)\n(out z i1)\n"));
    let mut all = Vec::new();
    for first in (0..INPUTS as u16).step_by(4) {
        all.extend([first, first + 1, first + 2, first + 3, 0x8000]);
    }
    let last = INPUTS as u16 + 3;
    all.extend([last - 3, last - 2, last - 1, 65_535, 0x8000]);
    // Output z is the cell that is input 1, but inverted under the last setting.
    all.extend([1, last, 65_534, 65_534, 0x6666]);
    let lowest = |list: &[u16]| compare_table(&words, &all, list);
    let at = |count, detail| Answer {
        number: 0,
        count,
        detail,
    };
    assert_eq!(lowest(&[0, 1]), ACCEPTED);
    assert_eq!(lowest(&[0, last + 1]), at(2, (1 << INPUTS) - 1));
    assert_eq!(lowest(&[1, last + 1]), at(1, 1));
    assert_eq!(lowest(&[0, 0]), at(2, 1));
}

/// 6 of the block, 6 of the cells, 12, 6 of a word of the list: the first that holds.
#[test]
fn refusals_in_order() {
    for_blocks(0..1_000, Size::SMALL, |random, block, words| {
        let (n, k) = (block.inputs.len(), block.outputs.len());
        let legal = foreign_cells(random, n, 2);
        let bad_list = vec![(n + 2) as u16; k + 1];
        for (_, torn) in malformed(random, block).into_iter().take(2) {
            assert_eq!(compare_table(&torn, &legal[1..], &bad_list), refusal(6));
        }
        assert_eq!(compare_table(words, &legal[1..], &bad_list), refusal(6));
        assert_eq!(compare_table(words, &legal, &bad_list), refusal(12));
        let bad_word = compare_table(words, &legal, &bad_list[1..]);
        assert_eq!(bad_word.number, if k == 0 { 0 } else { 6 });
    });
    answered_often(&[6, 12], 1_000);
}

/// The Rust package tells what the simulator tells, and takes no cells over another number of inputs.
#[test]
fn package() {
    for_blocks(0..2_000, Size::SMALL, |random, block, words| {
        let n = block.inputs.len();
        let ours = unloop::Block::from_words(words).unwrap();
        let made = foreign_cells(random, n, 6);
        let theirs = Cells::from_words(n, &made[..]).unwrap();
        let nodes = (0..block.outputs.len()).map(|_| random.below(n + 7));
        let nodes: Vec<usize> = nodes.collect();
        let list: Vec<u16> = nodes.iter().map(|&node| node as u16).collect();
        let expected = match compared_cells(words, &made, &list) {
            told if told.number != 0 => Err(Refusal::MalformedBlock),
            told => Ok(told.count.checked_sub(1).map(|output| Disagreement {
                setting: told.detail,
                output,
            })),
        };
        assert_eq!(ours.compare_cells(&theirs, &nodes), expected);
        let beyond = vec![65_536; block.outputs.len()];
        if !beyond.is_empty() {
            let told = ours.compare_cells(&theirs, &beyond);
            assert_eq!(told, Err(Refusal::MalformedBlock));
        }
        let wider = Cells::from_words(n + 1, []);
        if let Ok(wider) = wider {
            let told = ours.compare_cells(&wider, &nodes);
            assert_eq!(told, Err(Refusal::InterfaceMismatch));
        }
    });
}

/// SPECIFICATION 9.18: the cells, the list, and the answer.
#[test]
fn specimens() {
    const INVERTER: [u16; CELL_WORDS] = [1, 65_534, 65_534, 65_534, 21_845];
    let looped = "(in a)\n(in b)\n(gate p (and a q))\n(gate q (or b p))\n(out y q)\n(out z p)\n";
    let words = words_of(looped);
    let back = [INVERTER, [2, 2, 65_534, 65_534, 21_845]].concat();
    let expected: [(&[u16], &[u16], [usize; 3]); 10] = [
        (&[], &[1, 0], [0, 0, 0]),
        (&back, &[3, 0], [0, 0, 0]),
        (&[], &[0, 1], [0, 1, 2]),
        (&[], &[1, 1], [0, 2, 2]),
        (&INVERTER, &[2, 0], [0, 1, 0]),
        (&[1, 0, 0, 0], &[], [6, 0, 0]),
        (&[2, 0, 0, 0, 0], &[1, 0], [6, 0, 0]),
        (&[], &[2], [12, 0, 0]),
        (&[], &[1, 2], [6, 0, 0]),
        (&INVERTER, &[2, 65_534], [6, 0, 0]),
    ];
    for (cells, list, answer) in expected {
        let told = compare_table(&words, cells, list);
        assert_eq!([told.number, told.count, told.detail], answer);
    }
    assert_eq!(compare_table(&[], &[], &[]), refusal(6));
}
