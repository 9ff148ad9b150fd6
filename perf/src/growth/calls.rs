//! Calls of the library, and of the plain program where it goes through all settings, with what they need lent beforehand.

use crate::clock;
use crate::inputs::{cells_of, rendered, UnderSetting};
use crate::measure::Operation;
use crate::operations::*;
use crate::sheets::asked;
use simulator::block::Block;
use simulator::compare::cells::list_of;
use simulator::limits::BLOCK_WORDS;
use std::hint::black_box;
use unloop::raw::{self, Reply};

pub type Call = Box<dyn FnMut() -> Reply>;
type Named = (&'static str, Call);

/// So long is measured.
const ENOUGH: f64 = 0.03;

/// The best time of one call. Panics where it refuses.
pub fn seconds(name: &str, mut call: Call) -> f64 {
    let told = call();
    assert_eq!(told.number, 0, "{name}: {told:?}");
    let calls = clock::calls_in_a_stretch(&mut call);
    let (mut best, mut spent) = (f64::MAX, 0.0);
    while spent < ENOUGH {
        let took = clock::seconds_of_a_call(calls, &mut call);
        best = took.min(best);
        spent += took * calls as f64;
    }
    best
}

/// A call of the library on an input, with a slice lent for its result.
fn library<I: 'static, T: Copy + 'static>(operation: Operation<I, T>, input: I) -> Call {
    lent(operation.library, operation, input)
}

fn plain<I: 'static, T: Copy + 'static>(operation: Operation<I, T>, input: I) -> Call {
    lent(operation.plain, operation, input)
}

fn lent<I: 'static, T: Copy + 'static>(
    run: fn(&I, &mut [T]) -> Reply,
    operation: Operation<I, T>,
    input: I,
) -> Call {
    let mut result = vec![operation.filler; operation.room];
    Box::new(move || run(black_box(&input), black_box(&mut result)))
}

fn with_ones(words: Vec<u16>, inputs: u16) -> UnderSetting {
    (words, vec![1; usize::from(inputs)])
}

/// Every operation that takes any block.
pub fn on_block(block: &[u16]) -> Vec<Named> {
    let words = || block.to_vec();
    let turned = (0..block[1]).rev().collect();
    let old = Block::from_words(block).to_old_words();
    let mut calls = vec![
        ("bring", library(BRING, old)),
        ("settle", library(SETTLE, with_ones(words(), block[0]))),
        ("groups", library(GROUPS, words())),
        ("gather", library(GATHER, words())),
        ("scatter", library(SCATTER, (words(), turned))),
    ];
    calls.extend(through_settings(block));
    calls
}

/// Those that go through all settings.
fn through_settings(block: &[u16]) -> Vec<Named> {
    let words = || block.to_vec();
    vec![
        ("verdict", library(VERDICT, words())),
        ("cover", library(COVER, words())),
        ("render", library(RENDER, words())),
        ("compare", library(COMPARE, both(block))),
        ("compare-cells", library(COMPARE_CELLS, with_cells(block))),
    ]
}

/// A block and its rendering.
fn both(block: &[u16]) -> Two {
    let rendered = rendered(block).expect("rendered");
    (block.to_vec(), rendered)
}

/// A block, the cells of its rendering and the nodes that show its outputs.
fn with_cells(block: &[u16]) -> WithCells {
    let (block, rendered) = both(block);
    let shown = list_of(&Block::from_words(&rendered));
    (block, cells_of(&rendered), shown)
}

/// Those that take straight blocks only, or cells.
pub fn on_straight(block: &[u16]) -> Vec<Named> {
    let words = || block.to_vec();
    vec![
        ("pass", library(PASS, with_ones(words(), block[0]))),
        ("cells", library(CELLS, words())),
        ("run", library(RUN, with_ones(cells_of(block), block[0]))),
    ]
}

/// Those that go through all settings, and the plain program's.
pub fn on_settings(block: &[u16]) -> Vec<Named> {
    let words = || block.to_vec();
    let mut calls = through_settings(block);
    calls.extend([
        ("plain verdict", plain(VERDICT, words())),
        ("plain cover", plain(COVER, words())),
        ("plain render", plain(RENDER, words())),
        ("plain compare", plain(COMPARE, both(block))),
        (
            "plain compare-cells",
            plain(COMPARE_CELLS, with_cells(block)),
        ),
    ]);
    calls
}

/// The operation of this name on a text.
pub fn on_text(name: &str, text: Vec<u8>) -> Call {
    match name {
        "line" => {
            let last = text.len() - 1;
            library(LINE, (text, last))
        }
        "write" => {
            let mut block = vec![0; BLOCK_WORDS];
            let count = raw::read(&text, &mut block).count;
            block.truncate(count);
            library(WRITE, block)
        }
        _ => library(READ, text),
    }
}

/// A sheet of so many records, which are asked again each time: a call writes only the answers.
pub fn on_records(block: &[u16], records: usize) -> Vec<Named> {
    let block = block.to_vec();
    let mut records = asked(usize::from(block[0]), records);
    vec![(
        "sheet",
        Box::new(move || raw::sheet(black_box(&block), black_box(&mut records))),
    )]
}
