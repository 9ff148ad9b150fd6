//! The plain program answers as the proved library does, on the largest blocks, the longest texts and whatever is measured.

use perf::inputs::{self, named, Set};
use perf::measure::Operation;
use perf::operations::*;
use perf::{growth, sheets};
use simulator::generate::{large, long_texts, Report};
use simulator::limits::INPUTS;
use std::fmt::Debug;

/// Where there is room for all, and in slices exactly long enough, one short and empty.
fn same<I, T: Copy + PartialEq + Debug>(operation: Operation<I, T>, input: &I) {
    let in_room = |room: usize| {
        let [proved, other] = [operation.library, operation.plain].map(|run| {
            let mut lent = vec![operation.filler; room];
            (run(input, &mut lent), lent)
        });
        assert!(
            proved == other,
            "{} in a slice of {room}: {:?}, {:?}",
            operation.name,
            proved.0,
            other.0
        );
        proved.1
    };
    let result = in_room(operation.room);
    // What is still filled at the end is taken for the rest.
    let exact = result
        .iter()
        .rposition(|&element| element != operation.filler);
    let exact = exact.map_or(0, |last| last + 1);
    for room in [exact, exact.saturating_sub(1), 0] {
        in_room(room);
    }
}

fn same_block(words: &Vec<u16>) {
    same(VERDICT, words);
    same(COVER, words);
    same(GROUPS, words);
    same(RENDER, words);
    same(WRITE, words);
    same(CELLS, words);
}

#[test]
fn largest_blocks() {
    for (name, block) in large() {
        let _report = Report(|| name.to_string());
        let words = block.to_words();
        same_block(&words);
        for value in 0..3 {
            let under = (words.clone(), vec![value; INPUTS]);
            same(SETTLE, &under);
            same(PASS, &under);
        }
    }
}

#[test]
fn measured_blocks() {
    same_block(&named("two-way-row").to_words());
    for words in growth::blocks::all() {
        let _report = Report(|| format!("{} inputs, {} gates", words[0], words[1]));
        same_block(&words);
    }
}

#[test]
fn longest_texts() {
    for (_, text) in long_texts() {
        let too_long = [&text[..], &[b'\n'; 1_000]].concat();
        let cut = text[..text.len() - 1].to_vec();
        for text in [text[1..].to_vec(), cut, too_long, text] {
            same(READ, &text);
        }
    }
}

/// What is measured as a success is none where the library refuses it.
fn taken<I, T: Copy + PartialEq + Debug>(operation: Operation<I, T>, sets: Vec<Set<I>>) {
    for (name, inputs) in sets {
        assert!(!inputs.is_empty(), "{}/{name}", operation.name);
        for input in inputs {
            let mut lent = vec![operation.filler; operation.room];
            let told = (operation.library)(&input, &mut lent);
            assert_eq!(told.number, 0, "{}/{name}", operation.name);
        }
    }
}

#[test]
fn what_is_measured_is_not_refused() {
    taken(BRING, inputs::old_blocks(&["longest-before"]));
    taken(PASS, inputs::straight_settings(&["straight-chain"]));
    taken(CELLS, inputs::straight(&["straight-chain"]));
    taken(RUN, inputs::cells(&["straight-chain"]));
    taken(COMPARE, inputs::with_renderings(&["ring-of-1024"]));
    taken(COMPARE_CELLS, inputs::with_cells(&["straight-fours"]));
    taken(SCATTER, inputs::gathered(&["shuffled-ring"]));
    taken(SHEET, sheets::pages(&["ring-of-1024"]));
}
