//! The library keeps no state: many threads at once are given the answers that one is given, and what was compiled has no variables.

use simulator::executed::library_folder;
use simulator::generate::{for_blocks, for_texts, for_typical_blocks, Size};
use simulator::limits::{BLOCK_WORDS, CELL_WORDS, COVER_WORDS, GATES, WRITTEN_BYTES};
use std::process::Command;
use std::thread;
use unloop::raw::{self, Record, Reply};

const THREADS: usize = 8;

/// The reply and the whole slice that was lent for the result.
type Told = (Reply, Vec<u16>);

fn lent<T: Copy + Default + Into<u16>>(room: usize, run: impl FnOnce(&mut [T]) -> Reply) -> Told {
    let mut result = vec![T::default(); room];
    let reply = run(&mut result);
    (reply, result.into_iter().map(T::into).collect())
}

/// A setting of ones for words that may be a block's.
fn ones(words: &[u16]) -> Vec<u8> {
    vec![1; words.first().map_or(0, |&inputs| inputs.into())]
}

/// The operations that need nothing but the words, which are a block's or not.
fn of_words(words: &[u16]) -> Vec<Told> {
    let setting = ones(words);
    let masks = |fixed| Record {
        fixed,
        ..Record::default()
    };
    let mut records = [0, 1, 2, 3].map(masks);
    let sheet = raw::sheet(words, &mut records);
    let filled = |record: &Record| [record.number, record.defined, record.values];
    vec![
        lent(WRITTEN_BYTES, |room: &mut [u8]| raw::write(words, room)),
        lent(GATES, |room: &mut [u8]| raw::settle(words, &setting, room)),
        lent(GATES, |room: &mut [u8]| raw::pass(words, &setting, room)),
        (sheet, records.iter().flat_map(filled).collect()),
        (raw::verdict(words), Vec::new()),
        lent(COVER_WORDS, |room| raw::cover(words, room)),
        lent(GATES, |room| raw::groups(words, room)),
        lent(BLOCK_WORDS, |room| raw::bring(words, room)),
    ]
}

/// Render, and Compare, Cells, Run and CompareCells on what it made.
fn of_rendering(words: &[u16]) -> Vec<Told> {
    let setting = ones(words);
    let rendered = lent(BLOCK_WORDS, |room| raw::render(words, room));
    let theirs = &rendered.1[..rendered.0.count];
    let compared = (raw::compare(words, theirs), Vec::new());
    let cells = lent(CELL_WORDS * GATES, |room| raw::cells(theirs, room));
    let made = &cells.1[..cells.0.count];
    let run = |room: &mut [u8]| raw::run(setting.len(), made, &setting, room);
    let run = lent(GATES, run);
    let outputs = words.get(2).map_or(0, |&outputs| outputs.into());
    let table = (
        raw::compare_cells(words, made, &vec![0; outputs]),
        Vec::new(),
    );
    vec![rendered, compared, cells, run, table]
}

/// Gather, and Scatter on what it made.
fn of_order(words: &[u16]) -> Vec<Told> {
    let mut order = vec![0; GATES];
    let gathered = lent(BLOCK_WORDS, |room| raw::gather(words, room, &mut order));
    let (reply, block) = (gathered.0, &gathered.1[..gathered.0.count]);
    let gates = block.get(1).map_or(0, |&gates| gates.into());
    let scattered = lent(BLOCK_WORDS, |room| {
        raw::scatter(block, &order[..gates], room)
    });
    vec![gathered, (reply, order), scattered]
}

/// The answers of Read, and the line in the middle.
fn of_text(text: &[u8]) -> (Told, (usize, usize)) {
    let read = lent(BLOCK_WORDS, |room| raw::read(text, room));
    (read, raw::line(text, text.len() / 2))
}

/// Each thread takes the inputs from another one on, so that different operations run at the same time.
fn same_on_many_threads<T: Sync, A: PartialEq + Sync>(
    inputs: &[T],
    answers: impl Fn(&T) -> A + Sync,
) {
    let alone: Vec<A> = inputs.iter().map(&answers).collect();
    let together = |first: usize| {
        for number in (first..first + inputs.len()).map(|number| number % inputs.len()) {
            assert!(answers(&inputs[number]) == alone[number], "input {number}");
        }
    };
    let together = &together;
    thread::scope(|scope| {
        for thread in 0..THREADS {
            scope.spawn(move || together(thread * inputs.len() / THREADS));
        }
    });
}

#[test]
fn blocks() {
    let mut inputs = Vec::new();
    for_blocks(0..150, Size::SMALL, |_, block, words| {
        inputs.push(words.to_vec());
        inputs.push(block.to_old_words());
    });
    for_typical_blocks(0..10, |_, _, words| inputs.push(words.to_vec()));
    same_on_many_threads(&inputs, |words| {
        [of_words(words), of_rendering(words), of_order(words)]
    });
}

#[test]
fn texts() {
    let mut inputs = Vec::new();
    for_texts(0..150, Size::SMALL, |_, text, _| inputs.push(text.to_vec()));
    same_on_many_threads(&inputs, |text| of_text(text));
}

/// Nothing that was compiled can be written: there is neither data nor room for it.
#[test]
fn no_variables() {
    let library = library_folder().join("libexports.a");
    let told = Command::new("size").arg(&library).output();
    let told = told.expect("size, of the binutils").stdout;
    let told = String::from_utf8(told).unwrap();
    let objects: Vec<Vec<&str>> = told
        .lines()
        .skip(1)
        .map(|line| line.split_whitespace().collect())
        .collect();
    assert!(!objects.is_empty());
    for object in objects {
        assert_eq!(object[1..3], ["0", "0"], "{told}");
    }
}
