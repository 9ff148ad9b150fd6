//! Each operation of the proved library runs on the largest blocks and texts in a thread that has the stack which include/unloop.h tells, and
//! no more. A stack that is too small ends the whole test program.

use simulator::block::Block;
use simulator::generate::{foreign_cells, large, long_texts, widest_cover, Random};
use simulator::limits::{BLOCK_WORDS, CELL_WORDS, COVER_WORDS, GATES, INPUTS, WRITTEN_BYTES};
use std::collections::{BTreeMap, BTreeSet};
use std::thread::Builder;
use unloop::raw::{self, Record};

const HEADER: &str = include_str!("../../include/unloop.h");

/// The stack that the header tells of each function, in bytes, by the operation's name.
fn told() -> BTreeMap<&'static str, usize> {
    let (_, declared) = HEADER.split_once("extern \"C\" {").unwrap();
    let function = |part: &'static str| {
        let (comment, declaration) = part.split_once("*/")?;
        let (_, name) = declaration.split_once(" unloop_")?;
        let (name, _) = name.split_once('(')?;
        let (_, stack) = comment.rsplit_once("Stack: ").expect(name);
        let kibibytes = stack.strip_suffix(" KiB. ").expect(name).parse::<usize>();
        Some((name, 1_024 * kibibytes.expect(name)))
    };
    let ends = declared.split("/* ").skip(1);
    ends.filter_map(function).collect()
}

/// A round in which the operations of one stack run in it, the others where they are called.
struct Round {
    told: BTreeMap<&'static str, usize>,
    stack: usize,
    /// Those that ran in their stack, in this round and before.
    run: BTreeSet<&'static str>,
}

impl Round {
    /// Runs an operation.
    fn run(&mut self, name: &'static str, run: impl FnOnce() + Send) {
        if self.told[name] != self.stack {
            return run();
        }
        std::thread::scope(|scope| {
            let thread = Builder::new().stack_size(self.stack);
            thread.spawn_scoped(scope, run).unwrap().join().unwrap();
        });
        self.run.insert(name);
    }

    fn decide(&mut self, words: &[u16]) {
        let mut entries = vec![0; COVER_WORDS];
        let mut numbers = vec![0; GATES];
        let mut rendered = vec![0; BLOCK_WORDS];
        let mut told = 0;
        self.run("verdict", || assert_eq!(raw::verdict(words).number, 0));
        self.run("cover", || {
            assert_eq!(raw::cover(words, &mut entries).number, 0)
        });
        self.run("groups", || {
            assert_eq!(raw::groups(words, &mut numbers).number, 0)
        });
        self.run("render", || told = raw::render(words, &mut rendered).count);
        let rendered = &rendered[..told];
        self.run("compare", || {
            assert_ne!(raw::compare(words, words).number, 6)
        });
        self.run("compare", || {
            let told = raw::compare(words, rendered);
            assert_eq!(told.number, if rendered.is_empty() { 6 } else { 0 });
        });
    }

    fn settle(&mut self, words: &[u16]) {
        let setting = vec![1; words[0].into()];
        let mut values = vec![0; GATES];
        let all = Record {
            fixed: (1 << words[0]) - 1,
            ..Record::default()
        };
        let mut records = [all; 40];
        self.run("settle", || {
            assert_eq!(raw::settle(words, &setting, &mut values).number, 0)
        });
        self.run("pass", || {
            assert_ne!(raw::pass(words, &setting, &mut values).number, 6)
        });
        self.run("sheet", || {
            assert_eq!(raw::sheet(words, &mut records).count, 40)
        });
        assert!(records.iter().all(|record| record.number == 0));
    }

    fn cells(&mut self, words: &[u16]) {
        let mut made = vec![0; CELL_WORDS * GATES];
        let mut values = vec![0; GATES];
        self.run("cells", || {
            assert_ne!(raw::cells(words, &mut made).number, 6)
        });
        let foreign = foreign_cells(&mut Random::new(0), INPUTS, GATES);
        let list = vec![0; words[2].into()];
        self.run("compare_cells", || {
            let told = raw::compare_cells(words, &foreign, &list);
            let fewer = words[0] < INPUTS as u16;
            assert!(told.number == 0 || fewer, "{told:?}");
        });
        self.run("run", || {
            let told = raw::run(INPUTS, &foreign, &[1; INPUTS], &mut values);
            assert_eq!((told.number, told.count), (0, GATES));
        });
    }

    fn rearrange(&mut self, words: &[u16], old: &[u16]) {
        let mut gathered = vec![0; BLOCK_WORDS];
        let mut order = vec![0; GATES];
        let mut original = vec![0; BLOCK_WORDS];
        self.run("gather", || {
            let told = raw::gather(words, &mut gathered, &mut order);
            assert_eq!((told.number, told.count), (0, words.len()));
        });
        let (gathered, order) = (&gathered[..words.len()], &order[..words[1].into()]);
        self.run("scatter", || {
            let told = raw::scatter(gathered, order, &mut original);
            assert_eq!((told.number, told.count), (0, words.len()));
        });
        assert_eq!(original[..words.len()], *words);
        self.run("bring", || _ = raw::bring(old, &mut original));
    }

    fn texts(&mut self, words: &[u16]) {
        let mut text = vec![0; WRITTEN_BYTES];
        self.run("write", || {
            assert_eq!(raw::write(words, &mut text).number, 0)
        });
        for (_, text) in long_texts() {
            let mut block = vec![0; BLOCK_WORDS];
            self.run("read", || _ = raw::read(&text, &mut block));
            self.run("line", || _ = raw::line(&text, text.len()));
        }
    }
}

/// By ascending stacks: a thread may be given the stack of one that has ended, and so none that is larger than its own.
#[test]
fn each_operation_needs_no_more_than_the_header_tells() {
    let told = told();
    let mut round = Round {
        told: told.clone(),
        stack: 0,
        run: BTreeSet::new(),
    };
    let blocks = large().into_iter().map(|(_, block)| block);
    let blocks: Vec<Block> = blocks.chain([widest_cover()]).collect();
    for stack in told.values().copied().collect::<BTreeSet<usize>>() {
        round.stack = stack;
        for block in &blocks {
            let words = block.to_words();
            round.decide(&words);
            round.settle(&words);
            round.cells(&words);
            round.rearrange(&words, &block.to_old_words());
            round.texts(&words);
        }
    }
    assert!(told.keys().eq(&round.run), "{:?}", round.run);
}
