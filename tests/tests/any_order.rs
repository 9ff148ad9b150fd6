//! Paper 14, executed: sequences of single gate evaluations, partial and complete, against the library's Settle; see how many with
//! cargo test --release --test any_order -- --nocapture.

use simulator::any_order::{Evaluation, Order};
use simulator::block::Block;
use simulator::generate::{for_blocks, for_typical_blocks, large, Random, Report, Size};
use simulator::limits::{INPUTS, NEVERS};
use simulator::specimens::{words_of, TWO_GATES, UNIQUE_SOLUTION};
use simulator::values::UNDEFINED;
use unloop::raw;

/// What was met.
#[derive(Debug, Default)]
struct Met {
    /// By order.
    sequences: [usize; 8],
    evaluations: usize,
    /// Sequences at whose end nothing would change.
    ended: usize,
    /// Sequences at whose end some gate is undefined whose settled value isn't.
    unfinished: usize,
    /// Those among them at whose end just one gate's evaluation would change it.
    all_but_one: usize,
    /// Settings with an undefined input.
    partial: usize,
    /// Settings that a never line excludes.
    excluded: usize,
    /// Gates whose settled value is undefined.
    never_defined: usize,
}

/// The library's settled values.
fn settled(words: &[u16], setting: &[u8], gates: usize) -> Vec<u8> {
    let mut values = vec![9; gates];
    assert_eq!(raw::settle(words, setting, &mut values).number, 0);
    values
}

impl Met {
    /// A sequence of each order under one setting of 0, 1 and undefined.
    fn sequences(&mut self, random: &mut Random, block: &Block, words: &[u16]) {
        let partial = random.chance(50);
        let values = if partial { 3 } else { 2 };
        let inputs = block.inputs.iter();
        let setting: Vec<u8> = inputs.map(|_| random.below(values) as u8).collect();
        let _report = Report(|| format!("setting {setting:?}"));
        self.partial += usize::from(setting.contains(&UNDEFINED));
        self.excluded += usize::from(is_excluded(block, &setting));
        let settled = settled(words, &setting, block.gates.len());
        let undefined = settled.iter().filter(|&&value| value == UNDEFINED);
        self.never_defined += undefined.count();
        for (index, order) in Order::ALL.into_iter().enumerate() {
            let _report = Report(|| format!("{order:?}"));
            self.sequences[index] += 1;
            self.sequence(random, order, Evaluation::new(block, &setting), &settled);
        }
    }

    fn sequence(
        &mut self,
        random: &mut Random,
        order: Order,
        mut evaluation: Evaluation,
        settled: &[u8],
    ) {
        order.run(random, &mut evaluation, |evaluation, gate, before| {
            self.evaluations += 1;
            // No gate ever holds 0 or 1 unless that is its settled value; so none that holds one ever changes.
            let held = evaluation.values[gate];
            assert!(held == UNDEFINED || held == settled[gate], "gate {gate}");
            assert!(before == UNDEFINED || before == held, "gate {gate}");
        });
        let held = evaluation.values.iter().zip(settled);
        let mut held = held.map(|(&held, &settled)| held == UNDEFINED || held == settled);
        assert!(held.all(|fits| fits));
        let waiting = evaluation.waiting();
        assert!(waiting.is_empty() || !order.is_complete());
        // If at the end no gate's evaluation would change it, all hold their settled values.
        if waiting.is_empty() {
            self.ended += 1;
            assert_eq!(evaluation.values, settled);
        } else {
            self.unfinished += 1;
            assert_ne!(evaluation.values, settled);
            self.all_but_one += usize::from(waiting.len() == 1);
        }
    }

    fn print(&self, blocks: &str) {
        let all: usize = self.sequences.iter().sum();
        println!("{blocks}: {all} sequences, of {:?}, {self:?}", Order::ALL);
    }
}

/// A complete setting that agrees with a never line.
fn is_excluded(block: &Block, setting: &[u8]) -> bool {
    let bit = |(input, &value): (usize, &u8)| usize::from(value) << input;
    let number: usize = setting.iter().enumerate().map(bit).sum();
    !setting.contains(&UNDEFINED) && block.excluded_settings()[number]
}

#[test]
fn small_blocks() {
    let mut met = Met::default();
    for_blocks(0..12_000, Size::SMALL, |random, block, words| {
        met.sequences(random, block, words);
    });
    met.print("small blocks");
    assert!(met.sequences.iter().sum::<usize>() > 90_000);
    assert!(met.ended > 50_000 && met.unfinished > 10_000 && met.all_but_one > 1_000);
    assert!(met.partial > 3_000 && met.excluded > 500 && met.never_defined > 3_000);
}

#[test]
fn wide_and_long_blocks() {
    let wide = Size {
        inputs: INPUTS,
        nevers: NEVERS,
        gates: 60,
        outputs: 4,
    };
    let mut met = Met::default();
    for_blocks(20_000..20_400, wide, |random, block, words| {
        met.sequences(random, block, words);
    });
    for_typical_blocks(0..100, |random, block, words| {
        met.sequences(random, block, words);
    });
    met.print("wide and typical blocks");
    let mut met = Met::default();
    for_blocks(30_000..30_024, Size::LARGE, |random, block, words| {
        met.sequences(random, block, words);
    });
    met.print("large blocks");
}

#[test]
fn largest_blocks() {
    let mut met = Met::default();
    for (name, block) in large() {
        let _report = Report(|| name.to_string());
        met.sequences(&mut Random::new(0), &block, &block.to_words());
    }
    met.print("largest blocks");
    assert_eq!(met.sequences, [large().len(); 8]);
}

/// The two traps of document 01: from 0 instead of undefined the loop of specimen 4 looks settled, and specimen 5 has a value that nothing
/// would change, which isn't its settled one.
#[test]
fn from_other_values_than_undefined() {
    let words = words_of(TWO_GATES);
    let block = Block::from_words(&words);
    let mut evaluation = Evaluation::new(&block, &[1, 0]);
    assert!(evaluation.waiting().is_empty());
    assert_eq!(evaluation.values, settled(&words, &[1, 0], 2));
    evaluation.values = vec![0, 0];
    assert!(evaluation.waiting().is_empty());
    assert_ne!(evaluation.values, settled(&words, &[1, 0], 2));
    let words = words_of(UNIQUE_SOLUTION);
    let block = Block::from_words(&words);
    let mut evaluation = Evaluation::new(&block, &[]);
    assert_eq!(evaluation.values, settled(&words, &[], 2));
    evaluation.values = vec![0, 1];
    assert!(evaluation.waiting().is_empty());
}

/// A sequence worked by hand on specimen 9's loop with s = 1: p waits for q, q doesn't wait.
#[test]
fn worked_sequence() {
    let block = Block::from_words(&words_of("(in s)\n(gate p (and s q))\n(gate q (or s p))\n"));
    let mut evaluation = Evaluation::new(&block, &[1]);
    let mut held = vec![];
    for gate in [0, 0, 1, 1, 0] {
        evaluation.step(gate);
        held.push(evaluation.values.clone());
    }
    assert_eq!(held, [[2, 2], [2, 2], [2, 1], [2, 1], [1, 1]]);
    assert!(evaluation.waiting().is_empty());
}
