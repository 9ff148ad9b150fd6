//! Gather and Scatter of the library against the simulator's; see what was compared with
//! cargo test --release --test gather -- --nocapture.

use simulator::compare::gather::*;
use simulator::compare::tally::{answered_often, print_compared};
use simulator::generate::{
    bad_orders, for_blocks, for_typical_blocks, large, order, Random, Report, Size,
};
use simulator::limits::{INPUTS, NEVERS};
use simulator::specimens::*;
use simulator::{gather, scatter};
use unloop::{Block, Refusal};

#[test]
fn generated_blocks() {
    let wide = Size {
        inputs: INPUTS,
        nevers: NEVERS,
        gates: 40,
        outputs: 4,
    };
    blocks(0..20_000, Size::SMALL);
    blocks(20_000..20_200, wide);
    blocks(30_000..30_012, Size::LARGE);
    for_typical_blocks(0..60, compare_orders);
    answered_often(&[0, 11, 13], 50_000);
}

#[test]
fn largest_blocks() {
    let mut random = Random::new(0);
    for (name, block) in large() {
        let _report = Report(|| name.to_string());
        compare_orders(&mut random, &block, &block.to_words());
    }
    print_compared();
}

#[test]
fn malformed_blocks() {
    malformed_words(0..400);
    answered_often(&[6], 50_000);
    answered_often(&[0, 11], 100);
}

#[test]
fn specimens() {
    for text in [
        "",
        TWO_GATES,
        UNIQUE_SOLUTION,
        SELF_READER,
        SIX_GATES,
        PROGRAM_INPUT,
        PROGRAM_OUTPUT,
        NEVER_BOTH,
        NEVER_UNSETTLED,
        NEVER_ANY,
    ] {
        let _report = Report(|| text.to_string());
        let words = words_of(text);
        let block = simulator::block::Block::from_words(&words);
        compare_orders(&mut Random::new(0), &block, &words);
    }
    print_compared();
}

/// The Rust package's methods tell what the simulator tells.
#[test]
fn package() {
    for_blocks(0..400, Size::SMALL, |random, _, words| {
        let block = Block::from_words(words).unwrap();
        let (_, expected, list) = gather(words, usize::MAX, usize::MAX);
        let gathered = block.gather();
        assert_eq!(
            (gathered.block.words(), &gathered.order),
            (&expected[..], &list)
        );
        assert_eq!(gathered.block.scatter(&gathered.order), Ok(block.clone()));
        let list = order(random, block.gates());
        let expected = scatter(words, &list, usize::MAX).1;
        assert_eq!(block.scatter(&list).unwrap().words(), expected);
        for (_, list) in bad_orders(random, block.gates()) {
            assert_eq!(block.scatter(&list), Err(Refusal::NotAPermutation));
        }
    });
}
