//! Sheets: the proved function against the simulator, and against one call of Settle after another.

use simulator::compare::sheet::{blocks, compare_sheet, compare_sizes, malformed_words, GUARD};
use simulator::generate::{for_blocks, for_typical_blocks, large, Random, Report, Size};
use unloop::raw::Record;

#[test]
fn generated_blocks() {
    blocks(0..4_000, Size::SMALL, &[0, 1, 40]);
    blocks(5_000..5_040, Size::MIDDLE, &[40]);
}

#[test]
fn typical_blocks() {
    for_typical_blocks(0..40, |random, _, words| {
        compare_sizes(random, words, &[0, 1, 40]);
    });
}

#[test]
fn long_sheets() {
    blocks(9_000..9_020, Size::SMALL, &[4_096]);
}

#[test]
fn largest_blocks() {
    for (name, block) in large() {
        let _report = Report(|| name.to_string());
        compare_sizes(&mut Random::new(1), &block.to_words(), &[3]);
    }
}

#[test]
fn torn_words_change_no_record() {
    assert!(malformed_words(0..200) > 1_000);
}

#[test]
fn every_setting_of_a_block() {
    for_blocks(0..200, Size::SMALL, |_, _, words| {
        let n = usize::from(words[0]).min(5);
        let masks = || 0..1_u16 << n;
        let asked = |(fixed, ones)| Record {
            fixed,
            ones,
            ..GUARD
        };
        let pairs = masks().flat_map(|fixed| masks().map(move |ones| (fixed, ones)));
        compare_sheet(words, &pairs.map(asked).collect::<Vec<Record>>());
    });
}
