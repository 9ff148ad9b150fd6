//! Forty settings of a block in one call, as the catalogue page asks for them.

use crate::inputs::{blocks, Set};
use unloop::raw::Record;

/// The settings of a page.
pub const SETTINGS: usize = 40;

/// A block and the records of a page.
pub type Page = (Vec<u16>, Vec<Record>);

/// Pages of the typical blocks, and of one of the largest for each name.
pub fn pages(largest: &[&str]) -> Vec<Set<Page>> {
    let page = |words: Vec<u16>| {
        let records = asked(usize::from(words[0]), SETTINGS);
        (words, records)
    };
    let set = |(name, words): Set<Vec<u16>>| (name, words.into_iter().map(page).collect());
    blocks(largest).into_iter().map(set).collect()
}

/// So many settings of n inputs, the first ones fixed or all.
pub fn asked(n: usize, count: usize) -> Vec<Record> {
    let all = (1_usize << n) - 1;
    let record = |number: usize| {
        let fixed = if number.is_multiple_of(4) {
            all >> 1
        } else {
            all
        };
        Record {
            fixed: fixed as u16,
            ones: ((number * 0x9e5) & fixed) as u16,
            ..Record::default()
        }
    };
    (0..count).map(record).collect()
}
