//! Sheet, the library's against the simulator's, and against one call of Settle after another.

use super::tally::{count, count_answer, Operation};
use crate::generate::{for_blocks, malformed, Random, Report, Size};
use crate::limits::{GATES, INPUTS};
use crate::values::UNDEFINED;
use crate::Answer;
use std::ops::Range;
use unloop::raw::{self, Record};

/// A record that no call may touch.
pub const GUARD: Record = Record {
    fixed: 0xa5a5,
    ones: 0x5a5a,
    number: 0xffff,
    defined: 0x1234,
    values: 0x4321,
};
const MARGIN: usize = 4;

/// The call on records between guards: its answer, and the records.
fn lent(words: &[u16], records: &[Record]) -> (Answer, Vec<Record>) {
    let mut held = vec![GUARD; MARGIN];
    held.extend(records);
    held.extend([GUARD; MARGIN]);
    let told = raw::sheet(words, &mut held[MARGIN..MARGIN + records.len()]);
    let left = held.split_off(MARGIN);
    let (left, behind) = left.split_at(records.len());
    assert_eq!(held, [GUARD; MARGIN], "before the sheet");
    assert_eq!(behind, [GUARD; MARGIN], "behind the sheet");
    (told.into(), left.to_vec())
}

/// Compares Sheet on some records, and each record with a call of Settle.
pub fn compare_sheet(words: &[u16], records: &[Record]) {
    let _report = Report(|| format!("a sheet of {}: {records:?}", records.len()));
    let (told, left) = lent(words, records);
    assert_eq!((told, left.clone()), crate::sheet(words, records));
    count(|tally| tally.records += records.len());
    count_answer(Operation::Sheet, told.number);
    if told.number == 0 {
        for (&asked, &record) in records.iter().zip(&left) {
            assert_eq!(record, one_call(words, asked));
        }
    }
}

/// The record by a call of Settle, read off the stored words of the outputs.
fn one_call(words: &[u16], asked: Record) -> Record {
    let [n, m, k, l] = [0, 1, 2, 3].map(|place| usize::from(words[place]));
    let fixes = |input: usize| asked.fixed >> input & 1 == 1;
    let is_one = |input: usize| asked.ones >> input & 1 == 1;
    // What stands for no setting is a setting that Settle refuses.
    let above = (n..16).any(|input| fixes(input) || is_one(input));
    let byte = |input: usize| match (fixes(input), is_one(input)) {
        (true, one) => u8::from(one),
        (false, true) => 3,
        (false, false) => UNDEFINED,
    };
    let setting: Vec<u8> = (0..n + usize::from(above)).map(byte).collect();
    let mut values = [9; GATES];
    let told = raw::settle(words, &setting, &mut values);
    let mut record = Record {
        number: told.number as u16,
        defined: 0,
        values: 0,
        ..asked
    };
    for output in (0..k).filter(|_| told.number == 0) {
        let node = usize::from(words[4 + 4 * n + 2 * l + 5 * m + 5 * output + 4]);
        let value = if node < n {
            setting[node]
        } else {
            values[node - n]
        };
        record.defined |= u16::from(value < UNDEFINED) << output;
        record.values |= u16::from(value == 1) << output;
    }
    record
}

/// A record with something in its answer; its masks are mostly legal for n inputs.
fn asked(random: &mut Random, n: usize) -> Record {
    let any = |random: &mut Random| random.below(65_536) as u16;
    let legal = ((1_u32 << n.min(16)) - 1) as u16;
    let (mut fixed, mut ones) = (any(random) & legal, any(random));
    match random.below(8) {
        0 => fixed = any(random),
        1 => ones &= legal,
        2 => fixed = legal,
        _ => {}
    }
    if !random.chance(8) {
        ones &= fixed;
    }
    Record {
        fixed,
        ones,
        number: any(random),
        defined: any(random),
        values: any(random),
    }
}

/// Compares Sheet on generated records, so many at a time.
pub fn compare_sizes(random: &mut Random, words: &[u16], sizes: &[usize]) {
    let n = words.first().map_or(0, |&n| usize::from(n).min(INPUTS));
    for &size in sizes {
        let records: Vec<Record> = (0..size).map(|_| asked(random, n)).collect();
        compare_sheet(words, &records);
    }
}

/// Sheets of blocks.
pub fn blocks(seeds: Range<u64>, size: Size, records: &[usize]) {
    for_blocks(seeds, size, |random, _, words| {
        compare_sizes(random, words, records);
    });
}

/// Sheets of words that break each rule of the stored block; gives how many there were.
pub fn malformed_words(seeds: Range<u64>) -> usize {
    let mut torn = 0;
    for_blocks(seeds, Size::SMALL, |random, block, _| {
        for (rule, words) in malformed(random, block) {
            let _report = Report(|| format!("{rule}, {words:?}"));
            compare_sizes(random, &words, &[0, 1, 40]);
            torn += 1;
        }
    });
    torn
}
