//! The fuzzer's cases, an operation and its slices in one list of bytes (tests/c/fuzz.c says how), compared with the simulator.

use super::cells::{compare_cells, compare_run, compare_table};
use super::gather::{compare_gathered, compare_scattered};
use super::sheet::compare_sheet;
use super::tally::Operation;
use super::{compare_block, compare_line, compare_pair, compare_text, compare_values};
use crate::generate::Random;
use unloop::raw::{self, Record};

/// The operations of the library, by the numbers that cases have for them.
pub const OPERATIONS: &[Operation] = Operation::ALL.split_at(Operation::Line as usize + 1).0;

/// What is left of a case.
struct Rest<'a>(&'a [u8]);

impl Rest<'_> {
    /// The next two bytes as a number, the lower first; a byte that is missing is 0.
    fn number(&mut self) -> u16 {
        let byte = |place: usize| self.0.get(place).map_or(0, |&byte| u16::from(byte));
        let number = byte(0) + 256 * byte(1);
        self.0 = &self.0[self.0.len().min(2)..];
        number
    }

    /// The next so many words, or all that are left.
    fn words(&mut self, most: usize) -> Vec<u16> {
        let count = most.min(self.0.len() / 2);
        (0..count).map(|_| self.number()).collect()
    }

    /// A slice that has its length before it.
    fn measured_words(&mut self) -> Vec<u16> {
        let length = self.number();
        self.words(length.into())
    }

    fn last_words(&mut self) -> Vec<u16> {
        self.words(usize::MAX)
    }
}

/// The operation of a case.
pub fn operation_of(case: &[u8]) -> Option<Operation> {
    let number = usize::from(*case.first()?);
    Some(OPERATIONS[number % OPERATIONS.len()])
}

/// Compares a case. Words are compared in every operation on a block, and so is what is read from a text.
pub fn compare_case(case: &[u8]) {
    let Some(operation) = operation_of(case) else {
        return;
    };
    let mut rest = Rest(&case[1..]);
    match operation {
        Operation::Read => compare_read_on(rest.0),
        Operation::Line => {
            let place = rest.number();
            compare_line(rest.0, place.into());
        }
        Operation::Settle | Operation::Pass => {
            let words = rest.measured_words();
            compare_values(&words, rest.0);
        }
        Operation::Sheet => {
            let words = rest.measured_words();
            compare_sheet(&words, &records(&rest.last_words()));
        }
        Operation::Compare => {
            let ours = rest.measured_words();
            compare_pair(&ours, &rest.last_words());
        }
        Operation::CompareCells => {
            let block = rest.measured_words();
            let cells = rest.measured_words();
            compare_table(&block, &cells, &rest.last_words());
        }
        Operation::Run => {
            let inputs = rest.number();
            let cells = rest.measured_words();
            compare_run(inputs.into(), &cells, rest.0);
        }
        Operation::Scatter => {
            let words = rest.measured_words();
            compare_scattered(&words, &rest.last_words());
        }
        Operation::Gather => compare_gathered(&rest.last_words()),
        Operation::Cells => compare_cells(&rest.last_words()),
        _ => compare_block(&mut Random::new(0), &rest.last_words()),
    }
}

/// Read, and where it gives a block every operation on one list of words.
fn compare_read_on(text: &[u8]) {
    compare_text(text);
    let mut words = vec![0; crate::limits::BLOCK_WORDS];
    let told = raw::read(text, &mut words);
    if told.number == 0 {
        words.truncate(told.count);
        compare_block(&mut Random::new(0), &words);
        compare_cells(&words);
        compare_gathered(&words);
    }
}

/// Records of two masks each; a mask without another behind it is left out.
fn records(masks: &[u16]) -> Vec<Record> {
    let record = |pair: &[u16]| Record {
        fixed: pair[0],
        ones: pair[1],
        ..Record::default()
    };
    masks.chunks_exact(2).map(record).collect()
}

/// A case that is put together part by part.
pub struct Case(pub Vec<u8>);

impl Case {
    pub fn of(operation: Operation) -> Case {
        Case(vec![operation as u8])
    }

    pub fn number(self, number: usize) -> Case {
        self.words(&[number as u16])
    }

    /// A slice that is not the last.
    pub fn measured(self, words: &[u16]) -> Case {
        self.number(words.len()).words(words)
    }

    pub fn words(mut self, words: &[u16]) -> Case {
        self.0
            .extend(words.iter().flat_map(|word| word.to_le_bytes()));
        self
    }

    pub fn bytes(mut self, bytes: &[u8]) -> Case {
        self.0.extend(bytes);
        self
    }
}
