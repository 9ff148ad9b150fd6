//! Gather and Scatter, the library's against the simulator's.

use super::lent::{rooms, Lender};
use super::tally::{count, count_answer, Operation};
use super::{compare, mangled};
use crate::answer::NO_ROOM;
use crate::block::Block;
use crate::generate::{bad_orders, for_blocks, malformed, order, Random, Report, Size};
use crate::limits::{BLOCK_WORDS, GATES};
use crate::Answer;
use std::ops::Range;
use unloop::raw;

/// What a slice held before.
const FILLER: u16 = 9_999;

/// The two slices that Gather is lent.
pub(super) struct Slices {
    block: Lender<u16>,
    list: Lender<u16>,
}

impl Slices {
    pub fn new() -> Slices {
        let [block, list] = [(); 2].map(|()| Lender::new(FILLER));
        Slices { block, list }
    }

    /// Compares one call in slices of so many elements with the answer, the block and the list where there is room for both.
    pub fn call(
        &mut self,
        words: &[u16],
        [room, list_room]: [usize; 2],
        expected: (Answer, &[u16], &[u16]),
    ) {
        let no_room = room < expected.1.len() || list_room < expected.2.len();
        let (told, block, list) = match no_room {
            true => (Answer::refusal(NO_ROOM, 0), &[][..], &[][..]),
            false => expected,
        };
        let (inner_block, inner_list) = (self.block.slice(room), self.list.slice(list_room));
        let got = Answer::from(raw::gather(words, inner_block, inner_list));
        let same = [
            got == told,
            self.block.begins(room, block),
            self.list.begins(list_room, list),
        ];
        assert!(
            same == [true; 3],
            "gather in slices of {room} and {list_room}: {got:?} for {told:?}, {:?} for {block:?}, {:?} for {list:?}",
            self.block.around(room),
            self.list.around(list_room)
        );
        count_answer(Operation::Gather, told.number);
    }
}

/// Compares Gather on words, in every pair of rooms.
pub fn compare_gathered(words: &[u16]) {
    let _report = Report(|| format!("gather of {words:?}"));
    count(|tally| tally.gathered += 1);
    let all = usize::MAX;
    let expected = crate::gather(words, all, all);
    let (told, block, list) = &expected;
    let mut slices = Slices::new();
    for room in rooms(block.len()) {
        for list_room in rooms(list.len()) {
            slices.call(words, [room, list_room], (*told, block, list));
        }
    }
    // A refusal also where there is room for every block.
    if told.number != 0 {
        slices.call(words, [BLOCK_WORDS, GATES], (*told, &[], &[]));
    }
}

/// Compares Scatter on words and a list.
pub fn compare_scattered(words: &[u16], order: &[u16]) {
    let _report = Report(|| format!("scatter of {words:?} by {order:?}"));
    count(|tally| tally.scattered += 1);
    let expected = crate::scatter(words, order, usize::MAX);
    compare(Operation::Scatter, FILLER, expected, |original| {
        raw::scatter(words, order, original)
    });
}

/// The library's own way out and back is the original.
fn there_and_back(words: &[u16], gates: usize) {
    let [mut gathered, mut original] = [(); 2].map(|()| vec![0; words.len()]);
    let mut order = vec![0; gates];
    let told = raw::gather(words, &mut gathered, &mut order);
    assert_eq!((told.number, told.count), (0, words.len()));
    let told = raw::scatter(&gathered, &order, &mut original);
    assert_eq!((told.number, told.count), (0, words.len()));
    assert_eq!(original, words);
    compare_scattered(&gathered, &order);
}

/// Compares both on a block: out and back, by random lists, and by lists that aren't each gate once.
pub fn compare_orders(random: &mut Random, block: &Block, words: &[u16]) {
    let m = block.gates.len();
    compare_gathered(words);
    there_and_back(words, m);
    for _ in 0..2 {
        compare_scattered(words, &order(random, m));
    }
    for (rule, list) in bad_orders(random, m) {
        let _report = Report(|| rule.to_string());
        compare_scattered(words, &list);
    }
}

/// Blocks of every shape.
pub fn blocks(seeds: Range<u64>, size: Size) {
    for_blocks(seeds, size, compare_orders);
}

/// Words that break each rule of the stored block, and blocks with one or two words replaced; 6 comes before 13.
pub fn malformed_words(seeds: Range<u64>) {
    for_blocks(seeds, Size::SMALL, |random, block, words| {
        let m = block.gates.len();
        for (rule, words) in malformed(random, block) {
            let _report = Report(|| rule.to_string());
            compare_gathered(&words);
            compare_scattered(&words, &order(random, m));
            compare_scattered(&words, &vec![0; m + 1]);
        }
        for _ in 0..4 {
            let words = mangled(random, words);
            let gates = words.get(1).map_or(0, |&m| usize::from(m).min(GATES));
            compare_gathered(&words);
            compare_scattered(&words, &order(random, gates));
        }
    });
}
