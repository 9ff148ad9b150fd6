//! Sheet: sixty-four records at a time, side by side.

use super::block::Block;
use super::gate::Gate;
use super::groups::Groups;
use super::lanes::{to_its_end, Lanes, Order};
use super::{done, refused};
use unloop::raw::{Record, Reply};

/// Each record's outputs; count: the records.
pub fn sheet(words: &[u16], records: &mut [Record]) -> Reply {
    let Some(block) = Block::of(words) else {
        return refused(6, 0);
    };
    let gates = Gate::all(&block);
    let groups = Groups::of(&block, &gates);
    let mut lanes = Lanes::<1>::new(&block, &gates, &groups, Order::ThereAndBack);
    for part in records.chunks_mut(64) {
        fill(&block, &mut lanes, part);
    }
    done(records.len(), 0)
}

fn fill(block: &Block, lanes: &mut Lanes<1>, records: &mut [Record]) {
    let legal = |record: &Record| {
        usize::from(record.fixed) >> block.n == 0 && record.ones & !record.fixed == 0
    };
    let asked = gathered(records, |record| legal(record).into());
    for input in 0..block.n {
        let fixed = gathered(records, |record| record.fixed >> input & 1);
        let ones = gathered(records, |record| record.ones >> input & 1);
        lanes.pairs[input] = [[fixed & !ones], [ones]];
    }
    let settled = lanes.settle(&[asked], &mut to_its_end);
    settled.expect("every loop goes to its end");
    for (lane, record) in records.iter_mut().enumerate() {
        record.number = 7 * (1 - (asked >> lane & 1)) as u16;
        (record.defined, record.values) = (0, 0);
    }
    for (output, node) in block.shown().enumerate() {
        let [[zeros], [ones]] = lanes.pairs[node];
        let (defined, ones) = (asked & (zeros | ones), asked & ones);
        for (lane, record) in records.iter_mut().enumerate() {
            record.defined |= ((defined >> lane & 1) as u16) << output;
            record.values |= ((ones >> lane & 1) as u16) << output;
        }
    }
}

/// A bit of each record, the first lowest.
fn gathered(records: &[Record], bit: impl Fn(&Record) -> u16) -> u64 {
    let push = |bits, record| bits << 1 | u64::from(bit(record));
    records.iter().rev().fold(0, push)
}
