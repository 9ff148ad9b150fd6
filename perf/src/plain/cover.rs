//! Cover: for each mask the set of its sound assignments, from that of a mask with one input more; then those from which nothing can be
//! dropped. The settings of the first six inputs are the bits of a word.

use super::block::Block;
use super::decided::Decided;
use super::{handed_over, refused};
use unloop::raw::Reply;

/// How many inputs have their settings in one word, and how many masks they have.
const LOW: usize = 6;
const MASKS: usize = 1 << LOW;

/// The sound assignments of each mask of the first six inputs, where the others are fixed or free. Only bits within the mask count.
type Row = [u64; MASKS];

/// Two words an entry; count: entries.
pub fn cover(words: &[u16], entries: &mut [u16]) -> Reply {
    let Some(block) = Block::of(words) else {
        return refused(6, 0);
    };
    let decided = Decided::of(&block);
    if decided.lowest_undecided().is_none() {
        return handed_over(&[0, 0], 1, entries);
    }
    let table = Table::of(&block, &decided);
    let mut result = Vec::new();
    for high in 0..=table.full {
        let rows: Vec<(usize, Row)> = parts(high)
            .map(|ones| (ones, table.minimal(high, ones)))
            .collect();
        for low in 0..1 << block.n.min(LOW) {
            for (ones, row) in &rows {
                let mut bits = row[low];
                while bits != 0 {
                    let ones = ones << LOW | bits.trailing_zeros() as usize;
                    result.extend([(high << LOW | low) as u16, ones as u16]);
                    bits &= bits - 1;
                }
            }
        }
    }
    handed_over(&result, result.len() / 2, entries)
}

/// The parts of a mask, ascending.
fn parts(mask: usize) -> impl Iterator<Item = usize> {
    let next = move |&part: &usize| (part != mask).then(|| part.wrapping_sub(mask) & mask);
    std::iter::successors(Some(0), next)
}

/// The inputs of a mask, as masks.
fn bits(mask: usize) -> impl Iterator<Item = usize> {
    (0..LOW)
        .map(|input| 1 << input)
        .filter(move |bit| mask & bit != 0)
}

/// A row for each assignment of the inputs behind the first six: digit i to base 3 is 0 where input 6 + i is free, else 1 more than its value.
struct Table {
    /// The mask of those inputs.
    full: usize,
    /// For each mask, the number to base 3 with the same digits.
    ternary: Vec<usize>,
    rows: Vec<Row>,
    /// For each mask of the first six inputs, the settings that are 0 outside it.
    within: Row,
}

impl Table {
    fn of(block: &Block, decided: &Decided) -> Table {
        let more = block.n.saturating_sub(LOW);
        let full = (1 << more) - 1;
        let powers = |mask: usize| bits(mask).map(|bit| 3_usize.pow(bit.ilog2())).sum();
        let spread = |set: u64, bit: usize| set | set << bit;
        let mut table = Table {
            full,
            ternary: (0..=full).map(powers).collect(),
            rows: vec![[0; MASKS]; 3_usize.pow(more as u32)],
            within: std::array::from_fn(|mask| bits(mask).fold(1, spread)),
        };
        let least = (1 << block.n.min(LOW)) - 1;
        for mask in (0..=full).rev() {
            for ones in parts(mask) {
                let at = table.at(mask, ones);
                table.rows[at] = match mask == full {
                    true => fixed(!decided.undecided[ones], least),
                    false => table.by_cases(mask, ones),
                };
            }
        }
        table
    }

    fn at(&self, mask: usize, ones: usize) -> usize {
        self.ternary[mask] + self.ternary[ones]
    }

    /// Sound under both values of the first free input.
    fn by_cases(&self, mask: usize, ones: usize) -> Row {
        let free = 1 << mask.trailing_ones();
        let [zero, one] = [ones, ones | free].map(|ones| &self.rows[self.at(mask | free, ones)]);
        std::array::from_fn(|low| zero[low] & one[low])
    }

    /// Those that are sound with no fixed input dropped only.
    fn minimal(&self, mask: usize, ones: usize) -> Row {
        let sound = &self.rows[self.at(mask, ones)];
        let mut row: Row = std::array::from_fn(|low| sound[low] & self.within[low]);
        for bit in bits(mask) {
            let dropped = &self.rows[self.at(mask & !bit, ones & !bit)];
            (0..MASKS).for_each(|low| row[low] &= !dropped[low]);
        }
        for (low, set) in row.iter_mut().enumerate().filter(|(_, set)| **set != 0) {
            for bit in bits(low) {
                let dropped = sound[low & !bit] & self.within[low & !bit];
                *set &= !(dropped | dropped << bit);
            }
        }
        row
    }
}

/// The row where all inputs behind the first six are fixed: from the sound settings, one input after the other is freed.
fn fixed(settings: u64, full: usize) -> Row {
    let mut row = [0; MASKS];
    row[full] = settings;
    for mask in (0..full).rev() {
        let free = 1 << mask.trailing_ones();
        row[mask] = row[mask | free] & row[mask | free] >> free;
    }
    row
}
