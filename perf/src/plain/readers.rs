//! Who reads whom: one list for all, with the place where each one's part starts.

use super::block::Block;
use super::gate::Gate;
use std::ops::Range;

pub struct Readers {
    starts: Vec<u16>,
    pub list: Vec<u16>,
}

impl Readers {
    /// The gates that read each gate.
    pub fn all(block: &Block, gates: &[Gate]) -> Readers {
        Readers::of_pairs(block.m, |each| {
            for (reader, gate) in gates.iter().enumerate() {
                for read in gate.gates_read(block.n, block.m) {
                    each(read, reader);
                }
            }
        })
    }

    /// From pairs of one that is read and its reader, below a bound, which are told twice.
    pub fn of_pairs(bound: usize, tell: impl Fn(&mut dyn FnMut(usize, usize))) -> Readers {
        let mut starts = vec![0; bound + 1];
        tell(&mut |read, _| starts[read] += 1);
        // The end of each part, which moves to its start as the part is filled.
        let mut end = 0;
        for start in &mut starts {
            end += *start;
            *start = end;
        }
        let mut list = vec![0; usize::from(end)];
        tell(&mut |read, reader| {
            starts[read] -= 1;
            list[usize::from(starts[read])] = reader as u16;
        });
        Readers { starts, list }
    }

    /// Where the readers stand in the list; one that reads twice is there twice.
    pub fn range(&self, read: usize) -> Range<usize> {
        usize::from(self.starts[read])..usize::from(self.starts[read + 1])
    }

    pub fn of(&self, read: usize) -> &[u16] {
        &self.list[self.range(read)]
    }
}
