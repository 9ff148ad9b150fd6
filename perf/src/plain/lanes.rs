//! Many settings side by side, 64 to a word: setting `base + 64 * word + bit`. Gates go group by group: one that stands alone is evaluated
//! once, those of a loop until none of them changes.

use super::bits::Bits;
use super::block::Block;
use super::gate::Gate;
use super::groups::Groups;
use super::pair::{defined, undefined, value, Pair, Set};
use super::readers::Readers;
use std::array::from_fn;
use std::ops::Range;

/// Input i of the first six alternates by runs of 2^i lanes; the others are the same in a whole word.
const PATTERNS: [u64; 6] = [
    0xaaaa_aaaa_aaaa_aaaa,
    0xcccc_cccc_cccc_cccc,
    0xf0f0_f0f0_f0f0_f0f0,
    0xff00_ff00_ff00_ff00,
    0xffff_0000_ffff_0000,
    0xffff_ffff_0000_0000,
];

/// How the passes over a loop go: each in the order of its gates, as Render copies them, or every other one back, which takes fewer.
#[derive(Clone, Copy, PartialEq)]
pub enum Order {
    OneWay,
    ThereAndBack,
}

/// A block's gates in the order of their groups, and the values of its nodes.
pub struct Lanes<'a, const W: usize> {
    block: &'a Block<'a>,
    steps: Vec<Gate>,
    groups: &'a Groups,
    order: Order,
    /// Which steps of its loop read a step.
    readers: Readers,
    pub pairs: Vec<Pair<W>>,
    /// Which steps of a loop are defined under all settings.
    defined: Vec<bool>,
}

impl<'a, const W: usize> Lanes<'a, W> {
    pub fn new(
        block: &'a Block<'a>,
        gates: &[Gate],
        groups: &'a Groups,
        order: Order,
    ) -> Lanes<'a, W> {
        let members = groups.members.iter();
        let mut pairs = vec![[[0; W]; 2]; block.n + block.m];
        pairs.extend([0, u64::MAX].map(|ones| defined([ones; W])));
        Lanes {
            block,
            steps: members.map(|&gate| gates[usize::from(gate)]).collect(),
            groups,
            order,
            readers: groups.readers_in_loops(block, gates),
            pairs,
            defined: vec![false; block.m],
        }
    }

    /// Sets the inputs to the settings from `base` on; which of them come.
    pub fn start(&mut self, base: usize) -> Set<W> {
        let n = self.block.n;
        for (input, pair) in self.pairs[..n].iter_mut().enumerate() {
            *pair = defined(from_fn(|word| match PATTERNS.get(input) {
                Some(&pattern) => pattern,
                None => ((base + 64 * word) as u64 >> input & 1).wrapping_neg(),
            }));
        }
        // With fewer than six inputs the settings repeat in the lanes above.
        let mut coming = [u64::MAX >> 64_usize.saturating_sub(1 << n); W];
        for &[fixed, ones] in self.block.nevers() {
            let mut excluded = [u64::MAX; W];
            for (input, pair) in self.pairs[..n].iter().enumerate() {
                if fixed >> input & 1 == 1 {
                    let agree = pair[usize::from(ones >> input & 1)];
                    (0..W).for_each(|i| excluded[i] &= agree[i]);
                }
            }
            (0..W).for_each(|i| coming[i] &= !excluded[i]);
        }
        coming
    }

    /// The settled values under these settings, from those of the inputs. A loop's number and passes are told, and nothing ends all.
    pub fn settle(
        &mut self,
        coming: &Set<W>,
        on_loop: &mut impl FnMut(usize, usize) -> Option<()>,
    ) -> Option<()> {
        let mut start = 0;
        for (number, group) in self.groups.iter().enumerate() {
            let end = start + group.len();
            if let [gate] = &self.steps[start..end] {
                // It may read itself.
                self.pairs[usize::from(gate.place)] = [[0; W]; 2];
                self.pairs[usize::from(gate.place)] = value(gate, &self.pairs);
            } else {
                let passes = self.settle_loop(start..end, coming);
                on_loop(number, passes)?;
            }
            start = end;
        }
        Some(())
    }

    /// Passes over the steps of a loop until none changes under these settings. In each, a step is evaluated only where something that it
    /// reads has changed and it is still undefined somewhere. How many passes changed something.
    fn settle_loop(&mut self, steps: Range<usize>, coming: &Set<W>) -> usize {
        // The steps to be evaluated in this pass, and in the next one.
        let mut waiting = [Bits::default(), Bits::default()];
        for step in steps {
            self.pairs[usize::from(self.steps[step].place)] = [[0; W]; 2];
            self.defined[step] = false;
            waiting[0].insert(step);
        }
        for pass in 0.. {
            let back = self.order == Order::ThereAndBack && pass % 2 == 1;
            let mut changed = false;
            while let Some(step) = match back {
                true => waiting[pass % 2].take_highest(),
                false => waiting[pass % 2].take_lowest(),
            } {
                if self.changes(step, coming) {
                    changed = true;
                    for &reader in self.readers.of(step) {
                        let reader = usize::from(reader);
                        if !self.defined[reader] {
                            let passed = (reader < step) != back;
                            waiting[(pass + usize::from(passed)) % 2].insert(reader);
                        }
                    }
                }
            }
            if !changed {
                return pass;
            }
        }
        unreachable!("each pass but the last makes a value defined")
    }

    /// Evaluates a step; whether it changes under these settings.
    fn changes(&mut self, step: usize, coming: &Set<W>) -> bool {
        let gate = &self.steps[step];
        let pair = value(gate, &self.pairs);
        let kept = &mut self.pairs[usize::from(gate.place)];
        let (mut changed, mut left) = (0, 0);
        for i in 0..W {
            let [before, after] = [&*kept, &pair].map(|pair| pair[0][i] | pair[1][i]);
            changed |= coming[i] & (before ^ after);
            left |= coming[i] & !after;
        }
        *kept = pair;
        self.defined[step] = left == 0;
        changed != 0
    }

    /// Those of these settings under which some output is undefined.
    pub fn undecided(&self, coming: &Set<W>) -> Set<W> {
        let mut undecided = [0; W];
        for node in self.block.shown() {
            let undefined = undefined(&self.pairs[node], coming);
            (0..W).for_each(|i| undecided[i] |= undefined[i]);
        }
        undecided
    }

    /// Those of these settings under which every output is defined.
    pub fn decided(&self, coming: &Set<W>) -> Set<W> {
        let undecided = self.undecided(coming);
        from_fn(|i| coming[i] & !undecided[i])
    }
}

/// Whatever passes a loop needs.
pub fn to_its_end(_group: usize, _passes: usize) -> Option<()> {
    Some(())
}
