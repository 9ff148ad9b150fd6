//! All settings of a block, as many side by side as fit.

use super::block::Block;
use super::gate::Gate;
use super::groups::Groups;
use super::lanes::{to_its_end, Lanes, Order};
use super::pair::Set;
use std::array::from_fn;
use std::sync::atomic::{AtomicBool, Ordering::Relaxed};

/// What is known of all settings.
#[derive(Default)]
pub struct Decided {
    /// The settings that come, and those of them under which some output is undefined.
    pub coming: Vec<u64>,
    pub undecided: Vec<u64>,
}

/// Whether each gate has but the library's two words, for 64 settings at a time.
static NARROW: AtomicBool = AtomicBool::new(false);

/// From here on two words a gate, or again as many as the settings fill.
pub fn set_narrow(narrow: bool) {
    NARROW.store(narrow, Relaxed);
}

/// How many of n inputs the settings side by side go through; six fill a word.
pub fn inputs_side_by_side(n: usize) -> usize {
    match NARROW.load(Relaxed) {
        true => n.min(6),
        false => n,
    }
}

/// Calls a function with as many words a gate as the settings fill, at most eight.
macro_rules! by_width {
    ($n:expr, $run:ident($($argument:expr),*)) => {
        match $crate::plain::decided::inputs_side_by_side($n) {
            0..=6 => $run::<1>($($argument),*),
            7 => $run::<2>($($argument),*),
            8 => $run::<4>($($argument),*),
            _ => $run::<8>($($argument),*),
        }
    };
}
pub(super) use by_width;

impl Decided {
    pub fn of(block: &Block) -> Decided {
        let gates = Gate::all(block);
        let groups = Groups::of(block, &gates);
        let order = Order::ThereAndBack;
        let decided = Decided::by_groups(block, &gates, &groups, order, &mut to_its_end);
        decided.expect("every loop goes to its end")
    }

    /// With these groups; nothing where a loop ended all.
    pub fn by_groups(
        block: &Block,
        gates: &[Gate],
        groups: &Groups,
        order: Order,
        on_loop: &mut impl FnMut(usize, usize) -> Option<()>,
    ) -> Option<Decided> {
        by_width!(block.n, all_settings(block, gates, groups, order, on_loop))
    }

    /// The lowest setting that comes and isn't settled.
    pub fn lowest_undecided(&self) -> Option<usize> {
        lowest(&self.undecided)
    }
}

fn all_settings<const W: usize>(
    block: &Block,
    gates: &[Gate],
    groups: &Groups,
    order: Order,
    on_loop: &mut impl FnMut(usize, usize) -> Option<()>,
) -> Option<Decided> {
    let mut lanes = Lanes::<W>::new(block, gates, groups, order);
    let mut decided = Decided::default();
    for base in (0..1 << block.n).step_by(64 * W) {
        let coming = lanes.start(base);
        lanes.settle(&coming, on_loop)?;
        decided.coming.extend(coming);
        decided.undecided.extend(lanes.undecided(&coming));
    }
    Some(decided)
}

/// The lowest setting of a set.
pub fn lowest(set: &[u64]) -> Option<usize> {
    let word = set.iter().position(|&word| word != 0)?;
    Some(64 * word + set[word].trailing_zeros() as usize)
}

/// The lowest of these settings under which an output differs, and the lowest such output: each comes with our ones and theirs.
pub fn lowest_difference<'a, const W: usize>(
    among: &Set<W>,
    outputs: impl Iterator<Item = (&'a Set<W>, &'a Set<W>)>,
) -> Option<(usize, usize)> {
    let differ = |(our, their): (&Set<W>, &Set<W>)| -> Option<usize> {
        lowest(&from_fn::<_, W, _>(|i| among[i] & (our[i] ^ their[i])))
    };
    let settings = outputs.map(differ).zip(0..);
    settings
        .filter_map(|(setting, output)| Some((setting?, output)))
        .min()
}
