//! Compare: the outputs of both blocks under every settled setting of ours, until two differ.

use super::block::{name, Block};
use super::decided::{by_width, lowest_difference};
use super::gate::Gate;
use super::groups::Groups;
use super::lanes::{to_its_end, Lanes, Order};
use super::{done, refused};
use unloop::raw::Reply;

/// Count: the lowest output that differs, from 1; detail: the lowest setting under which one does.
pub fn compare(ours: &[u16], theirs: &[u16]) -> Reply {
    let (Some(ours), Some(theirs)) = (Block::of(ours), Block::of(theirs)) else {
        return refused(6, 0);
    };
    if !theirs.is_straight() {
        return refused(10, 0);
    }
    let ports = |block: &Block| -> Vec<u64> {
        let outputs = block.outputs.iter();
        outputs.map(|output| name(&output[..4])).collect()
    };
    if !ours.names().eq(theirs.names()) || ports(&ours) != ports(&theirs) {
        return refused(12, 0);
    }
    match by_width!(ours.n, first_difference(&ours, &theirs)) {
        Some((setting, output)) => done(output + 1, setting),
        None => done(0, 0),
    }
}

/// The lowest setting under which an output differs, and the lowest such output.
fn first_difference<const W: usize>(ours: &Block, theirs: &Block) -> Option<(usize, usize)> {
    let (our_gates, their_gates) = (Gate::all(ours), Gate::all(theirs));
    let groups = Groups::of(ours, &our_gates);
    let straight = Groups::straight(theirs.m);
    let order = Order::ThereAndBack;
    let mut our_lanes = Lanes::<W>::new(ours, &our_gates, &groups, order);
    let mut their_lanes = Lanes::<W>::new(theirs, &their_gates, &straight, order);
    for base in (0..1 << ours.n).step_by(64 * W) {
        let coming = our_lanes.start(base);
        their_lanes.start(base);
        our_lanes.settle(&coming, &mut to_its_end)?;
        their_lanes.settle(&coming, &mut to_its_end)?;
        let shown = ours.shown().zip(theirs.shown());
        let ones =
            shown.map(|(our, their)| (&our_lanes.pairs[our][1], &their_lanes.pairs[their][1]));
        let among = our_lanes.decided(&coming);
        if let Some((setting, output)) = lowest_difference(&among, ones) {
            return Some((base + setting, output));
        }
    }
    None
}
