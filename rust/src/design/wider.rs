//! A loop together with copies of gates that it reads: where it is undecided only under values that never come together at its boundary,
//! because one net there follows from another, the block may have the gates that say so. The gates themselves stay where they are.

use super::cut::{boundary, Cut};
use super::whole::Whole;
use super::wiring::Source;
use crate::blif_model::Net;
use std::collections::HashMap;

/// How many times a boundary is moved outwards, and the most gates that are copied.
pub const STEPS: usize = 8;
const COPIES: usize = 256;

/// The cut with copies of what drives nets of its boundary: those that have a net in common, or all where none have. Nothing where no gate is
/// left, or too many would be copied.
pub fn wider(whole: &Whole, cut: &Cut) -> Option<Cut> {
    let nets = cut.boundary.iter();
    let driven = nets.filter_map(|&net| whole.wiring.by_net[net]);
    let driven: Vec<usize> = driven.filter(|&place| whole.is_plain[place]).collect();
    let mut uses: HashMap<Net, usize> = cut.boundary.iter().map(|&net| (net, 1)).collect();
    for net in driven.iter().flat_map(|&place| sources(whole, place)) {
        *uses.entry(net).or_default() += 1;
    }
    let shares = |place: &usize| sources(whole, *place).any(|net| uses[&net] > 1);
    let sharing: Vec<usize> = driven.iter().copied().filter(shares).collect();
    let chosen = if sharing.is_empty() { driven } else { sharing };
    let copies = [&cut.copies[..], &chosen].concat();
    let goes_on = !chosen.is_empty() && copies.len() <= COPIES;
    goes_on.then(|| Cut {
        members: cut.members.clone(),
        boundary: boundary(whole, &[&cut.members[..], &copies].concat()),
        ports: cut.ports.clone(),
        copies,
    })
}

/// The nets that a driver reads, through buffers and inverters.
fn sources(whole: &Whole, place: usize) -> impl Iterator<Item = Net> + '_ {
    let reads = whole.wiring.drivers[place].reads.iter();
    reads.filter_map(|&net| match whole.sources[net] {
        Source::Net { net, .. } => Some(net),
        Source::Constant(_) => None,
    })
}
