//! A loop group cut out of its model: its gates, the nets that it reads from outside, and those of its own that are read there.

use super::whole::Whole;
use super::wiring::Source;
use super::Loop;
use crate::blif_model::Net;
use std::collections::HashSet;

pub struct Cut {
    /// Its drivers, by line.
    pub members: Vec<usize>,
    /// Drivers outside of it that its block has copies of (`wider`).
    pub copies: Vec<usize>,
    /// The nets that these read from outside, through buffers and inverters, in the order in which they are first read.
    pub boundary: Vec<Net>,
    /// The nets of its own that are read outside, in the order of the drivers.
    pub ports: Vec<Net>,
}

/// The cuts of groups of drivers.
pub fn cuts(whole: &Whole, groups: Vec<Vec<usize>>) -> Vec<Cut> {
    let wiring = &whole.wiring;
    let mut group_of = vec![None; wiring.drivers.len()];
    for (number, group) in groups.iter().enumerate() {
        group
            .iter()
            .for_each(|&place| group_of[place] = Some(number));
    }
    let mut is_port = vec![false; wiring.drivers.len()];
    for place in 0..wiring.drivers.len() {
        let read = wiring.read_by(place);
        for read in read.filter(|&read| group_of[read] != group_of[place]) {
            is_port[read] = true;
        }
    }
    let net = |place: usize| wiring.drivers[place].net;
    let cut = |members: Vec<usize>| {
        let ports = members.iter().copied();
        let ports = ports.filter(|&place| is_port[place] || wiring.is_shown[net(place)]);
        Cut {
            boundary: boundary(whole, &members),
            copies: Vec::new(),
            ports: ports.map(net).collect(),
            members,
        }
    };
    groups.into_iter().map(cut).collect()
}

/// The nets that drivers read from outside.
pub fn boundary(whole: &Whole, members: &[usize]) -> Vec<Net> {
    let drivers = &whole.wiring.drivers;
    let own: HashSet<Net> = members.iter().map(|&place| drivers[place].net).collect();
    let (mut boundary, mut seen) = (Vec::new(), HashSet::new());
    let read = members.iter().flat_map(|&place| &drivers[place].reads);
    for &net in read.filter(|net| !own.contains(net)) {
        match whole.sources[net] {
            Source::Net { net, .. } if !own.contains(&net) && seen.insert(net) => {
                boundary.push(net)
            }
            _ => {}
        }
    }
    boundary
}

impl Cut {
    pub fn told(&self, whole: &Whole) -> Loop {
        let drivers = &whole.wiring.drivers;
        let nets: Vec<Net> = self
            .members
            .iter()
            .map(|&place| drivers[place].net)
            .collect();
        Loop {
            model: whole.placements[0].of.clone(),
            line: drivers[self.members[0]].line,
            nets: whole.nets(&nets),
            boundary: whole.nets(&self.boundary),
            ports: whole.nets(&self.ports),
        }
    }
}
