//! A model whose loops are to be taken out: its instances that a loop passes through are put in place, the others stay instances.

use super::cut::{cuts, Cut};
use super::loops::loops;
use super::wiring::{is_stranger, Source, Wiring};
use crate::blif_model::{BlifError, BlifFile, Model, Net, Placed, Placement};
use crate::from_blif::unread;
use std::collections::HashSet;

/// The most tables and cells that are looked at, those of all instances counted: models that hold each other grow fast.
const PARTS: usize = 1 << 24;

/// What the names of new gates begin with, longer where a net's does.
const PREFIX: &str = "unloop_";

pub struct Whole {
    /// The model with all instances in place, by which loops are found.
    pub model: Model,
    /// The instances, of which the first is the model itself.
    pub placements: Vec<Placement>,
    /// By instance, whether it is put in place when the model is written.
    pub is_merged: Vec<bool>,
    pub wiring: Wiring,
    /// By driver, whether it is in no loop, nor in an instance that stays one.
    pub is_plain: Vec<bool>,
    /// By net, what it is through buffers and inverters that no loop has.
    pub sources: Vec<Source>,
    pub prefix: String,
}

impl Whole {
    /// A model and the loops that are taken out in it: those that pass through one of its own gates, or through several of its instances.
    pub fn of(file: &BlifFile, model: &Model) -> Result<(Whole, Vec<Cut>), BlifError> {
        let size = file.size(model)?;
        if size > PARTS {
            let reason = format!("{} has {size} tables and cells in all", model.name);
            return Err(BlifError::at(model.line, reason));
        }
        let mut placed = file.placed_parts(model)?;
        if let Some((line, reason)) = unread(&placed.whole).min() {
            return Err(BlifError::at(line, reason));
        }
        name_once(&mut placed.whole, model.nets.len());
        let wiring = Wiring::of(&placed)?;
        let mut groups = loops(&wiring);
        let Placed { whole, placements } = placed;
        let homes = homes(&placements, &wiring, &groups);
        let is_merged = merged(&placements, &wiring, &groups, &homes);
        let in_loops = marked(&wiring, &groups);
        let mut homes = homes.into_iter();
        groups.retain(|_| homes.next().is_some_and(|home| is_merged[home]));
        let prefix = free_prefix(&whole);
        let is_plain =
            |place: usize| !in_loops[place] && is_merged[wiring.drivers[place].placement];
        let is_plain: Vec<bool> = (0..wiring.drivers.len()).map(is_plain).collect();
        let sources = sources(&wiring, &is_plain);
        let whole = Whole {
            model: whole,
            placements,
            is_merged,
            is_plain,
            sources,
            prefix,
            wiring,
        };
        let cuts = cuts(&whole, groups);
        Ok((whole, cuts))
    }

    /// How many tables and cells it has itself.
    pub fn gates(&self) -> usize {
        let drivers = self.wiring.drivers.iter();
        drivers
            .filter(|driver| self.is_merged[driver.placement])
            .count()
    }

    /// The models that it still has instances of.
    pub fn used(&self) -> HashSet<&str> {
        let stay =
            |part: &usize| !self.is_merged[*part] && self.is_merged[self.placements[*part].parent];
        let parts = (0..self.placements.len()).filter(stay);
        parts.map(|part| &self.placements[part].of[..]).collect()
    }

    /// What the instances are of that nothing is known of.
    pub fn strangers(&self) -> Vec<String> {
        let parts = self.model.subcircuits.iter().map(|part| part.of.clone());
        parts.filter(|of| is_stranger(of)).collect()
    }

    /// The instances that are put in place, as `half.1`.
    pub fn placed_instances(&self) -> Vec<String> {
        let parts = (1..self.placements.len()).filter(|&part| self.is_merged[part]);
        parts.map(|part| self.instance_name(part)).collect()
    }

    /// What an instance is called, and what the names of its nets begin with.
    pub fn instance_name(&self, part: usize) -> String {
        format!("{}.{part}", self.placements[part].of)
    }

    pub fn net(&self, net: Net) -> &str {
        &self.model.nets[net]
    }

    pub fn nets(&self, nets: &[Net]) -> Vec<String> {
        nets.iter().map(|&net| self.net(net).to_string()).collect()
    }
}

/// Gives nets of instances whose name is taken another.
fn name_once(whole: &mut Model, own: usize) {
    if own == whole.nets.len() {
        return;
    }
    let mut taken: HashSet<String> = whole.nets[..own].iter().cloned().collect();
    for name in &mut whole.nets[own..] {
        while !taken.insert(name.clone()) {
            name.push('_');
        }
    }
}

fn free_prefix(whole: &Model) -> String {
    let mut prefix = PREFIX.to_string();
    while whole.nets.iter().any(|net| net.starts_with(&prefix)) {
        prefix.push('_');
    }
    prefix
}

/// The innermost instance that has all of each group.
fn homes(placements: &[Placement], wiring: &Wiring, groups: &[Vec<usize>]) -> Vec<usize> {
    let meeting = |mut one: usize, mut other: usize| {
        // What has an instance stands before it.
        while one != other {
            match one > other {
                true => one = placements[one].parent,
                false => other = placements[other].parent,
            }
        }
        one
    };
    let home = |group: &Vec<usize>| {
        let parts = group.iter().map(|&place| wiring.drivers[place].placement);
        parts.reduce(meeting).unwrap_or_default()
    };
    groups.iter().map(home).collect()
}

/// Which instances are put in place: the model itself, and those between it, or one that is put in place, and a gate of a group there.
fn merged(
    placements: &[Placement],
    wiring: &Wiring,
    groups: &[Vec<usize>],
    homes: &[usize],
) -> Vec<bool> {
    let mut is_merged = vec![false; placements.len()];
    is_merged[0] = true;
    let mut order: Vec<usize> = (0..groups.len()).collect();
    order.sort_by_key(|&group| homes[group]);
    for group in order {
        if !is_merged[homes[group]] {
            continue;
        }
        for &place in &groups[group] {
            let mut part = wiring.drivers[place].placement;
            while !std::mem::replace(&mut is_merged[part], true) {
                part = placements[part].parent;
            }
        }
    }
    is_merged
}

/// By driver, whether it is in a group.
fn marked(wiring: &Wiring, groups: &[Vec<usize>]) -> Vec<bool> {
    let mut marked = vec![false; wiring.drivers.len()];
    groups
        .iter()
        .flatten()
        .for_each(|&place| marked[place] = true);
    marked
}

/// What each net is through plain drivers; no loop is among them, and each is passed once.
fn sources(wiring: &Wiring, is_plain: &[bool]) -> Vec<Source> {
    let mut sources: Vec<Option<Source>> = vec![None; wiring.by_net.len()];
    for start in 0..sources.len() {
        let (mut net, mut passed) = (start, Vec::new());
        let end = loop {
            if let Some(known) = sources[net] {
                break known;
            }
            let driver = wiring.by_net[net].filter(|&place| is_plain[place]);
            match driver.and_then(|place| wiring.drivers[place].alias) {
                Some(Source::Net {
                    net: read,
                    inverted,
                }) => {
                    passed.push((net, inverted));
                    net = read;
                }
                found => {
                    let own = Source::Net {
                        net,
                        inverted: false,
                    };
                    break *sources[net].insert(found.unwrap_or(own));
                }
            }
        };
        let mut source = end;
        for (net, inverted) in passed.into_iter().rev() {
            source = source.inverted(inverted);
            sources[net] = Some(source);
        }
    }
    sources.into_iter().flatten().collect()
}

impl Source {
    /// Its opposite, or itself.
    pub fn inverted(self, by: bool) -> Source {
        match self {
            Source::Constant(value) => Source::Constant(value != by),
            Source::Net { net, inverted } => Source::Net {
                net,
                inverted: inverted != by,
            },
        }
    }
}
