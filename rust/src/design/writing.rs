//! The file with its loops replaced: every line that is part of no loop, and of no instance that is put in place, stays byte for byte.

use super::lines::owners;
use super::whole::Whole;
use super::wiring::{is_stranger, Listed};
use super::{Design, Piece};
use crate::blif_model::{Instance, Latch, Net, Table};
use std::collections::{BTreeMap, HashMap, HashSet};

/// By the number of a line, what takes its place and that of its parts.
type Replaced = HashMap<usize, String>;

pub fn written(design: &Design, pieces: &[Option<Piece>]) -> String {
    let mut replaced = Replaced::new();
    for (number, whole) in design.models.iter().enumerate() {
        let loops = design.loops.iter().zip(pieces);
        let loops = loops.filter(|((model, _), _)| *model == number);
        let taken = loops.filter_map(|((_, cut), piece)| Some((&cut.members[..], piece.as_ref()?)));
        whole.replace(&taken.collect::<Vec<_>>(), &mut replaced);
    }
    let owners = owners(design.text);
    let is_windows = design.text.lines().next().map(str::len) != design.text.find('\n');
    let ended = |new: String| match is_windows {
        true => new.replace('\n', "\r\n"),
        false => new,
    };
    let mut written = ended(head(design, pieces));
    for (line, number) in design.text.split_inclusive('\n').zip(1..) {
        match replaced.get(&owners[number]) {
            None => written += line,
            Some(new) if owners[number] == number => written += &ended(new.clone()),
            Some(_) => {}
        }
    }
    written
}

/// Comments on what is new, which stand before all else: not every tool takes a comment between any two lines.
fn head(design: &Design, pieces: &[Option<Piece>]) -> String {
    let mut lines = String::new();
    for (piece, number) in pieces.iter().zip(1..) {
        let told = piece.iter().flat_map(|piece| &piece.told);
        told.for_each(|told| lines += &format!("# unloop {number}: {told}\n"));
    }
    for instance in design.placed() {
        lines += &format!("# unloop: {instance} is put in place\n");
    }
    lines
}

impl Whole {
    /// What takes the place of which line: the loops that are taken out, and the instances that are put in place.
    fn replace(&self, taken: &[(&[usize], &Piece)], replaced: &mut Replaced) {
        // By instance that is put in place, what is written of it.
        let mut parts: BTreeMap<usize, String> = BTreeMap::new();
        let mut gone = HashSet::new();
        for (members, piece) in taken {
            gone.extend(members.iter().copied());
            let own = members.iter().map(|&place| &self.wiring.drivers[place]);
            let mut lines = own.clone().filter(|driver| driver.placement == 0);
            match lines.next() {
                Some(first) => {
                    replaced.insert(first.line, piece.lines.clone());
                    lines.for_each(|driver| drop(replaced.insert(driver.line, String::new())));
                }
                None => {
                    let first = own.map(|driver| driver.placement).min();
                    *parts.entry(first.unwrap_or_default()).or_default() += &piece.lines;
                }
            }
        }
        if self.is_merged.iter().skip(1).any(|&is_merged| is_merged) {
            self.put_in_place(&gone, parts, replaced);
        }
    }

    /// Writes the instances that are put in place where their lines stand; loops that pass through none of the model's own gates are among them.
    fn put_in_place(
        &self,
        gone: &HashSet<usize>,
        mut loops: BTreeMap<usize, String>,
        replaced: &mut Replaced,
    ) {
        let mut drivers = vec![Vec::new(); self.placements.len()];
        for (place, driver) in self.wiring.drivers.iter().enumerate() {
            drivers[driver.placement].extend((!gone.contains(&place)).then_some(driver.listed));
        }
        let mut instances = vec![Vec::new(); self.placements.len()];
        for (part, placement) in self.placements.iter().enumerate().skip(1) {
            instances[placement.parent].extend((!self.is_merged[part]).then_some(part));
        }
        for part in (1..self.placements.len()).filter(|&part| self.is_merged[part]) {
            let lines = replaced.entry(self.own_line(part)).or_default();
            drivers[part]
                .iter()
                .for_each(|&listed| *lines += &self.driver_line(listed));
            *lines += &self.stays_in(part);
            for &inner in &instances[part] {
                let inner = &self.placements[inner];
                *lines += &self.pins_line(".subckt", &inner.of, &inner.pins);
            }
            *lines += &loops.remove(&part).unwrap_or_default();
        }
    }

    /// The line of the model itself that an instance is put in by.
    fn own_line(&self, mut part: usize) -> usize {
        while self.placements[part].parent != 0 {
            part = self.placements[part].parent;
        }
        self.placements[part].line
    }

    fn driver_line(&self, listed: Listed) -> String {
        match listed {
            Listed::Table(place) => self.table_line(&self.model.tables[place]),
            Listed::Gate(place) => self.instance_line(".gate", &self.model.gates[place]),
            Listed::Subcircuit(place) => {
                self.instance_line(".subckt", &self.model.subcircuits[place])
            }
        }
    }

    /// The latches of an instance, and its instances of what nothing is known of.
    fn stays_in(&self, part: usize) -> String {
        let (here, next) = (&self.placements[part], self.placements.get(part + 1));
        let latches = here.latches..next.map_or(self.model.latches.len(), |next| next.latches);
        let strange =
            here.subcircuits..next.map_or(self.model.subcircuits.len(), |next| next.subcircuits);
        let latches = self.model.latches[latches].iter();
        let strange = self.model.subcircuits[strange]
            .iter()
            .filter(|part| is_stranger(&part.of));
        let lines = latches.map(|latch| self.latch_line(latch));
        lines
            .chain(strange.map(|part| self.instance_line(".subckt", part)))
            .collect()
    }

    fn table_line(&self, table: &Table) -> String {
        let nets = [&table.inputs[..], &[table.output]].concat();
        let mut line = format!(".names {}\n", self.nets(&nets).join(" "));
        let digit =
            |wanted: &Option<bool>| wanted.map_or('-', |wanted| if wanted { '1' } else { '0' });
        for row in &table.rows {
            let row: String = row.iter().map(digit).collect();
            let told = format!("{row} {}", u8::from(table.shown));
            line += told.trim_start();
            line += "\n";
        }
        line
    }

    fn latch_line(&self, latch: &Latch) -> String {
        let mut rest = latch.rest.clone();
        if let (Some(name), Some(net)) = (rest.get_mut(1), latch.control) {
            *name = self.net(net).to_string();
        }
        let words = [self.nets(&[latch.input, latch.output]), rest].concat();
        format!(".latch {}\n", words.join(" "))
    }

    fn instance_line(&self, word: &str, instance: &Instance) -> String {
        self.pins_line(word, &instance.of, &instance.pins)
    }

    fn pins_line(&self, word: &str, of: &str, pins: &[(String, Net)]) -> String {
        let pins = pins
            .iter()
            .map(|(pin, net)| format!(" {pin}={}", self.net(*net)));
        format!("{word} {of}{}\n", pins.collect::<String>())
    }
}
