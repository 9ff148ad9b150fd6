//! A third reader of BLIF, for whole models with cells, subcircuits and latches, and what such a model settles to: every net begins undefined, and
//! a line that can tell its net tells it, until none can. A latch's output, and a net that only an unknown instance can drive, is set from
//! outside, as an input is. Written from the form of BLIF alone; nothing of the library's reader is used.

use crate::block::Kind;
use crate::values::{gate_value, UNDEFINED};
use std::collections::{HashMap, HashSet};

/// What drives a net.
enum Part {
    Table {
        rows: Vec<Vec<u8>>,
        shown: u8,
    },
    Gate(Kind),
    /// The first net that it reads.
    Buffer,
    Constant(u8),
}

struct Driver {
    part: Part,
    reads: Vec<usize>,
    net: usize,
}

#[derive(Default)]
pub struct Circuit {
    /// The nets by name; those of instances have its number before them, as `3/carry`.
    names: HashMap<String, usize>,
    drivers: Vec<Driver>,
    /// By net, the drivers that read it.
    readers: Vec<Vec<usize>>,
    pub inputs: Vec<String>,
    pub outputs: Vec<String>,
    /// What latches read.
    latched: Vec<usize>,
    /// The nets that are set from outside: inputs, latches' outputs, and what nothing here drives.
    pub free: Vec<String>,
    instances: usize,
}

/// The lines of a model as words; joined, without comments.
type Lines = Vec<Vec<String>>;

/// The models of a file by name, and the name of the first.
fn models(text: &str) -> (HashMap<String, Lines>, String) {
    let uncommented = text
        .lines()
        .map(|line| line.split('#').next().unwrap_or("").trim_end());
    let joined = uncommented
        .collect::<Vec<&str>>()
        .join("\n")
        .replace("\\\n", " ");
    let (mut models, mut first, mut name) = (HashMap::<String, Lines>::new(), None, String::new());
    for line in joined.lines() {
        let words: Vec<String> = line.split_whitespace().map(str::to_string).collect();
        match words.first().map(|word| &word[..]) {
            None | Some(".end") => {}
            Some(".model") => {
                name = words[1].clone();
                first.get_or_insert_with(|| name.clone());
            }
            Some(_) => models.entry(name.clone()).or_default().push(words),
        }
    }
    (models, first.expect("a model"))
}

impl Circuit {
    /// The first model of a file, with every instance in it.
    pub fn of(text: &str) -> Circuit {
        let (models, first) = models(text);
        let mut circuit = Circuit::default();
        circuit.put(&models, &first, "", &HashMap::new());
        let driven: HashSet<usize> = circuit.drivers.iter().map(|driver| driver.net).collect();
        let mut free: Vec<(usize, String)> = Vec::new();
        for (name, &net) in &circuit.names {
            if !driven.contains(&net) {
                free.push((net, name.clone()));
            }
        }
        free.sort();
        circuit.free = free.into_iter().map(|(_, name)| name).collect();
        circuit.readers = vec![Vec::new(); circuit.names.len()];
        for (place, driver) in circuit.drivers.iter().enumerate() {
            driver
                .reads
                .iter()
                .for_each(|&net| circuit.readers[net].push(place));
        }
        circuit
    }

    /// The net of a name in an instance whose pins are nets outside of it.
    fn net(&mut self, name: &str, inside: &str, pins: &HashMap<String, usize>) -> usize {
        if let Some(&net) = pins.get(name) {
            return net;
        }
        let next = self.names.len();
        *self.names.entry(format!("{inside}{name}")).or_insert(next)
    }

    fn put(
        &mut self,
        models: &HashMap<String, Lines>,
        model: &str,
        inside: &str,
        pins: &HashMap<String, usize>,
    ) {
        let nothing = Vec::new();
        for words in models.get(model).unwrap_or(&nothing) {
            let nets = words[1..].iter();
            match &words[0][..] {
                ".inputs" if inside.is_empty() => self.inputs.extend(words[1..].to_vec()),
                ".outputs" if inside.is_empty() => self.outputs.extend(words[1..].to_vec()),
                ".names" => {
                    let reads = nets.map(|name| self.net(name, inside, pins)).collect();
                    self.put_table(reads);
                }
                ".latch" => {
                    self.net(&words[2], inside, pins);
                    let read = self.net(&words[1], inside, pins);
                    self.latched.push(read);
                }
                ".gate" | ".subckt" => self.put_instance(models, words, inside, pins),
                word if word.starts_with('.') => {}
                _ => self.put_row(words),
            }
            if [".inputs", ".outputs"].contains(&&words[0][..]) {
                for name in &words[1..] {
                    self.net(name, inside, pins);
                }
            }
        }
    }

    /// A table without rows, of nets the last of which it drives.
    fn put_table(&mut self, mut nets: Vec<usize>) {
        let net = nets.pop().expect("a net");
        let (rows, shown) = (Vec::new(), 1);
        let part = Part::Table { rows, shown };
        let reads = nets;
        self.drivers.push(Driver { part, reads, net });
    }

    fn put_row(&mut self, words: &[String]) {
        let Some(Driver {
            part: Part::Table { rows, shown },
            ..
        }) = self.drivers.last_mut()
        else {
            panic!("a row without a table: {words:?}");
        };
        let (told, row) = words.split_last().expect("a word");
        *shown = told.bytes().next().expect("a digit") - b'0';
        rows.push(row.concat().into_bytes());
    }

    fn put_instance(
        &mut self,
        models: &HashMap<String, Lines>,
        words: &[String],
        inside: &str,
        pins: &HashMap<String, usize>,
    ) {
        let mut given = HashMap::new();
        for pair in &words[2..] {
            let (pin, net) = pair.split_once('=').expect("a pair");
            given.insert(pin.to_string(), self.net(net, inside, pins));
        }
        if models.contains_key(&words[1]) {
            self.instances += 1;
            let inner = format!("{}/", self.instances);
            return self.put(models, &words[1], &inner, &given);
        }
        let Some(part) = cell(&words[1]) else { return };
        let reads = ["a", "b", "c", "d"]
            .iter()
            .filter_map(|&pin| given.get(pin).copied());
        self.drivers.push(Driver {
            part,
            reads: reads.collect(),
            net: given["O"],
        });
    }

    /// What the outputs show and the latches read, in order, by the values of all nets.
    pub fn seen(&self, values: &[u8]) -> Vec<u8> {
        let outputs = self.outputs.iter().map(|name| self.names[name]);
        let seen = outputs.chain(self.latched.iter().copied());
        seen.map(|net| values[net]).collect()
    }

    /// The net of each name.
    pub fn named(&self) -> &HashMap<String, usize> {
        &self.names
    }

    /// The settled value of each net, from the values of nets that are set from outside; others of these are undefined.
    pub fn settled(&self, setting: &HashMap<&str, u8>) -> Vec<u8> {
        let mut values = vec![UNDEFINED; self.names.len()];
        for name in &self.free {
            values[self.names[name]] = setting.get(&name[..]).copied().unwrap_or(UNDEFINED);
        }
        let mut waiting: Vec<usize> = (0..self.drivers.len()).collect();
        while let Some(place) = waiting.pop() {
            let driver = &self.drivers[place];
            if values[driver.net] != UNDEFINED {
                continue;
            }
            let reads = driver.reads.iter().map(|&net| values[net]);
            let value = match &driver.part {
                Part::Table { rows, shown } => table(&reads.collect::<Vec<u8>>(), rows, *shown),
                Part::Gate(kind) => gate_value(*kind, reads),
                Part::Buffer => values[driver.reads[0]],
                Part::Constant(value) => *value,
            };
            if value != UNDEFINED {
                values[driver.net] = value;
                waiting.extend(&self.readers[driver.net]);
            }
        }
        values
    }

    /// Whether a chain of reads leads from a net back to it: whether something is left when what reads nothing that is left is taken away.
    pub fn has_loop(&self) -> bool {
        let mut by_net = vec![None; self.names.len()];
        let drivers = self.drivers.iter().enumerate();
        drivers.for_each(|(place, driver)| by_net[driver.net] = Some(place));
        let driven = |driver: &Driver| {
            driver
                .reads
                .iter()
                .filter(|&&net| by_net[net].is_some())
                .count()
        };
        let mut waits: Vec<usize> = self.drivers.iter().map(driven).collect();
        let mut ready: Vec<usize> = (0..waits.len())
            .filter(|&place| waits[place] == 0)
            .collect();
        let mut taken = 0;
        while let Some(place) = ready.pop() {
            taken += 1;
            for &reader in &self.readers[self.drivers[place].net] {
                waits[reader] -= 1;
                if waits[reader] == 0 {
                    ready.push(reader);
                }
            }
        }
        taken < self.drivers.len()
    }
}

/// A cell of catalogue/gates.genlib.
fn cell(name: &str) -> Option<Part> {
    let kind = match name.trim_end_matches(|c: char| c.is_ascii_digit()) {
        "zero" => return Some(Part::Constant(0)),
        "one" => return Some(Part::Constant(1)),
        "buf" => return Some(Part::Buffer),
        "not" => Kind::Not,
        "and" => Kind::And,
        "or" => Kind::Or,
        "nand" => Kind::Nand,
        "nor" => Kind::Nor,
        "xor" => Kind::Xor,
        "xnor" => Kind::Xnor,
        _ => return None,
    };
    Some(Part::Gate(kind))
}

/// What a table shows: the opposite of `shown` where every row is against what it reads, `shown` where one agrees, and nothing otherwise.
fn table(reads: &[u8], rows: &[Vec<u8>], shown: u8) -> u8 {
    let mut open = false;
    for row in rows {
        let wanted = row.iter().zip(reads).filter(|(digit, _)| **digit != b'-');
        let wanted = wanted.map(|(digit, &value)| (digit - b'0', value));
        if wanted.clone().all(|(digit, value)| digit == value) {
            return shown;
        }
        open |= wanted
            .clone()
            .all(|(digit, value)| value == UNDEFINED || digit == value);
    }
    match (rows.is_empty(), open) {
        (true, _) => 0,
        (false, true) => UNDEFINED,
        (false, false) => 1 - shown,
    }
}
