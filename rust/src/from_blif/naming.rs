//! The names of a netlist that is made of a model. A name that a netlist may have stays. A pin or port of another name is called after it:
//! in small letters, `_` for every byte that is no letter or digit, `n` before a digit, cut to eight bytes with an index in brackets kept, and
//! with a number at its end where that name is taken. A gate of another name is called as its port, or else `_0`, `_1` and so on.

use crate::blif_model::{Model, Net};
use crate::declarations::name_at;
use crate::export::OUTPUT_SUFFIX;
use crate::limits::NAME_BYTES;
use crate::Names;
use std::collections::{HashMap, HashSet};

#[derive(Default)]
pub struct Naming {
    /// What inputs and gates are called.
    nodes: HashMap<Net, String>,
    /// What the outputs are called, in order.
    pub ports: Vec<String>,
    /// The names that are not the model's.
    pub changed: Names,
    taken: HashSet<String>,
    next: usize,
}

impl Naming {
    /// The names of a model's inputs and outputs, and of its gates by their nets.
    pub fn of(model: &Model, gates: &[Net]) -> Naming {
        let old = |net: Net| &model.nets[net][..];
        let mut naming = Naming::default();
        naming.changed.model = Some(model.name.clone());
        // What stays is taken before anything is made up.
        let pins = model.inputs.iter().chain(&model.outputs);
        let pins = pins.map(|&net| old(net)).filter(|name| is_pin(name));
        let nodes = gates
            .iter()
            .map(|&net| old(net))
            .filter(|name| is_name(name));
        naming.taken = pins.chain(nodes).map(str::to_string).collect();
        for &net in &model.inputs {
            let name = naming.pin(old(net));
            note(&mut naming.changed.inputs, &name, old(net));
            naming.nodes.insert(net, name);
        }
        naming.take_outputs(model, gates);
        naming.take_gates(model, gates);
        naming
    }

    /// Names the outputs, and those gates that are their nets.
    fn take_outputs(&mut self, model: &Model, gates: &[Net]) {
        let shown: HashSet<Net> = gates.iter().copied().collect();
        for &net in &model.outputs {
            if let Some(port) = own_port(model, net) {
                self.ports.push(port.to_string());
                continue;
            }
            let input = self.nodes.get(&net).cloned();
            let name = input.unwrap_or_else(|| self.pin(&model.nets[net]));
            note(&mut self.changed.ports, &name, &model.nets[net]);
            self.ports.push(name.clone());
            if shown.contains(&net) {
                self.nodes.insert(net, name);
            }
        }
    }

    /// Names the gates that have no name yet.
    fn take_gates(&mut self, model: &Model, gates: &[Net]) {
        for &net in gates {
            let name = match self.nodes.remove(&net) {
                Some(name) => name,
                None if is_name(&model.nets[net]) => model.nets[net].clone(),
                None => self.fresh(),
            };
            note(&mut self.changed.gates, &name, &model.nets[net]);
            self.nodes.insert(net, name);
        }
    }

    /// The name of an input or a gate.
    pub fn node(&self, net: Net) -> &str {
        &self.nodes[&net]
    }

    /// A gate's name that nothing has.
    pub fn fresh(&mut self) -> String {
        loop {
            let name = format!("_{}", self.next);
            self.next += 1;
            if self.taken.insert(name.clone()) {
                return name;
            }
        }
    }

    /// The name of a pin or port: its own, or one near it that nothing has.
    fn pin(&mut self, old: &str) -> String {
        if is_pin(old) {
            return old.to_string();
        }
        let (stem, index) = near(old);
        let cut = |end: &str| {
            let room = NAME_BYTES.saturating_sub(end.len());
            let stem = &stem[..room.min(stem.len())];
            format!("{}{end}", stem.trim_end_matches('_'))
        };
        let numbered = (2..).map(|number: usize| cut(&number.to_string()));
        let mut names = std::iter::once(cut(&index)).chain(numbered);
        let free = names.find(|name| !self.taken.contains(name));
        let name = free.unwrap_or_default();
        self.taken.insert(name.clone());
        name
    }
}

fn note(changed: &mut Vec<(String, String)>, name: &str, old: &str) {
    if name != old {
        changed.push((name.to_string(), old.to_string()));
    }
}

/// The port that an export called so because an input has its name.
fn own_port(model: &Model, net: Net) -> Option<&str> {
    let port = model.nets[net].strip_suffix(OUTPUT_SUFFIX)?;
    let has = |nets: &[Net]| nets.iter().any(|&net| model.nets[net] == port);
    (is_pin(port) && has(&model.inputs) && !has(&model.outputs)).then_some(port)
}

/// A name as a netlist may have it, of any length, and its index, `_3` of `a[3]`.
fn near(old: &str) -> (String, String) {
    let index = old.strip_suffix(']').and_then(|name| name.rsplit_once('['));
    let number = |index: &str| index.len() < 4 && index.bytes().all(|byte| byte.is_ascii_digit());
    let (stem, index) = match index {
        Some((stem, index)) if number(index) && !index.is_empty() => (stem, format!("_{index}")),
        _ => (old, String::new()),
    };
    let byte = |c: char| match c.to_ascii_lowercase() {
        c if c.is_ascii_alphanumeric() => c,
        _ => '_',
    };
    let stem: String = stem.chars().map(byte).collect();
    let stem = stem.trim_matches('_');
    match stem.chars().next() {
        Some(first) if first.is_ascii_lowercase() => (stem.to_string(), index),
        _ => (format!("n{stem}"), index),
    }
}

/// Whether a gate may be called so.
fn is_name(name: &str) -> bool {
    let legal = name_at(name.as_bytes(), 0).len() == name.len();
    legal
        && (1..=NAME_BYTES).contains(&name.len())
        && !name.starts_with(|c: char| c.is_ascii_digit())
}

/// Whether a pin or port may be called so.
fn is_pin(name: &str) -> bool {
    is_name(name) && !name.starts_with('_')
}
