//! A model with its subcircuits put in place, as far as the file has them.

use super::{BlifError, BlifFile, Instance, Model, Net, Table};
use std::collections::{HashMap, HashSet};

/// The word of a model that only tells its pins.
const BLACK_BOX: &str = ".blackbox";

/// The models of a file that can be put in place, by name.
struct Parts<'a>(HashMap<&'a str, &'a Model>);

impl<'a> Parts<'a> {
    fn of(file: &'a BlifFile) -> Parts<'a> {
        let is_whole = |model: &&Model| model.others.iter().all(|other| other.word != BLACK_BOX);
        let models = file.models.iter().filter(is_whole);
        Parts(models.map(|model| (&model.name[..], model)).collect())
    }

    /// The instances of a model that can be put in place, with what they are instances of.
    fn inside<'m>(
        &'m self,
        model: &'m Model,
    ) -> impl Iterator<Item = (&'m Instance, &'a Model)> + 'm {
        let parts = model.subcircuits.iter();
        parts.filter_map(|part| Some((part, *self.0.get(&part.of[..])?)))
    }
}

/// A model with its subcircuits in place, and the instances that were put in: the first is the model itself.
pub(crate) struct Placed {
    pub whole: Model,
    pub placements: Vec<Placement>,
}

/// An instance that was put in: what it is one of, the instance that has its line, and where its tables, gates, latches and those of its
/// subcircuits that stay begin in the whole. They go on to where those of the next instance begin.
#[derive(Default)]
pub(crate) struct Placement {
    pub of: String,
    pub parent: usize,
    pub line: usize,
    /// Its pins, and the nets of the whole that they are.
    pub pins: Vec<(String, Net)>,
    pub tables: usize,
    pub gates: usize,
    pub latches: usize,
    pub subcircuits: usize,
}

impl Placement {
    fn of(whole: &Model, put: &Waiting) -> Placement {
        let pins = put.instance.pins.iter();
        let pins = pins.map(|(pin, _)| (pin.clone(), put.nets[&pin[..]]));
        Placement {
            of: put.instance.of.clone(),
            parent: put.parent,
            line: put.instance.line,
            pins: pins.collect(),
            tables: whole.tables.len(),
            gates: whole.gates.len(),
            latches: whole.latches.len(),
            subcircuits: whole.subcircuits.len(),
        }
    }
}

/// An instance that is still to be put in, with the one that has its line, and the nets of the whole that its pins are.
struct Waiting<'a> {
    instance: &'a Instance,
    parent: usize,
    nets: HashMap<&'a str, Net>,
}

impl BlifFile {
    /// How many tables, gates and latches a model of this file has with all its subcircuits. One that holds itself is refused.
    pub fn size(&self, model: &Model) -> Result<usize, BlifError> {
        let parts = Parts::of(self);
        let mut holders: HashMap<&str, Vec<&Model>> = HashMap::new();
        let mut waits: HashMap<&str, usize> = HashMap::new();
        for model in &self.models {
            let inside = parts.inside(model);
            inside.for_each(|(_, part)| holders.entry(&part.name).or_default().push(model));
            waits.insert(&model.name, parts.inside(model).count());
        }
        let mut ready: Vec<&Model> = self.models.iter().collect();
        ready.retain(|model| waits[&model.name[..]] == 0);
        let mut sizes: HashMap<&str, usize> = HashMap::new();
        while let Some(next) = ready.pop() {
            let own = next.tables.len() + next.gates.len() + next.latches.len();
            let inside = parts.inside(next).map(|(_, part)| sizes[&part.name[..]]);
            sizes.insert(&next.name, inside.fold(own, usize::saturating_add));
            for holder in holders.remove(&next.name[..]).unwrap_or_default() {
                let left = waits.entry(&holder.name).or_default();
                *left -= 1;
                if *left == 0 {
                    ready.push(holder);
                }
            }
        }
        let known = sizes.get(&model.name[..]).copied();
        let reason = || format!("{} holds itself, or a model that does", model.name);
        known.ok_or_else(|| BlifError::at(model.line, reason()))
    }

    /// The model with its subcircuits in place; an instance of what the file doesn't have, or only the pins of, stays as it is. An inner net
    /// is called after its model and the number of the instance, as `adder.2.carry`.
    ///
    /// ```
    /// # use unloop::blif_model::BlifFile;
    /// let text = ".model m\n.inputs a\n.outputs y\n.subckt twice in=a out=y\n.end\n\
    ///             .model twice\n.inputs in\n.outputs out\n.names in x\n0 1\n.names x out\n0 1\n.end\n";
    /// let file = BlifFile::read(text).unwrap();
    /// let whole = file.placed(&file.models[0]).unwrap();
    /// assert_eq!(whole.nets, ["a", "y", "twice.1.x"]);
    /// assert_eq!(whole.tables.len(), 2);
    /// ```
    pub fn placed(&self, model: &Model) -> Result<Model, BlifError> {
        Ok(self.placed_parts(model)?.whole)
    }

    /// The same, and where each of its lines comes from.
    pub(crate) fn placed_parts(&self, model: &Model) -> Result<Placed, BlifError> {
        self.size(model)?;
        let parts = Parts::of(self);
        let mut whole = model.clone();
        whole.subcircuits.clear();
        let own: Vec<Net> = (0..model.nets.len()).collect();
        let mut placements = vec![Placement {
            of: model.name.clone(),
            ..Placement::default()
        }];
        let mut waiting = Vec::new();
        whole.take_instances(model, (0, &own), &parts, &mut waiting);
        while let Some(next) = waiting.pop() {
            let number = placements.len();
            let inside = parts.0[&next.instance.of[..]];
            placements.push(Placement::of(&whole, &next));
            let nets = whole.put(inside, &next, number)?;
            whole.take_instances(inside, (number, &nets), &parts, &mut waiting);
        }
        Ok(Placed { whole, placements })
    }
}

impl Model {
    /// Takes over the instances of the model that was put in with this number and whose nets are these here: those that stay, and, the last
    /// first, those that wait to be put in.
    fn take_instances<'a>(
        &mut self,
        model: &'a Model,
        (number, nets): (usize, &[Net]),
        parts: &Parts,
        waiting: &mut Vec<Waiting<'a>>,
    ) {
        for instance in model.subcircuits.iter().rev() {
            let pins = instance.pins.iter().map(|(pin, net)| (pin, nets[*net]));
            match parts.0.contains_key(&instance.of[..]) {
                true => waiting.push(Waiting {
                    instance,
                    parent: number,
                    nets: pins.map(|(pin, net)| (&pin[..], net)).collect(),
                }),
                false => self.subcircuits.push(Instance {
                    pins: pins.map(|(pin, net)| (pin.clone(), net)).collect(),
                    ..instance.clone()
                }),
            }
        }
    }

    /// Puts a model's tables and lines here; its pins are the nets that the instance gives them. Tells where its nets are here.
    fn put(&mut self, inside: &Model, at: &Waiting, number: usize) -> Result<Vec<Net>, BlifError> {
        let nets = self.placed_nets(inside, at, number)?;
        for table in &inside.tables {
            self.tables.push(Table {
                inputs: table.inputs.iter().map(|&net| nets[net]).collect(),
                output: nets[table.output],
                ..table.clone()
            });
        }
        for gate in &inside.gates {
            let pins = gate.pins.iter().map(|(pin, net)| (pin.clone(), nets[*net]));
            self.gates.push(Instance {
                pins: pins.collect(),
                ..gate.clone()
            });
        }
        for latch in &inside.latches {
            let mut latch = latch.clone();
            (latch.input, latch.output) = (nets[latch.input], nets[latch.output]);
            latch.control = latch.control.map(|net| nets[net]);
            self.latches.push(latch);
        }
        self.others.extend(inside.others.iter().cloned());
        Ok(nets)
    }

    /// The nets of a model, here: those of its pins that the instance gives, and new ones.
    fn placed_nets(
        &mut self,
        inside: &Model,
        at: &Waiting,
        number: usize,
    ) -> Result<Vec<Net>, BlifError> {
        let wrong = |reason: String| Err(BlifError::at(at.instance.line, reason));
        let inputs: HashSet<Net> = inside.inputs.iter().copied().collect();
        let pins = inside.inputs.iter().chain(&inside.outputs);
        let pins: HashSet<&str> = pins.map(|&net| &inside.nets[net][..]).collect();
        if let Some((pin, _)) = at.nets.iter().find(|(pin, _)| !pins.contains(*pin)) {
            return wrong(format!("{} has no pin {pin}", inside.name));
        }
        let mut nets = Vec::with_capacity(inside.nets.len());
        for (net, name) in inside.nets.iter().enumerate() {
            match at.nets.get(&name[..]) {
                Some(&given) => nets.push(given),
                None if inputs.contains(&net) => {
                    return wrong(format!("the pin {name} of {} is missing", inside.name))
                }
                None => {
                    nets.push(self.nets.len());
                    self.nets.push(format!("{}.{number}.{name}", inside.name));
                }
            }
        }
        Ok(nets)
    }
}
