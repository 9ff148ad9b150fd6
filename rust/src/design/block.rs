//! A loop group as a block of its own, and what Render and Compare answer to it.

use super::cut::Cut;
use super::gates::Gates;
use super::promises::Allowed;
use super::whole::Whole;
use super::wider::{wider, STEPS};
use super::wiring::{Listed, Source};
use super::{Piece, Refused, RefusedBlock};
use crate::blif_model::{BlifError, Instance, Model, Net, Table};
use crate::from_blif::written;
use crate::limits::{INPUTS, NEVERS, OUTPUTS};
use crate::second_look::{agrees, Form, Language};
use crate::{Block, Operand, Refusal};
use std::collections::{HashMap, HashSet};

/// How many of a loop's nets its name has.
const NETS_TOLD: usize = 4;

/// What takes the place of a group: by itself, or with copies of what it reads, or at last on promises.
pub fn taken_out(
    whole: &Whole,
    cut: &Cut,
    number: usize,
    allowed: &[Allowed],
) -> Result<Piece, Refused> {
    let refused = match rendered(whole, cut, &[]) {
        Ok(turns) => return Ok(piece(whole, cut, number, turns, &[])),
        Err(refused) => refused,
    };
    if may_be_wider(&refused, cut) {
        if let Some((cut, turns)) = rendered_wider(whole, cut) {
            return Ok(piece(whole, &cut, number, turns, &[]));
        }
    }
    match refused {
        Refused::Block(_) if allowed.len() > NEVERS => {
            let (count, name) = (allowed.len(), called(whole, cut));
            Err(Refused::TooLarge(format!(
                "{count} promises are about {name}, and a block may have {NEVERS} never lines"
            )))
        }
        Refused::Block(_) if !allowed.is_empty() => {
            let turns = rendered(whole, cut, allowed)?;
            Ok(piece(whole, cut, number, turns, allowed))
        }
        refused => Err(refused),
    }
}

/// Whether the reason may be gone with another boundary.
fn may_be_wider(refused: &Refused, cut: &Cut) -> bool {
    match refused {
        Refused::TooLarge(_) => cut.boundary.len() > INPUTS,
        Refused::Block(block) => matches!(block.refusal, Refusal::NotSettled { .. }),
        Refused::NotAccepted => false,
    }
}

/// The first wider cut that can be rendered.
fn rendered_wider(whole: &Whole, cut: &Cut) -> Option<(Cut, Vec<Block>)> {
    let mut cut = wider(whole, cut)?;
    for _ in 1..STEPS {
        match rendered(whole, &cut, &[]) {
            Ok(turns) => return Some((cut, turns)),
            Err(_) => cut = wider(whole, &cut)?,
        }
    }
    let turns = rendered(whole, &cut, &[]).ok()?;
    Some((cut, turns))
}

/// The loop by the first of its nets.
fn called(whole: &Whole, cut: &Cut) -> String {
    let nets = cut
        .members
        .iter()
        .map(|&place| whole.wiring.drivers[place].net);
    let told: Vec<&str> = nets.take(NETS_TOLD).map(|net| whole.net(net)).collect();
    match cut.members.len().saturating_sub(NETS_TOLD) {
        0 => format!("the loop of {}", told.join(", ")),
        more => format!("the loop of {} and {more} more", told.join(", ")),
    }
}

fn piece(whole: &Whole, cut: &Cut, number: usize, turns: Vec<Block>, allowed: &[Allowed]) -> Piece {
    let mut gates = Gates::new(whole, cut, number);
    for (turn, ports) in turns.iter().zip(cut.ports.chunks(OUTPUTS)) {
        gates.put(turn, ports);
    }
    let copied = match cut.copies.len() {
        0 => String::new(),
        copies => format!(", with copies of {copies} that it reads,"),
    };
    let told = format!(
        "{}: {} lines{copied} became {} gates",
        called(whole, cut),
        cut.members.len(),
        gates.count
    );
    let promises = allowed.iter();
    let promised = promises.map(|promise| format!("rests on never {}", promise.text));
    Piece {
        told: std::iter::once(told).chain(promised).collect(),
        lines: gates.lines,
        gates: gates.count,
        never_comes: nothing_comes(cut.boundary.len(), allowed),
        promises: allowed.iter().map(|allowed| allowed.promise).collect(),
    }
}

/// Whether promises exclude every setting of so many nets.
fn nothing_comes(nets: usize, promises: &[Allowed]) -> bool {
    let is_excluded = |setting: usize| {
        let agrees = |&(place, value): &(usize, bool)| (setting >> place & 1 == 1) == value;
        promises
            .iter()
            .any(|promise| promise.pins.iter().all(agrees))
    };
    !promises.is_empty() && (0..1 << nets).all(is_excluded)
}

/// What is rendered of a group. Of one with more ports than a block has outputs there is a block for each sixteen.
fn rendered(whole: &Whole, cut: &Cut, allowed: &[Allowed]) -> Result<Vec<Block>, Refused> {
    let boundary = cut.boundary.len();
    if boundary > INPUTS && !cut.ports.is_empty() {
        let name = called(whole, cut);
        return Err(Refused::TooLarge(format!(
            "{name} reads {boundary} nets from outside, and a block may have {INPUTS} inputs"
        )));
    }
    let turn = |ports: &[Net]| -> Result<Block, Refused> {
        let own = own_model(whole, cut, ports);
        let (text, names) =
            written(&own).map_err(|error: BlifError| Refused::TooLarge(error.reason))?;
        let text = with_nevers(text, cut, allowed);
        match accepted(&text) {
            Ok(Some(rendering)) => Ok(rendering),
            Ok(None) => Err(Refused::NotAccepted),
            Err(refusal) => Err(Refused::Block(Box::new(RefusedBlock {
                text,
                names,
                refusal,
            }))),
        }
    };
    cut.ports.chunks(OUTPUTS).map(turn).collect()
}

/// The rendering of a block without the gates that no output needs, if Compare accepts it and a second look finds the same.
fn accepted(text: &str) -> Result<Option<Block>, Refusal> {
    let own = Block::read(text)?;
    let rendering = needed(&own.render()?)?;
    let form = Form::rendering(Language::Netlist);
    let same = own.compare(&rendering)?.is_none()
        && agrees(text.as_bytes(), rendering.write().as_bytes(), form).is_ok();
    Ok(same.then_some(rendering))
}

/// The gates that outputs need: each reads only what stands above it.
fn needed(rendering: &Block) -> Result<Block, Refusal> {
    let gates = rendering.gate_list();
    let mut is_needed = vec![false; gates.len()];
    for node in rendering.outputs_show() {
        if let Operand::Gate(gate) = node {
            is_needed[gate] = true;
        }
    }
    for gate in (0..gates.len()).rev() {
        if is_needed[gate] {
            gates[gate]
                .gates_read()
                .for_each(|read| is_needed[read] = true);
        }
    }
    let mut needed = is_needed.into_iter();
    let text = rendering.write();
    let mut stays = |line: &&str| !line.starts_with("(gate ") || needed.next().unwrap_or(true);
    let lines: Vec<&str> = text
        .split_inclusive('\n')
        .filter(|line| stays(line))
        .collect();
    Block::read(lines.concat())
}

/// The text of a block with a never line behind its inputs for each promise.
fn with_nevers(text: String, cut: &Cut, allowed: &[Allowed]) -> String {
    let inputs: Vec<&str> = text
        .split_inclusive('\n')
        .take(cut.boundary.len())
        .collect();
    let pin = |place: usize| {
        inputs[place]
            .trim_start_matches("(in ")
            .trim_end_matches(")\n")
    };
    let never = |line: &Allowed| {
        let pairs = line
            .pins
            .iter()
            .map(|&(place, value)| format!(" ({} {})", pin(place), u8::from(value)));
        format!("(never{})\n", pairs.collect::<String>())
    };
    let nevers: String = allowed.iter().map(never).collect();
    let (head, rest) = text.split_at(inputs.concat().len());
    format!("{head}{nevers}{rest}")
}

/// The model that a group is by itself: the nets of its boundary are inputs, and some of its ports outputs.
fn own_model(whole: &Whole, cut: &Cut, ports: &[Net]) -> Model {
    let mut own = Own {
        whole,
        places: HashMap::new(),
        connected: HashSet::new(),
        model: Model::default(),
    };
    let drivers = &whole.wiring.drivers;
    own.model.name = called(whole, cut);
    own.model.line = drivers[cut.members[0]].line;
    own.model.inputs = own.nets(&cut.boundary);
    let inside: Vec<Net> = cut
        .members
        .iter()
        .map(|&place| drivers[place].net)
        .collect();
    own.nets(&inside);
    for &place in cut.members.iter().chain(&cut.copies) {
        own.put(drivers[place].listed);
        drivers[place]
            .reads
            .iter()
            .for_each(|&net| own.connect(net));
    }
    own.model.outputs = own.nets(ports);
    own.model
}

/// A model of its own that is being made.
struct Own<'a> {
    whole: &'a Whole,
    /// Where a net of the whole is here.
    places: HashMap<Net, Net>,
    /// The nets whose tables are there.
    connected: HashSet<Net>,
    model: Model,
}

impl Own<'_> {
    fn net(&mut self, net: Net) -> Net {
        let (nets, whole) = (&mut self.model.nets, self.whole);
        *self.places.entry(net).or_insert_with(|| {
            nets.push(whole.net(net).to_string());
            nets.len() - 1
        })
    }

    fn nets(&mut self, nets: &[Net]) -> Vec<Net> {
        nets.iter().map(|&net| self.net(net)).collect()
    }

    fn put(&mut self, listed: Listed) {
        let whole = self.whole;
        match listed {
            Listed::Table(place) => {
                let table = whole.model.tables[place].clone();
                let (inputs, output) = (self.nets(&table.inputs), self.net(table.output));
                self.model.tables.push(Table {
                    inputs,
                    output,
                    ..table
                });
            }
            Listed::Gate(place) => self.put_cell(&whole.model.gates[place]),
            Listed::Subcircuit(place) => self.put_cell(&whole.model.subcircuits[place]),
        }
    }

    fn put_cell(&mut self, cell: &Instance) {
        let pins = cell
            .pins
            .iter()
            .map(|(pin, net)| (pin.clone(), self.net(*net)));
        let pins = pins.collect();
        self.model.gates.push(Instance {
            pins,
            ..cell.clone()
        });
    }

    /// What a net is through buffers and inverters stands here as a table, unless it is there already.
    fn connect(&mut self, net: Net) {
        let place = self.net(net);
        let table = |inputs: Vec<Net>, rows: Vec<Vec<Option<bool>>>| Table {
            inputs,
            output: place,
            rows,
            shown: true,
            line: 0,
        };
        let made = match self.whole.sources[net] {
            Source::Net { net: source, .. } if source == net => return,
            Source::Net {
                net: source,
                inverted,
            } => table(vec![self.net(source)], vec![vec![Some(!inverted)]]),
            Source::Constant(value) => {
                table(Vec::new(), value.then(Vec::new).into_iter().collect())
            }
        };
        if self.connected.insert(net) {
            self.model.tables.push(made);
        }
    }
}
