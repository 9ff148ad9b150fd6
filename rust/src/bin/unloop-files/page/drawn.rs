//! The drawing of a block, its loops in colour and gates that wait for each other outlined: by Graphviz where `dot` is installed and the block
//! not too large, otherwise by svg.rs. Each node has a name by which page.js finds it and shows its value under the sheet's pins.

use super::html::escaped;
use super::{dot, svg};
use crate::report::waiting;
use unloop::declarations::{gate_names, gate_rows};
use unloop::drawing::{Drawing, Node, Wire};
use unloop::{circle, Block, Operand};

/// A drawing that is wider is not shrunk below this, in pixels.
const LEAST_WIDTH: usize = 640;
/// The colours of loops, which are then used again.
const COLOURS: usize = 6;
/// What stands in the place of a value until page.js shows one.
const NO_VALUE: &str = "–";

/// What is written on the nodes, and the class of each gate.
pub struct Labels {
    pub inputs: Vec<String>,
    pub outputs: Vec<String>,
    /// The name, if it has one, and the kind with its constants.
    pub gates: Vec<(String, String)>,
    /// The loop that a gate is in.
    pub loops: Vec<Option<usize>>,
    /// The line of the text that a gate stands in.
    rows: Vec<usize>,
    /// The gates that wait for each other, by name, where a setting isn't settled.
    waiting: Vec<String>,
}

impl Labels {
    fn of(block: &Block, text: &[u8], unsettled: Option<usize>) -> Labels {
        let names = gate_names(text);
        let kind = |gate: &unloop::Gate| {
            let constants = gate.operands.iter().filter_map(|operand| match operand {
                Operand::Constant(value) => Some(format!(" {}", u8::from(*value))),
                _ => None,
            });
            gate.kind.word().to_string() + &constants.collect::<String>()
        };
        let name = |gate: usize| names.get(gate).cloned().flatten().unwrap_or_default();
        let gates = block.gate_list();
        Labels {
            inputs: block.input_names(),
            outputs: block.output_names(),
            gates: gates
                .iter()
                .enumerate()
                .map(|(number, gate)| (name(number), kind(gate)))
                .collect(),
            loops: block.loops_of_gates(),
            rows: gate_rows(text),
            waiting: unsettled.map_or(Vec::new(), |setting| circle(text, setting)),
        }
    }

    /// The lines in a node's box, each with its class: what it is called, its value, its kind.
    pub fn lines(&self, node: Node) -> Vec<(String, &'static str)> {
        let named = |name: &str| (format!("{name} = {NO_VALUE}"), "name");
        match node {
            Node::Input(input) => vec![named(&self.inputs[input])],
            Node::Output(output) => vec![named(&self.outputs[output])],
            Node::Gate(gate) => match &self.gates[gate] {
                (name, kind) if name.is_empty() => {
                    vec![(kind.clone(), "kind"), (format!("= {NO_VALUE}"), "name")]
                }
                (name, kind) => vec![named(name), (kind.clone(), "kind")],
            },
        }
    }

    /// The classes of a node: its loop, and the line of the text that it is of.
    pub fn class(&self, node: Node) -> String {
        match node {
            Node::Input(_) => "input".to_string(),
            Node::Output(_) => "output".to_string(),
            Node::Gate(gate) => {
                let looped = self.loops[gate].map(|number| format!(" loop{}", number % COLOURS));
                let waits = self.waiting.contains(&self.gates[gate].0);
                let waits = if waits { " waits" } else { "" };
                let row = self.rows[gate];
                format!("gate{}{waits} of{row}", looped.unwrap_or_default())
            }
        }
    }
}

/// What a node is called in the drawing.
pub fn id(node: Node) -> String {
    match node {
        Node::Input(input) => format!("i{input}"),
        Node::Gate(gate) => format!("g{gate}"),
        Node::Output(output) => format!("o{output}"),
    }
}

/// The classes of a wire: whether it is part of a loop, and its two ends.
pub fn wire_class(wire: &Wire) -> String {
    let looped = if wire.looped { " inloop" } else { "" };
    let (from, to) = (id(wire.from), id(wire.to));
    format!("wire{looped} from_{from} to_{to}")
}

/// `unsettled`: the lowest setting that isn't settled, if there is one. `before`: the page that it had, whose drawing stays where it is the same.
pub fn drawing(
    block: &Block,
    text: &[u8],
    unsettled: Option<usize>,
    before: Option<&str>,
) -> String {
    let labels = Labels::of(block, text, unsettled);
    let drawing = Drawing::of(block);
    let drawn = dot::drawn(&drawing, &labels, before);
    let drawn = drawn.unwrap_or_else(|| dot::framed(&svg::svg(&drawing, &labels), ""));
    format!(
        "{}{TOOLS}{drawn}<p id=\"traced\" role=\"status\"></p>\n",
        legend(&labels)
    )
}

/// What moves a drawing; page.js does it.
const TOOLS: &str = "<p class=\"tools\"><button type=\"button\" data-zoom=\"out\" aria-label=\"Smaller\">−</button> \
    <button type=\"button\" data-zoom=\"in\" aria-label=\"Larger\">+</button> \
    <button type=\"button\" data-zoom=\"fit\">Fit</button> <button type=\"button\" data-zoom=\"full\">Full size</button> \
    <span class=\"note\">Drag it, or turn the wheel with Ctrl; keys: arrows, + − 0 1. A click on a gate tells its line.</span></p>\n";

/// Of gates that page.js marks.
const OPENS: &str = "<li><span class=\"swatch opens\"></span> opens its loop under the sheet's pins: it has its value whatever \
    it reads of its loop; wires that play no part are dotted</li>\n";

/// The loops by colour, with the names of their gates.
fn legend(labels: &Labels) -> String {
    let count = labels
        .loops
        .iter()
        .flatten()
        .max()
        .map_or(0, |last| last + 1);
    if count == 0 {
        return "<p>No loop.</p>\n".to_string();
    }
    let item = |number: usize| {
        let members = (0..labels.gates.len()).filter(|&gate| labels.loops[gate] == Some(number));
        let members: Vec<usize> = members.collect();
        let named = members
            .iter()
            .map(|&gate| &labels.gates[gate].0)
            .filter(|name| !name.is_empty());
        let named: Vec<String> = named.map(|name| escaped(name)).collect();
        let gates = super::html::counted(members.len(), "gate");
        format!(
            "<li><span class=\"swatch loop{}\"></span> loop of {gates}: {}</li>\n",
            number % COLOURS,
            named.join(", ")
        )
    };
    let waiting = waiting(&labels.waiting).map(|waiting| {
        let waiting = escaped(&waiting);
        format!("<li><span class=\"swatch waits\"></span> {waiting}</li>\n")
    });
    format!(
        "<ul class=\"legend\">\n{}{}{OPENS}</ul>\n",
        (0..count).map(item).collect::<String>(),
        waiting.unwrap_or_default()
    )
}

/// The attributes of a drawing that is so many pixels wide.
pub fn described(width: usize) -> String {
    let least = width.min(LEAST_WIDTH);
    format!("role=\"img\" aria-label=\"The gates and their wires\" style=\"min-width: {least}px\"")
}
