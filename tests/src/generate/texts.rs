//! Random texts that Read takes, with the block they stand for.

use super::nevers::{never_text, nevers};
use super::{Random, Size};
use crate::block::{Block, Gate, Kind, Never, Output, Source};
use crate::limits;

/// A text that Read takes, and its block, numbered while the text is made.
pub fn text(random: &mut Random, size: Size) -> (Vec<u8>, Block) {
    let mut used = Vec::new();
    let inputs: Vec<String> = (0..random.between(0, size.inputs))
        .map(|_| random.fresh_name(&mut used))
        .collect();
    let lines: Vec<String> = (0..random.between(0, size.gates))
        .map(|_| gate_name(random, &mut used))
        .collect();
    let mut maker = Maker::new(random, inputs, lines);
    maker.never_lines(size.nevers);
    maker.gate_lines();
    maker.output_lines(size.outputs);
    maker.finished()
}

/// A fresh gate name, which may start with an underscore.
fn gate_name(random: &mut Random, used: &mut Vec<String>) -> String {
    let name = random.fresh_name(used);
    let other = format!("_{}", &name[1..]);
    if random.chance(70) || used.contains(&other) {
        return name;
    }
    used.push(other.clone());
    other
}

/// An operand of the block being made; a gate line's number is known only later.
#[derive(Clone, Copy)]
enum Pending {
    Known(Source),
    Line(usize),
}

struct Maker<'a> {
    random: &'a mut Random,
    inputs: Vec<String>,
    lines: Vec<String>,
    text: String,
    nevers: Vec<Never>,
    gates: Vec<(Kind, Vec<Pending>)>,
    /// The gate number of each gate line so far.
    numbers: Vec<usize>,
    outputs: Vec<(String, Pending)>,
}

impl Maker<'_> {
    fn new(random: &mut Random, inputs: Vec<String>, lines: Vec<String>) -> Maker<'_> {
        let text = inputs.iter().map(|name| format!("(in {name})\n")).collect();
        Maker {
            random,
            inputs,
            lines,
            text,
            nevers: Vec::new(),
            gates: Vec::new(),
            numbers: Vec::new(),
            outputs: Vec::new(),
        }
    }

    fn never_lines(&mut self, most: usize) {
        self.nevers = nevers(self.random, self.inputs.len(), most);
        for &line in &self.nevers {
            self.text += &never_text(self.random, &self.inputs, line);
        }
    }

    fn gate_lines(&mut self) {
        for line in 0..self.lines.len() {
            self.text += &format!("(gate {} ", self.lines[line]);
            let number = self.expression(1);
            self.numbers.push(number);
            self.text += ")\n";
        }
    }

    /// Writes an expression and gives its gate number, taken at its closing bracket.
    fn expression(&mut self, depth: usize) -> usize {
        let kind = self.random.pick(&Kind::ALL);
        let count = match kind {
            Kind::Not => 1,
            _ => self.random.between(2, 4),
        };
        self.text += "(";
        self.text += kind.keyword();
        let mut operands = Vec::new();
        for _ in 0..count {
            self.text += " ";
            operands.push(self.operand(depth));
        }
        self.text += ")";
        self.gates.push((kind, operands));
        self.gates.len() - 1
    }

    fn operand(&mut self, depth: usize) -> Pending {
        // Leaves room for the gate lines still to come, and for the brackets still open.
        let full = self.gates.len() + self.lines.len() + limits::DEPTH >= limits::GATES;
        if depth < limits::DEPTH && !full && self.random.chance(25) {
            return Pending::Known(Source::Gate(self.expression(depth + 1)));
        }
        match self.node() {
            Some(node) if self.random.chance(85) => self.named(node),
            _ => {
                let value = self.random.chance(50);
                self.text += if value { "1" } else { "0" };
                Pending::Known(Source::Constant(value))
            }
        }
    }

    /// An input or a gate line, if there is one.
    fn node(&mut self) -> Option<usize> {
        let nodes = self.inputs.len() + self.lines.len();
        (nodes > 0).then(|| self.random.below(nodes))
    }

    fn named(&mut self, node: usize) -> Pending {
        let n = self.inputs.len();
        self.text += self
            .inputs
            .get(node)
            .unwrap_or_else(|| &self.lines[node - n]);
        match node < n {
            true => Pending::Known(Source::Input(node)),
            false => Pending::Line(node - n),
        }
    }

    fn output_lines(&mut self, most: usize) {
        let mut used = Vec::new();
        for _ in 0..self.random.between(0, most) {
            let Some(node) = self.node() else { return };
            let port = self.random.fresh_name(&mut used);
            self.text += &format!("(out {port} ");
            let node = self.named(node);
            self.text += ")\n";
            self.outputs.push((port, node));
        }
    }

    fn finished(self) -> (Vec<u8>, Block) {
        let numbers = self.numbers;
        let known = |pending| match pending {
            Pending::Known(source) => source,
            Pending::Line(line) => Source::Gate(numbers[line]),
        };
        let gate = |(kind, operands): (Kind, Vec<Pending>)| Gate {
            kind,
            operands: operands.into_iter().map(known).collect(),
        };
        let node = |(port, node)| Output {
            port,
            node: known(node),
        };
        let block = Block {
            inputs: self.inputs,
            nevers: self.nevers,
            gates: self.gates.into_iter().map(gate).collect(),
            outputs: self.outputs.into_iter().map(node).collect(),
        };
        (self.text.into_bytes(), block)
    }
}
