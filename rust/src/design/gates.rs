//! The gates that take a loop's place, as `.names` lines. A gate whose value is a port's has the port's name; the others are numbered in the
//! order in which they stand, behind a prefix and the loop's number, as `unloop_3_0`. Equal gates are written once.

use super::cut::Cut;
use super::whole::Whole;
use crate::blif::rows;
use crate::blif_model::Net;
use crate::{Block, Gate, Kind, Operand};
use std::collections::HashMap;

pub struct Gates<'a> {
    whole: &'a Whole,
    cut: &'a Cut,
    stem: String,
    /// The net of each gate that is written, by its kind and what it reads.
    written: HashMap<(Kind, Vec<Node>), String>,
    pub lines: String,
    pub count: usize,
}

/// What a gate reads.
#[derive(Debug, Clone, PartialEq, Eq, Hash)]
enum Node {
    Constant(bool),
    Net(String),
}

impl<'a> Gates<'a> {
    /// No gate yet, of the loop of this number from 0.
    pub fn new(whole: &'a Whole, cut: &'a Cut, number: usize) -> Gates<'a> {
        Gates {
            whole,
            cut,
            stem: format!("{}{}_", whole.prefix, number + 1),
            written: HashMap::new(),
            lines: String::new(),
            count: 0,
        }
    }

    /// Puts the gates of a straight block whose outputs are these ports.
    pub fn put(&mut self, straight: &Block, ports: &[Net]) {
        let shown = straight.outputs_show();
        let mut nets = Vec::with_capacity(straight.gates());
        for (number, gate) in straight.gate_list().iter().enumerate() {
            let port = shown.iter().position(|node| *node == Operand::Gate(number));
            let port = port.map(|port| self.whole.net(ports[port]).to_string());
            let net = self.put_gate(gate, &nets, port);
            nets.push(net);
        }
        for (&port, &node) in ports.iter().zip(&shown) {
            let name = self.whole.net(port);
            match self.node(node, &nets) {
                Node::Net(net) if net == name => {}
                Node::Net(net) => self.lines += &format!(".names {net} {name}\n1 1\n"),
                Node::Constant(value) => self.put_constant(name, value),
            }
        }
    }

    /// The net of a gate, which is called as the port that shows it, if one does.
    fn put_gate(&mut self, gate: &Gate, nets: &[String], port: Option<String>) -> String {
        let operands: Vec<Node> = gate
            .operands
            .iter()
            .map(|&node| self.node(node, nets))
            .collect();
        let key = (gate.kind, operands);
        if let Some(net) = self.written.get(&key) {
            return net.clone();
        }
        let net = port.unwrap_or_else(|| format!("{}{}", self.stem, self.count));
        self.count += 1;
        self.table(&net, gate.kind, &key.1);
        self.written.insert(key, net.clone());
        net
    }

    /// The table of a gate: its constant operands are no columns.
    fn table(&mut self, net: &str, kind: Kind, operands: &[Node]) {
        let fixed = |node: &Node| match node {
            Node::Constant(value) => Some(*value),
            Node::Net(_) => None,
        };
        let fixed: Vec<Option<bool>> = operands.iter().map(fixed).collect();
        let rows = rows(kind, &fixed);
        let free = operands.iter().filter_map(|node| match node {
            Node::Constant(_) => None,
            Node::Net(net) => Some(&net[..]),
        });
        let free: Vec<&str> = free.collect();
        if rows.is_empty() || rows.len() == 1 << free.len() {
            return self.put_constant(net, !rows.is_empty());
        }
        self.lines += &format!(".names {} {net}\n{}\n", free.join(" "), rows.join("\n"));
    }

    /// A table that asks nothing of what it reads. Yosys takes no comment behind a table that reads nothing, and one may follow.
    fn put_constant(&mut self, net: &str, value: bool) {
        let value = u8::from(value);
        self.lines += &match self.cut.boundary.first() {
            Some(&read) => format!(".names {} {net}\n- {value}\n", self.whole.net(read)),
            None => format!(".names {net}\n{value}\n"),
        };
    }

    fn node(&self, operand: Operand, nets: &[String]) -> Node {
        match operand {
            Operand::Constant(value) => Node::Constant(value),
            Operand::Input(input) => {
                Node::Net(self.whole.net(self.cut.boundary[input]).to_string())
            }
            Operand::Gate(gate) => Node::Net(nets[gate].clone()),
        }
    }
}
