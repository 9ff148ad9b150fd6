//! Where the gates of a block stand in a layered drawing: columns from left to right, each gate behind what it reads as far as loops allow.

use crate::{Block, Gate, Operand};

/// A node of the drawing.
#[derive(Debug, Clone, Copy, PartialEq, Eq, Hash, PartialOrd, Ord)]
pub enum Node {
    Input(usize),
    Gate(usize),
    Output(usize),
}

/// A line from one node to another.
#[derive(Debug, Clone, Copy, PartialEq, Eq)]
pub struct Wire {
    pub from: Node,
    pub to: Node,
    /// Whether it is part of a loop.
    pub looped: bool,
    /// Whether it closes one: it runs back, or to the gate itself.
    pub back: bool,
}

/// A drawing: the nodes of each column from top to bottom, and the wires.
#[derive(Debug, Clone, PartialEq, Eq)]
pub struct Drawing {
    pub columns: Vec<Vec<Node>>,
    pub wires: Vec<Wire>,
}

impl Drawing {
    /// The drawing of a block. In a group that is a loop the wires to a gate of the same or a lower number run back.
    ///
    /// ```
    /// # use unloop::drawing::{Drawing, Node};
    /// # use unloop::{Block, Refusal};
    /// let block = Block::read("(in s)\n(gate p (and s q))\n(gate q (or s p))\n(out y q)\n")?;
    /// let drawing = Drawing::of(&block);
    /// assert_eq!(drawing.columns, [[Node::Input(0)], [Node::Gate(0)], [Node::Gate(1)], [Node::Output(0)]]);
    /// let back: Vec<_> = drawing.wires.iter().filter(|wire| wire.back).map(|wire| (wire.from, wire.to)).collect();
    /// assert_eq!(back, [(Node::Gate(1), Node::Gate(0))]);
    /// # Ok::<(), Refusal>(())
    /// ```
    pub fn of(block: &Block) -> Drawing {
        let gates = block.gate_list();
        let wires = wires(block, &gates);
        let ranks = ranks(block, &gates, &wires);
        let last = 1 + ranks.iter().max().copied().unwrap_or(0);
        let mut columns = vec![Vec::new(); last + 1];
        columns[0] = (0..block.inputs()).map(Node::Input).collect();
        (0..gates.len()).for_each(|gate| columns[ranks[gate]].push(Node::Gate(gate)));
        columns[last] = (0..block.outputs()).map(Node::Output).collect();
        columns.retain(|column| !column.is_empty());
        sort(&mut columns, &wires);
        Drawing { columns, wires }
    }
}

fn wires(block: &Block, gates: &[Gate]) -> Vec<Wire> {
    let groups = block.groups().of_gates;
    let mut wires: Vec<Wire> = Vec::new();
    let mut add = |operand: Operand, to: Node| {
        let from = match operand {
            Operand::Constant(_) => return,
            Operand::Input(input) => Node::Input(input),
            Operand::Gate(gate) => Node::Gate(gate),
        };
        let (looped, back) = match (from, to) {
            (Node::Gate(from), Node::Gate(to)) if groups[from] == groups[to] => (true, from >= to),
            _ => (false, false),
        };
        let wire = Wire {
            from,
            to,
            looped,
            back,
        };
        if wires.last() != Some(&wire) {
            wires.push(wire);
        }
    };
    for (number, gate) in gates.iter().enumerate() {
        gate.operands
            .iter()
            .for_each(|&operand| add(operand, Node::Gate(number)));
    }
    for (output, node) in block.outputs_show().into_iter().enumerate() {
        add(node, Node::Output(output));
    }
    wires
}

/// The column of each gate: one more than the highest of what it reads, wires that run back left out.
fn ranks(block: &Block, gates: &[Gate], wires: &[Wire]) -> Vec<usize> {
    let groups = block.groups().of_gates;
    let mut read = vec![Vec::new(); gates.len()];
    for wire in wires.iter().filter(|wire| !wire.back) {
        if let (Node::Gate(from), Node::Gate(to)) = (wire.from, wire.to) {
            read[to].push(from);
        }
    }
    let mut order: Vec<usize> = (0..gates.len()).collect();
    order.sort_by_key(|&gate| (groups[gate], gate));
    let mut ranks = vec![1; gates.len()];
    for gate in order {
        let before = read[gate].iter().map(|&read| ranks[read]).max();
        ranks[gate] = 1 + before.unwrap_or(0);
    }
    ranks
}

/// Orders each column by the middle of what its nodes read in the columns before.
fn sort(columns: &mut [Vec<Node>], wires: &[Wire]) {
    let mut heights = std::collections::BTreeMap::new();
    for column in columns {
        let middle = |node: &Node, heights: &std::collections::BTreeMap<Node, usize>| {
            let read = wires.iter().filter(|wire| wire.to == *node);
            let seen: Vec<usize> = read
                .filter_map(|wire| heights.get(&wire.from).copied())
                .collect();
            match seen.is_empty() {
                true => 0,
                false => 1_000 * seen.iter().sum::<usize>() / seen.len(),
            }
        };
        let mut placed: Vec<(usize, Node)> = column
            .iter()
            .map(|node| (middle(node, &heights), *node))
            .collect();
        placed.sort();
        *column = placed.into_iter().map(|(_, node)| node).collect();
        heights.extend(
            column
                .iter()
                .enumerate()
                .map(|(height, node)| (*node, height)),
        );
    }
}
