//! Read: from a text to the words of its block.

use crate::answer::*;
use crate::block::{Block, Gate, Never, Output, Source};
use crate::limits;
use crate::parser::{self, Expression, Name, Netlist, Operand};
use crate::recogniser;
use std::collections::{BTreeMap, BTreeSet};

/// Text to block; count: words.
pub fn read(text: &[u8], room: usize) -> (Answer, Vec<u16>) {
    told(block_of(text), room)
}

fn block_of(text: &[u8]) -> Outcome<u16> {
    refuse_if(text.len() > limits::TEXT_BYTES, TEXT_TOO_LONG)?;
    refuse_at(recogniser::first_error(text), SYNTAX_ERROR)?;
    let netlist = parser::parse(text).expect("the parser takes what the recogniser takes");
    let expressions = by_closing_bracket(&netlist);
    refuse_if(over_a_limit(&netlist, expressions.len()), OVER_A_LIMIT)?;
    refuse_at(first_repeat(&netlist), DUPLICATE_DECLARATION)?;
    refuse_at(first_undeclared(&netlist, &expressions), UNDECLARED_NAME)?;
    let words = assembled(&netlist, &expressions).to_words();
    Ok((words.len(), words))
}

fn refuse_at(place: Option<usize>, number: usize) -> Result<(), Answer> {
    match place {
        Some(place) => Err(Answer::refusal(number, place)),
        None => Ok(()),
    }
}

/// Every expression, inner ones too; a gate's number is its place in this list.
fn by_closing_bracket(netlist: &Netlist) -> Vec<&Expression> {
    let mut waiting: Vec<&Expression> = netlist.gates.iter().map(|(_, e)| e).collect();
    let mut found = Vec::new();
    while let Some(expression) = waiting.pop() {
        found.push(expression);
        waiting.extend(expression.operands.iter().filter_map(|o| match o {
            Operand::Inner(inner) => Some(inner),
            _ => None,
        }));
    }
    found.sort_by_key(|expression| expression.close);
    found
}

fn over_a_limit(netlist: &Netlist, gates: usize) -> bool {
    netlist.inputs.len() > limits::INPUTS
        || netlist.nevers.len() > limits::NEVERS
        || gates > limits::GATES
        || netlist.outputs.len() > limits::OUTPUTS
}

/// The names of inputs and gates, as declared.
fn nodes(netlist: &Netlist) -> impl Iterator<Item = &Name> {
    let gates = netlist.gates.iter().map(|(name, _)| name);
    netlist.inputs.iter().chain(gates)
}

/// The least place of a name that has an equal one before it in its set: nodes are a set, ports another, and each never line one.
fn first_repeat(netlist: &Netlist) -> Option<usize> {
    let nodes = nodes(netlist).map(|node| (0, node));
    let ports = netlist.outputs.iter().map(|(port, _)| (1, port));
    let lines = netlist.nevers.iter().enumerate();
    let nevers = lines.flat_map(|(i, pairs)| pairs.iter().map(move |(name, _)| (2 + i, name)));
    let mut sorted: Vec<(usize, &str, usize)> = nodes
        .chain(ports)
        .chain(nevers)
        .map(|(set, name)| (set, name.text.as_str(), name.place))
        .collect();
    sorted.sort_unstable();
    let equal = |pair: &&[(usize, &str, usize)]| (pair[0].0, pair[0].1) == (pair[1].0, pair[1].1);
    sorted.windows(2).filter(equal).map(|pair| pair[1].2).min()
}

/// The least place of a name used but not declared, or in a never line and no input's.
fn first_undeclared(netlist: &Netlist, expressions: &[&Expression]) -> Option<usize> {
    let declared: BTreeSet<&str> = nodes(netlist).map(|name| name.text.as_str()).collect();
    let operands = expressions.iter().flat_map(|e| &e.operands);
    let read = operands.filter_map(|operand| match operand {
        Operand::Name(name) => Some(name),
        _ => None,
    });
    let shown = netlist.outputs.iter().map(|(_, node)| node);
    let unknown = |name: &&Name| !declared.contains(name.text.as_str());
    let inputs: BTreeSet<&str> = netlist.inputs.iter().map(|n| n.text.as_str()).collect();
    let named = netlist.nevers.iter().flatten().map(|(name, _)| name);
    let strange = named.filter(|name| !inputs.contains(name.text.as_str()));
    read.chain(shown)
        .filter(unknown)
        .chain(strange)
        .map(|name| name.place)
        .min()
}

fn assembled(netlist: &Netlist, expressions: &[&Expression]) -> Block {
    let closes: Vec<usize> = expressions.iter().map(|e| e.close).collect();
    let number = |e: &Expression| closes.binary_search(&e.close).expect("listed");
    let inputs = netlist.inputs.iter().enumerate();
    let inputs = inputs.map(|(i, name)| (name.text.as_str(), Source::Input(i)));
    let gates = netlist.gates.iter();
    let gates = gates.map(|(name, e)| (name.text.as_str(), Source::Gate(number(e))));
    let sources: BTreeMap<&str, Source> = inputs.chain(gates).collect();
    let source = |operand: &Operand| match operand {
        Operand::Constant(value) => Source::Constant(*value),
        Operand::Name(name) => sources[name.text.as_str()],
        Operand::Inner(inner) => Source::Gate(number(inner)),
    };
    let gate = |e: &&Expression| Gate {
        kind: e.kind,
        operands: e.operands.iter().map(source).collect(),
    };
    let bit = |(name, _): &(Name, bool)| match sources[name.text.as_str()] {
        Source::Input(input) => 1 << input,
        _ => unreachable!("refused before"),
    };
    let never = |pairs: &Vec<(Name, bool)>| Never {
        fixed: pairs.iter().map(bit).sum(),
        ones: pairs.iter().filter(|pair| pair.1).map(bit).sum(),
    };
    let output = |(port, node): &(Name, Name)| Output {
        port: port.text.clone(),
        node: sources[node.text.as_str()],
    };
    Block {
        inputs: netlist.inputs.iter().map(|n| n.text.clone()).collect(),
        nevers: netlist.nevers.iter().map(never).collect(),
        gates: expressions.iter().map(gate).collect(),
        outputs: netlist.outputs.iter().map(output).collect(),
    }
}
