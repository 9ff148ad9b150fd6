//! Writes the BLIF model of a netlist rendered with as many passes a group as it has gates, by the simulator alone, for a synthesis tool to
//! compare with: cargo run --release --bin all_passes -- FILE.net. Its writer shares nothing with the driver's.

use simulator::block::{Block, Gate, Kind, Source};
use simulator::groups::ordered_groups;
use simulator::read;
use std::{env, fs, io, process};

fn main() -> io::Result<()> {
    let file = env::args_os().nth(1).unwrap_or_default();
    let (answer, words) = read(&fs::read(file)?, usize::MAX);
    if answer.number != 0 {
        eprintln!("refused {} {}", answer.number, answer.detail);
        process::exit(1);
    }
    print!("{}", model(&Block::from_words(&words)));
    Ok(())
}

/// Each copy is a table that reads the newest copies so far; a gate that has none yet is constant 0.
fn model(block: &Block) -> String {
    let mut newest = vec!["k0".to_string(); block.gates.len()];
    let mut tables = String::new();
    for group in ordered_groups(block) {
        for pass in 0..group.len() {
            for &gate in &group {
                let name = format!("c{gate}_{pass}_copy");
                tables += &table(block, &block.gates[gate], &newest, &name);
                newest[gate] = name;
            }
        }
    }
    let ports = block.outputs.iter().map(|output| port(block, &output.port));
    let ports: Vec<String> = ports.collect();
    for (port, output) in ports.iter().zip(&block.outputs) {
        tables += &format!(".names {} {port}\n1 1\n", net(block, output.node, &newest));
    }
    let (inputs, ports) = (block.inputs.join(" "), ports.join(" "));
    format!(".model all_passes\n.inputs {inputs}\n.outputs {ports}\n.names k0\n.names k1\n1\n{tables}.end\n")
}

/// A port that has an input's name is called as the driver calls it.
fn port(block: &Block, name: &str) -> String {
    match block.inputs.iter().any(|input| input == name) {
        true => format!("{name}__output"),
        false => name.to_string(),
    }
}

fn net(block: &Block, source: Source, newest: &[String]) -> String {
    match source {
        Source::Constant(value) => ["k0", "k1"][usize::from(value)].to_string(),
        Source::Input(input) => block.inputs[input].clone(),
        Source::Gate(gate) => newest[gate].clone(),
    }
}

/// All rows where the gate is 1, by the counts of its ones.
fn table(block: &Block, gate: &Gate, newest: &[String], name: &str) -> String {
    let count = gate.operands.len() as u32;
    let nets = gate
        .operands
        .iter()
        .map(|&operand| net(block, operand, newest));
    let nets: Vec<String> = nets.collect();
    let is_one = |row: u32| match (gate.kind, row.count_ones()) {
        (Kind::And, ones) => ones == count,
        (Kind::Nand | Kind::Not, ones) => ones < count,
        (Kind::Or, ones) => ones > 0,
        (Kind::Nor, ones) => ones == 0,
        (Kind::Xor, ones) => ones % 2 == 1,
        (Kind::Xnor, ones) => ones % 2 == 0,
    };
    let rows = (0..1u32 << count).filter(|&row| is_one(row));
    let rows = rows.map(|row| format!("{row:0width$b} 1\n", width = count as usize));
    format!(
        ".names {} {name}\n{}",
        nets.join(" "),
        rows.collect::<String>()
    )
}
