//! A block as a BLIF model: a gate is a `.names` table of the rows where it is 1, or of those where it is 0 if they are fewer.

use crate::export::{Nets, CONSTANTS};
use crate::{Assignment, Block, Gate, Kind, Labels, Operand};
use std::collections::HashMap;

/// The model of a block, straight or looped.
///
/// ```
/// # use unloop::{blif, module_name, Block, Refusal};
/// let block = Block::read("(in a)\n(in b)\n(gate p (or a b 0))\n(out a p)\n")?;
/// let model = ".model m\n.inputs a b\n.outputs a__output\n.names _zero\n.names a b _zero _0\n000 0\n.names _0 a__output\n1 1\n.end\n";
/// assert_eq!(blif(&block, &module_name("m")), model);
/// # Ok::<(), Refusal>(())
/// ```
pub fn blif(block: &Block, labels: impl Into<Labels>) -> String {
    let (labels, gates) = (labels.into(), block.gate_list());
    let nets = Nets::of(block, &labels);
    let constants = CONSTANTS.map(|word| format!("{}{word}", nets.prefix));
    let constants = [&constants[0][..], &constants[1]];
    let comments = labels.comments(block).into_iter();
    let mut lines: Vec<String> = comments.map(|line| format!("# {line}")).collect();
    lines.push(format!(".model {}", labels.module));
    for (word, names) in [(".inputs", &nets.inputs), (".outputs", &nets.ports)] {
        lines.push([&[word.to_string()], &names[..]].concat().join(" "));
    }
    for value in [false, true] {
        let read = |gate: &Gate| gate.operands.contains(&Operand::Constant(value));
        if gates.iter().any(read) {
            lines.push(format!(".names {}", constants[usize::from(value)]));
            lines.extend(value.then(|| "1".to_string()));
        }
    }
    // Gates of one kind and as many operands have the same rows.
    let mut known: HashMap<(Kind, usize), String> = HashMap::new();
    for (gate, net) in gates.iter().zip(&nets.gates) {
        let operands = gate.operands.iter();
        let operands: Vec<String> = operands.map(|&node| nets.net(node, constants)).collect();
        lines.push(format!(".names {} {net}", operands.join(" ")));
        let rows = known.entry((gate.kind, gate.operands.len()));
        lines.push(
            rows.or_insert_with(|| {
                self::rows(gate.kind, &vec![None; gate.operands.len()]).join("\n")
            })
            .clone(),
        );
    }
    for (port, &node) in nets.ports.iter().zip(&block.outputs_show()) {
        if !nets.is_gate(port) {
            lines.push(format!(".names {} {port}\n1 1", nets.net(node, constants)));
        }
    }
    lines.push(".end\n".to_string());
    lines.join("\n")
}

/// A model with the block's pins and one output, which is 0 under the settings that never lines exclude: what a tool need not care for. None
/// where there are no never lines.
///
/// ```
/// # use unloop::{care_model, Block, Refusal};
/// let block = Block::read("(in a)\n(in b)\n(in c)\n(never (a 1) (c 0))\n(out y b)\n")?;
/// assert_eq!(care_model(&block).unwrap(), ".model care\n.inputs a b c\n.outputs _care\n.names a b c _care\n1-0 0\n.end\n");
/// # Ok::<(), Refusal>(())
/// ```
pub fn care_model(block: &Block) -> Option<String> {
    let (pins, nevers) = (block.input_names().join(" "), block.never_lines());
    let row = |line: &Assignment| {
        let bits = (0..block.inputs()).map(|input| match line.value(input) {
            None => '-',
            Some(false) => '0',
            Some(true) => '1',
        });
        bits.collect::<String>() + " 0\n"
    };
    let rows: String = nevers.iter().map(row).collect();
    let head = format!(".model care\n.inputs {pins}\n.outputs _care\n.names {pins} _care\n");
    (!nevers.is_empty()).then(|| format!("{head}{rows}.end\n"))
}

/// The rows of the table of a gate whose operands are these constants, or free: a character for each free one.
pub(crate) fn rows(kind: Kind, operands: &[Option<bool>]) -> Vec<String> {
    let free = operands.iter().filter(|operand| operand.is_none()).count();
    let digits = |row: usize| (0..free).map(move |place| row >> (free - 1 - place) & 1 == 1);
    let bits = |row: usize| {
        let mut digits = digits(row);
        let bit = |operand: &Option<bool>| operand.or_else(|| digits.next()).unwrap_or(false);
        operands.iter().map(bit).collect::<Vec<bool>>()
    };
    let shown: Vec<bool> = (0..1 << free)
        .map(|row| kind.of_bits(bits(row).into_iter()))
        .collect();
    let ones = shown.iter().filter(|&&value| value).count();
    // A table without rows shows 0 everywhere.
    let told = 2 * ones <= shown.len() || ones == shown.len();
    let digits = |row: usize| {
        digits(row)
            .map(|bit| if bit { '1' } else { '0' })
            .collect::<String>()
    };
    let rows = (0..shown.len()).filter(|&row| shown[row] == told);
    let row = |row: usize| format!("{} {}", digits(row), u8::from(told));
    rows.map(|place| row(place).trim_start().to_string())
        .collect()
}
