//! A block with many cover entries.

use crate::block::{Block, Gate, Kind, Output, Source};
use crate::limits::INPUTS;

/// How many inputs are 1 where the block is settled, from and to.
const SETTLED: [(usize, usize); 3] = [(1, 2), (4, 8), (10, 11)];

/// The entries of its cover: of every set of counts of twelve inputs, none has more.
pub const WIDEST_COVER: usize = 34_914;

/// A gate that reads itself, and is broken where the number of inputs that are 1 is in `SETTLED`.
pub fn widest_cover() -> Block {
    let mut gates = Vec::new();
    let least = counted(&mut gates);
    let parts = SETTLED.map(|(from, to)| {
        let above = push(&mut gates, Kind::Not, vec![least[to + 1]]);
        push(&mut gates, Kind::And, vec![least[from], above])
    });
    let waiting = push(&mut gates, Kind::Nor, parts.to_vec());
    let itself = Source::Gate(gates.len());
    let node = push(&mut gates, Kind::And, vec![itself, waiting]);
    let port = "y".to_string();
    Block {
        inputs: (0..INPUTS).map(|i| format!("x{i}")).collect(),
        nevers: Vec::new(),
        gates,
        outputs: vec![Output { port, node }],
    }
}

/// For each number up to that of the inputs, whether at least so many inputs are 1.
fn counted(gates: &mut Vec<Gate>) -> [Source; INPUTS + 1] {
    let mut least = [Source::Constant(false); INPUTS + 1];
    least[0] = Source::Constant(true);
    for input in 0..INPUTS {
        for number in (1..=input + 1).rev() {
            let one_more = vec![least[number - 1], Source::Input(input)];
            let one_more = push(gates, Kind::And, one_more);
            least[number] = push(gates, Kind::Or, vec![least[number], one_more]);
        }
    }
    least
}

fn push(gates: &mut Vec<Gate>, kind: Kind, operands: Vec<Source>) -> Source {
    gates.push(Gate { kind, operands });
    Source::Gate(gates.len() - 1)
}
