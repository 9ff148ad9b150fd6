//! Why a setting is not settled: gates that wait for each other. The values are Settle's; the search for the circle is tested, not proved.

use crate::declarations::gate_names;
use crate::{Block, Gate, Operand, Value};
use std::collections::VecDeque;

/// The shortest circle of gates by name, each of which waits for the next, and the last for the first: under a setting all are undefined and
/// each reads the next, perhaps through inner gates. Only what an undefined output waits for counts. Of several the one that is found first
/// by the gates' order in the text. Nothing where the text can't be read or every output is defined.
///
/// ```
/// let text = b"(in a)\n(gate p (and a (not q)))\n(gate q (or p (and 0 r)))\n(gate r (not r))\n(out y q)\n";
/// assert_eq!(unloop::circle(text, 1), ["p", "q"]);
/// assert_eq!(unloop::circle(text, 0), [""; 0]);
/// ```
pub fn circle(text: &[u8], setting: usize) -> Vec<String> {
    let Ok(block) = Block::read(text) else {
        return Vec::new();
    };
    let settled = block
        .setting(setting)
        .and_then(|setting| block.settle(&setting));
    let waiting = Waiting {
        values: settled.map_or(Vec::new(), |settled| settled.values),
        gates: block.gate_list(),
        names: gate_names(text),
    };
    let waits: Vec<Vec<usize>> = (0..waiting.gates.len())
        .map(|gate| waiting.waits_for(gate))
        .collect();
    let circles = waiting.behind_outputs(&block, &waits).into_iter();
    let circles = circles.filter_map(|gate| shortest(&waits, gate));
    // Of equally short ones the first.
    let found = circles.min_by_key(Vec::len).unwrap_or_default();
    let named = found
        .into_iter()
        .filter_map(|gate| waiting.names[gate].clone());
    named.collect()
}

struct Waiting {
    values: Vec<Value>,
    gates: Vec<Gate>,
    /// Inner gates have none.
    names: Vec<Option<String>>,
}

impl Waiting {
    fn is_undefined(&self, gate: usize) -> bool {
        self.values.get(gate) == Some(&Value::Undefined)
    }

    /// The undefined gates with a name that an undefined one reads, itself or through its inner gates.
    fn waits_for(&self, gate: usize) -> Vec<usize> {
        let mut found = Vec::new();
        let undefined = |gate: &usize| self.is_undefined(*gate);
        if !undefined(&gate) {
            return found;
        }
        for read in self.gates[gate].gates_read().filter(undefined) {
            match self.names[read] {
                Some(_) => found.push(read),
                None => found.extend(self.waits_for(read)),
            }
        }
        found
    }

    /// The gates that undefined outputs show or wait for, in order.
    fn behind_outputs(&self, block: &Block, waits: &[Vec<usize>]) -> Vec<usize> {
        let shown = block
            .outputs_show()
            .into_iter()
            .filter_map(|shown| match shown {
                Operand::Gate(gate) if self.is_undefined(gate) => Some(gate),
                _ => None,
            });
        let mut open: Vec<usize> = shown.collect();
        let mut seen = vec![false; waits.len()];
        while let Some(gate) = open.pop() {
            if !std::mem::replace(&mut seen[gate], true) {
                open.extend(&waits[gate]);
            }
        }
        (0..seen.len()).filter(|&gate| seen[gate]).collect()
    }
}

/// The shortest way from a gate back to it, if there is one.
fn shortest(waits: &[Vec<usize>], start: usize) -> Option<Vec<usize>> {
    let mut before = vec![None; waits.len()];
    let mut open = VecDeque::from([start]);
    while let Some(gate) = open.pop_front() {
        for &next in &waits[gate] {
            if next == start {
                let steps = std::iter::successors(Some(gate), |&gate| before[gate]);
                let mut way: Vec<usize> = steps.collect();
                way.reverse();
                return Some(way);
            }
            if before[next].is_none() {
                before[next] = Some(gate);
                open.push_back(next);
            }
        }
    }
    None
}
