//! The texts of the specimens (SPECIFICATION 9).

use crate::limits::BLOCK_WORDS;
use crate::read;

/// The words of a text; panics where Read refuses it.
pub fn words_of(text: &str) -> Vec<u16> {
    let (answer, words) = read(text.as_bytes(), BLOCK_WORDS);
    assert_eq!(answer.number, 0, "{answer:?} to {text}");
    words
}

/// Specimen 4: two gates that wait for each other unless a = 0 or b = 1.
pub const TWO_GATES: &str = "(in a)\n(in b)\n(gate p (and a q))\n(gate q (or b p))\n(out y q)\n";

/// Specimen 5: a unique two-valued solution that isn't settled.
pub const UNIQUE_SOLUTION: &str = "(gate p (or p (not p)))\n(out y p)\n";

/// Specimen 5: a gate that reads itself and is settled.
pub const SELF_READER: &str = "(gate p (or p 1))\n(out y p)\n";

/// Specimen 6: six gates after 003, Example 1.
pub const SIX_GATES: &str = "(in a)\n(in b)\n(in c)\n(in d)\n(in x)\n\
    (gate g1 (and x g6))\n(gate g2 (or a g1))\n(gate g3 (and b g2))\n\
    (gate g4 (or x g3))\n(gate g5 (and c g4))\n(gate g6 (or d g5))\n(out y g6)\n";

/// Specimen 9: the input of `unloop`.
pub const PROGRAM_INPUT: &str = "(in s)\n(gate p (and s q))\n(gate q (or s p))\n(out y q)\n";

/// Specimen 9: the output of `unloop`.
pub const PROGRAM_OUTPUT: &str = "(in s)\n(gate _0 (and s 0))\n(gate _1 (or s _0))\n\
    (gate _2 (and s _1))\n(gate _3 (or s _2))\n(out y _3)\n";

/// A loop that never settles, and two inputs that are never both 1.
pub const NEVER_BOTH: &str = "(in a)\n(in b)\n(never (a 1) (b 1))\n(gate p (not p))\n(out y p)\n";

/// The loop of specimen 4, whose one unsettled setting never comes.
pub const NEVER_UNSETTLED: &str =
    "(in a)\n(in b)\n(never (b 0) (a 1))\n(gate p (and a q))\n(gate q (or b p))\n(out y q)\n";

/// Every setting excluded, one of them twice.
pub const NEVER_ANY: &str =
    "(in a)\n(never (a 0))\n(never (a 1))\n(never (a 0))\n(gate p (not p))\n(out y p)\n";

/// Specimen 7: a ring of `size` gates; gate 0 is `first` of the last, each other `not` of the one before.
pub fn ring(size: usize, first: &str) -> String {
    let last = size - 1;
    let first = first.replace("LAST", &format!("g{last}"));
    let mut text = format!("(gate g0 {first})\n");
    for gate in 1..size {
        text += &format!("(gate g{gate} (not g{}))\n", gate - 1);
    }
    text
}

/// Specimen 7 the other way round: each gate `not` of the one after it, the last of the first; one of them is an `and` with constant 0.
pub fn reversed_ring(size: usize, broken: usize) -> String {
    let gate = |gate: usize| match ((gate + 1) % size, gate == broken) {
        (read, true) => format!("(gate g{gate} (and g{read} 0))\n"),
        (read, false) => format!("(gate g{gate} (not g{read}))\n"),
    };
    (0..size).map(gate).collect()
}
