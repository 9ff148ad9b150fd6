//! Refusal 6: each rule of the stored block, checked directly on the words; and the rules from before there were never lines.

use crate::answer::{refuse_if, Answer, MALFORMED_BLOCK};
use crate::block::{Block, ONE_WORD, ZERO_WORD};
use crate::limits::*;

/// The parts of a block's words, once their lengths are right.
struct Parts<'a> {
    inputs: usize,
    nodes: usize,
    names: Vec<&'a [u16]>,
    nevers: Vec<&'a [u16]>,
    gates: Vec<&'a [u16]>,
    ports: Vec<&'a [u16]>,
    shown: Vec<u16>,
}

/// Whether the words break any rule of the stored block.
pub fn is_malformed(words: &[u16]) -> bool {
    parts(words).is_none_or(broken)
}

/// Whether they broke any rule before there were never lines.
pub fn was_malformed(words: &[u16]) -> bool {
    parts_before(words).is_none_or(broken)
}

fn broken(parts: Parts<'_>) -> bool {
    let names = [&parts.names, &parts.ports];
    let broken = [
        names.iter().any(|list| !list.iter().all(|w| name_legal(w))),
        names.iter().any(|list| has_repeat(list)),
        !parts.nevers.iter().all(|w| never_legal(w, parts.inputs)),
        !parts.gates.iter().all(|w| head_legal(w[0])),
        !parts.gates.iter().all(|w| operands_legal(w, parts.nodes)),
        parts.shown.iter().any(|&w| usize::from(w) >= parts.nodes),
    ];
    broken.contains(&true)
}

/// The block that the words store, or refusal 6.
pub(crate) fn well_formed(words: &[u16]) -> Result<Block, Answer> {
    refuse_if(is_malformed(words), MALFORMED_BLOCK)?;
    Ok(Block::from_words(words))
}

/// The parts, where the head is there, within the limits, and the length is exact.
fn parts(words: &[u16]) -> Option<Parts<'_>> {
    let (head, rest) = words.split_at_checked(HEAD_WORDS)?;
    let [n, m, k, l] = [0, 1, 2, 3].map(|i| usize::from(head[i]));
    (n <= INPUTS && l <= NEVERS).then(|| cut(rest, [n, l, m, k]))?
}

/// The same of a block that was stored with three counts.
fn parts_before(words: &[u16]) -> Option<Parts<'_>> {
    let (head, rest) = words.split_at_checked(OLD_HEAD_WORDS)?;
    let [n, m, k] = [0, 1, 2].map(|i| usize::from(head[i]));
    (n <= OLD_INPUTS).then(|| cut(rest, [n, 0, m, k]))?
}

/// What stands behind the counts of inputs, never lines, gates and outputs.
fn cut(rest: &[u16], [n, l, m, k]: [usize; 4]) -> Option<Parts<'_>> {
    let lengths = [NAME_WORDS * n, NEVER_WORDS * l, GATE_WORDS * m];
    let [nevers_at, gates_at, outputs_at] = [1, 2, 3].map(|i| lengths[..i].iter().sum::<usize>());
    if m > GATES || k > OUTPUTS || rest.len() != outputs_at + OUTPUT_WORDS * k {
        return None;
    }
    let outputs = rest[outputs_at..].chunks(OUTPUT_WORDS);
    Some(Parts {
        inputs: n,
        nodes: n + m,
        names: rest[..nevers_at].chunks(NAME_WORDS).collect(),
        nevers: rest[nevers_at..gates_at].chunks(NEVER_WORDS).collect(),
        gates: rest[gates_at..outputs_at].chunks(GATE_WORDS).collect(),
        ports: outputs.clone().map(|w| &w[..NAME_WORDS]).collect(),
        shown: outputs.map(|w| w[NAME_WORDS]).collect(),
    })
}

/// Some input is fixed, none that isn't there, and only fixed ones are at 1.
fn never_legal(masks: &[u16], inputs: usize) -> bool {
    let [fixed, ones] = [masks[0], masks[1]];
    fixed != 0 && usize::from(fixed) >> inputs == 0 && ones & !fixed == 0
}

/// 1 to 8 legal bytes, a letter first, and zeros only at the end.
fn name_legal(words: &[u16]) -> bool {
    let byte = |i: usize| (words[i / 2] >> (8 * (i % 2))) & 255;
    let letter = |b: u16| (97..=122).contains(&b);
    let legal = |b: u16| letter(b) || (48..=57).contains(&b) || b == 95;
    letter(byte(0))
        && (1..NAME_BYTES).all(|i| match byte(i) {
            0 => (i..NAME_BYTES).all(|later| byte(later) == 0),
            b => legal(b),
        })
}

/// Whether two of the names are equal.
fn has_repeat(names: &[&[u16]]) -> bool {
    let mut sorted = names.to_vec();
    sorted.sort_unstable();
    sorted.windows(2).any(|pair| pair[0] == pair[1])
}

/// One of the nineteen legal first words of a gate.
fn head_legal(word: u16) -> bool {
    matches!(word, 8 | 17..=22 | 25..=30 | 33..=38)
}

/// Used operands are nodes or constants, unused ones are 0. Counts above 4 use all four.
fn operands_legal(gate: &[u16], nodes: usize) -> bool {
    let legal = |&w: &u16| usize::from(w) < nodes || w == ZERO_WORD || w == ONE_WORD;
    let used = usize::from(gate[0] / 8).min(OPERANDS);
    gate[1..=used].iter().all(legal) && gate[1 + used..].iter().all(|&w| w == 0)
}
