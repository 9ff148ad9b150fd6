//! The values of a node under many settings, and a gate's from those of its operands.

use super::gate::{Gate, Kind};
use std::array::from_fn;

/// A set of settings, a bit each.
pub type Set<const W: usize> = [u64; W];

/// The settings under which a node is 0, and those under which it is 1; under the others it is undefined.
pub type Pair<const W: usize> = [Set<W>; 2];

/// Defined everywhere, 1 under these settings.
pub fn defined<const W: usize>(ones: Set<W>) -> Pair<W> {
    [ones.map(|word| !word), ones]
}

/// Those of these settings under which it is undefined.
pub fn undefined<const W: usize>([zeros, ones]: &Pair<W>, among: &Set<W>) -> Set<W> {
    from_fn(|i| among[i] & !(zeros[i] | ones[i]))
}

/// A gate's value from those of its operands.
pub fn value<const W: usize>(gate: &Gate, pairs: &[Pair<W>]) -> Pair<W> {
    let at = |place: u16| &pairs[usize::from(place)];
    match *gate.operands() {
        [a] => combined(gate.kind, [at(a)]),
        [a, b] => combined(gate.kind, [at(a), at(b)]),
        [a, b, c] => combined(gate.kind, [at(a), at(b), at(c)]),
        [a, b, c, d] => combined(gate.kind, [at(a), at(b), at(c), at(d)]),
        _ => unreachable!("one to four operands"),
    }
}

/// But for parity the kind decides only which words are read and where the result goes: no jump depends on it.
fn combined<const W: usize, const N: usize>(kind: Kind, operands: [&Pair<W>; N]) -> Pair<W> {
    let Some((controlling, forced)) = kind.row() else {
        let mut pair = parity(operands);
        if kind == Kind::Xnor {
            pair.swap(0, 1);
        }
        return pair;
    };
    let all = |i: usize| {
        let words = operands.iter().map(|operand| operand[1 - controlling][i]);
        words.fold(u64::MAX, |all, word| all & word)
    };
    let some = |i: usize| {
        let words = operands.iter().map(|operand| operand[controlling][i]);
        words.fold(0, |some, word| some | word)
    };
    let mut pair = [from_fn(all); 2];
    pair[forced] = from_fn(some);
    pair
}

fn parity<const W: usize, const N: usize>(operands: [&Pair<W>; N]) -> Pair<W> {
    let mut parity = *operands[0];
    for operand in &operands[1..] {
        let [even, odd] = parity;
        let [zeros, ones] = operand;
        parity = [
            from_fn(|i| even[i] & zeros[i] | odd[i] & ones[i]),
            from_fn(|i| even[i] & ones[i] | odd[i] & zeros[i]),
        ];
    }
    parity
}
