//! Write: the lines one after the other, with the name of each node made once.

use super::block::{name, Block, ONE, ZERO};
use super::{handed_over, refused};
use unloop::raw::Reply;

const KEYWORDS: [&[u8]; 7] = [b"not", b"and", b"or", b"nand", b"nor", b"xor", b"xnor"];

/// Block to text; count: bytes.
pub fn write(words: &[u16], text: &mut [u8]) -> Reply {
    let Some(block) = Block::of(words) else {
        return refused(6, 0);
    };
    let written = lines(&block);
    handed_over(&written, written.len(), text)
}

fn lines(block: &Block) -> Vec<u8> {
    let gates = (0..block.m).map(gate_name);
    let names: Vec<u64> = block.names().chain(gates).collect();
    let mut text = Vec::with_capacity(58_098);
    for &name in &names[..block.n] {
        push(&mut text, b"(in ", name, b")\n");
    }
    for &[fixed, ones] in block.nevers() {
        text.extend(b"(never");
        for (input, &name) in names[..block.n].iter().enumerate() {
            if fixed >> input & 1 == 1 {
                let value = [b" 0)", b" 1)"][usize::from(ones >> input & 1)];
                push(&mut text, b" (", name, value);
            }
        }
        text.extend(b")\n");
    }
    for (gate, &name) in block.gates.iter().zip(&names[block.n..]) {
        push(&mut text, b"(gate ", name, b" (");
        text.extend(KEYWORDS[usize::from(gate[0] % 8)]);
        for &word in &gate[1..][..usize::from(gate[0] / 8)] {
            match word {
                ZERO => text.extend(b" 0"),
                ONE => text.extend(b" 1"),
                node => push(&mut text, b" ", names[usize::from(node)], b""),
            }
        }
        text.extend(b"))\n");
    }
    for (output, node) in block.outputs.iter().zip(block.shown()) {
        push(&mut text, b"(out ", name(&output[..4]), b" ");
        push(&mut text, b"", names[node], b")\n");
    }
    text
}

/// The name of a gate, `_` and its number, as a number with the first byte lowest.
fn gate_name(gate: usize) -> u64 {
    let (mut name, mut rest) = (0, gate);
    loop {
        name = name << 8 | u64::from(b'0' + (rest % 10) as u8);
        rest /= 10;
        if rest == 0 {
            return name << 8 | u64::from(b'_');
        }
    }
}

fn push(text: &mut Vec<u8>, before: &[u8], name: u64, behind: &[u8]) {
    text.extend_from_slice(before);
    let end = text.len() + 8 - name.leading_zeros() as usize / 8;
    text.extend_from_slice(&name.to_le_bytes());
    text.truncate(end);
    text.extend_from_slice(behind);
}
