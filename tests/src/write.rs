//! Write: from a block to its text.

use crate::answer::{told, Answer, Outcome};
use crate::block::{Block, Source};
use crate::malformed::well_formed;
use std::fmt::Write;

/// Block to text, gates flat and named `_` and their number; count: bytes.
pub fn write(block: &[u16], room: usize) -> (Answer, Vec<u8>) {
    told(written(block), room)
}

fn written(words: &[u16]) -> Outcome<u8> {
    let block = well_formed(words)?;
    let text = text_of(&block).into_bytes();
    Ok((text.len(), text))
}

/// The text of a block.
pub fn text_of(block: &Block) -> String {
    let lines = block.inputs.len() + block.nevers.len() + block.gates.len() + block.outputs.len();
    let mut text = String::with_capacity(64 * lines);
    for name in &block.inputs {
        put(&mut text, &["(in ", name, ")\n"]);
    }
    for never in &block.nevers {
        text += "(never";
        for (i, name) in block.inputs.iter().enumerate() {
            if never.fixed >> i & 1 == 1 {
                let value = ["0", "1"][usize::from(never.ones >> i & 1)];
                put(&mut text, &[" (", name, " ", value, ")"]);
            }
        }
        text += ")\n";
    }
    for (number, gate) in block.gates.iter().enumerate() {
        text += "(gate ";
        put_source(&mut text, block, Source::Gate(number));
        put(&mut text, &[" (", gate.kind.keyword()]);
        for &operand in &gate.operands {
            text += " ";
            put_source(&mut text, block, operand);
        }
        text += "))\n";
    }
    for output in &block.outputs {
        put(&mut text, &["(out ", &output.port, " "]);
        put_source(&mut text, block, output.node);
        text += ")\n";
    }
    text
}

fn put(text: &mut String, parts: &[&str]) {
    parts.iter().for_each(|part| *text += part);
}

fn put_source(text: &mut String, block: &Block, source: Source) {
    match source {
        Source::Constant(value) => *text += ["0", "1"][usize::from(value)],
        Source::Input(input) => *text += &block.inputs[input],
        Source::Gate(gate) => write!(text, "_{gate}").expect("a string takes all"),
    }
}
