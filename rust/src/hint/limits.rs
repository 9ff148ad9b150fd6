//! Limits: which one a text or a rendering passes, and by how much.

use crate::declarations::{lines, LineKind};
use crate::limits::{COUNTED_BYTES, GATES, INPUTS, NEVERS, OUTPUTS, TEXT_BYTES};
use crate::orders::gates_by_rule;
use crate::Block;

/// By how much a text is too long; of one that is much longer, that it is.
pub fn long(text: &[u8]) -> Option<String> {
    match text.len() {
        ..=TEXT_BYTES => None,
        count if count > COUNTED_BYTES => Some(format!(
            "more than {COUNTED_BYTES} bytes, and the limit is {TEXT_BYTES}"
        )),
        count => Some(above(count, TEXT_BYTES, "bytes")),
    }
}

/// The limits that a text passes.
pub fn passed(text: &[u8]) -> Option<String> {
    let of = |kind: LineKind| lines(text).filter(|line| line.kind == kind).count();
    let gates = lines(text).map(|line| line.gates()).sum();
    let counts = [
        (of(LineKind::Input), INPUTS, "inputs"),
        (of(LineKind::Never), NEVERS, "never lines"),
        (gates, GATES, "gates"),
        (of(LineKind::Output), OUTPUTS, "outputs"),
    ];
    let over = counts.into_iter().filter(|(count, most, _)| count > most);
    let told: Vec<String> = over
        .map(|(count, most, what)| above(count, most, what))
        .collect();
    (!told.is_empty()).then(|| told.join("; "))
}

/// By how much a rendering passes the limit, and how many gates it has in another order, where one fits that is found at once. A block that
/// isn't settled has a rendering in no order.
pub fn swollen(block: &Block) -> Option<String> {
    let [copies, fewer] = gates_by_rule(block);
    let told = (copies > GATES).then(|| above(copies, GATES, "gates in the rendering"))?;
    Some(match fewer <= GATES && block.verdict().is_sound() {
        true => format!("{told}; {fewer} with its gate lines in another order (--shrink)"),
        false => told,
    })
}

fn above(count: usize, most: usize, what: &str) -> String {
    format!("{count} {what}, {} more than {most}", count - most)
}
