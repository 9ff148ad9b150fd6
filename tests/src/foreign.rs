//! Compare: is a straight block that was made elsewhere as good as the original? Only the original's never lines play a part.

use crate::answer::*;
use crate::block::{Block, Source};
use crate::malformed::well_formed;
use crate::settle::sweep;
use crate::values::{setting_bytes, Network, UNDEFINED};

/// Count and detail 0 where theirs is accepted; else the lowest output that differs, counted from 1, and the lowest setting where one does.
pub fn compared(ours: &[u16], theirs: &[u16]) -> Answer {
    match judged(ours, theirs) {
        Ok(told) | Err(told) => told,
    }
}

fn judged(ours: &[u16], theirs: &[u16]) -> Result<Answer, Answer> {
    let (ours, theirs) = (well_formed(ours)?, well_formed(theirs)?);
    refuse_if(!theirs.is_straight(), NOT_STRAIGHT)?;
    refuse_if(interface(&ours) != interface(&theirs), INTERFACE_MISMATCH)?;
    let (network, excluded) = (Network::new(&ours), ours.excluded_settings());
    // The first setting with a difference is the lowest.
    for number in (0..excluded.len()).filter(|&number| !excluded[number]) {
        let setting = setting_bytes(number, ours.inputs.len());
        let values = network.settled(&setting);
        let our = shown(&ours, &setting, &values);
        if our.clone().any(|value| value == UNDEFINED) {
            continue;
        }
        let swept = sweep(&theirs, &setting);
        let mut pairs = our.zip(shown(&theirs, &setting, &swept));
        if let Some(output) = pairs.position(|(our, their)| our != their) {
            return Ok(disagreement(output, number));
        }
    }
    Ok(Answer::success(0))
}

/// The output counted from 1, and the setting.
pub fn disagreement(output: usize, setting: usize) -> Answer {
    Answer {
        number: 0,
        count: output + 1,
        detail: setting,
    }
}

/// The names of the inputs and the ports.
fn interface(block: &Block) -> (&[String], Vec<&String>) {
    let ports = block.outputs.iter().map(|output| &output.port);
    (&block.inputs, ports.collect())
}

/// What the outputs show.
pub fn shown<'a>(
    block: &'a Block,
    setting: &'a [u8],
    values: &'a [u8],
) -> impl Iterator<Item = u8> + Clone + 'a {
    block.outputs.iter().map(|output| match output.node {
        Source::Constant(bit) => u8::from(bit),
        Source::Input(input) => setting[input],
        Source::Gate(gate) => values[gate],
    })
}
