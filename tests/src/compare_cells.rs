//! CompareCells: are cells that were made elsewhere as good as the original, each output shown by the node listed for it?

use crate::answer::*;
use crate::cells::{is_malformed, run};
use crate::foreign::{disagreement, shown};
use crate::limits::CELL_WORDS;
use crate::malformed::well_formed;
use crate::values::{setting_bytes, Network, UNDEFINED};

/// Count and detail 0 where the cells are accepted; else the lowest output that differs, counted from 1, and the lowest setting where one does.
pub fn compared_cells(block: &[u16], cells: &[u16], list: &[u16]) -> Answer {
    match judged(block, cells, list) {
        Ok(told) | Err(told) => told,
    }
}

fn judged(words: &[u16], cells: &[u16], list: &[u16]) -> Result<Answer, Answer> {
    let block = well_formed(words)?;
    let n = block.inputs.len();
    refuse_if(is_malformed(n, cells), MALFORMED_BLOCK)?;
    refuse_if(list.len() != block.outputs.len(), INTERFACE_MISMATCH)?;
    let last = n + cells.len() / CELL_WORDS;
    refuse_if(
        list.iter().any(|&w| usize::from(w) >= last),
        MALFORMED_BLOCK,
    )?;
    let (network, excluded) = (Network::new(&block), block.excluded_settings());
    for number in (0..excluded.len()).filter(|&number| !excluded[number]) {
        let setting = setting_bytes(number, n);
        let settled = network.settled(&setting);
        let values = shown(&block, &setting, &settled);
        if values.clone().any(|value| value == UNDEFINED) {
            continue;
        }
        let nodes = [setting.clone(), run(n, cells, &setting, usize::MAX).1].concat();
        let mut pairs = values.zip(list);
        let other = pairs.position(|(value, &node)| nodes[usize::from(node)] != value);
        if let Some(output) = other {
            return Ok(disagreement(output, number));
        }
    }
    Ok(Answer::success(0))
}
