//! A sheet: the outputs of a block under many settings, each a record of masks.

use crate::answer::*;
use crate::block::{Block, Source};
use crate::malformed::well_formed;
use crate::values::{Network, UNDEFINED};
use unloop::raw::Record;

/// The answer, and the records as they are left; count: the records.
pub fn sheet(words: &[u16], records: &[Record]) -> (Answer, Vec<Record>) {
    let block = match well_formed(words) {
        Ok(block) => block,
        Err(refusal) => return (refusal, records.to_vec()),
    };
    let network = Network::new(&block);
    let filled = |&record: &Record| filled(&block, &network, record);
    let records: Vec<Record> = records.iter().map(filled).collect();
    (Answer::success(records.len()), records)
}

fn filled(block: &Block, network: &Network, asked: Record) -> Record {
    let mut record = Record {
        number: 0,
        defined: 0,
        values: 0,
        ..asked
    };
    let n = block.inputs.len();
    if usize::from(asked.fixed) >> n != 0 || asked.ones & !asked.fixed != 0 {
        record.number = BAD_SETTING as u16;
        return record;
    }
    let bit = |mask: u16, place: usize| (mask >> place & 1) as u8;
    let value = |input: usize| match bit(asked.fixed, input) {
        0 => UNDEFINED,
        _ => bit(asked.ones, input),
    };
    let setting: Vec<u8> = (0..n).map(value).collect();
    let gates = network.settled(&setting);
    for (place, output) in block.outputs.iter().enumerate() {
        let shown = match output.node {
            Source::Constant(value) => value.into(),
            Source::Input(input) => setting[input],
            Source::Gate(gate) => gates[gate],
        };
        record.defined |= u16::from(shown != UNDEFINED) << place;
        record.values |= u16::from(shown == 1) << place;
    }
    record
}
