//! Many settings of one block in one call.

use crate::block::NEVER_REFUSED;
use crate::{raw, Assignment, Block, Refusal, Value};

/// A record of a sheet; bit i is for input or output i.
#[repr(C)]
#[derive(Debug, Clone, Copy, Default, PartialEq, Eq, Hash)]
pub struct Record {
    /// The fixed inputs.
    pub fixed: u16,
    /// Those of them at 1.
    pub ones: u16,
    /// The answer: 0, or 7 with two zero masks.
    pub number: u16,
    /// The outputs whose value is defined.
    pub defined: u16,
    /// Those of them at 1.
    pub values: u16,
}

impl Record {
    /// A record that asks for an assignment's outputs.
    fn asking(setting: Assignment) -> Record {
        Record {
            fixed: setting.fixed,
            ones: setting.ones,
            ..Record::default()
        }
    }

    /// The value of an output that the block has.
    fn output(self, output: usize) -> Value {
        let bit = |mask: u16| mask >> output & 1 == 1;
        match bit(self.defined) {
            true => bit(self.values).into(),
            false => Value::Undefined,
        }
    }
}

impl Block {
    /// The values of the outputs under each setting, by Settle; an input that a setting doesn't fix is undefined.
    ///
    /// ```
    /// # use unloop::{Assignment, Block, Refusal, Value};
    /// let block = Block::read("(in a)\n(in b)\n(gate p (and a q))\n(gate q (or b p))\n(out y q)\n")?;
    /// let sheet = block.sheet(&[(3, 2), (1, 0), (4, 0)].map(|(fixed, ones)| Assignment { fixed, ones }));
    /// assert_eq!(sheet[0], Ok(vec![Value::One]));
    /// assert_eq!(sheet[1], Ok(vec![Value::Undefined]));
    /// assert_eq!(sheet[2], Err(Refusal::BadSetting));
    /// # Ok::<(), Refusal>(())
    /// ```
    pub fn sheet(&self, settings: &[Assignment]) -> Vec<Result<Vec<Value>, Refusal>> {
        let mut records: Vec<Record> = settings
            .iter()
            .map(|&setting| Record::asking(setting))
            .collect();
        let told = raw::sheet(self.words(), &mut records);
        told.done().expect(NEVER_REFUSED);
        let outputs = |record: Record| {
            (0..self.outputs())
                .map(|output| record.output(output))
                .collect()
        };
        let answer = |record: Record| match Refusal::from_parts(record.number.into(), 0) {
            Some(refusal) => Err(refusal),
            None => Ok(outputs(record)),
        };
        records.into_iter().map(answer).collect()
    }
}
