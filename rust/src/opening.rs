//! Where a setting opens a loop: at gates that have their value whatever the rest of their loop does. The values are Settle's; this is told
//! from them, and tested.

use crate::lanes::{evaluated, Lanes};
use crate::{Block, Gate, Operand, Settled, Value};

/// A block's gates with the loops that they are in.
pub struct Opening {
    gates: Vec<Gate>,
    /// The loop of each gate that is in one.
    loops: Vec<Option<usize>>,
}

impl Opening {
    pub fn of(block: &Block) -> Opening {
        Opening {
            gates: block.gate_list(),
            loops: block.loops_of_gates(),
        }
    }

    /// The gates that have a value under a setting even where all that they read of their own loop is undefined. `settled` is what the block
    /// settles to under it.
    ///
    /// ```
    /// # use unloop::{Block, Opening, Refusal};
    /// let block = Block::read("(in s)\n(gate p (and s q))\n(gate q (or s p))\n(out y q)\n")?;
    /// let opened = |number| -> Result<Vec<usize>, Refusal> {
    ///     let setting = block.setting(number)?;
    ///     Ok(Opening::of(&block).gates(&setting, &block.settle(&setting)?))
    /// };
    /// assert_eq!((opened(0)?, opened(1)?), (vec![0], vec![1]));
    /// # Ok::<(), Refusal>(())
    /// ```
    pub fn gates(&self, setting: &[Value], settled: &Settled) -> Vec<usize> {
        let outside = |gate: usize, operand: &Operand| match *operand {
            Operand::Constant(value) => value.into(),
            Operand::Input(input) => setting[input],
            Operand::Gate(read) if self.loops[read] == self.loops[gate] => Value::Undefined,
            Operand::Gate(read) => settled.values[read],
        };
        let opens = |&gate: &usize| {
            let Gate { kind, operands } = &self.gates[gate];
            let operands = operands.iter().map(|operand| outside(gate, operand));
            self.loops[gate].is_some()
                && evaluated(*kind, operands.map(Lanes::from)) != Lanes::default()
        };
        (0..self.gates.len()).filter(opens).collect()
    }
}
