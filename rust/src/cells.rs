//! Cells of four operands and a truth word, as the lookup-cell board has them.

use crate::limits::CELLS_WORDS;
use crate::{block, raw, Block, Disagreement, Refusal};

/// Cells over some inputs. The words keep every rule of cells, so that only a setting can be refused.
#[derive(Debug, Clone, PartialEq, Eq, Hash)]
pub struct Cells {
    inputs: usize,
    words: Vec<u16>,
}

impl Cells {
    /// The cells of words, if they are cells over so many inputs.
    ///
    /// ```
    /// # use unloop::{Cells, Refusal};
    /// let not = Cells::from_words(1, [0, 65534, 65534, 65534, 0x5555])?;
    /// assert_eq!(not.run(&[false])?, [true]);
    /// assert_eq!(Cells::from_words(0, not.words()), Err(Refusal::MalformedBlock));
    /// # Ok::<(), Refusal>(())
    /// ```
    pub fn from_words(inputs: usize, words: impl Into<Vec<u16>>) -> Result<Cells, Refusal> {
        let words = words.into();
        // Run tests the words before all else; lent nothing, it runs no cell.
        match raw::run(inputs, &words, &[], &mut []).done() {
            Err(Refusal::MalformedBlock) => Err(Refusal::MalformedBlock),
            _ => Ok(Cells { inputs, words }),
        }
    }

    /// The words, five a cell: four operands and the truth word.
    pub fn words(&self) -> &[u16] {
        &self.words
    }

    /// How many inputs they are over.
    pub fn inputs(&self) -> usize {
        self.inputs
    }

    /// The value of each cell, from one value an input.
    pub fn run(&self, setting: &[bool]) -> Result<Vec<bool>, Refusal> {
        let setting: Vec<u8> = setting.iter().map(|&value| value.into()).collect();
        let run = |values: &mut [u8]| raw::run(self.inputs, &self.words, &setting, values);
        let values = block::counted(self.words.len(), run)?;
        Ok(values.into_iter().map(|value| value == 1).collect())
    }
}

impl Block {
    /// The cells of a block in which no gate reads itself or a gate behind it, in the order of its gates.
    ///
    /// ```
    /// # use unloop::{Block, Refusal};
    /// let block = Block::read("(in a)\n(gate p (nor a 0))\n")?;
    /// let cells = block.cells()?;
    /// assert_eq!(cells.words(), [0, 65534, 65534, 65534, 0x1111]);
    /// assert_eq!(cells.run(&[true])?, [false]);
    /// assert_eq!(cells.run(&[]), Err(Refusal::BadSetting));
    /// let looped = Block::read("(gate p (or p 1))\n")?;
    /// assert_eq!(looped.cells(), Err(Refusal::NotStraight));
    /// assert_eq!(looped.render()?.cells()?.run(&[])?, [true]);
    /// # Ok::<(), Refusal>(())
    /// ```
    pub fn cells(&self) -> Result<Cells, Refusal> {
        let made = |cells: &mut [u16]| raw::cells(self.words(), cells);
        let words = block::counted(CELLS_WORDS, made)?;
        let inputs = self.inputs();
        Ok(Cells { inputs, words })
    }
    /// Whether cells made elsewhere are as good as this block: under every settled setting of the block that may come, each output must be
    /// shown by the node listed for it, in order: an input's number, or a cell's behind the inputs. `None`: they are accepted.
    ///
    /// ```
    /// # use unloop::{Block, Cells, Disagreement, Refusal};
    /// let block = Block::read("(in a)\n(in b)\n(gate p (and a q))\n(gate q (or b p))\n(out y q)\n(out z b)\n")?;
    /// let inverted = Cells::from_words(2, [1, 65534, 65534, 65534, 0x5555])?;
    /// assert_eq!(block.compare_cells(&inverted, &[1, 1])?, None);
    /// assert_eq!(block.compare_cells(&inverted, &[1, 2])?, Some(Disagreement { setting: 0, output: 1 }));
    /// assert_eq!(block.compare_cells(&inverted, &[1]), Err(Refusal::InterfaceMismatch));
    /// assert_eq!(block.compare_cells(&inverted, &[1, 3]), Err(Refusal::MalformedBlock));
    /// # Ok::<(), Refusal>(())
    /// ```
    ///
    /// Cells over another number of inputs number their nodes in another way, and are refused with [`Refusal::InterfaceMismatch`].
    pub fn compare_cells(
        &self,
        cells: &Cells,
        shown: &[usize],
    ) -> Result<Option<Disagreement>, Refusal> {
        if cells.inputs != self.inputs() {
            return Err(Refusal::InterfaceMismatch);
        }
        // The greatest word is a constant's: no node, as any number above it.
        let word = |&node: &usize| u16::try_from(node).unwrap_or(u16::MAX);
        let shown: Vec<u16> = shown.iter().map(word).collect();
        block::lowest(raw::compare_cells(self.words(), &cells.words, &shown))
    }
}
