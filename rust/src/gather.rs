//! The gates of each group side by side, and the way back.

use crate::block::{counted, NEVER_REFUSED};
use crate::limits::BLOCK_WORDS;
use crate::{raw, Block, Refusal};

/// A block with the gates of each group side by side.
#[derive(Debug, Clone, PartialEq, Eq)]
pub struct Gathered {
    /// The block, its gates numbered afresh.
    pub block: Block,
    /// The old number of each of its gates.
    pub order: Vec<u16>,
}

impl Block {
    /// The block with its gates numbered afresh by group, ascending within it.
    ///
    /// ```
    /// # use unloop::{Block, Refusal};
    /// let block = Block::read("(gate p (not r))\n(gate q (and p r))\n(gate r (not p))\n(out y q)\n")?;
    /// let gathered = block.gather();
    /// assert_eq!(gathered.order, [0, 2, 1]);
    /// let text = "(gate _0 (not _1))\n(gate _1 (not _0))\n(gate _2 (and _0 _1))\n(out y _2)\n";
    /// assert_eq!(gathered.block.write(), text);
    /// assert_eq!(gathered.block.scatter(&gathered.order)?, block);
    /// # Ok::<(), Refusal>(())
    /// ```
    pub fn gather(&self) -> Gathered {
        let mut order = vec![0; self.gates()];
        let room = self.words().len();
        let gathered = counted(room, |words| raw::gather(self.words(), words, &mut order));
        let block = Block::of_words(gathered.expect(NEVER_REFUSED));
        Gathered { block, order }
    }

    /// The block with its gates under other numbers: each gets the one that stands in its place of the list.
    ///
    /// ```
    /// # use unloop::{Block, Refusal};
    /// let block = Block::read("(gate p (not q))\n(gate q (not 0))\n")?;
    /// assert_eq!(block.scatter(&[1, 0])?.write(), "(gate _0 (not 0))\n(gate _1 (not _0))\n");
    /// assert_eq!(block.scatter(&[1, 1]), Err(Refusal::NotAPermutation));
    /// # Ok::<(), Refusal>(())
    /// ```
    pub fn scatter(&self, order: &[u16]) -> Result<Block, Refusal> {
        let scattered = |words: &mut [u16]| raw::scatter(self.words(), order, words);
        Ok(Block::of_words(counted(BLOCK_WORDS, scattered)?))
    }
}
