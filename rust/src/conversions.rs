//! A block by the standard library's traits: from a text, from stored words, and as a text.

use crate::{Block, Refusal};
use std::fmt;
use std::str::FromStr;

/// As [`Block::read`].
///
/// ```
/// # use unloop::{Block, Refusal};
/// let block: Block = "(in a)\n(gate p (not a))\n(out y p)\n".parse()?;
/// assert_eq!(block.gates(), 1);
/// assert_eq!("(in _a)\n".parse::<Block>(), Err(Refusal::SyntaxError { place: 4 }));
/// # Ok::<(), Refusal>(())
/// ```
impl FromStr for Block {
    type Err = Refusal;

    fn from_str(text: &str) -> Result<Block, Refusal> {
        Block::read(text)
    }
}

/// As [`Block::from_words`].
///
/// ```
/// # use unloop::{Block, Refusal};
/// assert_eq!(Block::try_from(vec![0, 0, 0, 0])?, Block::read("")?);
/// assert_eq!(Block::try_from(vec![0; 3]), Err(Refusal::MalformedBlock));
/// # Ok::<(), Refusal>(())
/// ```
impl TryFrom<Vec<u16>> for Block {
    type Error = Refusal;

    fn try_from(words: Vec<u16>) -> Result<Block, Refusal> {
        Block::from_words(words)
    }
}

/// As [`Block::write`]: a text that reads as this block.
///
/// ```
/// # use unloop::{Block, Refusal};
/// let block = Block::read("(in a)\n(gate p (not a))\n")?;
/// assert_eq!(block.to_string(), "(in a)\n(gate _0 (not a))\n");
/// # Ok::<(), Refusal>(())
/// ```
impl fmt::Display for Block {
    fn fmt(&self, f: &mut fmt::Formatter<'_>) -> fmt::Result {
        f.write_str(&self.write())
    }
}
