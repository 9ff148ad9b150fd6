//! What helps behind a refusal's word: the mistake, or what may stand at the place; where a name was declared first; the nearest name; the limit
//! passed.
//! Tested, not proved; it replaces neither the word nor the place.

mod expected;
mod limits;
mod mistakes;
mod names;

use crate::{Block, Refusal};

/// A few words on a text that was refused so, where there is something to say.
///
/// ```
/// # use unloop::{hint, Block};
/// let text = b"(in right)\n(gate p (not rihgt))\n(out y p)\n";
/// assert_eq!(hint(Block::read(text).unwrap_err(), text).unwrap(), "nearest is right");
/// ```
pub fn hint(refusal: Refusal, text: &[u8]) -> Option<String> {
    match refusal {
        Refusal::TextTooLong => limits::long(text),
        Refusal::SyntaxError { place } => {
            mistakes::mistake(text, place).or_else(|| expected::expected(text, place))
        }
        Refusal::OverALimit => limits::passed(text),
        Refusal::DuplicateDeclaration { place } => names::first(text, place),
        Refusal::UndeclaredName { place } => names::nearest(text, place),
        Refusal::TooManyCopies => limits::swollen(&Block::read(text).ok()?),
        _ => None,
    }
}
