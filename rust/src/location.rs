//! Where a place of a text is, as reports say it.

use crate::raw;

/// The line that holds a place, and where in it the place is.
#[derive(Debug, Clone, Copy, PartialEq, Eq)]
pub struct Location<'a> {
    /// The line's number, from 1.
    pub row: usize,
    /// The byte's number in the line, from 1.
    pub column: usize,
    /// The line, without its LF.
    pub line: &'a [u8],
}

impl Location<'_> {
    /// The location of a byte offset; one past the end counts as the end.
    ///
    /// ```
    /// # use unloop::{Block, Location};
    /// let text = b"(in a)\n(gate p (not r))\n";
    /// let refusal = Block::read(text).unwrap_err();
    /// let found = Location::of(text, refusal.place().unwrap());
    /// assert_eq!((found.row, found.column, found.line), (2, 14, &b"(gate p (not r))"[..]));
    /// ```
    pub fn of(text: &[u8], place: usize) -> Location<'_> {
        let (start, length) = raw::line(text, place);
        let (before, rest) = text.split_at(start);
        Location {
            row: 1 + before.iter().filter(|&&byte| byte == b'\n').count(),
            column: 1 + place.min(text.len()) - start,
            line: &rest[..length],
        }
    }
}
