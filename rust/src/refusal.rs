//! The refusals: one table has the number, word, name, detail and message of each.

use crate::limits::{GATES, INPUTS, NEVERS, OUTPUTS, TEXT_BYTES};
use std::fmt;

/// A row: when it is given; number, word, name, the detail's name if it has one; message.
macro_rules! refusals {
    ($($(#[$when:meta])+ $number:literal $word:literal $name:ident $({ $detail:ident })? => $message:literal,)+) => {
        /// Why an operation gave no result.
        #[derive(Debug, Clone, Copy, PartialEq, Eq, Hash)]
        #[non_exhaustive]
        pub enum Refusal {
            $($(#[$when])+ $name $({ $detail: usize })?,)+
        }

        impl Refusal {
            /// The refusal of this number, with its detail if it has one.
            pub const fn from_parts(number: usize, detail: usize) -> Option<Refusal> {
                match number {
                    $($number => Some(Refusal::$name $({ $detail: detail })?),)+
                    _ => None,
                }
            }

            /// Its number, as the C functions and the program give it.
            pub const fn number(self) -> usize {
                match self {
                    $(Refusal::$name { .. } => $number,)+
                }
            }

            /// Its trade word, as reports give it.
            pub const fn word(self) -> &'static str {
                match self {
                    $(Refusal::$name { .. } => $word,)+
                }
            }

            fn details(self) -> Details {
                match self {
                    $(Refusal::$name { $($detail)? } => Details {
                        $($detail: Some($detail),)?
                        ..Details::default()
                    },)+
                }
            }
        }

        impl fmt::Display for Refusal {
            fn fmt(&self, f: &mut fmt::Formatter<'_>) -> fmt::Result {
                match *self {
                    $(Refusal::$name { $($detail)? } => write!(f, $message),)+
                }
            }
        }
    };
}

refusals! {
    /// The text is longer than [`TEXT_BYTES`].
    1 "overlong" TextTooLong => "the text has more than {TEXT_BYTES} bytes",
    /// The text isn't of the grammar; the place is the first byte's that no legal text has there, or the end of a text cut off.
    2 "form" SyntaxError { place } => "syntax error at byte {place}",
    /// The text has more than [`INPUTS`], [`NEVERS`], [`GATES`] or [`OUTPUTS`].
    3 "crowded" OverALimit => "more than {INPUTS} inputs, {NEVERS} never lines, {GATES} gates or {OUTPUTS} outputs",
    /// A name or a port is declared again, or a name given again in a never line, first at this place.
    4 "twice" DuplicateDeclaration { place } => "the name at byte {place} is declared or given already",
    /// A name is used and not declared, or stands in a never line and is no input's, first at this place.
    5 "unknown" UndeclaredName { place } => "the name at byte {place} is not declared, or not an input's in a never line",
    /// The words break a rule of the stored block, or of cells.
    6 "torn" MalformedBlock => "the words are no stored block, or no cells",
    /// Not one value for each input, the number of a setting that the block doesn't have, or, of bytes, one above 2 (above 1 in a run of cells).
    7 "setting" BadSetting => "the setting doesn't have one value (0, 1 or undefined) for each input",
    /// The rendering would have more than [`GATES`].
    8 "swollen" TooManyCopies => "the rendering would have more than {GATES} gates",
    /// Some setting that may come leaves an output undefined; this is the lowest.
    9 "undecided" NotSettled { setting } => "setting {setting} is not settled",
    /// Some gate reads itself or a gate behind it.
    10 "looped" NotStraight => "some gate reads itself or a gate behind it",
    /// The slice for the result is too small. A [`Block`](crate::Block) has room for every result.
    11 "short" NoRoom => "the slice for the result is too small",
    /// Two blocks that are compared have other input names or ports, or the same in another order; or cells that are compared are over another
    /// number of inputs, or listed nodes are not as many as the outputs.
    12 "strangers" InterfaceMismatch => "the blocks do not have the same input names and ports in the same order",
    /// A list of gate numbers that doesn't have each gate's once.
    13 "order" NotAPermutation => "the list does not have each gate number once",
}

/// What a row may have under the detail's name.
#[derive(Default)]
struct Details {
    place: Option<usize>,
    setting: Option<usize>,
}

impl Refusal {
    /// The byte offset in the text that it is about, if it is about one.
    ///
    /// ```
    /// # use unloop::Block;
    /// let refusal = Block::read("(in a)\n(gate p (not r))\n").unwrap_err();
    /// assert_eq!((refusal.word(), refusal.place()), ("unknown", Some(20)));
    /// ```
    pub fn place(self) -> Option<usize> {
        self.details().place
    }

    /// The setting that it is about, if it is about one: input i has weight 2^i.
    pub fn setting(self) -> Option<usize> {
        self.details().setting
    }
}

impl std::error::Error for Refusal {}
