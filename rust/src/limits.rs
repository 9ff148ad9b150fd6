//! Every limit of a text and a block, and with it the room that is enough for any result.

/// The longest text, in bytes.
pub const TEXT_BYTES: usize = 61_440;
/// Of a text that is longer than this, [`hint`](crate::hint) says no more than that it is: nobody needs to read all of a huge file.
pub const COUNTED_BYTES: usize = 1 << 20;
/// How deep expressions may stand in each other.
pub const DEPTH: usize = 8;
/// The most inputs of a block.
pub const INPUTS: usize = 12;
/// The most never lines of a block.
pub const NEVERS: usize = 8;
/// The most gates of a block, and so of a rendering.
pub const GATES: usize = 1_024;
/// The most outputs of a block.
pub const OUTPUTS: usize = 16;

/// The words that a stored block begins with: the counts of inputs, gates, outputs and never lines.
pub const HEAD_WORDS: usize = 4;
/// The words of a stored name, two bytes each.
pub const NAME_WORDS: usize = 4;
/// The words of a stored never line: the mask of the inputs that it fixes, and of those at 1.
pub const NEVER_WORDS: usize = 2;
/// The words of a stored gate: its kind and operand count, and four operands.
pub const GATE_WORDS: usize = 5;
/// The words of a stored output: its port's name and its node.
pub const OUTPUT_WORDS: usize = NAME_WORDS + 1;

/// The words of a cell: four operands and the truth word.
pub const CELL_WORDS: usize = 5;

/// The longest stored block, in words.
pub const BLOCK_WORDS: usize = HEAD_WORDS
    + NAME_WORDS * INPUTS
    + NEVER_WORDS * NEVERS
    + GATE_WORDS * GATES
    + OUTPUT_WORDS * OUTPUTS;
/// The bytes of the gates' names in a written text, `_0` to `_1023`.
const GATE_NAMES: usize = 4_010;
/// The longest name, in bytes.
pub const NAME_BYTES: usize = 2 * NAME_WORDS;
/// The longest never line, in bytes: `(never`, a pair for each input, `)` and LF.
const NEVER_BYTES: usize = 8 + (5 + NAME_BYTES) * INPUTS;
/// The longest text that is written, in bytes: `(in NAME)`, never lines, a gate with a longest word and four names, `(out PORT NAME)`.
pub const WRITTEN_BYTES: usize = (6 + NAME_BYTES) * INPUTS
    + NEVER_BYTES * NEVERS
    + (15 + 4 * (1 + NAME_BYTES)) * GATES
    + GATE_NAMES
    + (8 + 2 * NAME_BYTES) * OUTPUTS;
/// Room for every cover, in words: two for each partial assignment, where an input is free, 0 or 1.
pub const COVER_WORDS: usize = 2 * 3_usize.pow(INPUTS as u32);
/// Room for every block's cells, in words.
pub const CELLS_WORDS: usize = CELL_WORDS * GATES;
