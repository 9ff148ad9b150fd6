//! Every limit (SPECIFICATION 1.5), by name.

/// The longest text, in bytes.
pub const TEXT_BYTES: usize = 61_440;
/// The most inputs of a block.
pub const INPUTS: usize = 12;
/// The most never lines of a block.
pub const NEVERS: usize = 8;
/// The most gates of a block, and the most copies of a rendering.
pub const GATES: usize = 1_024;
/// The most outputs of a block.
pub const OUTPUTS: usize = 16;
/// The longest name or port, in bytes.
pub const NAME_BYTES: usize = 8;
/// The greatest depth of an expression; the outermost has depth 1.
pub const DEPTH: usize = 8;
/// The most operands of a gate, and the operand words stored for each.
pub const OPERANDS: usize = 4;
/// The words of a stored name.
pub const NAME_WORDS: usize = NAME_BYTES / 2;
/// The words of a stored never line: its two masks.
pub const NEVER_WORDS: usize = 2;
/// The words of a stored gate: its kind and count, and its operands.
pub const GATE_WORDS: usize = 1 + OPERANDS;
/// The words of a cell: its operands, and its truth word.
pub const CELL_WORDS: usize = OPERANDS + 1;
/// The words of a stored output: its port and its node.
pub const OUTPUT_WORDS: usize = NAME_WORDS + 1;
/// The words before the first input's name.
pub const HEAD_WORDS: usize = 4;
/// The longest stored block, in words.
pub const BLOCK_WORDS: usize = block_words(INPUTS, NEVERS, GATES, OUTPUTS);
/// The bytes of the gates' names in a written text, `_0` to `_1023`.
const GATE_NAMES: usize = 10 * 2 + 90 * 3 + 900 * 4 + 24 * 5;
/// The longest never line, in bytes: its keyword, a pair for each input, a bracket and an LF.
const NEVER_BYTES: usize = 8 + (5 + NAME_BYTES) * INPUTS;
/// The longest text of Write, in bytes: the lines of inputs, never lines, the lines of gates and of outputs.
pub const WRITTEN_BYTES: usize = (6 + NAME_BYTES) * INPUTS
    + NEVER_BYTES * NEVERS
    + (15 + OPERANDS * (1 + NAME_BYTES)) * GATES
    + GATE_NAMES
    + (8 + 2 * NAME_BYTES) * OUTPUTS;
/// Two words for each partial assignment, enough for any cover.
pub const COVER_WORDS: usize = 2 * 3_usize.pow(INPUTS as u32);

/// The length of a stored block with n inputs, l never lines, m gates and k outputs.
pub const fn block_words(n: usize, l: usize, m: usize, k: usize) -> usize {
    HEAD_WORDS + NAME_WORDS * n + NEVER_WORDS * l + GATE_WORDS * m + OUTPUT_WORDS * k
}

/// The words before the first input's name in a block stored before there were never lines.
pub const OLD_HEAD_WORDS: usize = 3;
/// The most inputs of such a block.
pub const OLD_INPUTS: usize = 10;
