/* unloop: takes loops out of gate netlists. The library of the proved crate `exports`, static or shared, for x86-64 Linux.

   Each function keeps its operation's promise for every argument, and none has a condition but those on slices and stack below. What an operation
   answers is defined in docs/SPECIFICATION.md, section 7.

   Slices. A slice is a pointer and, behind it, how many elements it has.
   - The pointer is to as many elements as the length says, and is aligned for them.
   - With length 0 the slice is empty and the pointer is not followed: it may be NULL. (This is tested of what was compiled; proofs speak of slices.)
   - Slices that are only read (const) may overlap, or be the same. One that is written must not overlap another slice of the call: nothing is
     promised of such a call.
   - A result is written to the front of the slice lent for it, and the rest of the slice is kept. A refusal alters nothing.

   Threads. A function keeps nothing of what it is lent, and the library has no state and allocates nothing: any number of threads may call at
   the same time, and read the same slices.

   Stack. With each function stands how much it needs beyond what its callers have used: as measured on the largest blocks and texts, rounded up.

   Numbers. There are n inputs, m gates, k outputs and l never lines, each numbered from 0: inputs, outputs and never lines in the order of the text,
   gates in the order of the closing brackets of their expressions. A node is an input or a gate: input i is node i, gate j is node n + j.
   A setting gives each input 0 or 1; bit i of its number is input i, and there are 2^n. In a mask bit i is for input or output i.
   A value in a byte is 0, 1, or 2 for undefined.

   The text is the netlist of docs/SPECIFICATION.md, section 1. A stored block is 4 + 4 n + 2 l + 5 m + 5 k words (section 2 has every rule):

       4                    n, m, k, l
       4 for each input     its name: eight bytes, zeros behind its end; the first byte of each pair plus 256 times the second
       2 for each never     the mask of the inputs that it fixes, then the mask of those that it fixes at 1
       5 for each gate      its kind plus 8 times its operand count, then four operands, 0 where there is none;
                            kinds: 0 not, 1 and, 2 or, 3 nand, 4 nor, 5 xor, 6 xnor; an operand: a node, 65534 for 0, 65535 for 1
       5 for each output    its port, as a name, then the node that it shows */
#ifndef UNLOOP_H
#define UNLOOP_H

#include <stddef.h>
#include <stdint.h>

#define UNLOOP_VERSION "0.1.0"
#define UNLOOP_VERSION_MAJOR 0
#define UNLOOP_VERSION_MINOR 1
#define UNLOOP_VERSION_PATCH 0

#ifdef __cplusplus
extern "C" {
#endif

/* A number, 0 on success; a count; a detail. A refusal has count 0, and detail 0 but where stated. */
typedef struct unloop_reply {
    size_t number;
    size_t count;
    size_t detail;
} unloop_reply;

/* The numbers of the refusals that these functions give. Below, each function has its own in the order in which they are tested. */
enum unloop_refusal {
    UNLOOP_DONE = 0,
    UNLOOP_TEXT_TOO_LONG = 1,
    UNLOOP_SYNTAX_ERROR = 2, /* detail: the offset of the first byte that no legal text has there; of a text cut off, its length */
    UNLOOP_OVER_A_LIMIT = 3,
    UNLOOP_DUPLICATE_DECLARATION = 4, /* detail: the offset of the repeated name, which may be one in a never line */
    UNLOOP_UNDECLARED_NAME = 5,       /* detail: the offset of the name, which may be one in a never line that is no input's */
    UNLOOP_MALFORMED_BLOCK = 6,
    UNLOOP_BAD_SETTING = 7,
    UNLOOP_TOO_MANY_COPIES = 8,
    UNLOOP_NOT_SETTLED = 9, /* detail: the lowest setting that may come under which an output is undefined */
    UNLOOP_NOT_STRAIGHT = 10,
    UNLOOP_NO_ROOM = 11, /* an equal length is enough; the length needed is not told */
    UNLOOP_INTERFACE_MISMATCH = 12,
    UNLOOP_NOT_A_PERMUTATION = 13
};

/* Enough room for every result: words of a block, bytes of a text, bytes of a written text, gates, words of a cover,
   words of cells. */
enum unloop_room {
    UNLOOP_BLOCK_WORDS = 5268,
    UNLOOP_TEXT_BYTES = 61440,
    UNLOOP_WRITTEN_BYTES = 58098,
    UNLOOP_GATES = 1024,
    UNLOOP_COVER_WORDS = 1062882,
    UNLOOP_CELLS_WORDS = 5120
};

/* A record of a sheet; bit i is for input or output i. The caller gives the mask of fixed inputs and the mask of those fixed at 1. The call
   fills in the record's own number (0, or 7 with two zero masks), the mask of defined outputs and the mask of outputs at 1. */
typedef struct unloop_record {
    uint16_t fixed;
    uint16_t ones;
    uint16_t number;
    uint16_t defined;
    uint16_t values;
} unloop_record;

/* A part of a text: the offset of its first byte, and how many bytes it has. */
typedef struct unloop_span {
    size_t start;
    size_t length;
} unloop_span;

/* Read: text to block; count: the block's words. 1, 2, 3, 4, 5, 11. Stack: 128 KiB. */
unloop_reply unloop_read(const uint8_t *text, size_t text_length, uint16_t *block, size_t block_length);

/* Write: block to text, ASCII without a zero at its end; gate j is called _ and j in decimal; count: bytes. 6, 11. Stack: 16 KiB. */
unloop_reply unloop_write(const uint16_t *block, size_t block_length, uint8_t *text, size_t text_length);

/* Settle: the settled value of each gate, byte j for gate j, from a setting of n bytes, byte i for input i, each 0, 1 or 2; count: the rounds
   that changed something. 6, 7, 11. Stack: 32 KiB. */
unloop_reply unloop_settle(const uint16_t *block, size_t block_length, const uint8_t *setting, size_t setting_length,
                           uint8_t *values, size_t values_length);

/* Pass: the values of a straight block, where a gate reads no gate but lower ones, in one sweep: bytes as Settle's, and equal to them; count: m.
   6, 10, 7, 11. Stack: 16 KiB. */
unloop_reply unloop_pass(const uint16_t *block, size_t block_length, const uint8_t *setting, size_t setting_length,
                         uint8_t *values, size_t values_length);

/* Sheet: each record's outputs under the values that Settle finds, an input that is not fixed being undefined; count: the records. A record has 7
   for a bit at or above n, or a bit at 1 of an input that is not fixed. 6, and then no record changes. Stack: 64 KiB. */
unloop_reply unloop_sheet(const uint16_t *block, size_t block_length, unloop_record *records, size_t records_length);

/* Verdict: count: settled settings, where every output is 0 or 1; detail: the number of the lowest other, or 2^n if none. A setting that a never
   line excludes is neither counted nor told. 6. Stack: 64 KiB. */
unloop_reply unloop_verdict(const uint16_t *block, size_t block_length);

/* Cover: the minimal partial assignments under which every setting that may come is settled, ascending. Two words an entry: the mask of the inputs
   that it fixes, then the mask of those that it fixes at 1. Count: entries, and so half the words. 6, 11. Stack: 640 KiB. */
unloop_reply unloop_cover(const uint16_t *block, size_t block_length, uint16_t *entries, size_t entries_length);

/* Groups: word j is the number of gate j's group, from 0, in the order in which groups are rendered; gates are of one group where each reaches the
   other; count: groups. 6, 11. Stack: 64 KiB. */
unloop_reply unloop_groups(const uint16_t *block, size_t block_length, uint16_t *numbers, size_t numbers_length);

/* Render: a straight block with the same inputs, never lines and ports, whose outputs show the same under every setting that may come;
   count: its words. 6, 8, 9, 11. Stack: 128 KiB. */
unloop_reply unloop_render(const uint16_t *block, size_t block_length, uint16_t *rendered, size_t rendered_length);

/* Compare: is a straight block made elsewhere as good as ours? Accepted: count and detail 0. Else detail: the number of the lowest
   settled setting of ours under which an output shows another value; count: the lowest such output, from 0, plus 1.
   Settings that ours excludes do not count; the never lines of theirs play no part.
   6 (either block), 10 (theirs), 12 (other input names or ports, or another order). Stack: 128 KiB. */
unloop_reply unloop_compare(const uint16_t *ours, size_t ours_length, const uint16_t *theirs, size_t theirs_length);

/* CompareCells: are cells made elsewhere, legal for the block's n inputs as Run has it, as good as the block? The list has a word for each output:
   the node that shows it, an input, or n + the cell's number. Accepted: count and detail 0. Else detail: the number of the lowest settled setting
   under which a node shows another value than its output; count: the lowest such output, from 0, plus 1. Settings that the block excludes do
   not count. 6 (the block), 6 (the cells), 12 (another length than k), 6 (a word that is neither an input nor a cell). Stack: 64 KiB. */
unloop_reply unloop_compare_cells(const uint16_t *block, size_t block_length, const uint16_t *cells, size_t cells_length,
                                  const uint16_t *shown, size_t shown_length);

/* Bring: a block stored before there were never lines, with the three counts n, m, k and at most 10 inputs, to one of today, with l = 0;
   count: words. 6 (by the rules of then), 11. Stack: 32 KiB. */
unloop_reply unloop_bring(const uint16_t *old, size_t old_length, uint16_t *block, size_t block_length);

/* Cells: a straight block as cells in the order of its gates, five words each; count: words. Four operand words as in the block (inputs,
   then earlier cells behind them, 65534 for 0, 65535 for 1; an absent operand is 65534), then the truth word: its bit b is the cell's value
   when operand i is bit i of b. 6, 10, 11. Stack: 16 KiB. */
unloop_reply unloop_cells(const uint16_t *block, size_t block_length, uint16_t *cells, size_t cells_length);

/* Run: the value of each cell, byte c for cell c, from a setting of one byte an input, 0 or 1; count: cells. Any number of inputs is answered.
   6 (more than 12 inputs or 1,024 cells, part of a cell, an operand that is no input, constant or earlier cell), 7, 11. Stack: 16 KiB. */
unloop_reply unloop_run(size_t inputs, const uint16_t *cells, size_t cells_length, const uint8_t *setting, size_t setting_length,
                        uint8_t *values, size_t values_length);

/* Gather: the block with its gates numbered afresh by group, ascending within it, operands and outputs to match, and the list of their old
   numbers in the new order, word t for new gate t; count: the block's words. 6, 11 (either slice is too small, and then neither is altered).
   Stack: 64 KiB. */
unloop_reply unloop_gather(const uint16_t *block, size_t block_length, uint16_t *gathered, size_t gathered_length,
                           uint16_t *order, size_t order_length);

/* Scatter: the way back, from any block and list: each gate gets the number that stands in its place of the list; count: words. 6, 13 (the
   list does not have each gate number once), 11. Stack: 16 KiB. */
unloop_reply unloop_scatter(const uint16_t *block, size_t block_length, const uint16_t *order, size_t order_length,
                            uint16_t *original, size_t original_length);

/* Line: the line that holds the place, an offset, without its LF; a place past the end counts as the end. Never refuses. Stack: 16 KiB. */
unloop_span unloop_line(const uint8_t *text, size_t text_length, size_t place);

#ifdef __cplusplus
}
#endif

#endif
