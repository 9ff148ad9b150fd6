//! The proved library's functions as `include/unloop.h` declares them, with slices for pointers and lengths.
//! No call needs a test beforehand: each answers a number, 0 or one of the refusals, and a refusal alters nothing lent.
//!
//! ```
//! use unloop::{limits, raw, Refusal};
//!
//! let mut block = [0; limits::BLOCK_WORDS];
//! let words = raw::read(b"(in a)\n", &mut block).done()?.count;
//! assert_eq!(raw::verdict(&block[..words]).done()?.count, 2);
//! # Ok::<(), Refusal>(())
//! ```

pub use crate::sheet::Record;
use crate::Refusal;

/// The number (0, or which refusal), the count and the detail of an answer.
#[repr(C)]
#[derive(Debug, Clone, Copy, PartialEq, Eq)]
pub struct Reply {
    pub number: usize,
    pub count: usize,
    pub detail: usize,
}

impl Reply {
    /// The reply itself, or the refusal that it is.
    pub fn done(self) -> Result<Reply, Refusal> {
        if self.number == 0 {
            return Ok(self);
        }
        let refusal = Refusal::from_parts(self.number, self.detail);
        Err(refusal.expect("the library refuses with a number of the table"))
    }
}

#[repr(C)]
struct Span {
    start: usize,
    length: usize,
}

// A slice is passed as two parameters: as one, Rust would put a third slice on the stack whole, where C has its pointer in a register.
extern "C" {
    fn unloop_read(text: *const u8, bytes: usize, block: *mut u16, room: usize) -> Reply;
    fn unloop_write(block: *const u16, words: usize, text: *mut u8, room: usize) -> Reply;
    fn unloop_settle(
        block: *const u16,
        words: usize,
        setting: *const u8,
        inputs: usize,
        values: *mut u8,
        room: usize,
    ) -> Reply;
    fn unloop_pass(
        block: *const u16,
        words: usize,
        setting: *const u8,
        inputs: usize,
        values: *mut u8,
        room: usize,
    ) -> Reply;
    fn unloop_sheet(block: *const u16, words: usize, records: *mut Record, count: usize) -> Reply;
    fn unloop_verdict(block: *const u16, words: usize) -> Reply;
    fn unloop_cover(block: *const u16, words: usize, entries: *mut u16, room: usize) -> Reply;
    fn unloop_groups(block: *const u16, words: usize, numbers: *mut u16, room: usize) -> Reply;
    fn unloop_render(block: *const u16, words: usize, rendered: *mut u16, room: usize) -> Reply;
    fn unloop_compare(
        ours: *const u16,
        our_words: usize,
        theirs: *const u16,
        their_words: usize,
    ) -> Reply;
    fn unloop_compare_cells(
        block: *const u16,
        words: usize,
        cells: *const u16,
        cell_words: usize,
        shown: *const u16,
        length: usize,
    ) -> Reply;
    fn unloop_bring(old: *const u16, words: usize, block: *mut u16, room: usize) -> Reply;
    fn unloop_cells(block: *const u16, words: usize, cells: *mut u16, room: usize) -> Reply;
    fn unloop_run(
        inputs: usize,
        cells: *const u16,
        words: usize,
        setting: *const u8,
        bytes: usize,
        values: *mut u8,
        room: usize,
    ) -> Reply;
    fn unloop_gather(
        block: *const u16,
        words: usize,
        gathered: *mut u16,
        room: usize,
        order: *mut u16,
        order_room: usize,
    ) -> Reply;
    fn unloop_scatter(
        block: *const u16,
        words: usize,
        order: *const u16,
        length: usize,
        original: *mut u16,
        room: usize,
    ) -> Reply;
    fn unloop_line(text: *const u8, bytes: usize, place: usize) -> Span;
}

// The functions' one condition is the header's: a pointer and the length behind it are a slice's, a slice that is written overlaps no other,
// and so many bytes of stack are left as the header says (a thread's stack ends at a guard, so that too few end the program). No pointer is kept.

/// Text to block; count: words.
pub fn read(text: &[u8], block: &mut [u16]) -> Reply {
    // SAFETY: `text` and `block` are slices with their lengths; `block` is borrowed for this call alone, so it overlaps no other.
    unsafe { unloop_read(text.as_ptr(), text.len(), block.as_mut_ptr(), block.len()) }
}

/// Block to text; count: bytes.
pub fn write(block: &[u16], text: &mut [u8]) -> Reply {
    // SAFETY: `block` and `text` are slices with their lengths; `text` is borrowed for this call alone, so it overlaps no other.
    unsafe { unloop_write(block.as_ptr(), block.len(), text.as_mut_ptr(), text.len()) }
}

/// The settled value of each gate; count: rounds.
pub fn settle(block: &[u16], setting: &[u8], values: &mut [u8]) -> Reply {
    let (words, inputs, room) = (block.len(), setting.len(), values.len());
    let (block, setting, values) = (block.as_ptr(), setting.as_ptr(), values.as_mut_ptr());
    // SAFETY: the three are slices with their lengths; `values` is borrowed for this call alone, so it overlaps no other.
    unsafe { unloop_settle(block, words, setting, inputs, values, room) }
}

/// The values of a straight block in one sweep; count: gates.
pub fn pass(block: &[u16], setting: &[u8], values: &mut [u8]) -> Reply {
    let (words, inputs, room) = (block.len(), setting.len(), values.len());
    let (block, setting, values) = (block.as_ptr(), setting.as_ptr(), values.as_mut_ptr());
    // SAFETY: the three are slices with their lengths; `values` is borrowed for this call alone, so it overlaps no other.
    unsafe { unloop_pass(block, words, setting, inputs, values, room) }
}

/// Each record's outputs from its two masks of inputs; count: the records.
pub fn sheet(block: &[u16], records: &mut [Record]) -> Reply {
    let (words, count) = (block.len(), records.len());
    // SAFETY: both are slices with their lengths, a record is laid out as the header's; `records` is borrowed for this call alone.
    unsafe { unloop_sheet(block.as_ptr(), words, records.as_mut_ptr(), count) }
}

/// Count: settled settings, where every output is 0 or 1; detail: the lowest other, or 2^n if none. A setting that a never line excludes is
/// neither counted nor told.
pub fn verdict(block: &[u16]) -> Reply {
    // SAFETY: `block` is a slice with its length, and is only read.
    unsafe { unloop_verdict(block.as_ptr(), block.len()) }
}

/// Two words an entry; count: entries.
pub fn cover(block: &[u16], entries: &mut [u16]) -> Reply {
    let (words, room) = (block.len(), entries.len());
    // SAFETY: both are slices with their lengths; `entries` is borrowed for this call alone, so it overlaps no other.
    unsafe { unloop_cover(block.as_ptr(), words, entries.as_mut_ptr(), room) }
}

/// Each gate's group number; count: groups.
pub fn groups(block: &[u16], numbers: &mut [u16]) -> Reply {
    let (words, room) = (block.len(), numbers.len());
    // SAFETY: both are slices with their lengths; `numbers` is borrowed for this call alone, so it overlaps no other.
    unsafe { unloop_groups(block.as_ptr(), words, numbers.as_mut_ptr(), room) }
}

/// The rendered block; count: words.
pub fn render(block: &[u16], rendered: &mut [u16]) -> Reply {
    let (words, room) = (block.len(), rendered.len());
    // SAFETY: both are slices with their lengths; `rendered` is borrowed for this call alone, so it overlaps no other.
    unsafe { unloop_render(block.as_ptr(), words, rendered.as_mut_ptr(), room) }
}

/// Count and detail 0 where theirs is accepted; else the lowest settled setting of ours with another value at an output as detail, and
/// the lowest such output, counted from 1, as count. Settings that ours excludes don't count; the never lines of theirs play no part.
pub fn compare(ours: &[u16], theirs: &[u16]) -> Reply {
    // SAFETY: both are slices with their lengths, and are only read; they may be the same.
    unsafe { unloop_compare(ours.as_ptr(), ours.len(), theirs.as_ptr(), theirs.len()) }
}

/// Count and detail 0 where the cells are accepted, each output shown by its word of the list, an input or n + the cell's number; else the
/// lowest settled setting of the block with another value at an output as detail, and the lowest such output, counted from 1, as count.
/// Settings that the block excludes don't count.
pub fn compare_cells(block: &[u16], cells: &[u16], shown: &[u16]) -> Reply {
    let (words, cell_words, length) = (block.len(), cells.len(), shown.len());
    let (block, cells, shown) = (block.as_ptr(), cells.as_ptr(), shown.as_ptr());
    // SAFETY: the three are slices with their lengths, and are only read; they may overlap.
    unsafe { unloop_compare_cells(block, words, cells, cell_words, shown, length) }
}

/// A block stored before there were never lines, with three counts, to one of today; count: words.
pub fn bring(old: &[u16], block: &mut [u16]) -> Reply {
    let (words, room) = (old.len(), block.len());
    // SAFETY: both are slices with their lengths; `block` is borrowed for this call alone, so it overlaps no other.
    unsafe { unloop_bring(old.as_ptr(), words, block.as_mut_ptr(), room) }
}

/// A straight block as cells of four operands and a truth word; count: words.
pub fn cells(block: &[u16], cells: &mut [u16]) -> Reply {
    let (words, room) = (block.len(), cells.len());
    // SAFETY: both are slices with their lengths; `cells` is borrowed for this call alone, so it overlaps no other.
    unsafe { unloop_cells(block.as_ptr(), words, cells.as_mut_ptr(), room) }
}

/// The value of each cell under a setting of 0s and 1s; count: cells.
pub fn run(inputs: usize, cells: &[u16], setting: &[u8], values: &mut [u8]) -> Reply {
    let (words, bytes, room) = (cells.len(), setting.len(), values.len());
    let (cells, setting, values) = (cells.as_ptr(), setting.as_ptr(), values.as_mut_ptr());
    // SAFETY: the three are slices with their lengths; `values` is borrowed for this call alone, so it overlaps no other.
    unsafe { unloop_run(inputs, cells, words, setting, bytes, values, room) }
}

/// The block with the gates of each group side by side, and the list of their old numbers in the new order; count: the block's words.
pub fn gather(block: &[u16], gathered: &mut [u16], order: &mut [u16]) -> Reply {
    let (words, room, order_room) = (block.len(), gathered.len(), order.len());
    let (block, gathered, order) = (block.as_ptr(), gathered.as_mut_ptr(), order.as_mut_ptr());
    // SAFETY: the three are slices with their lengths; `gathered` and `order` are each borrowed for this call alone.
    unsafe { unloop_gather(block, words, gathered, room, order, order_room) }
}

/// The block with its gates under the numbers of the list: what was gathered into it; count: words.
pub fn scatter(block: &[u16], order: &[u16], original: &mut [u16]) -> Reply {
    let (words, length, room) = (block.len(), order.len(), original.len());
    let (block, order, original) = (block.as_ptr(), order.as_ptr(), original.as_mut_ptr());
    // SAFETY: the three are slices with their lengths; `original` is borrowed for this call alone, so it overlaps no other.
    unsafe { unloop_scatter(block, words, order, length, original, room) }
}

/// The start and length of the line that holds `place`, without its LF.
pub fn line(text: &[u8], place: usize) -> (usize, usize) {
    // SAFETY: `text` is a slice with its length, and is only read; any place is answered.
    let span = unsafe { unloop_line(text.as_ptr(), text.len(), place) };
    (span.start, span.length)
}
