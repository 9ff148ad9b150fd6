//! Every operation as both programs have it.

use crate::inputs::UnderSetting;
use crate::measure::Operation;
use crate::plain;
use crate::sheets::{Page, SETTINGS};
use simulator::limits::{BLOCK_WORDS, CELL_WORDS, COVER_WORDS, GATES, WRITTEN_BYTES};
use unloop::raw::{self, Record, Reply};

/// On a block's words, to words.
pub type OnBlock = Operation<Vec<u16>, u16>;

/// On a text, to words.
pub const READ: Operation<Vec<u8>, u16> = Operation {
    name: "read",
    room: BLOCK_WORDS,
    filler: 9_999,
    by_lanes: false,
    library: |text, block| raw::read(text, block),
    plain: |text, block| plain::read(text, block),
};

/// On a text and a place; the span is told as count and detail.
pub const LINE: Operation<(Vec<u8>, usize), u8> = Operation {
    name: "line",
    room: 0,
    filler: 0,
    by_lanes: false,
    library: |(text, place), _| told(raw::line(text, *place)),
    plain: |(text, place), _| told(plain::line(text, *place)),
};

fn told((start, length): (usize, usize)) -> Reply {
    Reply {
        number: 0,
        count: length,
        detail: start,
    }
}

pub const WRITE: Operation<Vec<u16>, u8> = Operation {
    name: "write",
    room: WRITTEN_BYTES,
    filler: 9,
    by_lanes: false,
    library: |words, text| raw::write(words, text),
    plain: |words, text| plain::write(words, text),
};

pub const BRING: OnBlock = Operation {
    name: "bring",
    room: BLOCK_WORDS,
    filler: 9_999,
    by_lanes: false,
    library: |old, block| raw::bring(old, block),
    plain: |old, block| plain::bring(old, block),
};

pub const SETTLE: Operation<UnderSetting, u8> = Operation {
    name: "settle",
    room: GATES,
    filler: 9,
    by_lanes: false,
    library: |(words, setting), values| raw::settle(words, setting, values),
    plain: |(words, setting), values| plain::settle(words, setting, values),
};

pub const PASS: Operation<UnderSetting, u8> = Operation {
    name: "pass",
    library: |(words, setting), values| raw::pass(words, setting, values),
    plain: |(words, setting), values| plain::pass(words, setting, values),
    ..SETTLE
};

/// On cells and a setting.
pub const RUN: Operation<UnderSetting, u8> = Operation {
    name: "run",
    library: |(cells, setting), values| raw::run(setting.len(), cells, setting, values),
    plain: |(cells, setting), values| plain::run(setting.len(), cells, setting, values),
    ..SETTLE
};

pub const CELLS: OnBlock = Operation {
    name: "cells",
    room: CELL_WORDS * GATES,
    filler: 9_999,
    by_lanes: false,
    library: |words, cells| raw::cells(words, cells),
    plain: |words, cells| plain::cells(words, cells),
};

pub const SHEET: Operation<Page, Record> = Operation {
    name: "sheet-of-40",
    room: SETTINGS,
    filler: NO_RECORD,
    by_lanes: false,
    library: |(words, asked), records| {
        records.copy_from_slice(asked);
        raw::sheet(words, records)
    },
    plain: |(words, asked), records| {
        records.copy_from_slice(asked);
        plain::sheet(words, records)
    },
};

const NO_RECORD: Record = Record {
    fixed: 0,
    ones: 0,
    number: 0,
    defined: 0,
    values: 0,
};

pub const VERDICT: OnBlock = Operation {
    name: "verdict",
    room: 0,
    filler: 0,
    by_lanes: true,
    library: |words, _| raw::verdict(words),
    plain: |words, _| plain::verdict(words),
};

pub const COVER: OnBlock = Operation {
    name: "cover",
    // Two words for each partial assignment.
    room: COVER_WORDS,
    filler: 9_999,
    by_lanes: true,
    library: |words, entries| raw::cover(words, entries),
    plain: |words, entries| plain::cover(words, entries),
};

pub const GROUPS: OnBlock = Operation {
    name: "groups",
    room: GATES,
    filler: 9_999,
    by_lanes: false,
    library: |words, numbers| raw::groups(words, numbers),
    plain: |words, numbers| plain::groups(words, numbers),
};

pub const RENDER: OnBlock = Operation {
    name: "render",
    room: BLOCK_WORDS,
    filler: 9_999,
    by_lanes: true,
    library: |words, rendered| raw::render(words, rendered),
    plain: |words, rendered| plain::render(words, rendered),
};

/// Two lists of words: of two blocks, or of a block and the order of its gates.
pub type Two = (Vec<u16>, Vec<u16>);

pub const COMPARE: Operation<Two, u16> = Operation {
    name: "compare",
    room: 0,
    filler: 0,
    by_lanes: true,
    library: |(ours, theirs), _| raw::compare(ours, theirs),
    plain: |(ours, theirs), _| plain::compare(ours, theirs),
};

/// A block's words, cells, and the node of each output.
pub type WithCells = (Vec<u16>, Vec<u16>, Vec<u16>);

pub const COMPARE_CELLS: Operation<WithCells, u16> = Operation {
    name: "compare-cells",
    room: 0,
    filler: 0,
    by_lanes: true,
    library: |(ours, cells, shown), _| raw::compare_cells(ours, cells, shown),
    plain: |(ours, cells, shown), _| plain::compare_cells(ours, cells, shown),
};

/// The list of old numbers stands behind the block.
pub const GATHER: OnBlock = Operation {
    name: "gather",
    room: BLOCK_WORDS + GATES,
    filler: 9_999,
    by_lanes: false,
    library: |words, lent| {
        let (gathered, order) = lent.split_at_mut(BLOCK_WORDS);
        raw::gather(words, gathered, order)
    },
    plain: |words, lent| {
        let (gathered, order) = lent.split_at_mut(BLOCK_WORDS);
        plain::gather(words, gathered, order)
    },
};

pub const SCATTER: Operation<Two, u16> = Operation {
    name: "scatter",
    room: BLOCK_WORDS,
    filler: 9_999,
    by_lanes: false,
    library: |(words, order), original| raw::scatter(words, order, original),
    plain: |(words, order), original| plain::scatter(words, order, original),
};
