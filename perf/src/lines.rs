//! Which operations are measured on which inputs.

use crate::inputs::{self, Set};
use crate::measure::{Line, Operation};
use crate::operations::*;
use crate::sheets;
use std::fmt::Debug;

/// Measures every operation, and hands each line over as soon as it is known.
pub fn measure_all(print: fn(&Line)) {
    measure(print, READ, inputs::texts());
    measure(print, LINE, inputs::places());
    measure(print, WRITE, inputs::blocks(&["longest"]));
    measure(print, BRING, inputs::old_blocks(&["longest-before"]));
    measure_values(print);
    measure_searches(print);
    measure_results(print);
    measure_orders(print);
}

fn measure<I, T: Copy + PartialEq + Debug>(
    print: fn(&Line),
    operation: Operation<I, T>,
    sets: Vec<Set<I>>,
) {
    for (name, inputs) in sets {
        print(&operation.measured(&name, &inputs));
    }
}

fn measure_values(print: fn(&Line)) {
    let worst = [
        "reversed-chain",
        "shuffled-chain",
        "straight-fours",
        "ring-of-1024",
        "shuffled-ring",
    ];
    measure(print, SETTLE, inputs::settings(&worst));
    let worst = ["reversed-chain", "straight-fours", "ring-of-1024"];
    measure(print, SHEET, sheets::pages(&worst));
    let straight = ["straight-chain", "straight-fours"];
    measure(print, PASS, inputs::straight_settings(&straight));
    measure(print, CELLS, inputs::straight(&straight));
    measure(print, RUN, inputs::cells(&straight));
}

fn measure_searches(print: fn(&Line)) {
    let worst = [
        "reversed-chain",
        "shuffled-chain",
        "straight-fours",
        "ring-of-1024",
        "reversed-ring-of-1024",
        "shuffled-ring",
        "unbroken-ring-of-1024",
        "half-unneeded",
        "half-excluded",
    ];
    let with_row = [&worst[..], &["two-way-row"]].concat();
    measure(print, VERDICT, inputs::blocks(&with_row));
    let worst = [
        "reversed-chain",
        "straight-fours",
        "reversed-ring-of-1024",
        "most-entries",
        "half-unneeded",
        "half-excluded",
    ];
    measure(print, COVER, inputs::blocks(&worst));
}

fn measure_results(print: fn(&Line)) {
    let worst = [
        "reversed-chain",
        "straight-fours",
        "ring-of-32",
        "reversed-ring-of-32",
        "ring-of-1024",
        "reversed-ring-of-1024",
        "shuffled-ring",
        "groups-of-5-and-lone",
        "half-unneeded",
        "half-excluded",
    ];
    measure(print, RENDER, inputs::blocks(&worst));
    let rendered = [
        "reversed-chain",
        "straight-fours",
        "reversed-ring-of-32",
        "ring-of-1024",
        "groups-of-5-and-lone",
        "half-excluded",
    ];
    measure(print, COMPARE, inputs::with_renderings(&rendered));
    measure(print, COMPARE_CELLS, inputs::with_cells(&rendered));
}

fn measure_orders(print: fn(&Line)) {
    let worst = [
        "reversed-chain",
        "shuffled-chain",
        "straight-fours",
        "ring-of-1024",
        "reversed-ring-of-1024",
        "shuffled-ring",
        "unbroken-ring-of-1024",
        "half-unneeded",
        "half-excluded",
    ];
    measure(print, GROUPS, inputs::blocks(&worst));
    let worst = ["reversed-chain", "straight-fours", "shuffled-ring"];
    measure(print, GATHER, inputs::blocks(&worst));
    measure(print, SCATTER, inputs::gathered(&worst));
}
