//! How the time of every operation grows with a size that is doubled: gates, settings, operands, bytes, records. As Markdown, with the
//! exponent that fits, and as a picture.

pub mod blocks;
mod calls;
mod chart;
mod picture;

use crate::program::load;
use blocks::{crossed, grown_texts, Family, FAMILIES, FEW_INPUTS, MIDDLE};
use calls::{on_block, on_records, on_settings, on_straight, on_text, Call};
use chart::{Chart, Curve};
use simulator::executed::root;
use simulator::limits::{GATES, INPUTS};
use std::fs;

/// Each size of a series, doubled from row to row.
pub fn doubled(least: usize, most: usize) -> Vec<usize> {
    let sizes = std::iter::successors(Some(least), |size| Some(2 * size));
    sizes.take_while(|&size| size <= most).collect()
}

/// Measures all, prints a table for each size, and draws them if asked to.
pub fn print(drawn: bool) {
    println!(
        "Milliseconds of processor time of one call, best of several{}. Exponent: of the size, fitted to the upper half of its row.",
        load()
    );
    let charts = measured();
    charts.iter().for_each(Chart::print);
    if drawn {
        let path = root().join("docs/growth.svg");
        fs::write(path, picture::drawn(&charts)).expect("docs/growth.svg is written");
    }
}

fn measured() -> Vec<Chart> {
    let mut charts: Vec<Chart> = FAMILIES.iter().map(by_gates).collect();
    charts.extend([by_settings(), by_operands(), by_bytes(), by_records()]);
    charts
}

/// The calls of each size, as a curve for each name.
fn chart(
    title: String,
    unit: &'static str,
    sizes: &[usize],
    calls: impl Fn(usize) -> Vec<(&'static str, Call)>,
) -> Chart {
    let mut curves: Vec<Curve> = Vec::new();
    for &size in sizes {
        for (name, call) in calls(size) {
            chart::add(&mut curves, name, (size, calls::seconds(name, call)));
        }
    }
    Chart {
        title,
        unit,
        curves,
    }
}

fn by_gates((name, block): &Family) -> Chart {
    let straight = *name == FAMILIES[0].0;
    let title = format!("{name}, {FEW_INPUTS} inputs");
    chart(title, "gates", &doubled(32, GATES), |gates| {
        let words = block(FEW_INPUTS, gates);
        let mut calls = on_block(&words);
        if straight {
            calls.extend(on_straight(&words));
        }
        calls
    })
}

/// An input more doubles the settings.
fn by_settings() -> Chart {
    let title = format!("{}, {MIDDLE} gates", FAMILIES[0].0);
    chart(title, "settings", &doubled(1, 1 << INPUTS), |settings| {
        on_settings(&FAMILIES[0].1(settings.ilog2() as usize, MIDDLE))
    })
}

fn by_operands() -> Chart {
    let title = format!("straight gates of 1, 2 and 4 operands, {FEW_INPUTS} inputs");
    chart(title, "operands", &doubled(GATES, 4 * GATES), |operands| {
        let words = crossed(FEW_INPUTS, operands / GATES);
        let mut calls = on_block(&words);
        calls.extend(on_straight(&words));
        calls
    })
}

/// The texts are about twice as long from row to row, and so each has its own lengths.
fn by_bytes() -> Chart {
    let mut curves: Vec<Curve> = Vec::new();
    for (name, texts) in grown_texts() {
        for text in texts {
            let bytes = text.len();
            let call = on_text(name, text);
            chart::add(&mut curves, name, (bytes, calls::seconds(name, call)));
        }
    }
    Chart {
        title: "texts".to_string(),
        unit: "bytes",
        curves,
    }
}

fn by_records() -> Chart {
    let title = format!("a sheet of {}, {MIDDLE} gates", FAMILIES[0].0);
    let words = FAMILIES[0].1(FEW_INPUTS, MIDDLE);
    chart(title, "records", &doubled(1, 256), |records| {
        on_records(&words, records)
    })
}
