//! A plain layered drawing as SVG: a column of boxes after another, wires as curves, and those that close a loop dashed, below the boxes.

use super::drawn::{described, id, wire_class, Labels};
use super::html::escaped;
use std::collections::HashMap;
use unloop::drawing::{Drawing, Node, Wire};

const WIDTH: usize = 98;
const HEIGHT: usize = 34;
const COLUMN: usize = 164;
const ROW: usize = 54;
const MARGIN: usize = 24;

type Places = HashMap<Node, (usize, usize)>;

pub fn svg(drawing: &Drawing, labels: &Labels) -> String {
    let rows = drawing.columns.iter().map(Vec::len).max().unwrap_or(0);
    let places = places(drawing, rows);
    let width = 2 * MARGIN + COLUMN * drawing.columns.len().saturating_sub(1) + WIDTH;
    let height = 2 * MARGIN + ROW * rows.max(1) + ROW / 2;
    let wires = drawing.wires.iter().map(|wire| curve(wire, &places));
    let boxes = drawing
        .columns
        .iter()
        .flatten()
        .map(|&node| boxed(node, places[&node], labels));
    format!(
        "<svg {} width=\"{width}\" height=\"{height}\" viewBox=\"0 0 {width} {height}\" \
         xmlns=\"http://www.w3.org/2000/svg\">\n{}{}</svg>\n",
        described(width),
        wires.collect::<String>(),
        boxes.collect::<String>()
    )
}

/// The left upper corner of each node; a column stands in the middle.
fn places(drawing: &Drawing, rows: usize) -> Places {
    let mut places = Places::new();
    for (column, nodes) in drawing.columns.iter().enumerate() {
        let top = MARGIN + (rows - nodes.len()) * ROW / 2;
        for (row, &node) in nodes.iter().enumerate() {
            places.insert(node, (MARGIN + column * COLUMN, top + row * ROW));
        }
    }
    places
}

fn boxed(node: Node, (x, y): (usize, usize), labels: &Labels) -> String {
    let middle = x + WIDTH / 2;
    let line = |text: &str, y: usize, class: &str| {
        format!(
            "<text class=\"{class}\" x=\"{middle}\" y=\"{y}\" text-anchor=\"middle\">{}</text>",
            escaped(text)
        )
    };
    let lines = labels.lines(node);
    let heights: &[usize] = if lines.len() == 1 { &[21] } else { &[15, 28] };
    let words = lines.iter().zip(heights);
    let words: String = words
        .map(|((words, class), height)| line(words, y + height, class))
        .collect();
    let (id, class) = (id(node), labels.class(node));
    format!("<g id=\"{id}\" class=\"node {class}\"><rect x=\"{x}\" y=\"{y}\" width=\"{WIDTH}\" height=\"{HEIGHT}\" rx=\"6\"/>{words}</g>\n")
}

/// From the right side of a box to the left side of another; a wire that runs back goes below both.
fn curve(wire: &Wire, places: &Places) -> String {
    let (from, to) = (places[&wire.from], places[&wire.to]);
    let (x1, y1, x2, y2) = (from.0 + WIDTH, from.1 + HEIGHT / 2, to.0, to.1 + HEIGHT / 2);
    let class = wire_class(wire);
    let bend = (x2.abs_diff(x1) / 2).clamp(24, 90);
    if !wire.back {
        let path = format!(
            "M{x1} {y1} C{} {y1} {} {y2} {x2} {y2}",
            x1 + bend,
            x2.saturating_sub(bend)
        );
        return format!("<path class=\"{class}\" d=\"{path}\"/>\n");
    }
    let low = y1.max(y2) + ROW - 8;
    let (right, left) = (x1 + 34, x2.saturating_sub(34));
    let path = format!("M{x1} {y1} C{right} {y1} {right} {low} {x1} {low} L{x2} {low} C{left} {low} {left} {y2} {x2} {y2}");
    format!("<path class=\"{class} back\" d=\"{path}\"/>\n")
}
