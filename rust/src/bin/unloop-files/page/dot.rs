//! Drawings by Graphviz. The graph that one was made of is stored beside it, so that a page which is written again keeps the drawing where
//! the graph is the same.

use super::drawn::{described, id, wire_class, Labels};
use std::io::Write;
use std::process::{Command, Stdio};
use unloop::drawing::{Drawing, Node};

/// Graphviz takes long on more.
const GATES_FOR_DOT: usize = 150;

const BEFORE: &str = "<div class=\"scroll drawing\" tabindex=\"0\">\n";
const BETWEEN: &str = "</div>\n<script type=\"text/vnd.graphviz\">\n";
const BEHIND: &str = "</script>\n";

/// A drawing by Graphviz, kept or new, or nothing where the block is too large or Graphviz not installed.
pub fn drawn(drawing: &Drawing, labels: &Labels, before: Option<&str>) -> Option<String> {
    if labels.gates.len() > GATES_FOR_DOT {
        return None;
    }
    let graph = graph(drawing, labels);
    let kept = before.and_then(|page| kept(page, &graph));
    let picture = kept.map_or_else(|| made(&graph), |picture| Some(picture.to_string()));
    Some(framed(&picture?, &graph))
}

/// A picture on a page, and the graph that it was made of, if there is one.
pub fn framed(picture: &str, graph: &str) -> String {
    format!("{BEFORE}{picture}{BETWEEN}{graph}{BEHIND}")
}

/// The picture on a page that was made of this graph.
fn kept<'a>(page: &'a str, graph: &str) -> Option<&'a str> {
    let (_, rest) = page.split_once(BEFORE)?;
    let (picture, rest) = rest.split_once(BETWEEN)?;
    let (made_of, _) = rest.split_once(BEHIND)?;
    (made_of == graph).then_some(picture)
}

/// What Graphviz draws, or nothing where it isn't installed.
fn made(graph: &str) -> Option<String> {
    let mut child = Command::new("dot")
        .arg("-Tsvg")
        .stdin(Stdio::piped())
        .stdout(Stdio::piped())
        .stderr(Stdio::null())
        .spawn()
        .ok()?;
    // It reads all of the graph before it writes.
    child.stdin.take()?.write_all(graph.as_bytes()).ok()?;
    let ended = child
        .wait_with_output()
        .ok()
        .filter(|ended| ended.status.success())?;
    let svg = String::from_utf8(ended.stdout).ok()?;
    let lines = svg[svg.find("<svg")?..].lines();
    // Its titles are our names for nodes, which say nothing to a reader.
    let lines = lines.filter(|line| !line.starts_with("<title>"));
    Some(scaled(
        &lines.map(|line| format!("{line}\n")).collect::<String>(),
    ))
}

/// With a name for those who hear the page, and no smaller than can be read.
fn scaled(svg: &str) -> String {
    let width = svg
        .split_once("width=\"")
        .and_then(|(_, rest)| rest.split_once("pt\""));
    let points: usize = width
        .and_then(|(points, _)| points.parse().ok())
        .unwrap_or(0);
    svg.replacen("<svg", &format!("<svg {}", described(points * 4 / 3)), 1)
}

/// The graph in Graphviz's language. Names are a netlist's own, so nothing needs quoting.
fn graph(drawing: &Drawing, labels: &Labels) -> String {
    let mut lines = vec![
        "digraph {\nrankdir=LR; bgcolor=transparent;".to_string(),
        "node [shape=box style=rounded fontname=\"monospace\" fontsize=11 margin=\"0.12,0.05\" height=0.3];".to_string(),
    ];
    let nodes = drawing.columns.iter().flatten();
    lines.extend(nodes.map(|&node| graph_node(node, labels)));
    let ids = |letter: char, count: usize| {
        (0..count)
            .map(|number| format!("{letter}{number}; "))
            .collect::<String>()
    };
    lines.push(format!(
        "{{rank=source; {}}}",
        ids('i', labels.inputs.len())
    ));
    lines.push(format!("{{rank=sink; {}}}", ids('o', labels.outputs.len())));
    for wire in &drawing.wires {
        let (from, to, class) = (id(wire.from), id(wire.to), wire_class(wire));
        lines.push(format!("{from} -> {to} [class=\"{class}\" arrowsize=0.6];"));
    }
    lines.push("}\n".to_string());
    lines.join("\n")
}

fn graph_node(node: Node, labels: &Labels) -> String {
    let lines: Vec<String> = labels
        .lines(node)
        .into_iter()
        .map(|(line, _)| line)
        .collect();
    let shape = if matches!(node, Node::Gate(_)) {
        ""
    } else {
        " shape=plaintext"
    };
    let id = id(node);
    format!(
        "{id} [id=\"{id}\" label=\"{}\" class=\"{}\"{shape}];",
        lines.join("\\n"),
        labels.class(node)
    )
}
