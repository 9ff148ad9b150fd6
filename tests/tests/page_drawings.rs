//! The drawings of `bin/unloop --page`: the gates' values under every setting and where they open loops, against the simulator; that nodes, wires
//! and lines have the names by which page.js finds them; and that a drawing is kept as long as its netlist is the same.

mod pages;
mod session;

use pages::{between, only, pages, plain, section, stem};
use session::{command, run, told, with};
use simulator::block::{Block, Source};
use simulator::executed::{ended, netlists, Scratch};
use simulator::generate::{for_blocks, Report, Size};
use simulator::groups::loops;
use simulator::read;
use simulator::values::{gate_value, Network, UNDEFINED};
use std::fs;

/// The loop that each gate is in, by its number from 1 on; 0 is none.
fn loop_of_gates(block: &Block) -> Vec<usize> {
    let mut found = vec![0; block.gates.len()];
    for (members, number) in loops(block).iter().zip(1..) {
        members.iter().for_each(|&gate| found[gate] = number);
    }
    found
}

/// What is to be stored of every gate under a setting: its value, and three more where it has that without its loop.
fn states(block: &Block, looped: &[usize], setting: &[u8]) -> Vec<u32> {
    let values = Network::new(block).settled(setting);
    let state = |gate: usize| {
        let operands = block.gates[gate]
            .operands
            .iter()
            .map(|source| match *source {
                Source::Constant(bit) => u8::from(bit),
                Source::Input(input) => setting[input],
                Source::Gate(read) if looped[read] == looped[gate] => UNDEFINED,
                Source::Gate(read) => values[read],
            });
        let alone = gate_value(block.gates[gate].kind, operands);
        let opens = looped[gate] > 0 && alone != UNDEFINED;
        u32::from(values[gate]) + if opens { 3 } else { 0 }
    };
    (0..values.len()).map(state).collect()
}

/// The states that a page has stored, for each setting.
fn stored(page: &str, gates: usize) -> Vec<Vec<u32>> {
    let values = only(page, "id=\"values\">", "</script>");
    let letters = gates.div_ceil(2);
    assert!(values.contains(&format!("\"letters\":{letters},")));
    let packed: Vec<char> = only(values, "\"gates\":\"", "\"").chars().collect();
    let unpacked = |row: &[char]| {
        let pairs = row.iter().map(|letter| letter.to_digit(36).unwrap());
        let states = pairs.flat_map(|pair| [pair % 5, pair / 5]);
        states.take(gates).collect()
    };
    packed.chunks(letters.max(1)).map(unpacked).collect()
}

fn values_are_right(page: &str, block: &Block, base: usize) {
    let (n, looped) = (block.inputs.len(), loop_of_gates(block));
    let stored = stored(page, block.gates.len());
    let settings = base.pow(n as u32);
    assert_eq!(
        stored.len(),
        if block.gates.is_empty() { 0 } else { settings }
    );
    for (number, states_stored) in stored.iter().enumerate() {
        let digit = |input: usize| (number / base.pow(input as u32) % base) as u8;
        let setting: Vec<u8> = (0..n).map(digit).collect();
        assert_eq!(
            *states_stored,
            states(block, &looped, &setting),
            "{setting:?}"
        );
    }
}

fn legible(text: &[u8]) -> Option<Block> {
    let (answer, words) = read(text, usize::MAX);
    (answer.number == 0).then(|| Block::from_words(&words))
}

#[test]
fn values_of_the_catalogue() {
    let scratch = pages(true);
    let mut opened = 0;
    for path in netlists() {
        let Some(block) = legible(&fs::read(&path).unwrap()) else {
            continue;
        };
        let _report = Report(|| stem(&path));
        let page = scratch.get(&format!("out/{}.html", stem(&path)));
        values_are_right(&page, &block, 3);
        let states = stored(&page, block.gates.len());
        opened += states.iter().flatten().filter(|&&state| state > 2).count();
    }
    assert!(opened > 100, "{opened}");
}

/// Generated blocks, under every setting: Settle's values, and the gates that open their loop.
#[test]
fn openings_of_generated_blocks() {
    let mut opened = 0;
    for_blocks(0..300, Size::SMALL, |_, block, words| {
        let _report = Report(|| format!("{words:?}"));
        let (ours, looped) = (
            unloop::Block::from_words(words).unwrap(),
            loop_of_gates(block),
        );
        let opening = unloop::Opening::of(&ours);
        for number in 0..1 << block.inputs.len() {
            let setting = ours.setting(number).unwrap();
            let settled = ours.settle(&setting).unwrap();
            let bytes: Vec<u8> = setting.iter().map(|&value| value as u8).collect();
            let states = states(block, &looped, &bytes).into_iter().enumerate();
            let expected = states.filter(|(_, state)| *state > 2);
            let expected: Vec<usize> = expected.map(|(gate, _)| gate).collect();
            assert_eq!(opening.gates(&setting, &settled), expected, "{number}");
            opened += expected.len();
        }
    });
    assert!(opened > 1_000, "{opened}");
}

/// With more than eight inputs, without outputs, without gates.
#[test]
fn values_of_odd_blocks() {
    let inputs: String = (0..9).map(|i| format!("(in a{i})\n")).collect();
    let nine = format!("{inputs}(gate p (and a0 (or q a8)))\n(gate q (nand p a8))\n(out y p)\n");
    let blocks = [
        ("nine.net", &nine[..], 2),
        ("blind.net", "(in a)\n(gate p (or a p))\n", 3),
        ("bare.net", "(in a)\n(out y a)\n", 3),
        ("empty.net", "", 3),
    ];
    let scratch = with(&blocks.map(|(name, text, _)| (name, text)));
    let names = blocks.map(|(name, ..)| name);
    let report = "out/index.html: 4 netlists: 4 rendered, 0 refused\n";
    let words = [&["--page", "out"], &names[..]].concat();
    told(run(&scratch, &words), 0, "", report);
    for (name, text, base) in blocks {
        let page = scratch.get(&format!("out/{}", name.replace(".net", ".html")));
        let block = legible(text.as_bytes()).unwrap();
        match block.gates.is_empty() && block.outputs.is_empty() {
            true => assert_eq!(
                plain(section(&page, "sheet")).trim(),
                "Sheet\nIt has no outputs."
            ),
            false => values_are_right(&page, &block, base),
        }
    }
}

/// Every node has its name, a place for its value and the class of its line, whoever draws; every wire tells its two ends.
#[test]
fn names_of_nodes_and_wires() {
    for dot in [true, false] {
        let scratch = pages(dot);
        for path in netlists() {
            let text = fs::read_to_string(&path).unwrap();
            let Some(block) = legible(text.as_bytes()) else {
                continue;
            };
            let _report = Report(|| format!("{} {dot}", stem(&path)));
            let page = scratch.get(&format!("out/{}.html", stem(&path)));
            let drawing = section(&page, "drawing").split("<script").next().unwrap();
            let count = |letter, count| (0..count).map(move |number| format!("{letter}{number}"));
            let expected = count('i', block.inputs.len()).chain(count('g', block.gates.len()));
            let expected = expected.chain(count('o', block.outputs.len()));
            let mut expected: Vec<String> = expected.collect();
            expected.sort();
            let nodes = drawing.split("<g id=\"").skip(1);
            let nodes = nodes.filter(|node| node.contains("class=\"node"));
            let nodes: Vec<&str> = nodes.collect();
            assert!(
                nodes.iter().all(|node| node.contains("= –</text>")),
                "{drawing}"
            );
            let mut ids: Vec<&str> = nodes
                .iter()
                .map(|node| node.split('"').next().unwrap())
                .collect();
            ids.sort();
            assert_eq!(ids, expected);
            lines_of_gates(&nodes, &text);
            ends_of_wires(drawing, &block);
        }
    }
}

/// A gate's node has the class of the line that it stands in; inner gates come before the gate of their line.
fn lines_of_gates(nodes: &[&str], text: &str) {
    let lines = text.lines().zip(1..);
    let rows = lines.filter(|(line, _)| line.starts_with("(gate "));
    let rows = rows.flat_map(|(line, row)| vec![row; line.matches('(').count() - 1]);
    for (row, gate) in rows.zip(0..) {
        let start = format!("g{gate}\" ");
        let node = nodes.iter().find(|node| node.starts_with(&start)).unwrap();
        assert!(node.contains(&format!(" of{row}\"")), "{node}");
    }
}

fn ends_of_wires(drawing: &str, block: &Block) {
    let name = |source: &Source| match source {
        Source::Constant(_) => None,
        Source::Input(input) => Some(format!("i{input}")),
        Source::Gate(gate) => Some(format!("g{gate}")),
    };
    let gates = block.gates.iter().enumerate();
    let mut expected: Vec<String> = gates
        .flat_map(|(number, gate)| {
            let read = gate.operands.iter().filter_map(name);
            read.map(move |from| format!("from_{from} to_g{number}"))
        })
        .collect();
    let outputs = block.outputs.iter().enumerate();
    expected.extend(
        outputs.filter_map(|(number, output)| {
            Some(format!("from_{} to_o{number}", name(&output.node)?))
        }),
    );
    let wires = between(drawing, " from_", "\"").into_iter();
    let mut wires: Vec<String> = wires
        .map(|ends| format!("from_{}", ends.trim_end_matches(" back")))
        .collect();
    for list in [&mut wires, &mut expected] {
        list.sort();
        list.dedup();
    }
    assert_eq!(wires, expected);
}

/// A Graphviz of ours that writes down that it was called, and draws the number of its call.
const DOT: &str = "#!/bin/sh\necho call >> \"$CALLS\"\ncat > /dev/null\n\
    printf '<?xml?>\\n<svg width=\"90pt\">\\n<title>x</title>\\n<text>call %s</text>\\n</svg>\\n' $(wc -l < \"$CALLS\")\n";

/// Writes the page of three netlists by that Graphviz; how often it was called until now, and the drawings.
fn drawn(scratch: &Scratch) -> (usize, Vec<String>) {
    let mut command = command(scratch);
    let path = format!(
        "{}:{}",
        scratch.path("tools").display(),
        std::env::var("PATH").unwrap()
    );
    command
        .env("PATH", path)
        .env("CALLS", scratch.path("calls"));
    let words = ["--page", "out", "--force", "a.net", "b.net", "c.net"];
    let ended = ended(command.args(words), b"");
    assert!(ended.status.success(), "{ended:?}");
    let drawing = |name: &str| {
        let page = scratch.get(&format!("out/{name}.html"));
        assert!(!page.contains("<title>x</title>"));
        only(&page, "<text>call ", "</text>").to_string()
    };
    let calls = scratch.get("calls").lines().count();
    (calls, ["a", "b", "c"].map(drawing).to_vec())
}

/// Only a netlist that changed is drawn again, and one whose page is gone or spoiled.
#[test]
fn kept_drawings() {
    let text = |kind: &str| format!("(in s)\n(gate p ({kind} s p))\n(out y p)\n");
    let (and, or, xor) = (text("and"), text("or"), text("xor"));
    let scratch = with(&[("a.net", &and), ("b.net", &or), ("c.net", &xor)]);
    scratch.put_script("tools/dot", DOT);
    let (calls, first) = drawn(&scratch);
    assert_eq!(calls, 3);
    assert_eq!(drawn(&scratch), (3, first.clone()));
    scratch.put("b.net", text("nand"));
    let (calls, second) = drawn(&scratch);
    assert_eq!((calls, &second[1][..]), (4, "4"));
    assert_eq!([&second[0], &second[2]], [&first[0], &first[2]]);
    fs::remove_file(scratch.path("out/a.html")).unwrap();
    scratch.put("out/c.html", "<div class=\"scroll drawing\"");
    assert_eq!(drawn(&scratch).0, 6);
    // A line that changes what is told and not what is drawn keeps the drawing.
    scratch.put("a.net", and.replace("(in s)\n", "(in s)\n(never (s 1))\n"));
    let (calls, _) = drawn(&scratch);
    assert_eq!(calls, 7, "its gates stand in other lines");
}
