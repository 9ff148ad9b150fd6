//! The gates that wait for each other where a netlist is undecided, held to the shortest circle that a separately written search finds.

use simulator::block::{Block, Source};
use simulator::generate::{for_blocks, for_texts, Report, Size};
use simulator::values::{setting_bytes, Network};
use simulator::write;
use unloop::circle;

/// No way.
const FAR: usize = 1 << 20;

/// The gate names of a text by number; inner gates, which stand before the one that their line names, have none.
fn names(text: &[u8]) -> Vec<Option<&str>> {
    let text = std::str::from_utf8(text).unwrap();
    let lines = text.lines().filter_map(|line| line.strip_prefix("(gate "));
    let gates = lines.flat_map(|line| {
        let inner = line.matches('(').count() - 1;
        let name = line.split(' ').next();
        std::iter::repeat_n(None, inner).chain([name])
    });
    gates.collect()
}

/// From each gate to each how many named ones are on the way, the last one counted, by undefined gates that read each other.
fn ways(block: &Block, values: &[u8], names: &[Option<&str>]) -> Vec<Vec<usize>> {
    let count = block.gates.len();
    let mut ways = vec![vec![FAR; count]; count];
    for (gate, way) in ways
        .iter_mut()
        .enumerate()
        .filter(|(gate, _)| values[*gate] == 2)
    {
        for read in block.gates[gate]
            .gates_read()
            .filter(|&read| values[read] == 2)
        {
            way[read] = usize::from(names[read].is_some());
        }
    }
    for middle in 0..count {
        for from in 0..count {
            for to in 0..count {
                let through = ways[from][middle] + ways[middle][to];
                ways[from][to] = ways[from][to].min(through);
            }
        }
    }
    ways
}

/// Holds the circle of a text under its lowest setting that isn't settled to the shortest; gives its length.
fn same_circle(text: &[u8], block: &Block) -> Option<usize> {
    let _report = Report(|| String::from_utf8_lossy(text).into_owned());
    let network = Network::new(block);
    let settled = network.sound_settings();
    let setting = settled.iter().position(|settled| !settled)?;
    let values = network.settled(&setting_bytes(setting, block.inputs.len()));
    let names = names(text);
    let ways = ways(block, &values, &names);
    let shown = block.outputs.iter().filter_map(|output| match output.node {
        Source::Gate(gate) if values[gate] == 2 => Some(gate),
        _ => None,
    });
    let shown: Vec<usize> = shown.collect();
    let behind = |gate: usize| {
        shown
            .iter()
            .any(|&from| from == gate || ways[from][gate] < FAR)
    };
    let named = (0..names.len()).filter(|&gate| names[gate].is_some() && behind(gate));
    let shortest = named.clone().map(|gate| ways[gate][gate]).min();
    let found = circle(text, setting);
    assert_eq!(Some(found.len()), shortest);
    let place = |name: &String| named.clone().find(|&gate| names[gate] == Some(name));
    let gates: Vec<usize> = found.iter().map(|name| place(name).unwrap()).collect();
    let next = gates.iter().cycle().skip(1);
    for (&gate, &next) in gates.iter().zip(next) {
        assert_eq!(ways[gate][next], 1, "{found:?}");
    }
    assert_eq!(gates.iter().min(), gates.first());
    Some(found.len())
}

#[test]
fn generated_blocks_and_texts() {
    let mut lengths = [0; 4];
    let mut count = |length: Option<usize>| {
        lengths[length.unwrap_or(0).min(3)] += 1;
    };
    for_blocks(0..1_500, Size::SMALL, |_, block, words| {
        count(same_circle(&write(words, usize::MAX).1, block));
    });
    for_texts(0..1_500, Size::SMALL, |_, text, block| {
        count(same_circle(text, block));
    });
    assert!(lengths.iter().all(|&count| count > 10), "{lengths:?}");
}

/// A spare loop that no output waits for is shorter, and is not why.
#[test]
fn only_what_outputs_wait_for() {
    let text = b"(in a)\n(gate spare (not spare))\n(gate p (or a q))\n(gate q (or a p))\n(gate z (or p spare))\n(out y q)\n";
    assert_eq!(circle(text, 0), ["p", "q"]);
    let shown = [&text[..], b"(out z z)\n"].concat();
    assert_eq!(circle(&shown, 0), ["spare"]);
    assert_eq!(circle(&shown, 1), [""; 0]);
    assert_eq!(circle(text, 1), [""; 0]);
    assert_eq!(circle(b"(in a", 0), [""; 0]);
    assert_eq!(circle(text, 2), [""; 0]);
}
