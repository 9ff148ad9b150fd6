//! Every netlist of catalogue/ against what stands beside it, and what catalogue/README.md says of some in words.

use simulator::block::{Block, Source};
use simulator::catalogue::{cover_lines, never_lines, out, row, stored_cover};
use simulator::compare::compare_pair;
use simulator::executed::{root, written_by_the_program};
use simulator::generate::Report;
use simulator::limits::{BLOCK_WORDS, COVER_WORDS};
use simulator::settle::sweep;
use simulator::specimens::{reversed_ring, ring, words_of};
use simulator::values::{setting_bytes, Network, UNDEFINED};
use simulator::{cover, read, render, verdict};
use std::collections::{BTreeMap, BTreeSet};
use std::fs;
use std::path::PathBuf;

fn catalogue() -> PathBuf {
    root().join("catalogue")
}

/// The netlists' names, without their ending.
fn names() -> BTreeSet<String> {
    with_ending("net")
}

fn with_ending(ending: &str) -> BTreeSet<String> {
    let entries = fs::read_dir(catalogue()).expect("catalogue/");
    let paths = entries.map(|entry| entry.expect("an entry").path());
    let paths = paths.filter(|path| path.extension().is_some_and(|found| found == ending));
    let name = |path: PathBuf| path.file_stem().unwrap().to_str().unwrap().to_string();
    paths.map(name).collect()
}

fn file(name: &str, ending: &str) -> Vec<u8> {
    let path = catalogue().join(format!("{name}.{ending}"));
    fs::read(&path).unwrap_or_else(|error| panic!("{}: {error}", path.display()))
}

fn words(text: &[u8]) -> Option<Vec<u16>> {
    let (answer, words) = read(text, BLOCK_WORDS);
    (answer.number == 0).then_some(words)
}

fn block(name: &str) -> Block {
    Block::from_words(&words(&file(name, "net")).expect("a netlist that can be read"))
}

fn for_each(check: impl Fn(&str, &[u8])) {
    for name in names() {
        let _report = Report(|| format!("catalogue/{name}"));
        check(&name, &file(&name, "net"));
    }
}

#[test]
fn nothing_is_missing_or_left_over() {
    let names = names();
    assert!(names.len() >= 12, "{names:?}");
    assert_eq!(with_ending("out"), names);
    let mut legible = names.clone();
    legible.retain(|name| words(&file(name, "net")).is_some());
    assert_eq!(with_ending("cover"), legible);
    let readme = fs::read_to_string(catalogue().join("README.md")).unwrap();
    let explained = |name: &&String| readme.contains(&format!("[{name}.net]({name}.net)"));
    let left: Vec<&String> = names.iter().filter(|name| !explained(name)).collect();
    assert!(left.is_empty(), "not in README.md: {left:?}");
}

/// README.md's table of gate lines has a row for each netlist, and no other.
#[test]
fn table_of_gate_lines() {
    let readme = fs::read_to_string(catalogue().join("README.md")).unwrap();
    let (_, table) = readme
        .split_once("|---|---|---|---|---|\n")
        .expect("a table");
    let rows: Vec<&str> = table
        .lines()
        .take_while(|line| line.starts_with('|'))
        .collect();
    let expected = names()
        .into_iter()
        .map(|name| row(&name, &file(&name, "net")));
    assert_eq!(rows, expected.collect::<Vec<String>>());
}

#[test]
fn outputs_by_the_simulator_and_the_program() {
    for_each(|name, text| {
        let expected = file(name, "out");
        let shown = String::from_utf8_lossy;
        assert_eq!(shown(&out(text)), shown(&expected), "the simulator");
        let written = written_by_the_program(text);
        assert_eq!(shown(&written), shown(&expected), "the program");
    });
}

#[test]
fn covers_by_the_simulator_and_the_library() {
    for_each(|name, text| {
        let Some(words) = words(text) else { return };
        let expected = String::from_utf8(file(name, "cover")).unwrap();
        assert_eq!(stored_cover(text).unwrap(), expected, "the simulator");
        let mut entries = vec![0; COVER_WORDS];
        let count = unloop::raw::cover(&words, &mut entries).count;
        entries.truncate(2 * count);
        let stored = never_lines(&words) + &cover_lines(&words, &entries);
        assert_eq!(stored, expected, "the library");
    });
}

/// The settings that the cover has are those that settle or never come, and 9 tells the lowest other.
#[test]
fn covers_tell_which_settings_settle() {
    for_each(|name, text| {
        let Some(words) = words(text) else { return };
        let settled = Network::new(&Block::from_words(&words)).sound_settings();
        let entries = cover(&words, usize::MAX).1;
        let agrees = |setting: usize| {
            let agree = |entry: &[u16]| setting as u16 & entry[0] == entry[1];
            entries.chunks(2).any(agree)
        };
        let covered: Vec<bool> = (0..settled.len()).map(agrees).collect();
        assert_eq!(covered, settled);
        let lowest = covered.iter().position(|&covered| !covered);
        let out = String::from_utf8(file(name, "out")).unwrap();
        if out.starts_with("(refused 9 ") {
            let lowest = lowest.expect("a setting that the cover leaves out");
            assert_eq!(out, format!("(refused 9 {lowest})\n"));
        } else if !out.starts_with("(refused ") {
            assert_eq!(lowest, None);
        }
    });
}

/// The value of each output of a block, from the values of its gates.
fn shown(block: &Block, setting: &[u8], values: &[u8]) -> Vec<u8> {
    let value = |node: Source| match node {
        Source::Constant(bit) => u8::from(bit),
        Source::Input(input) => setting[input],
        Source::Gate(gate) => values[gate],
    };
    let outputs = block.outputs.iter();
    outputs.map(|output| value(output.node)).collect()
}

#[test]
fn renderings_are_straight_and_say_what_the_originals_say() {
    let mut rendered = 0;
    for name in names() {
        let _report = Report(|| format!("catalogue/{name}"));
        let Some(words) = words(&file(&name, "out")) else {
            continue;
        };
        rendered += 1;
        let (original, rendering) = (block(&name), Block::from_words(&words));
        assert!(rendering.is_straight());
        assert_eq!(rendering.inputs, original.inputs);
        let ports = |block: &Block| -> Vec<String> {
            block.outputs.iter().map(|o| o.port.clone()).collect()
        };
        assert_eq!(ports(&rendering), ports(&original));
        assert_eq!(rendering.nevers, original.nevers);
        let network = Network::new(&original);
        let excluded = original.excluded_settings();
        for number in (0..excluded.len()).filter(|&number| !excluded[number]) {
            let setting = setting_bytes(number, original.inputs.len());
            let said = shown(&original, &setting, &network.settled(&setting));
            let swept = shown(&rendering, &setting, &sweep(&rendering, &setting));
            assert_eq!(swept, said, "setting {number}");
            assert!(!said.contains(&UNDEFINED), "setting {number}");
        }
    }
    assert!(rendered >= 6, "{rendered}");
}

type Values = BTreeMap<String, usize>;

/// Checks the outputs of a netlist's rendering, by port, against its inputs, by name, under every setting.
fn for_settings(name: &str, check: impl Fn(&Values, &Values)) {
    let block = Block::from_words(&words(&file(name, "out")).expect("a rendering"));
    for number in 0..1 << block.inputs.len() {
        let setting = setting_bytes(number, block.inputs.len());
        let outputs = shown(&block, &setting, &sweep(&block, &setting));
        let named = |names: Vec<&String>, values: &[u8]| -> Values {
            let values = values.iter().map(|&value| usize::from(value));
            names.into_iter().cloned().zip(values).collect()
        };
        let inputs = named(block.inputs.iter().collect(), &setting);
        let ports = block.outputs.iter().map(|output| &output.port).collect();
        let outputs = named(ports, &outputs);
        let _report = Report(|| format!("catalogue/{name} with {inputs:?}: {outputs:?}"));
        check(&inputs, &outputs);
    }
}

/// Each gate reads the one after it: 33 passes. In the other order, each reading the one before it, one pass is enough.
#[test]
fn ring_backwards_needs_a_pass_for_each_gate() {
    let backwards = file("ring-backwards", "net");
    let text = reversed_ring(33, 32) + "(out y g0)\n";
    assert_eq!(String::from_utf8(backwards).unwrap(), text);
    let forwards = ring(33, "(and LAST 0)") + "(out y g32)\n";
    let (told, rendered) = render(&words_of(&forwards), BLOCK_WORDS);
    assert_eq!((told.number, rendered[1]), (0, 33));
}

#[test]
fn scaler_adds_and_doubles_in_either_order() {
    let add = |x: usize| (x + 1) % 4;
    let double = |x: usize| (2 * x).min(3);
    for_settings("scaler", |pins, ports| {
        let x = 2 * pins["x1"] + pins["x0"];
        let expected = match pins["select"] {
            0 => double(add(x)),
            _ => add(double(x)),
        };
        assert_eq!(2 * ports["y1"] + ports["y0"], expected);
    });
}

/// The same scaler, with the words' parity bits: a word whose parity is wrong is scaled to 0.
#[test]
fn scaler_with_parity_tells_a_wrong_word() {
    let add = |x: usize| (x + 1) % 4;
    let double = |x: usize| (2 * x).min(3);
    for_settings("scaler-parity", |pins, ports| {
        let x = 2 * pins["x1"] + pins["x0"];
        let ok = (pins["x1"] + pins["x0"] + pins["xp"] + 1) % 2;
        let scaled = match pins["select"] {
            0 => double(add(x)),
            _ => add(double(x)),
        };
        assert_eq!(ports["ok"], ok);
        assert_eq!(2 * ports["y1"] + ports["y0"], ok * scaled);
        assert_eq!((ports["y1"] + ports["y0"] + ports["yp"]) % 2, 0);
    });
}

#[test]
fn mended_rate_block_passes_the_sample_unless_muted() {
    for_settings("rate-mended", |pins, ports| {
        assert_eq!(ports["y"], pins["sample"] * (1 - pins["mute"]));
    });
}

/// Both mode pins at 1 never come; the block without the line waits for itself there.
#[test]
fn mode_pins_pass_the_sample_on() {
    for_settings("mode-pins", |pins, ports| {
        if pins["fast"] + pins["slow"] < 2 {
            assert_eq!(ports["z"], 1 - pins["sample"]);
            assert_eq!(ports["y"], pins["sample"] ^ pins["fast"]);
        }
    });
    let excluded = block("mode-pins").excluded_settings();
    let settled = Network::new(&block("mode-pins-any")).settled_settings();
    let which = |list: &[bool], is: bool| -> Vec<usize> {
        (0..8).filter(|&setting| list[setting] == is).collect()
    };
    assert_eq!(which(&excluded, true), [6, 7]);
    assert_eq!(which(&settled, false), [6, 7]);
    assert_eq!(block("mode-pins").without_nevers(), block("mode-pins-any"));
    let told = verdict(&words(&file("mode-pins", "net")).unwrap());
    assert_eq!((told.count, told.detail), (6, 8));
}

/// The never line of rate-never-48.net excludes the settings that rate.net is refused for; what is rendered shows 0 there.
#[test]
fn a_never_line_hides_the_fault_of_the_rate_block() {
    let hidden = block("rate-never-48");
    assert_eq!(hidden.without_nevers(), block("rate"));
    let excluded = hidden.excluded_settings();
    let settled = Network::new(&hidden).settled_settings();
    let unsettled: Vec<usize> = (0..16).filter(|&setting| !settled[setting]).collect();
    assert_eq!(unsettled, [8, 9]);
    assert!((0..16).all(|setting| excluded[setting] == (setting >= 8)));
    for_settings("rate-never-48", |pins, ports| {
        let passed = pins["sample"] * (1 - pins["mute"]);
        match (pins["k48"], pins["k44"]) {
            (1, 0) => assert_eq!(ports["y"], 0),
            _ => assert_eq!(ports["y"], passed),
        }
    });
}

#[test]
fn arbiter_grants_the_first_request_from_the_token_on() {
    for_settings("arbiter", |pins, ports| {
        let token = 2 * pins["t1"] + pins["t0"];
        let around = (0..4).map(|step| (token + step) % 4);
        let first = around.into_iter().find(|i| pins[&format!("r{i}")] == 1);
        for i in 0..4 {
            assert_eq!(ports[&format!("g{i}")], usize::from(first == Some(i)));
        }
    });
}

/// From each token the turn goes on to the first request; without a token nobody is granted anything but in turn.
#[test]
fn arbiter_without_a_token_grants_in_turn() {
    for_settings("arbiter-lost-token", |pins, ports| {
        let is = |pin: &str, i: usize| pins[&format!("{pin}{}", i % 3)] == 1;
        for i in 0..3 {
            // The token stands `back` cells before cell i, and none from there on asks for it.
            let passed = |back: usize| (1..=back).all(|step| !is("r", i + 3 - step));
            let turn = (0..3).any(|back| is("t", i + 3 - back) && passed(back));
            assert_eq!(ports[&format!("g{i}")], usize::from(turn && is("r", i)));
        }
    });
}

/// The formulas of 003, Example 1.
#[test]
fn six_gates_compute_the_printed_functions() {
    for_settings("six-gates", |pins, ports| {
        let [a, b, c, d, x] = ["a", "b", "c", "d", "x"].map(|pin| pins[pin]);
        assert_eq!(ports["f1"], b & (a | x & (d | c)));
        assert_eq!(ports["f2"], d | c & (x | b & a));
    });
}

/// The last rows of 003, Fig. 6, for each of the four outputs: where it is 0, and where it is 1.
#[test]
fn four_functions_are_those_of_the_printed_table() {
    for_settings("four-functions", |pins, ports| {
        let [a, b, c] = ["a", "b", "c"].map(|pin| pins[pin]);
        let [na, nb, nc] = [1 - a, 1 - b, 1 - c];
        let f1 = (a & nb & c | b & nc, c & (b | na) | nb & nc);
        let f2 = (na & (c | nb) | a & nc, na & b & nc | a & c);
        let f3 = (
            na & nb & c | nc & (a & nb | na & b),
            na & nb & nc | c & (b | a) | a & b,
        );
        let f4 = (a & b & c | na & nb, b & (nc | na) | a & nb);
        for (port, sets) in ["f1", "f2", "f3", "f4"].into_iter().zip([f1, f2, f3, f4]) {
            let value = ports[port];
            assert_eq!((1 - value, value), sets, "{port}");
        }
    });
}

#[test]
fn full_adders_add_and_are_only_renamed() {
    for name in ["full-adder", "full-adder-xor"] {
        for_settings(name, |pins, ports| {
            let sum: usize = pins.values().sum();
            assert_eq!(2 * ports["carry"] + ports["sum"], sum);
        });
        assert_eq!(words(&file(name, "net")), words(&file(name, "out")));
    }
}

/// What README.md says of the renderings made elsewhere: one pass is caught, and five are accepted, though under the two settings that the
/// cover of rate.net leaves out they show 0.
#[test]
fn renderings_made_elsewhere() {
    let original = words(&file("rate", "net")).unwrap();
    let told = |name: &str| compare_pair(&original, &words(&file(name, "net")).unwrap());
    let told = ["rate-one-pass", "rate-all-passes"].map(told);
    assert_eq!(told.map(|told| told.number), [0, 0]);
    assert_eq!(told.map(|told| (told.count, told.detail)), [(1, 1), (0, 0)]);
    let passes = block("rate-all-passes");
    let unsettled = Network::new(&block("rate")).settled_settings();
    let left: Vec<usize> = (0..16).filter(|&setting| !unsettled[setting]).collect();
    assert_eq!(left, [8, 9]);
    for setting in left {
        let setting = setting_bytes(setting, 4);
        assert_eq!(shown(&passes, &setting, &sweep(&passes, &setting)), [0]);
    }
}
