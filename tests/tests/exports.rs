//! Verilog, BLIF and tables of cells as they are written, evaluated by second readers, and mapped BLIF as it is read back. What is written as
//! BLIF is held to its reader in from_blif.rs.

mod session;

use session::{run, told, with};
use simulator::blif::Blif;
use simulator::block::{Block, Kind, Source};
use simulator::executed::Scratch;
use simulator::foreign::compared;
use simulator::generate::{for_blocks, for_texts, for_typical_blocks, Random, Report, Size};
use simulator::render::copied;
use simulator::values::{gate_value, setting_bytes, Network, UNDEFINED};
use std::collections::HashMap;
use std::fs;

/// The names of a port list, `a, \reg , b`, and of `\reg [0]`.
fn names(list: &str) -> Vec<String> {
    let names = list.split(',').map(|name| name.trim());
    let names = names.map(|name| name.trim_start_matches('\\').replace(' ', ""));
    names.filter(|name| !name.is_empty()).collect()
}

/// The ports of a declaration with their nets: `a, b`, or `[1:0] a`, whose nets are `a[0]` and `a[1]`.
fn declared(rest: &str) -> impl Iterator<Item = (String, Vec<String>)> {
    let vector = rest
        .strip_prefix('[')
        .and_then(|rest| rest.split_once(":0] "));
    let (last, list) = vector.unwrap_or(("", rest));
    let last: Option<usize> = last.parse().ok();
    names(list).into_iter().map(move |name| {
        let nets = match last {
            Some(last) => (0..=last).map(|index| format!("{name}[{index}]")).collect(),
            None => vec![name.clone()],
        };
        (name, nets)
    })
}

/// A module's inputs, outputs, and its nets with what drives each: a word and operands; `assign` is the word of a port.
#[derive(Default)]
struct Module<'a> {
    inputs: Vec<String>,
    outputs: Vec<String>,
    drivers: Vec<(String, &'a str, Vec<String>)>,
}

impl Module<'_> {
    fn of(text: &str) -> Module<'_> {
        let mut module = Module::default();
        let mut ports: HashMap<String, (&str, Vec<String>)> = HashMap::new();
        for line in text.lines().filter(|line| line.starts_with("  ")) {
            let (word, rest) = line.trim().split_once(' ').expect("a word");
            let rest = rest.strip_suffix(';').expect("an end");
            match word {
                "input" | "output" => {
                    ports.extend(declared(rest).map(|(name, nets)| (name, (word, nets))));
                }
                "wire" => {}
                "assign" => {
                    let (port, node) = rest.split_once(" = ").expect("an assignment");
                    module
                        .drivers
                        .push((names(port).remove(0), word, names(node)));
                }
                _ => {
                    let pins = rest
                        .strip_prefix('(')
                        .and_then(|rest| rest.strip_suffix(')'));
                    let mut pins = names(pins.expect("pins"));
                    module.drivers.push((pins.remove(0), word, pins));
                }
            }
        }
        let mut lines = text.lines();
        let head = lines.find(|line| line.starts_with("module "));
        let (_, listed) = head.and_then(|head| head.split_once(" (")).expect("ports");
        for port in names(listed.strip_suffix(");").expect("an end")) {
            match ports.remove(&port).expect("a declaration") {
                ("input", nets) => module.inputs.extend(nets),
                (_, nets) => module.outputs.extend(nets),
            }
        }
        module
    }

    /// What the outputs settle to: every net is evaluated until nothing changes.
    fn shown(&self, setting: &[u8]) -> Vec<u8> {
        let inputs = self.inputs.iter().map(|name| &name[..]);
        let mut values: HashMap<&str, u8> = inputs.zip(setting.iter().copied()).collect();
        values.extend([("1'b0", 0), ("1'b1", 1)]);
        loop {
            let mut changed = false;
            for (net, word, operands) in &self.drivers {
                let value = |net: &String| values.get(&net[..]).copied().unwrap_or(UNDEFINED);
                let mut read = operands.iter().map(value);
                let value = match Kind::ALL.into_iter().find(|kind| kind.keyword() == *word) {
                    Some(kind) => gate_value(kind, read),
                    None => read.next_back().expect("a node"),
                };
                changed |= values.insert(net, value) != Some(value) && value != UNDEFINED;
            }
            if !changed {
                return self.outputs.iter().map(|port| values[&port[..]]).collect();
            }
        }
    }
}

fn block_of(words: &[u16]) -> unloop::Block {
    unloop::Block::from_words(words).expect("a block")
}

/// A few settings, values that are undefined among them.
fn settings(random: &mut Random, n: usize) -> Vec<Vec<u8>> {
    (0..6)
        .map(|_| (0..n).map(|_| random.below(3) as u8).collect())
        .collect()
}

/// The module of a block, looped or not, settles to what the simulator settles to.
#[test]
fn verilog_shows_what_the_block_shows() {
    for_blocks(0..300, Size::SMALL, |random, block, words| {
        let text = unloop::verilog(&block_of(words), &unloop::module_name("m"));
        let _report = Report(|| text.clone());
        let (module, network) = (Module::of(&text), Network::new(block));
        for setting in settings(random, block.inputs.len()) {
            assert_eq!(
                module.shown(&setting),
                network.shown(&setting),
                "{setting:?}"
            );
        }
    });
}

/// A straight block as a mapped model in another order, with long names, and a buffer before each port.
fn mapped(random: &mut Random, block: &Block) -> String {
    let net = |node: Source| match node {
        Source::Constant(value) => ["const_net_0", "const_net_1"][usize::from(value)].to_string(),
        Source::Input(input) => block.inputs[input].clone(),
        Source::Gate(gate) if gate % 2 == 0 => format!("new_net_{gate}"),
        Source::Gate(gate) => format!("n{gate}_"),
    };
    let mut lines = vec![
        ".gate zero O=const_net_0".to_string(),
        ".gate one O=const_net_1".to_string(),
    ];
    for (number, gate) in block.gates.iter().enumerate() {
        let count = if gate.kind == Kind::Not {
            String::new()
        } else {
            gate.operands.len().to_string()
        };
        let pins = gate
            .operands
            .iter()
            .zip('a'..)
            .map(|(operand, pin)| format!("{pin}={}", net(*operand)));
        let pins: Vec<String> = pins.collect();
        lines.push(format!(
            ".gate {}{count} {} \\\n O={}",
            gate.kind.keyword(),
            pins.join(" "),
            net(Source::Gate(number))
        ));
    }
    let port = |port: &String| match block.inputs.contains(port) {
        true => format!("{port}{}", unloop::OUTPUT_SUFFIX),
        false => port.clone(),
    };
    let ports: Vec<String> = block
        .outputs
        .iter()
        .map(|output| port(&output.port))
        .collect();
    let buffers = block.outputs.iter().zip(&ports);
    lines.extend(
        buffers.map(|(output, port)| format!(".gate buf a={} O={port} # a port", net(output.node))),
    );
    let order = random.permutation(lines.len());
    let lines: Vec<&str> = order.into_iter().map(|line| &lines[line][..]).collect();
    format!(
        ".model m\n.inputs {}\n.outputs {}\n{}\n.end\n",
        block.inputs.join(" "),
        ports.join(" "),
        lines.join("\n")
    )
}

/// Straight, and as good as the block by the simulator's Compare.
#[test]
fn mapped_blif_comes_back() {
    let mut check = |random: &mut Random, block: &Block, words: &[u16]| {
        let rendering = copied(block);
        if rendering.gates.len() > 1_000 {
            return;
        }
        let model = mapped(random, &rendering);
        let _report = Report(|| model.clone());
        let text = unloop::from_blif(&model, None).expect("a model").netlist;
        let back = unloop::Block::read(&text).expect("a netlist");
        let told = compared(words, back.words());
        assert_eq!((told.number, told.count), (0, 0), "{text}");
    };
    for_blocks(0..300, Size::SMALL, &mut check);
    for_typical_blocks(0..3, &mut check);
}

#[test]
fn names_that_other_tools_would_misread() {
    let scratch = with(&[(
        "4-in.net",
        "(in reg)\n(in b)\n(in begin)\n(gate p (xnor reg b begin 0))\n(out b p)\n(out wire b)\n",
    )]);
    let module = "// rendering of 4-in.net, by unloop\nmodule _4_in (\\reg , b, \\begin , b__output, \\wire );\n  input \\reg , b, \\begin ;\n  output b__output, \\wire ;\n  \
                  wire _0;\n  xnor (_0, \\reg , b, \\begin , 1'b0);\n  assign b__output = _0;\n  assign \\wire  = b;\nendmodule\n";
    told(run(&scratch, &["--verilog", "4-in.net"]), 0, module, "");
    let rows = "0000 1\n0011 1\n0101 1\n0110 1\n1001 1\n1010 1\n1100 1\n1111 1\n";
    let model = format!(
        "# rendering of 4-in.net, by unloop\n.model _4_in\n.inputs reg b begin\n.outputs b__output wire\n.names _zero\n.names reg b begin _zero _0\n{rows}\
         .names _0 b__output\n1 1\n.names b wire\n1 1\n.end\n"
    );
    told(run(&scratch, &["--blif", "4-in.net"]), 0, &model, "");
}

/// Whatever a module is to be called after, its name is one word of letters, digits and `_`, and no keyword stands bare.
#[test]
fn names_of_modules() {
    let block = unloop::Block::read("(in a)\n(out y a)\n").unwrap();
    for (given, name, in_verilog) in [
        ("a b;", "a_b_", "a_b_"),
        ("", "_", "_"),
        (
            "x (); endmodule module y",
            "x_____endmodule_module_y",
            "x_____endmodule_module_y",
        ),
        ("a\n1 2 3 4 5", "a_1_2_3_4_5", "a_1_2_3_4_5"),
        ("Größe", "Gr__e", "Gr__e"),
        ("begin", "begin", "\\begin "),
        ("7", "_7", "_7"),
    ] {
        let module = unloop::module_name(given);
        assert_eq!(module.as_str(), name);
        let text = unloop::verilog(&block, &module);
        assert_eq!(
            text.lines().next(),
            Some(&format!("module {in_verilog} (a, y);")[..])
        );
        let text = unloop::blif(&block, &module);
        assert_eq!(text.lines().next(), Some(&format!(".model {name}")[..]));
        let text = unloop::cell_table(&block, &module).unwrap();
        assert_eq!(text.lines().next(), Some(&format!("# cells {name} 0")[..]));
    }
}

/// A table of cells by a second reader: every line without a `#` is a cell, and the comments tell which nodes the ports show.
fn shown_by_cells(text: &str, setting: &[u8]) -> Vec<u8> {
    let mut nodes = setting.to_vec();
    let (comments, cells): (Vec<&str>, Vec<&str>) =
        text.lines().partition(|line| line.starts_with('#'));
    for cell in cells {
        let words: Vec<usize> = cell.split(' ').map(|word| word.parse().unwrap()).collect();
        let bit = |word: usize| match word {
            65_534 => 0,
            65_535 => 1,
            node => usize::from(nodes[node]),
        };
        let row: usize = (0..4).map(|place| bit(words[place]) << place).sum();
        nodes.push((words[4] >> row & 1) as u8);
    }
    let ports = comments
        .into_iter()
        .filter_map(|line| line.strip_prefix("# output "));
    ports
        .map(|port| nodes[port.rsplit(' ').next().unwrap().parse::<usize>().unwrap()])
        .collect()
}

#[test]
fn cells_show_what_the_rendering_shows() {
    for_blocks(0..600, Size::SMALL, |random, block, _| {
        let rendering = copied(block);
        let made = block_of(&rendering.to_words());
        let text = unloop::cell_table(&made, &unloop::module_name("m")).expect("straight");
        let _report = Report(|| text.clone());
        let (network, n) = (Network::new(&rendering), block.inputs.len());
        for _ in 0..4 {
            let setting = setting_bytes(random.below(1 << n), n);
            assert_eq!(
                shown_by_cells(&text, &setting),
                network.shown(&setting),
                "{setting:?}"
            );
        }
    });
}

/// Names of every kind for some pins and ports of a block, in order now and then, so that there are vectors.
fn other_names(random: &mut Random, block: &Block) -> unloop::Names {
    let other = [
        "a[0]", "a[1]", "reg[0]", "_0", "_zero", "reg", "1GAT", "x.y", "_1",
    ];
    let order = match random.chance(50) {
        true => random.permutation(other.len()),
        false => (0..other.len()).collect(),
    };
    let mut names = unloop::Names::default();
    for (place, &name) in order.iter().zip(&other) {
        let name = name.to_string();
        match (block.inputs.get(*place), block.outputs.get(*place)) {
            (Some(input), _) if random.chance(50) => names.inputs.push((input.clone(), name)),
            (_, Some(output)) => names.ports.push((output.port.clone(), name)),
            _ => {}
        }
    }
    names
}

/// With the gates' own names, which may be those of ports, and with pins of any name, a module and a model show what the block shows.
#[test]
fn labelled_originals_show_what_the_block_shows() {
    let mut vectors = 0;
    for_texts(0..600, Size::SMALL, |random, text, block| {
        let labels = unloop::Labels {
            gates: unloop::declarations::gate_names(text),
            names: other_names(random, block),
            ..unloop::Labels::from(&unloop::module_name("m"))
        };
        let read = unloop::Block::read(text).expect("a netlist");
        let module = unloop::verilog(&read, labels.clone());
        let model = unloop::blif(&read, labels);
        let _report = Report(|| format!("{module}{model}"));
        vectors += usize::from(module.contains("[1:0] a;"));
        let (network, blif) = (Network::new(block), Blif::of(&model));
        let module = Module::of(&module);
        for setting in settings(random, block.inputs.len()) {
            let shown = network.shown(&setting);
            assert_eq!(module.shown(&setting), shown, "{setting:?}");
            assert_eq!(blif.shown(&setting), shown, "{setting:?}");
        }
    });
    assert!(vectors > 20, "{vectors}");
}

/// Gates by their own names: one that a port shows under its name, one whose name another port has, one within another, and one with a number.
#[test]
fn names_of_gates() {
    let netlist = "(in s)\n(gate q (nor s n))\n(gate n (nor (not s) q))\n(gate _2 (not n))\n\
                   (out q q)\n(out n q)\n(out x _2)\n";
    let scratch = with(&[("latch.net", netlist)]);
    let module = "// original of latch.net, by unloop\nmodule latch (s, q, n, x);\n  input s;\n  output q, n, x;\n  \
                  wire __1, n__gate, _2;\n  nor (q, s, n__gate);\n  not (__1, s);\n  nor (n__gate, __1, q);\n  not (_2, n__gate);\n  \
                  assign n = q;\n  assign x = _2;\n\
                  endmodule\n";
    told(
        run(&scratch, &["--verilog", "--original", "latch.net"]),
        0,
        module,
        "",
    );
}

/// Some netlists, one of them refused.
fn some_netlists() -> Scratch {
    with(&[
        ("a.net", "(in a)\n(gate p (not a))\n(out y p)\n"),
        ("b.net", "(in b)\n(out y b)\n"),
        ("ring.net", "(gate p (not p))\n(out y p)\n"),
    ])
}

#[test]
fn into_a_folder() {
    let scratch = some_netlists();
    let report = "ring.net: undecided\n  not settled: y undefined\n  p waits for itself\n  settles under no setting\n";
    let made = "rendering of a.net, by unloop\n";
    for (option, ending, first) in [
        ("--verilog", "v", format!("// {made}module a (a, y);\n")),
        ("--blif", "blif", format!("# {made}.model a\n")),
        ("--cells", "cells", format!("# cells a 1\n# {made}")),
    ] {
        let words = [option, "--into", "d", "a.net", "ring.net", "b.net"];
        told(run(&scratch, &words), 1, "", report);
        let path = |name: &str| scratch.path(&format!("d/{name}.{ending}"));
        let written = fs::read_to_string(path("a")).unwrap();
        assert!(written.starts_with(&first), "{written}");
        assert!(path("b").exists() && !path("ring").exists());
        let there = format!("unloop: d/a.{ending}: exists already (--force replaces it)\n");
        told(
            run(&scratch, &["--into", "d", option, "a.net"]),
            2,
            "",
            &there,
        );
        fs::write(path("a"), "old").unwrap();
        told(
            run(&scratch, &["--force", "--into=d", option, "a.net"]),
            0,
            "",
            "",
        );
        assert_eq!(fs::read_to_string(path("a")).unwrap(), written);
    }
}

#[test]
fn what_goes_with_a_folder() {
    let scratch = some_netlists();
    let silent = "--into DIR writes nothing to standard output, so -o has no use";
    for (words, error) in [
        (
            &["--blif", "--into", "d"][..],
            "--into needs a FILE: standard input has no name",
        ),
        (&["--blif", "--into", "d", "-o", "x", "a.net"], silent),
        (
            &["--blif", "--force", "a.net"],
            "--blif doesn't go with --force or --json",
        ),
    ] {
        told(
            run(&scratch, words),
            2,
            "",
            &format!("unloop: {error} (see --help)\n"),
        );
    }
}

#[test]
fn originals_and_refusals() {
    let scratch = with(&[
        (
            "latch.net",
            "(in s)\n(never (s 1))\n(gate q (nor s n))\n(gate n (nor 1 q))\n(out q q)\n",
        ),
        ("ring.net", "(gate p (not p))\n(out y p)\n"),
        ("d/ring.net", "(in a)\n"),
    ]);
    let module = "// original of latch.net, by unloop\n// never s = 1\nmodule latch (s, q);\n  input s;\n  output q;\n  wire n;\n  \
                  nor (q, s, n);\n  nor (n, 1'b1, q);\nendmodule\n// original of ring.net, by unloop\nmodule ring (y);\n  output y;\n  \
                  wire p;\n  not (p, p);\n  assign y = p;\nendmodule\n";
    told(
        run(
            &scratch,
            &["--original", "--verilog", "latch.net", "ring.net"],
        ),
        0,
        module,
        "",
    );
    let report = "ring.net: undecided\n  not settled: y undefined\n  p waits for itself\n  settles under no setting\n";
    told(run(&scratch, &["--verilog", "ring.net"]), 1, "", report);
    let words = ["--original", "--blif", "ring.net", "d/ring.net"];
    let model = "# original of ring.net, by unloop\n.model ring\n.inputs\n.outputs y\n.names p p\n0 1\n.names p y\n1 1\n.end\n";
    told(
        run(&scratch, &words),
        2,
        model,
        "unloop: d/ring.net: a FILE before it gives the name ring too\n",
    );
    for (words, error) in [
        (
            &["--original", "ring.net"][..],
            "--original needs --verilog, --blif or --cells",
        ),
        (
            &["--blif", "--verilog", "ring.net"],
            "--blif and --verilog don't go together",
        ),
        (
            &["--blif", "--json", "ring.net"],
            "--blif doesn't go with --force or --json",
        ),
    ] {
        told(
            run(&scratch, words),
            2,
            "",
            &format!("unloop: {error} (see --help)\n"),
        );
    }
}
