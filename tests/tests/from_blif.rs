//! BLIF models of every form as netlists: held to a second reader of BLIF, and their names to what they were.

mod session;

use session::{run, told, with};
use simulator::blif::Blif;
use simulator::block::Block;
use simulator::foreign::compared;
use simulator::generate::{for_blocks, for_typical_blocks, model, Random, Report, Size};
use simulator::render::copied;
use simulator::values::{Network, UNDEFINED};
use std::fs;

/// The block of a netlist text.
fn block_of(netlist: &str) -> Block {
    let block = unloop::Block::read(netlist).expect("a netlist");
    Block::from_words(block.words())
}

/// Some settings, values that are undefined among them.
fn settings(random: &mut Random, n: usize) -> Vec<Vec<u8>> {
    let values = [0, 1, UNDEFINED];
    (0..8)
        .map(|_| (0..n).map(|_| random.pick(&values)).collect())
        .collect()
}

/// A model and the netlist made of it, with loops or without, show the same, with undefined pins too.
#[test]
fn a_model_shows_what_its_netlist_shows() {
    let (mut looped, mut undefined) = (0, 0);
    for seed in 0..3_000 {
        let mut random = Random::new(seed);
        let (text, inputs) = model(&mut random);
        let read = unloop::from_blif(&text, None).expect("a model");
        let _report = Report(|| format!("seed {seed}\n{text}\n{}", read.netlist));
        let block = block_of(&read.netlist);
        let (blif, network) = (Blif::of(&text), Network::new(&block));
        looped += usize::from(!block.is_straight());
        for setting in settings(&mut random, inputs) {
            let shown = blif.shown(&setting);
            undefined += shown.iter().filter(|&&value| value == UNDEFINED).count();
            assert_eq!(shown, network.shown(&setting), "{setting:?}");
        }
    }
    assert!(looped > 500 && undefined > 2_000, "{looped} {undefined}");
}

/// The names that a model had are those of the model and the module that are written with them.
#[test]
fn names_come_back() {
    let mut changed = 0;
    for seed in 0..2_000 {
        let (text, _) = model(&mut Random::new(seed));
        let read = unloop::from_blif(&text, None).expect("a model");
        let block = unloop::Block::read(&read.netlist).expect("a netlist");
        let names: unloop::Names = read.names.to_string().parse().expect("names");
        assert_eq!(names, read.names);
        changed += names.inputs.len() + names.ports.len();
        let labels = unloop::Labels {
            names,
            gates: unloop::declarations::gate_names(read.netlist.as_bytes()),
            ..unloop::Labels::from(&unloop::module_name("m"))
        };
        let back = unloop::blif(&block, labels);
        let _report = Report(|| {
            format!(
                "seed {seed}\n{text}\n{}\n{}\n{back}",
                read.netlist, read.names
            )
        });
        let (before, after) = (Blif::of(&text), Blif::of(&back));
        assert_eq!(before.inputs, after.inputs);
        // Only an output that is an input too, or that an export would call so, gets another name.
        for (before_port, after_port) in before.outputs.iter().zip(&after.outputs) {
            let suffixed = format!("{before_port}{}", unloop::OUTPUT_SUFFIX);
            let is_input = before.inputs.contains(before_port);
            assert!(after_port == before_port || is_input && after_port.starts_with(&suffixed));
        }
        let again = unloop::from_blif(&back, None).expect("a model");
        let (first, second) = (block_of(&read.netlist), block_of(&again.netlist));
        for setting in settings(&mut Random::new(seed), first.inputs.len()) {
            let shown = Network::new(&first).shown(&setting);
            assert_eq!(shown, Network::new(&second).shown(&setting), "{setting:?}");
        }
    }
    assert!(changed > 2_000, "{changed}");
}

/// What is written as a model, original or rendering, is read back: straight renderings are accepted by Compare, originals show the same.
#[test]
fn written_models_come_back() {
    let mut check = |random: &mut Random, block: &Block, words: &[u16]| {
        let written = |words: &[u16]| {
            let block = unloop::Block::from_words(words).expect("a block");
            unloop::blif(&block, &unloop::module_name("m"))
        };
        let original = written(words);
        let back = unloop::from_blif(&original, None).expect("a model");
        let _report = Report(|| format!("{original}{}", back.netlist));
        let (blif, network) = (Blif::of(&original), Network::new(block));
        let back = block_of(&back.netlist);
        assert_eq!(
            (&back.inputs, back.gates.len()),
            (&block.inputs, block.gates.len())
        );
        for setting in settings(random, block.inputs.len()) {
            assert_eq!(blif.shown(&setting), network.shown(&setting), "{setting:?}");
            assert_eq!(
                Network::new(&back).shown(&setting),
                network.shown(&setting),
                "{setting:?}"
            );
        }
        let rendering = copied(block);
        if rendering.gates.len() <= simulator::limits::GATES {
            let model = written(&rendering.to_words());
            let back = unloop::from_blif(&model, None).expect("a model");
            let told = compared(words, &block_of(&back.netlist).to_words());
            assert_eq!((told.number, told.count), (0, 0), "{model}");
            let (ours, theirs) = (unloop::Block::from_words(words), &back.netlist);
            let theirs = unloop::Block::read(theirs).expect("a netlist");
            assert_eq!(ours.expect("a block").compare(&theirs), Ok(None), "{model}");
        }
    };
    for_blocks(0..600, Size::SMALL, &mut check);
    for_typical_blocks(0..4, &mut check);
}

/// One row of 75 columns and 74 of two: deeper than a gate line may be, so that it takes further ones.
#[test]
fn a_table_deeper_than_a_line() {
    let columns = 75;
    let nets: Vec<String> = (0..columns)
        .map(|column| format!("i{}", column % 12))
        .collect();
    let wanted = |column: usize| ['1', '0'][column % 12 % 2];
    let mut rows: Vec<String> = vec![(0..columns).map(wanted).collect()];
    for second in 1..columns {
        let row = (0..columns).map(|column| match column {
            0 => '0',
            _ if column == second => '1',
            _ => '-',
        });
        rows.push(row.collect());
    }
    for shown in [0, 1] {
        let rows: String = rows.iter().map(|row| format!("{row} {shown}\n")).collect();
        let text = format!(
            ".model m\n.inputs {}\n.outputs y\n.names {} y\n{rows}.end\n",
            nets[..12].join(" "),
            nets.join(" ")
        );
        let netlist = unloop::from_blif(&text, None).expect("a model").netlist;
        assert!(netlist.contains("(gate _0 "), "{netlist}");
        let (block, mut random) = (block_of(&netlist), Random::new(shown));
        let (blif, network) = (Blif::of(&text), Network::new(&block));
        for setting in (0..40).flat_map(|_| settings(&mut random, 12)) {
            assert_eq!(blif.shown(&setting), network.shown(&setting), "{setting:?}");
        }
        let setting: Vec<u8> = (0..12).map(|input| 1 - input % 2).collect();
        assert_eq!(network.shown(&setting), [shown as u8]);
    }
}

/// The netlist of a body between the pins s, t and the port y, without its first and last lines.
fn body(lines: &str) -> String {
    let model = format!(".model m\n.inputs s t\n.outputs y\n{lines}\n.end\n");
    let netlist = unloop::from_blif(&model, None).expect("a model").netlist;
    let gates = netlist.strip_prefix("(in s)\n(in t)\n").expect("pins");
    gates.trim_end().replace('\n', " ")
}

/// Lines, and the gates and the output that are made of them.
const AS_GATES: &[(&str, &str)] = &[
    (".names y", "(gate y (and 0 1)) (out y y)"),
    (".names y\n1", "(gate y (or 0 1)) (out y y)"),
    (".names y\n 0", "(gate y (and 0 1)) (out y y)"),
    (".names s t y\n-- 0", "(gate y (and 0 1)) (out y y)"),
    (".names s y\n1 1", "(out y s)"),
    (".names s y\n0 0", "(out y s)"),
    (".conn s y", "(out y s)"),
    (".names s y\n1 0", "(gate y (not s)) (out y y)"),
    (".names s t y\n1- 1\n-1 1", "(gate y (or s t)) (out y y)"),
    (".names s t y\n0- 1\n-0 1", "(gate y (nand s t)) (out y y)"),
    (".names s t y\n00 0", "(gate y (or s t)) (out y y)"),
    (".names s t y\n01 1\n10 1", "(gate y (xor s t)) (out y y)"),
    (".names s t y\n01 0\n10 0", "(gate y (xnor s t)) (out y y)"),
    (".names s t y\n10 1", "(gate y (and s (not t))) (out y y)"),
    (".names s y\n0 1\n1 1", "(gate y (or s (not s))) (out y y)"),
    (
        ".names z\n1\n.names s z y\n11 1",
        "(gate y (and s 1)) (out y y)",
    ),
    (
        ".names z y\n1 1\n.names y z\n1 1",
        "(gate y (and y 1)) (out y y)",
    ),
    (
        ".names s n y\n00 1\n.names t y n\n00 1",
        "(gate y (nor s n)) (gate n (nor t y)) (out y y)",
    ),
    (
        ".names s t s t s y\n11111 1",
        "(gate y (and (and s t) s t s)) (out y y)",
    ),
    (
        ".area 3\n.subckt nand2 a=s b=t O=y\n.cname u1",
        "(gate y (nand s t)) (out y y)",
    ),
];

#[test]
fn tables_as_gates() {
    for (lines, gates) in AS_GATES {
        assert_eq!(&body(lines), gates, "{lines}");
    }
}

#[test]
fn subcircuits_in_place() {
    let text = ".model top\n.inputs a b c\n.outputs s carry\n.subckt half x=a y=b sum=h c=k\n.subckt half x=h y=c sum=s c=l\n\
                .names k l carry\n1- 1\n-1 1\n.end\n\
                .model half\n.inputs x y\n.outputs sum c\n.names x y n\n11 0\n.names n c\n0 1\n.names x y sum\n01 1\n10 1\n.end\n";
    let scratch = with(&[("adder.blif", text)]);
    let netlist = "(in a)\n(in b)\n(in c)\n(gate _0 (nand a b))\n(gate k (not _0))\n(gate h (xor a b))\n(gate _1 (nand h c))\n\
                   (gate l (not _1))\n(gate carry (or k l))\n(gate s (xor h c))\n(out s s)\n(out carry carry)\n";
    let first = "adder.blif: the model top of 2\n";
    let ended = run(&scratch, &["--from-blif", "adder.blif", "--names", "names"]);
    assert_eq!(String::from_utf8_lossy(&ended.stderr), first);
    let block = block_of(&String::from_utf8_lossy(&ended.stdout));
    let expected = block_of(netlist);
    for number in 0..8 {
        let setting = simulator::values::setting_bytes(number, 3);
        let shown = Network::new(&block).shown(&setting);
        assert_eq!(shown, Network::new(&expected).shown(&setting));
        assert_eq!(shown[0] + 2 * shown[1], setting.iter().sum::<u8>());
    }
    let names = fs::read_to_string(scratch.path("names")).unwrap();
    assert_eq!(names, "model top\ngate _0 half.1.n\ngate _1 half.2.n\n");
    let half = "(in x)\n(in y)\n(gate n (nand x y))\n(gate c (not n))\n(gate sum (xor x y))\n(out sum sum)\n(out c c)\n";
    let told_half = "adder.blif: the model half of 2\n";
    told(
        run(&scratch, &["--from-blif", "--model", "half", "adder.blif"]),
        0,
        half,
        told_half,
    );
}

/// Lines between `.outputs y` and `.end`, and what is told of them.
const NOT_READ: &[(&str, &str)] = &[
        (".gate and2 a=s b=s O=y\n.gate buf a=s O=y", "5: y is driven twice"),
        (".names s\n", "4: s is driven twice"),
        (".gate and5 a=s b=s O=y", "4: and5 is no cell of the library"),
        (".gate and2 a=s O=y", "4: and2 has a pin b, which is missing"),
        (".gate not a=s b=s O=y", "4: not has 2 pins, not 3"),
        (".gate not a O=y", "4: a is not PIN=NET"),
        (".gate not a=s a=s O=y", "4: the pin a of not stands there twice"),
        (".gate not a=t O=y", "4: nothing drives t"),
        ("", "5: nothing drives y"),
        (".names s y\n2 1", "5: 2 is no row of 0, 1 and - for 1 inputs"),
        (".names s y\n11 1", "5: 11 is no row of 0, 1 and - for 1 inputs"),
        (".names s y\n1", "5: a row has a character for each input, and the output"),
        (".names s y\n1 -", "5: a table's output is 0 or 1, not -"),
        (".names s y\n1 1\n0 0", "6: rows for 0 and for 1 in one table"),
        (".names s y\n1 1\n.area 1\n0 1", "7: 0 stands outside of a table"),
        (".latch s y re clock 0", "4: .latch: y keeps a value, and a netlist has no latches"),
        (
            ".names s y\n1 1\n.exdc\n.names s y\n1 1",
            "6: .exdc: conditions that don't matter are never lines of a netlist, to be written by hand",
        ),
        (".search other.blif", "4: .search is not read: a model has .names, .gate and .subckt lines"),
        (".subckt other a=s b=y", "4: other is no model of this file and no cell of the library"),
        (".subckt m s=s y=y", "1: m holds itself, or a model that does"),
        (".subckt n p=s\n.end\n.model n\n.inputs q", "4: n has no pin p"),
        (".subckt n\n.end\n.model n\n.inputs q", "4: the pin q of n is missing"),
        (".end\n.model m", "5: a second model m"),
        (".model n", "4: m has no .end"),
];

#[test]
fn models_that_are_not_read() {
    for (body, error) in NOT_READ {
        let model = format!(".model m\n.inputs s\n.outputs y\n{body}\n.end\n");
        let told = unloop::from_blif(&model, None).map_err(|error| error.to_string());
        assert_eq!(
            told.map(|read| read.netlist),
            Err(error.to_string()),
            "{model}"
        );
    }
    for (model, error) in [
        ("", "1: no model: .model to .end"),
        (".inputs a\n", "1: .inputs outside of a model"),
        (".model m\n.inputs a\n", "2: m has no .end"),
        (
            ".model m\n.outputs y y\n.names y\n.end\n",
            "1: y is an output twice",
        ),
    ] {
        let told = unloop::from_blif(model, None).map_err(|error| error.to_string());
        assert_eq!(told.map(|read| read.netlist), Err(error.to_string()));
    }
    let told = unloop::from_blif(".model m\n.end\n.model n\n.end\n", Some("o")).unwrap_err();
    assert_eq!(told.to_string(), "1: no model is called o; there is m, n");
}

/// A model that is too large for a netlist is read all the same, and told of with its numbers.
#[test]
fn models_that_are_too_large() {
    let names = |word: &str, count: usize| {
        let names: Vec<String> = (0..count).map(|number| format!("{word}{number}")).collect();
        names.join(" ")
    };
    let nots: String = (0..1_100)
        .map(|gate| format!(".names i0 g{gate}\n0 1\n"))
        .collect();
    let text = format!(
        ".model big\n.inputs {}\n.outputs {}\n{nots}.end\n",
        names("i", 13),
        names("g", 17)
    );
    let model = unloop::blif_model::BlifFile::read(&text)
        .expect("a model")
        .models
        .remove(0);
    assert_eq!((model.inputs.len(), model.tables.len()), (13, 1_100));
    let scratch = with(&[("big.blif", &text)]);
    let report = "big.blif:1: big is too large for a netlist: it has 13 inputs, and may have 12; it has 17 outputs, and may have 16; \
                  it has 1100 gates, and may have 1024\n";
    told(run(&scratch, &["--from-blif", "big.blif"]), 1, "", report);
    // Models that hold each other twice, forty deep: a million million gates, which nobody puts in place.
    let mut text = ".model m0\n.inputs a\n.outputs y\n.names a y\n0 1\n.end\n".to_string();
    for level in 1..=40 {
        let inner = level - 1;
        text += &format!(".model m{level}\n.inputs a\n.outputs y\n.subckt m{inner} a=a y=b\n.subckt m{inner} a=b y=y\n.end\n");
    }
    let told = unloop::from_blif(&text, Some("m40")).unwrap_err();
    assert_eq!(told.reason, "m40 has 1099511627776 tables and cells in all");
    let told = unloop::from_blif(&text, Some("m4")).expect("a small one");
    assert_eq!(told.netlist.lines().count(), 2 + 16);
}

/// A row of buffers, however long, is passed once.
#[test]
fn a_long_row_of_buffers() {
    let count = 300_000;
    let mut text = ".model m\n.inputs b0\n.outputs y\n".to_string();
    for buffer in (0..count).rev() {
        text += &format!(".names b{buffer} b{}\n1 1\n", buffer + 1);
    }
    text += &format!(".names b{count} y\n0 1\n.end\n");
    let netlist = unloop::from_blif(&text, None).expect("a model").netlist;
    assert_eq!(netlist, "(in b0)\n(gate y (not b0))\n(out y y)\n");
}

/// Whatever is done to a model's words and lines, it is refused, or what is made of it is a netlist.
#[test]
fn spoiled_models() {
    let (mut read, mut refused) = (0, 0);
    for seed in 0..20_000 {
        let mut random = Random::new(seed);
        let (text, _) = model(&mut random);
        let mut words: Vec<&str> = text.split_inclusive(|c: char| c.is_whitespace()).collect();
        for _ in 0..random.between(1, 3) {
            let (one, other) = (random.below(words.len()), random.below(words.len()));
            match random.below(5) {
                0 => drop(words.remove(one)),
                1 => words.insert(one, words[other]),
                2 => words.swap(one, other),
                3 => words.insert(one, random.pick(&SPOILING)),
                _ => words[one] = random.pick(&SPOILING),
            }
            if words.is_empty() {
                break;
            }
        }
        let text = words.concat();
        let _report = Report(|| format!("seed {seed}\n{text}"));
        match unloop::from_blif(&text, None) {
            Ok(made) => {
                read += 1;
                let names: unloop::Names = made.names.to_string().parse().expect("names");
                assert_eq!(names, made.names);
                unloop::Block::read(&made.netlist).expect("a netlist");
            }
            Err(error) => {
                refused += 1;
                assert!(error.line <= text.lines().count().max(1), "{error}");
            }
        }
    }
    assert!(read > 1_000 && refused > 8_000, "{read} {refused}");
}

const SPOILING: [&str; 14] = [
    "\n.model b\n",
    "\n.end\n",
    "\n.names ",
    "\n.subckt a.b ",
    "\n.subckt not a=x ",
    "\n.latch ",
    "\n.exdc\n",
    "\n.gate and2 a=x b=x O=x\n",
    "\n.inputs x ",
    "\n.outputs x ",
    "=",
    "\\\n",
    "#",
    "é ",
];

#[test]
fn from_blif_as_a_command() {
    let scratch = with(&[
        ("a.blif", ".model m\n.inputs s\n.outputs y z s__output\n.gate one O=z\n.gate buf a=s O=y\n.gate buf a=z O=s__output\n.end\n"),
        ("b.blif", ".model m\n.inputs S a[1]\n.outputs sample_rate_select\n.gate and2 a=S b=a[1] O=sample_rate_select\n.end\n"),
        ("c.blif", ".model m\n.latch a b\n.end\n"),
    ]);
    let text = "(in s)\n(gate z (or 0 1))\n(out y s)\n(out z z)\n(out s z)\n";
    told(run(&scratch, &["--from-blif", "a.blif"]), 0, text, "");
    let error = "unloop: c.blif:2: .latch: b keeps a value, and a netlist has no latches\n";
    told(run(&scratch, &["--from-blif", "c.blif"]), 2, "", error);
}

/// The renaming rule on the examples of docs/KEEPER.md.
#[test]
fn names_as_the_guide_has_them() {
    let model = ".model m\n.inputs a[0] 1GAT sample_rate_select request[3]\n.outputs\n.end\n";
    let scratch = with(&[("m.blif", model)]);
    let text = "(in a_0)\n(in n1gat)\n(in sample_r)\n(in reques_3)\n";
    let output = run(&scratch, &["--from-blif", "m.blif"]);
    assert_eq!(String::from_utf8_lossy(&output.stdout), text, "{output:?}");
}

/// Names are told, or written to a file, with which a model and a module have them again.
#[test]
fn names_as_a_file() {
    let model = ".model m\n.inputs S a[1]\n.outputs sample_rate_select\n.gate and2 a=S b=a[1] O=sample_rate_select\n.end\n";
    let scratch = with(&[("b.blif", model)]);
    let text = "(in s)\n(in a_1)\n(gate sample_r (and s a_1))\n(out sample_r sample_r)\n";
    let note =
        "b.blif: s is S, a_1 is a[1], sample_r is sample_rate_select (--names NAMES keeps that)\n";
    told(run(&scratch, &["--from-blif", "b.blif"]), 0, text, note);
    told(
        run(
            &scratch,
            &["--from-blif", "b.blif", "--names", "b.names", "-o", "b.net"],
        ),
        0,
        "",
        "",
    );
    let names = "model m\nin s S\nin a_1 a[1]\nout sample_r sample_rate_select\ngate sample_r sample_rate_select\n";
    assert_eq!(fs::read_to_string(scratch.path("b.names")).unwrap(), names);
    let model =
        "# original of b.net, by unloop\n.model m\n.inputs S a[1]\n.outputs sample_rate_select\n\
                 .names S a[1] sample_rate_select\n11 1\n.end\n";
    told(
        run(
            &scratch,
            &["--blif", "--original", "--names", "b.names", "b.net"],
        ),
        0,
        model,
        "",
    );
    let module = "// rendering of b.net, by unloop\nmodule m (S, \\a[1] , sample_rate_select);\n  input S, \\a[1] ;\n  \
                  output sample_rate_select;\n  wire _0;\n  and (_0, S, \\a[1] );\n  assign sample_rate_select = _0;\nendmodule\n";
    told(
        run(&scratch, &["--verilog", "--names=b.names", "b.net"]),
        0,
        module,
        "",
    );
}

#[test]
fn names_that_do_not_fit() {
    let scratch = with(&[
        ("a.net", "(in a)\n(out y a)\n"),
        ("a.blif", ".model m\n.inputs A\n.end\n"),
        ("other.names", "in b B\n"),
        ("twice.names", "in a A\nin a B\n"),
    ]);
    for (words, error) in [
        (
            &["--blif", "--names", "other.names", "a.net"][..],
            "other.names: a.net has no pin b",
        ),
        (
            &["--blif", "--names", "twice.names", "a.net"],
            "twice.names:2: a stands there twice",
        ),
        (
            &["--from-blif", "--names", "a.blif", "a.blif"],
            "a.blif: is the FILE, and isn't overwritten",
        ),
        (
            &["--blif", "--names", "none.names", "a.net"],
            "none.names: No such file or directory",
        ),
        (
            &["--blif", "--names", "x", "a.net", "a.net"],
            "--names NAMES goes with one FILE (see --help)",
        ),
        (
            &["--cells", "--names", "x", "a.net"],
            "--names NAMES needs --from-blif, --verilog or --blif (see --help)",
        ),
        (
            &["--blif", "--model", "m", "a.net"],
            "--model NAME needs --from-blif or --design (see --help)",
        ),
    ] {
        told(run(&scratch, words), 2, "", &format!("unloop: {error}\n"));
    }
}

/// Nets of a vector, from 0 on and one behind the other, are one port of a module, as they were; others are escaped.
#[test]
fn vectors_come_back() {
    let text = ".model m\n.inputs a[0] a[1] b[1] reg[0]\n.outputs y[0] y[1]\n.names a[0] y[0]\n0 1\n.names a[1] b[1] reg[0] y[1]\n111 1\n.end\n";
    let scratch = with(&[("m.blif", text)]);
    told(
        run(
            &scratch,
            &["--from-blif", "m.blif", "--names", "names", "-o", "m.net"],
        ),
        0,
        "",
        "",
    );
    let module = "// original of m.net, by unloop\nmodule m (a, \\b[1] , \\reg , y);\n  input \\b[1] ;\n  input [1:0] a;\n  \
                  input [0:0] \\reg ;\n  output [1:0] y;\n  not (y[0], a[0]);\n  and (y[1], a[1], \\b[1] , \\reg [0]);\nendmodule\n";
    let words = ["--verilog", "--original", "--names", "names", "m.net"];
    told(run(&scratch, &words), 0, module, "");
}
