//! The second look at what the command writes: it accepts every rendering and export, and finds every single change that an output shows, by the
//! simulator's judgement. With a program that writes a wrong word the command writes nothing.

mod session;

use session::{run, told, with};
use simulator::block::{Block, Gate, Kind, Source};
use simulator::executed::{ended, netlists, program, root, Scratch};
use simulator::generate::{for_blocks, for_texts, for_typical_blocks, Random, Report, Size};
use simulator::limits::{BLOCK_WORDS, TEXT_BYTES};
use simulator::render::copied;
use simulator::settle::sweep;
use simulator::values::{setting_bytes, Network, UNDEFINED};
use simulator::{foreign, read, render, write};
use std::fs;
use std::process::{Command, Output};
use unloop::second_look::{agrees, Difference, Form, Language, Shown};

const LANGUAGES: [Language; 4] = [
    Language::Netlist,
    Language::Verilog,
    Language::Blif,
    Language::Cells,
];

fn text_of(block: &Block) -> Vec<u8> {
    let (told, text) = write(&block.to_words(), TEXT_BYTES);
    assert_eq!(told.number, 0);
    text
}

/// A straight block as the command writes it.
fn written(block: &Block, language: Language) -> Vec<u8> {
    let made = unloop::Block::from_words(block.to_words()).expect("a block");
    let name = unloop::module_name("m");
    match language {
        Language::Netlist => made.write().into_bytes(),
        Language::Verilog => unloop::verilog(&made, &name).into_bytes(),
        Language::Blif => unloop::blif(&made, &name).into_bytes(),
        Language::Cells => unloop::cell_table(&made, &name)
            .expect("straight")
            .into_bytes(),
    }
}

/// An original with its rendering, and what its outputs show under each setting that may come.
struct Judge {
    original: Vec<u8>,
    rendering: Block,
    shown: Vec<(Vec<u8>, Vec<u8>)>,
}

impl Judge {
    /// None where the block is refused.
    fn of(block: &Block) -> Option<Judge> {
        let (told, words) = render(&block.to_words(), BLOCK_WORDS);
        let rendering = (told.number == 0).then(|| Block::from_words(&words))?;
        let (network, n) = (Network::new(block), block.inputs.len());
        let excluded = block.excluded_settings();
        let settings = (0..1 << n).filter(|&setting| !excluded[setting]);
        let settings = settings.map(|setting| setting_bytes(setting, n));
        let shown = settings.map(|setting| (network.shown(&setting), setting));
        Some(Judge {
            original: text_of(block),
            rendering,
            shown: shown.map(|(shown, setting)| (setting, shown)).collect(),
        })
    }

    /// Whether a straight block shows what the original shows.
    fn accepts(&self, theirs: &Block) -> bool {
        self.shown.iter().all(|(setting, shown)| {
            let values = sweep(theirs, setting);
            foreign::shown(theirs, setting, &values).eq(shown.iter().copied())
        })
    }

    /// The second look says what the judge says, and tells both values where they differ.
    fn hold(&self, theirs: &Block, language: Language) -> bool {
        let (text, accepted) = (written(theirs, language), self.accepts(theirs));
        let looked = agrees(&self.original, &text, Form::rendering(language));
        match looked {
            Ok(()) => assert!(accepted, "not found: {}", text.escape_ascii()),
            Err(Difference::Value {
                setting,
                port,
                written,
                original,
            }) => {
                assert!(!accepted, "found: {}", text.escape_ascii());
                let setting: Vec<u8> = setting.iter().map(|(_, one)| u8::from(*one)).collect();
                let known = self.shown.iter().find(|(known, _)| *known == setting);
                let mut ports = theirs.outputs.iter();
                let output = ports
                    .position(|output| output.port == port)
                    .expect("a port");
                let values = sweep(theirs, &setting);
                let shows = foreign::shown(theirs, &setting, &values).nth(output);
                assert_eq!(Some(code(original)), known.map(|(_, shown)| shown[output]));
                assert_eq!(Some(code(written)), shows);
            }
            Err(other) => panic!("{other}: {}", text.escape_ascii()),
        }
        !accepted
    }
}

fn code(shown: Shown) -> u8 {
    match shown {
        Shown::Zero => 0,
        Shown::One => 1,
        Shown::Undefined => UNDEFINED,
    }
}

/// A gate with another kind, or with one operand that is another one: a constant, an input, or one of the last `gates` gates before it.
fn changes(block: &Block, number: usize, gates: usize) -> Vec<Gate> {
    let gate = &block.gates[number];
    let kinds = Kind::MANY.into_iter().filter(|_| gate.kind != Kind::Not);
    let with_kind = |kind: Kind| Gate {
        kind,
        ..gate.clone()
    };
    let mut changed: Vec<Gate> = kinds.map(with_kind).collect();
    let sources = [false, true].into_iter().map(Source::Constant);
    let sources = sources.chain((0..block.inputs.len()).map(Source::Input));
    let sources = sources.chain((number.saturating_sub(gates)..number).map(Source::Gate));
    for source in sources {
        for place in 0..gate.operands.len() {
            let mut other = gate.clone();
            other.operands[place] = source;
            changed.push(other);
        }
    }
    changed.retain(|other| other != gate);
    changed
}

/// Every change of every gate, the languages taking turns; how many were found, and how many change nothing.
fn every_change(judge: &Judge, gates: usize, turn: &mut usize) -> [usize; 2] {
    let mut counts = [0, 0];
    for number in 0..judge.rendering.gates.len() {
        for changed in changes(&judge.rendering, number, gates) {
            let mut theirs = judge.rendering.clone();
            theirs.gates[number] = changed;
            *turn += 1;
            let found = judge.hold(&theirs, LANGUAGES[*turn % LANGUAGES.len()]);
            counts[usize::from(!found)] += 1;
        }
    }
    counts
}

fn add(counts: &mut [usize; 2], more: [usize; 2]) {
    counts[0] += more[0];
    counts[1] += more[1];
}

#[test]
fn every_change_of_the_catalogue_is_found() {
    let (mut counts, mut turn, mut entries) = ([0, 0], 0, 0);
    for path in netlists() {
        let (told, words) = read(&fs::read(&path).unwrap(), BLOCK_WORDS);
        let block = (told.number == 0).then(|| Block::from_words(&words));
        let Some(judge) = block.as_ref().and_then(Judge::of) else {
            continue;
        };
        let _report = Report(|| format!("{}", path.display()));
        entries += 1;
        for language in LANGUAGES {
            assert!(!judge.hold(&judge.rendering, language));
        }
        add(&mut counts, every_change(&judge, usize::MAX, &mut turn));
    }
    assert!(
        entries > 10 && counts[0] > 10_000 && counts[1] > 1_000,
        "{entries} {counts:?}"
    );
}

#[test]
fn every_change_of_generated_blocks_is_found() {
    let (mut counts, mut turn, mut blocks) = ([0, 0], 0, 0);
    for_blocks(0..450, Size::SMALL, |_, block, _| {
        let Some(judge) = Judge::of(block) else {
            return;
        };
        blocks += 1;
        for language in LANGUAGES {
            assert!(!judge.hold(&judge.rendering, language));
        }
        add(&mut counts, every_change(&judge, 4, &mut turn));
    });
    assert!(
        blocks > 300 && counts[0] > 3_000 && counts[1] > 20_000,
        "{blocks} {counts:?}"
    );
}

/// Some changes of larger ones.
#[test]
fn changes_of_typical_blocks_are_found() {
    let (mut found, mut blocks) = (0, 0);
    let mut check = |random: &mut Random, block: &Block, _: &[u16]| {
        let Some(judge) = Judge::of(block) else {
            return;
        };
        blocks += 1;
        for language in LANGUAGES {
            assert!(!judge.hold(&judge.rendering, language));
            for _ in 0..4 {
                let mut theirs = judge.rendering.clone();
                let number = random.below(theirs.gates.len().max(1));
                let Some(gate) = theirs.gates.get_mut(number) else {
                    continue;
                };
                let changed = changes(&judge.rendering, number, 9);
                *gate = changed[random.below(changed.len())].clone();
                found += usize::from(judge.hold(&theirs, language));
            }
        }
    };
    for_typical_blocks(0..40, &mut check);
    for_blocks(0..60, Size::MIDDLE, &mut check);
    assert!(blocks > 30 && found > 100, "{blocks} {found}");
}

/// Originals as the command writes them, with their loops and undefined values, the gates' names and other names of pins and ports; and
/// with one gate changed.
#[test]
fn originals_are_compared_by_three_values() {
    let (mut found, mut undefined) = (0, 0);
    for_texts(0..800, Size::SMALL, |random, text, block| {
        let mut names = unloop::Names::default();
        let pins = block.inputs.iter().enumerate();
        let pins = pins.map(|(number, pin)| (pin.clone(), format!("x[{number}]")));
        names.inputs = pins.filter(|_| random.chance(50)).collect();
        let ports = block.outputs.iter().map(|output| output.port.clone());
        names.ports = ports
            .map(|port| (port.clone(), format!("{port}.y")))
            .collect();
        let spoiled = (0..block.gates.len()).map(|number| {
            let mut spoiled = block.clone();
            let changed = changes(block, number, block.gates.len());
            spoiled.gates[number] = changed[random.below(changed.len())].clone();
            spoiled
        });
        for theirs in [block.clone()]
            .into_iter()
            .chain(spoiled.collect::<Vec<_>>())
        {
            let made = unloop::Block::from_words(theirs.to_words()).expect("a block");
            let labels = unloop::Labels {
                gates: unloop::declarations::gate_names(text),
                names: names.clone(),
                ..unloop::Labels::from(&unloop::module_name("m"))
            };
            let (ours, other) = (Network::new(block), Network::new(&theirs));
            let excluded = block.excluded_settings();
            let counted = (0..excluded.len()).filter(|&setting| !excluded[setting]);
            let counted = counted.map(|setting| setting_bytes(setting, block.inputs.len()));
            let shown: Vec<_> = counted
                .map(|at| (ours.shown(&at), other.shown(&at)))
                .collect();
            let same = shown.iter().all(|(a, b)| a == b);
            undefined += usize::from(shown.iter().any(|(a, _)| a.contains(&UNDEFINED)));
            found += usize::from(!same);
            for (language, made) in [
                (Language::Verilog, unloop::verilog(&made, labels.clone())),
                (Language::Blif, unloop::blif(&made, labels.clone())),
            ] {
                let form = Form {
                    language,
                    loops: true,
                    pins: &names.inputs,
                    ports: &names.ports,
                };
                let looked = agrees(text, made.as_bytes(), form);
                assert_eq!(looked.is_ok(), same, "{looked:?}\n{made}");
            }
        }
    });
    assert!(found > 500 && undefined > 100, "{found} {undefined}");
}

/// One setting that is left undefined, and one that never comes, are not the same.
#[test]
fn undefined_and_excluded() {
    let latch = "(in s)\n(gate p (and s q))\n(gate q (or p p))\n(out y q)\n";
    let zero = "(in s)\n(gate _0 (and s 0))\n(out y _0)\n";
    let form = Form::rendering(Language::Netlist);
    let differs = agrees(latch.as_bytes(), zero.as_bytes(), form).unwrap_err();
    let shows = "with s = 1 it shows y = 0, and the original simulated again shows y = undefined";
    assert_eq!(differs.to_string(), shows);
    let excluded = |text: &str| text.replace("(in s)\n", "(in s)\n(never (s 1))\n");
    let (latch, straight) = (excluded(latch), excluded(zero));
    assert_eq!(agrees(latch.as_bytes(), straight.as_bytes(), form), Ok(()));
    let differs = agrees(latch.as_bytes(), zero.as_bytes(), form).unwrap_err();
    assert_eq!(
        differs.to_string(),
        "its never lines are none, and the original's s = 1"
    );
}

/// A gate of each kind and as many operands as it may have, its word and its table.
fn kinds() -> Vec<(&'static str, u32, u32)> {
    let value = |word: &str, row: u32, operands: u32| match word {
        "and" => row + 1 == 1 << operands,
        "or" => row != 0,
        _ => row.count_ones() % 2 == 1,
    };
    let words = [
        ("and", "nand", "and"),
        ("or", "nor", "or"),
        ("xor", "xnor", "xor"),
    ];
    let mut kinds = vec![("not", 1, 0b01)];
    for (plain, inverted, word) in words {
        for operands in 2..=4 {
            let rows = (0..1 << operands).filter(|&row| value(word, row, operands));
            let table = rows.map(|row| 1 << row).sum();
            kinds.push((plain, operands, table));
            kinds.push((inverted, operands, !table & ((1 << (1 << operands)) - 1)));
        }
    }
    kinds
}

/// Of all tables over up to three operands, and of many over four, the one that is a kind's is accepted for it and no other.
#[test]
fn tables_of_every_kind() {
    let mut tried = 0;
    for (word, operands, right) in kinds() {
        let pins = ["a", "b", "c", "d"][..operands as usize].join(" ");
        let inputs: String = pins.split(' ').map(|pin| format!("(in {pin})\n")).collect();
        let original = format!("{inputs}(gate p ({word} {pins}))\n(out y p)\n");
        let rows = 1 << operands;
        let step = if operands < 4 { 1 } else { 13 };
        let others = (0..1_u32 << rows).step_by(step);
        let near = (0..rows).map(|row| right ^ 1 << row);
        for table in others.chain(near).chain([right]) {
            let of_row = |row: u32| {
                let digits = (0..operands).map(|operand| (row >> operand & 1).to_string());
                format!("{} 1\n", digits.collect::<String>())
            };
            let ones = (0..rows).filter(|row| table >> row & 1 == 1);
            let ones: String = ones.map(of_row).collect();
            let model =
                format!(".model m\n.inputs {pins}\n.outputs y\n.names {pins} y\n{ones}.end\n");
            let words = (0..4).map(|operand| match operand < operands {
                true => format!("{operand} "),
                false => "65534 ".to_string(),
            });
            let words: String = words.collect();
            let cells = format!(
                "# inputs {operands} {pins}\n{words}{table}\n# outputs 1\n# output y {operands}\n"
            );
            for (language, text) in [(Language::Blif, model), (Language::Cells, cells)] {
                let looked = agrees(
                    original.as_bytes(),
                    text.as_bytes(),
                    Form::rendering(language),
                );
                assert_eq!(looked.is_ok(), table == right, "{original}{text}{looked:?}");
                tried += 1;
            }
        }
    }
    assert!(tried > 50_000, "{tried}");
}

/// Without pins there is one setting; of more than can be tried none is.
#[test]
fn no_pins_and_too_many() {
    let form = Form::rendering(Language::Netlist);
    let (one, zero) = (
        "(gate p (or p 1))\n(out y p)\n",
        "(gate _0 (and 0 1))\n(out y _0)\n",
    );
    let differs = agrees(one.as_bytes(), zero.as_bytes(), form).unwrap_err();
    let shows = "it shows y = 0, and the original simulated again shows y = 1";
    assert_eq!(differs.to_string(), shows);
    for (count, tried) in [(16, true), (17, false)] {
        let pins: String = (0..count).map(|pin| format!("(in a{pin})\n")).collect();
        let last = count - 1;
        let text = format!("{pins}(gate _0 (and a0 a{last}))\n(out y _0)\n");
        let looked = agrees(text.as_bytes(), text.as_bytes(), form);
        assert_eq!(looked.is_ok(), tried, "{looked:?}");
        let other = text.replace("(and a0", "(and a1");
        assert!(agrees(text.as_bytes(), other.as_bytes(), form).is_err());
    }
}

/// As many gates as a block may have are read, and of far more none is.
#[test]
fn many_gates_and_too_many() {
    for (gates, read) in [(1_024, true), (3_000, false)] {
        let first = "(in a)\n(gate _0 (not a))\n".to_string();
        let line = |gate: usize| format!("(gate _{gate} (not _{}))\n", gate - 1);
        let lines: String = (1..gates).map(line).collect();
        let text = format!("{first}{lines}(out y _{})\n", gates - 1);
        let form = Form::rendering(Language::Netlist);
        let looked = agrees(text.as_bytes(), text.as_bytes(), form);
        assert_eq!(looked.is_ok(), read, "{looked:?}");
    }
}

/// Texts that are of no form, have a loop, or another interface.
#[test]
fn texts_that_are_spoiled_otherwise() {
    let original = b"(in a)\n(in b)\n(gate p (nand a b))\n(gate q (not p))\n(out y q)\n(out z a)\n";
    let (told, words) = read(original, BLOCK_WORDS);
    assert_eq!(told.number, 0);
    let rendering = copied(&Block::from_words(&words));
    for (language, from, to) in [
        (
            Language::Netlist,
            "(gate _0 (nand a b))",
            "(gate _0 (nand a _1))",
        ),
        (Language::Netlist, "(in b)\n", "(in c)\n"),
        (Language::Netlist, "(in b)\n", "(in b)\n(in c)\n"),
        (Language::Netlist, "(out y _1)\n", ""),
        (
            Language::Netlist,
            "(out y _1)\n(out z a)\n",
            "(out z a)\n(out y _1)\n",
        ),
        (Language::Netlist, "(out z a)\n", "(out z a)"),
        (Language::Netlist, "(out z a)\n", "(out z a)\n\n"),
        (Language::Netlist, "(out z a)", "(out y a)"),
        (Language::Netlist, "_1 (not _0)", "_1 (not  _0)"),
        (Language::Netlist, "_1 (not _0)", "_1 (not _0 _0)"),
        (Language::Netlist, "(gate _1", "(gate _0"),
        (Language::Netlist, "(nand a b)", "(nand b)"),
        (Language::Verilog, "nand (_0, a, b)", "nand (_0, a, _1)"),
        (Language::Verilog, "nand (_0, a, b)", "nand (_0, a, c)"),
        (Language::Verilog, "nand (_0, a, b)", "nand (_0, a, a:)"),
        (Language::Verilog, "nand (_0, a, b)", "nand (_0, a, 0)"),
        (Language::Verilog, "(a, b, y, z)", "(b, a, y, z)"),
        (Language::Verilog, "assign z = a", "assign z = y"),
        (Language::Verilog, "  assign z = a;\n", ""),
        (
            Language::Verilog,
            "  assign z = a;\n",
            "  assign z = a;\n  assign z = a;\n",
        ),
        (Language::Verilog, "input a, b", "input a"),
        (Language::Verilog, "endmodule\n", ""),
        (Language::Verilog, "endmodule\n", "endmodule\nendmodule\n"),
        (Language::Verilog, "  wire _0, _1;\n", ""),
        (Language::Verilog, "not (_1, _0)", "buf (_1, _0)"),
        (Language::Blif, ".names a b _0", ".names a _1 _0"),
        (Language::Blif, ".names a b _0\n11 0", ".names a b _0\n10 0"),
        (Language::Blif, ".names a b _0\n11 0", ".names a b _0\n11 1"),
        (Language::Blif, ".names a b _0\n11 0", ".names a b _0\n1- 0"),
        (Language::Blif, ".names a b _0\n11 0", ".names a b _0\n11!0"),
        (
            Language::Blif,
            ".names a b _0\n11 0",
            ".names a b _0\n11 00",
        ),
        (
            Language::Blif,
            ".names a b _0\n11 0",
            ".names a b _0\n11 0\n11 1",
        ),
        (Language::Blif, ".names a b _0", ".names a b  _0"),
        (Language::Blif, ".inputs a b", ".inputs b a"),
        (Language::Blif, ".outputs y z", ".outputs y"),
        (Language::Blif, ".names _0 _1", ".latch _0 _1"),
        (Language::Blif, ".end\n", ""),
        (Language::Cells, "# inputs 2 a b", "# inputs 2 b a"),
        (Language::Cells, "# inputs 2 a b", "# inputs 3 a b"),
        (Language::Cells, "# outputs 2", "# outputs 1"),
        (Language::Cells, "# output z 0", "# output z 1"),
        (Language::Cells, "# output z 0", "# output z 9"),
        (Language::Cells, "\n2 65534", "\n3 65534"),
        (Language::Cells, "\n2 65534", "\n2 65535"),
        (Language::Cells, "\n2 65534", "\n2 x"),
        (Language::Cells, " 21845", " 43690"),
        (Language::Cells, " 21845", " 0021845"),
        (Language::Cells, " 21845", " 2184:"),
        (Language::Cells, " 21845", " 87381"),
        (Language::Cells, " 21845", ""),
    ] {
        let text = String::from_utf8(written(&rendering, language)).unwrap();
        let form = Form::rendering(language);
        assert_eq!(agrees(original, text.as_bytes(), form), Ok(()), "{text}");
        let spoiled = text.replacen(from, to, 1);
        assert_ne!(spoiled, text, "{from}");
        // A constant in the place of an operand that a `not` has not is the same.
        let same = to == "\n2 65535";
        let looked = agrees(original, spoiled.as_bytes(), form);
        assert_eq!(
            looked.is_ok(),
            same,
            "{from} -> {to}: {looked:?}\n{spoiled}"
        );
    }
}

/// Names of pins that differ in their last letter alone, or of which one is the other and a sign behind it: a gate that reads one of them
/// twice is told from one that reads both.
#[test]
fn names_that_are_nearly_the_same() {
    let original = b"(in a)\n(in b)\n(gate p (and a b))\n(out y p)\n";
    let (told, words) = read(original, BLOCK_WORDS);
    assert_eq!(told.number, 0);
    let rendering = copied(&Block::from_words(&words));
    let made = unloop::Block::from_words(rendering.to_words()).expect("a block");
    let letters = "abcdefghijklmnopqrst";
    let by_length = (1..letters.len()).map(|length| {
        let name = &letters[..length];
        (name.to_string(), name[..length - 1].to_string() + "z")
    });
    let signs = [";", ")", ":", "[", "]", "\\", "."];
    let with_a_sign = signs.map(|sign| (format!("x{sign}"), "x".to_string()));
    let digits = [("1".to_string(), "0".to_string())];
    for (first, second) in by_length.chain(with_a_sign).chain(digits) {
        let mut labels = unloop::Labels::from(&unloop::module_name("m"));
        let pins = [("a", &first), ("b", &second)];
        labels.names.inputs = pins
            .map(|(pin, name)| (pin.to_string(), name.clone()))
            .to_vec();
        for language in [Language::Verilog, Language::Blif] {
            let text = match language {
                Language::Verilog => unloop::verilog(&made, labels.clone()),
                _ => unloop::blif(&made, labels.clone()),
            };
            let form = Form {
                pins: &labels.names.inputs,
                ..Form::rendering(language)
            };
            assert_eq!(agrees(original, text.as_bytes(), form), Ok(()), "{text}");
            let mut lines: Vec<String> = text.lines().map(str::to_string).collect();
            let gate = lines
                .iter_mut()
                .find(|line| line.contains("_0") && line.contains(&first));
            let gate = gate.expect("a gate's line");
            *gate = match language {
                Language::Verilog => {
                    let start = gate.find(", ").unwrap();
                    let (net, pin) = (gate[..start].to_string(), &gate[start + 2..]);
                    let pin = &pin[..pin.find(", ").unwrap()];
                    format!("{net}, {pin}, {pin});")
                }
                _ => format!(".names {first} {first} _0"),
            };
            let spoiled = lines.join("\n") + "\n";
            let looked = agrees(original, spoiled.as_bytes(), form);
            let found = matches!(looked, Err(Difference::Value { .. }));
            assert!(found, "{looked:?}\n{spoiled}");
        }
    }
}

/// The driver with a program that answers with the proved one's rendering, in which one word is another.
fn with_spoiled_program(scratch: &Scratch, edit: &str, words: &[&str]) -> Output {
    run(scratch, &[]); // built
    let program = program("unloop");
    let script = format!("#!/bin/sh\n'{}' | sed '{edit}'\n", program.display());
    scratch.put_script("spoiled", &script);
    let mut driver = Command::new(root().join("target/driver/release/unloop-files"));
    let driver = driver.current_dir(scratch.path("."));
    let ended = ended(driver.arg("./spoiled").args(words), b"");
    fs::remove_file(scratch.path("spoiled")).unwrap();
    ended
}

const FIRST: &str = "(in s)\n(in t)\n(gate p (and s q))\n(gate q (or s p))\n(out y q)\n(out z t)\n";
const EDIT: &str = "s/(or s _2)/(or t _2)/";
const FOUND: &str = "internal error, nothing is written: a second look found that with s = 0, t = 1 it shows y = 1, \
                     and the original simulated again shows y = 0";

#[test]
fn a_wrong_word_is_not_written() {
    let scratch = with(&[("a.net", FIRST), ("b.net", "(in a)\n(out y a)\n")]);
    let error = format!("unloop: a.net: {FOUND}\n");
    let spoiled = |words: &[&str]| with_spoiled_program(&scratch, EDIT, words);
    told(spoiled(&["a.net"]), 2, "", &error);
    told(spoiled(&["-o", "out", "a.net"]), 2, "", &error);
    assert_eq!(scratch.get("out"), "");
    fs::remove_file(scratch.path("out")).unwrap();
    let summary = "2 files: 1 rendered, 0 refused, 1 error\n";
    let progress = format!("{error}1/2 a.net: error\n2/2 b.net: rendered\n{summary}");
    let into = spoiled(&["--into", "d", "a.net", "b.net"]);
    told(into, 2, "", &progress);
    assert_eq!(scratch.names("d"), ["b.net"]);
    let json = spoiled(&["--json", "a.net"]);
    assert_eq!(json.status.code(), Some(2));
    let object = String::from_utf8(json.stdout).unwrap();
    assert!(
        object.contains("internal error") && !object.contains("(gate"),
        "{object}"
    );
    // A change that no output shows is none.
    let same = with_spoiled_program(&scratch, "s/(and s 0)/(and t 0)/", &["a.net"]);
    assert_eq!(same.status.code(), Some(0));
}

#[test]
fn a_wrong_word_is_not_stored() {
    let scratch = with(&[("d/a.net", FIRST), ("d/b.net", "(in a)\n(out y a)\n")]);
    let ended = with_spoiled_program(&scratch, EDIT, &["--store", "d"]);
    let told = String::from_utf8(ended.stdout).unwrap();
    assert!(
        told.ends_with("2 entries: 1 stored, 0 as before, 1 error\n"),
        "{told}"
    );
    let errors = String::from_utf8(ended.stderr).unwrap();
    assert_eq!(errors, format!("unloop: d/a.net: {FOUND}\n"));
    assert_eq!(ended.status.code(), Some(2));
    assert_eq!(scratch.names("d"), ["a.net", "b.cover", "b.net", "b.out"]);
}
