//! `bin/unloop --cells` and `--run-cells`: a table of cells as it is written, read back, and run against the simulator of the original.

mod session;

use session::{run, told, with};
use simulator::block::Block;
use simulator::cells;
use simulator::executed::{netlists, Scratch};
use simulator::generate::{for_blocks, Report, Size};
use simulator::render::copied;
use simulator::values::{setting_bytes, Network};
use simulator::{read, render};
use std::fs;
use unloop::{Refusal, RowError, TableError};

const NETLIST: &str = "(in a)\n(in key)\n(never (a 1) (key 0))\n(gate p (and a q))\n(gate q (or key p))\n(out lamp q)\n(out a a)\n";
/// What is told of it, since its never line excludes a setting.
const EXCLUDING: &str = "settled settings: 3 of 3, 1 excluded\n";
const TABLE: &str = "\
# cells n 2
# never a = 1, key = 0
# inputs 2 a key
# _0 and
0 65534 65534 65534 34952
# _1 or
1 2 65534 65534 61166
# outputs 2
# output lamp 3
# output a 0
";

/// Each setting of the pins, one a line.
fn all_settings(pins: &[String]) -> String {
    let line = |number: usize| {
        let pins = pins.iter().enumerate();
        let pins = pins.map(|(input, pin)| format!("{pin} = {}", number >> input & 1));
        pins.collect::<Vec<String>>().join(", ") + "\n"
    };
    (0..1 << pins.len()).map(line).collect()
}

/// The digits on both sides of a printed table's rows, without its head.
fn rows(table: &str) -> Vec<(Vec<u8>, Vec<u8>)> {
    let digits = |side: &str| {
        let digits = side.split_whitespace();
        digits.map(|digit| digit.parse().unwrap()).collect()
    };
    let row = |line: &str| {
        let (given, shown) = line.split_once('|').unwrap();
        (digits(given), digits(shown))
    };
    table.lines().skip(1).map(row).collect()
}

/// Runs the table of a block's rendering under every setting; under those that may come it shows what the original settles to.
fn holds(scratch: &Scratch, block: &Block) -> usize {
    scratch.put("settings", all_settings(&block.inputs));
    let ended = run(scratch, &["--run-cells", "settings", "cells"]);
    assert_eq!(ended.status.code(), Some(0));
    let rows = rows(&String::from_utf8(ended.stdout).unwrap());
    let (network, n) = (Network::new(block), block.inputs.len());
    let excluded = block.excluded_settings();
    assert_eq!(rows.len(), 1 << n);
    for (number, (given, shown)) in rows.into_iter().enumerate() {
        assert_eq!(given, setting_bytes(number, n));
        if !excluded[number] {
            assert_eq!(shown, network.shown(&given), "{given:?}");
        }
    }
    1 << n
}

#[test]
fn the_catalogue_shows_what_its_netlists_show() {
    let (mut tables, mut settings) = (0, 0);
    for path in netlists() {
        let _report = Report(|| path.display().to_string());
        let scratch = Scratch::new();
        let ended = run(&scratch, &["--cells", path.to_str().unwrap()]);
        let (answer, words) = read(&fs::read(&path).unwrap(), usize::MAX);
        if answer.number != 0 || render(&words, usize::MAX).0.number != 0 {
            assert_eq!((ended.status.code(), ended.stdout.len()), (Some(1), 0));
            continue;
        }
        let block = Block::from_words(&words);
        let excluding = !block.nevers.is_empty();
        assert_eq!(
            (ended.status.code(), !ended.stderr.is_empty()),
            (Some(0), excluding)
        );
        scratch.put("cells", &ended.stdout);
        settings += holds(&scratch, &block);
        tables += 1;
    }
    println!("{tables} tables under {settings} settings");
    assert!(tables >= 12 && settings > 100, "{tables} {settings}");
}

/// A written table has the simulator's words, and is read back as it was, in its layout and in others.
#[test]
fn written_and_read_back() {
    for_blocks(0..300, Size::SMALL, |random, block, _| {
        let rendering = copied(block);
        let made = unloop::Block::from_words(rendering.to_words()).unwrap();
        let text = unloop::cell_table(&made, &unloop::module_name("m")).unwrap();
        let _report = Report(|| text.clone());
        let table = unloop::CellTable::read(&text).unwrap();
        assert_eq!(
            table.cells().words(),
            cells(&rendering.to_words(), usize::MAX).1
        );
        assert_eq!(table.inputs(), block.inputs);
        let ports: Vec<&String> = table.outputs().iter().map(|(port, _)| port).collect();
        assert!(ports
            .into_iter()
            .eq(block.outputs.iter().map(|output| &output.port)));
        let (network, n) = (Network::new(&rendering), block.inputs.len());
        for _ in 0..4 {
            let setting = setting_bytes(random.below(1 << n), n);
            let given: Vec<bool> = setting.iter().map(|&value| value == 1).collect();
            let shown = table.shown(&given).unwrap().into_iter().map(u8::from);
            assert!(shown.eq(network.shown(&setting)), "{setting:?}");
        }
        let other = text.replace(" 65534 ", "\n\t65534 # absent\n");
        assert_eq!(unloop::CellTable::read(&other), Ok(table));
    });
}

#[test]
fn a_table_as_it_is_written() {
    let scratch = with(&[
        ("n.net", NETLIST),
        ("m.net", "(out y z)\n"),
        ("d/n", NETLIST),
    ]);
    let netlist = "(in a)\n(in key)\n(never (a 1) (key 0))\n(gate p (and a 0))\n(gate q (or key p))\n(out lamp q)\n(out a a)\n";
    scratch.put("straight.net", netlist);
    told(
        run(&scratch, &["--cells", "--original", "straight.net"]),
        0,
        &TABLE
            .replace(
                "cells n 2\n",
                "cells straight 2\n# original of straight.net, by unloop\n",
            )
            .replace("# _0 ", "# p ")
            .replace("# _1 ", "# q "),
        "",
    );
    // Gates that are called as a line which tells names is.
    let netlist = "(in a)\n(gate inputs (not a))\n(gate outputs (not a))\n(gate output (not outputs))\n(out y inputs)\n";
    let block = unloop::Block::read(netlist).unwrap();
    let labels = unloop::Labels {
        gates: unloop::declarations::gate_names(netlist.as_bytes()),
        ..unloop::Labels::from(&unloop::module_name("m"))
    };
    let table = unloop::CellTable::read(&unloop::cell_table(&block, labels).unwrap()).unwrap();
    assert_eq!((table.inputs().len(), table.outputs().len()), (1, 1));
    let report = "m.net:1:8: unknown\n(out y z)\n       ^\n";
    told(run(&scratch, &["--cells", "m.net"]), 1, "", report);
    told(
        run(&scratch, &["--cells", "--original", "n.net"]),
        1,
        "",
        &format!("n.net: looped\n  {EXCLUDING}"),
    );
    let ended = run(&scratch, &["--cells", "n.net", "d/n"]);
    assert_eq!(ended.status.code(), Some(2));
    assert_eq!(
        String::from_utf8(ended.stderr).unwrap(),
        format!("n.net: {EXCLUDING}unloop: d/n: a FILE before it gives the name n too\n")
    );
}

#[test]
fn a_row_for_each_setting() {
    let scratch = with(&[("cells", TABLE), ("list", "a = 0, key = 1\nkey=0,a=1\n")]);
    let table = "a key | lamp a\n0 1   | 1    0\n1 0   | 0    1\n";
    told(
        run(&scratch, &["--run-cells", "list", "cells"]),
        0,
        table,
        "",
    );
    let bare: String = TABLE
        .lines()
        .filter(|line| !line.starts_with('#'))
        .collect::<Vec<_>>()
        .join(" ");
    scratch.put("bare", format!("{bare} # inputs 2"));
    scratch.put("numbers", "0 = 1, 1 = 0\n");
    told(
        run(&scratch, &["--run-cells", "numbers", "bare"]),
        0,
        "0 1 | _0 _1\n1 0 | 0  0\n",
        "",
    );
}

#[test]
fn what_is_refused() {
    let scratch = with(&[
        ("cells", TABLE),
        ("open", "a = 0, key = 1\na = 1\n"),
        ("list", "a = 0, key = 1\n"),
    ]);
    told(
        run(&scratch, &["--run-cells", "open", "cells"]),
        1,
        "",
        "open:2: setting\n",
    );
    for (was, is) in [
        ("1 2 65534", "1 3 65534"),
        ("34952", ""),
        ("0 65534", "4 65534"),
    ] {
        scratch.put("torn", TABLE.replace(was, is));
        told(
            run(&scratch, &["--run-cells", "list", "torn"]),
            1,
            "",
            "torn: torn\n",
        );
    }
}

/// What is wrong with a table, as a value and in words.
#[test]
fn errors_of_tables() {
    let told = |text: &str| unloop::CellTable::read(text).unwrap_err();
    let line = |row, why| TableError::Line { row, why };
    for (text, error, words) in [
        (
            "",
            TableError::NoInputs,
            "no line '# inputs NUMBER NAME ...'",
        ),
        (
            "# inputs 0\n7\n",
            TableError::Refused(Refusal::MalformedBlock),
            "the words are no stored block, or no cells",
        ),
        (
            "# inputs 0\n\nx\n",
            line(3, RowError::NotAWord("x".to_string())),
            "line 3: not a word of 16 bits: x",
        ),
        (
            "# inputs 1 a b\n",
            line(
                1,
                RowError::Names {
                    inputs: 1,
                    names: 2,
                },
            ),
            "line 1: 1 inputs with 2 names",
        ),
    ] {
        assert_eq!(told(text), error);
        let shown: Box<dyn std::error::Error> = error.into();
        assert_eq!(shown.to_string(), words);
    }
}

#[test]
fn what_is_no_table() {
    let wrong = [
        ("0 1", "0 -1", ":5: not a word of 16 bits: -1"),
        ("34952", "65536", ":5: not a word of 16 bits: 65536"),
        ("inputs 2 a key", "inputs 2 a", ":3: 2 inputs with 1 names"),
        ("inputs 2", "inputs 13", ":3: not a number of inputs: 13"),
        ("inputs", "pins", ": no line '# inputs NUMBER NAME ...'"),
        ("lamp 3", "lamp 4", ":9: no node 4"),
        ("# output a 0", "", ":8: 2 outputs with 1 lines"),
        ("# _1 or", "# inputs 1 b", ":6: a second table"),
    ];
    for (was, is, why) in wrong {
        let text = TABLE.replace("0 65534 65534 65534 34952", "0 1 65534 65534 34952");
        let scratch = with(&[("cells", &text.replace(was, is)), ("list", "")]);
        let error = format!("unloop: cells{why}\n");
        told(
            run(&scratch, &["--run-cells", "list", "cells"]),
            2,
            "",
            &error,
        );
    }
    let scratch = with(&[("cells", TABLE), ("list", "b = 1\n")]);
    for (words, error) in [
        (
            &["--run-cells", "list", "cells"][..],
            "list:1: no input is named b",
        ),
        (
            &["--run-cells", "list"],
            "--run-cells SETTINGS needs one CELLS (see --help)",
        ),
        (&["--run-cells"], "--run-cells needs SETTINGS (see --help)"),
        (
            &["--cells", "--json", "n"],
            "--cells doesn't go with --force or --json (see --help)",
        ),
        (
            &["--cells", "--blif", "n"],
            "--cells and --blif don't go together (see --help)",
        ),
        (
            &["--run-cells", "list", "--cells", "n"],
            "--run-cells SETTINGS and --cells don't go together (see --help)",
        ),
    ] {
        told(run(&scratch, words), 2, "", &format!("unloop: {error}\n"));
    }
}
