//! `bin/unloop --sheet`: the table of a netlist's outputs, and what is wrong with a list of settings.

mod session;

use session::{run, told, with};

const NETLIST: &str =
    "(in a)\n(in key)\n(gate p (and a q))\n(gate q (or key p))\n(out lamp q)\n(out z a)\n";

#[test]
fn a_row_for_each_setting() {
    let settings = "a = 0, key = 1\na=1,key=0\n\nkey = 1\n  a = 0  \n";
    let table = "\
a key | lamp z
0 1   | 1    0
1 0   | ?    1
- -   | ?    ?
- 1   | 1    ?
0 -   | ?    0
";
    let scratch = with(&[("n", NETLIST), ("settings", settings)]);
    told(run(&scratch, &["--sheet", "settings", "n"]), 0, table, "");
    told(run(&scratch, &["n", "--sheet", "settings"]), 0, table, "");
}

/// `all` is every setting, in the order of their numbers; a file of that name is given as ./all.
#[test]
fn the_whole_table() {
    let table = "a key | lamp z\n0 0   | 0    0\n1 0   | ?    1\n0 1   | 1    0\n1 1   | 1    1\n";
    let scratch = with(&[("n", NETLIST), ("all", "a = 1\n"), ("empty", "")]);
    told(run(&scratch, &["--sheet", "all", "n"]), 0, table, "");
    let row = "a key | lamp z\n1 -   | ?    1\n";
    told(run(&scratch, &["--sheet", "./all", "n"]), 0, row, "");
    told(run(&scratch, &["--sheet=all", "empty"]), 0, " |\n |\n", "");
    let cells = "# inputs 1 a\n0 65534 65534 65534 21845\n";
    scratch.put("cells", cells);
    let table = "a | _0\n0 | 1\n1 | 0\n";
    told(
        run(&scratch, &["--run-cells", "all", "cells"]),
        0,
        table,
        "",
    );
    let pins: String = (0..12).map(|pin| format!("(in p{pin})\n")).collect();
    scratch.put("wide", &pins);
    let wide = run(&scratch, &["--sheet", "all", "wide"]).stdout;
    assert_eq!(wide.split(|&byte| byte == b'\n').count(), 4_096 + 2);
}

#[test]
fn no_settings_no_inputs_no_outputs() {
    let files = [("n", NETLIST), ("none", ""), ("free", "\n"), ("empty", "")];
    let scratch = with(&files);
    let table = "a key | lamp z\n";
    told(run(&scratch, &["--sheet", "none", "n"]), 0, table, "");
    told(
        run(&scratch, &["--sheet", "free", "empty"]),
        0,
        " |\n |\n",
        "",
    );
}

#[test]
fn a_refused_netlist() {
    let scratch = with(&[("n", "(in a)"), ("settings", "a = 1\n")]);
    let errors = "n:1:7: form: the last line lacks its LF\n(in a)\n      ^\n";
    told(run(&scratch, &["--sheet", "settings", "n"]), 1, "", errors);
}

#[test]
fn wrong_settings() {
    let wrong = [
        ("a = 1\nb = 1\n", "2: no input is named b"),
        ("a = 2\n", "1: not PIN = 0 or PIN = 1: a = 2"),
        ("a\n", "1: not PIN = 0 or PIN = 1: a"),
        ("a = 1,\n", "1: not PIN = 0 or PIN = 1: "),
        ("a = 1, a = 1\n", "1: a is given twice"),
    ];
    for (settings, what) in wrong {
        let scratch = with(&[("n", NETLIST), ("list", settings)]);
        let errors = format!("unloop: list:{what}\n");
        told(run(&scratch, &["--sheet", "list", "n"]), 2, "", &errors);
    }
}

#[test]
fn wrong_words() {
    let scratch = with(&[("n", NETLIST), ("list", "a = 1\n")]);
    let wrong: [(&[&str], &str); 6] = [
        (&["--sheet"], "--sheet needs SETTINGS (see --help)"),
        (&["--sheet", "list"], "--sheet needs one FILE (see --help)"),
        (
            &["--sheet", "list", "n", "n"],
            "--sheet needs one FILE (see --help)",
        ),
        (
            &["--sheet", "list", "--into", "d", "n"],
            "--sheet SETTINGS goes with no other option (see --help)",
        ),
        (
            &["--sheet", "list", "--check", "n", "n"],
            "--sheet SETTINGS goes with no other option (see --help)",
        ),
        (&["--sheet", "gone", "n"], "gone: No such file or directory"),
    ];
    for (words, what) in wrong {
        told(run(&scratch, words), 2, "", &format!("unloop: {what}\n"));
    }
}
