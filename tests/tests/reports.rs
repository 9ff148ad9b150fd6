//! What `bin/unloop` says of a netlist that is refused, and its summary.

mod session;

use session::{command, run, told, with};
use simulator::block::Block;
use simulator::executed::{ended, Scratch};
use simulator::generate::long_texts;
use simulator::limits::{GATES, INPUTS, TEXT_BYTES};
use simulator::read;
use simulator::render::copied;
use std::ffi::OsStr;
use std::os::unix::ffi::OsStrExt;

/// The report of a text that is refused at a place, and the line of standard output.
#[track_caller]
fn at_a_place(text: &[u8], output: &str, report: &str) {
    let scratch = Scratch::new();
    scratch.put("x.net", text);
    told(run(&scratch, &["x.net"]), 1, output, report);
}

#[test]
fn form() {
    let report = "x.net:1:5: form: expected a letter\n(in _a)\n    ^\n";
    at_a_place(b"(in _a)\n", "(refused 2 4)\n", report);
    // Cut off, in the first line and later.
    at_a_place(
        b"(in a)",
        "(refused 2 6)\n",
        "x.net:1:7: form: the last line lacks its LF\n(in a)\n      ^\n",
    );
    let report = "x.net:2:6: form: expected a letter, a digit, _ or )\n(in b\n     ^\n";
    at_a_place(b"(in a)\n(in b", "(refused 2 12)\n", report);
    // At the LF that ends a line, on an empty line, at a line's first byte.
    let report = "x.net:2:6: form: expected a letter, a digit, _ or )\n(in b\n     ^\n";
    at_a_place(b"(in a)\n(in b\n(in c)\n", "(refused 2 12)\n", report);
    at_a_place(
        b"(in a)\n\n(in b)\n",
        "(refused 2 7)\n",
        "x.net:2:1: form: no comments or empty lines in this format\n\n^\n",
    );
    at_a_place(
        b"\n",
        "(refused 2 0)\n",
        "x.net:1:1: form: no comments or empty lines in this format\n\n^\n",
    );
    let text = b"(in a)\n(in b)\n(gate p (and a b))\nout y p)\n";
    at_a_place(
        text,
        "(refused 2 33)\n",
        "x.net:4:1: form: expected (\nout y p)\n^\n",
    );
}

/// No byte that a terminal obeys; the caret stands below what stands for the byte, and the column counts bytes.
#[test]
fn bytes_outside_of_text() {
    let text = b"(in a)\n(in \x1b[31m\t\xc3\xa9\x00\x7f~)\n";
    let report =
        "x.net:2:5: form: expected a letter\n(in \\x1B[31m\\t\\xC3\\xA9\\x00\\x7F~)\n    ^\n";
    at_a_place(text, "(refused 2 11)\n", report);
    let report =
        "x.net:1:7: form: a carriage return; lines end with LF alone\n(in ab\\r)\n      ^\n";
    at_a_place(b"(in ab\r)\n", "(refused 2 6)\n", report);
    let report = "x.net:1:1: form: not ASCII: a byte-order mark\n\\xEF\\xBB\\xBF(in a)\\r\n^\n";
    at_a_place(b"\xef\xbb\xbf(in a)\r\n", "(refused 2 0)\n", report);
}

#[test]
fn declared_twice_and_not_at_all() {
    let report = "x.net:2:5: twice: first in line 1, column 5\n(in a)\n    ^\n";
    at_a_place(b"(in a)\n(in a)\n", "(refused 4 11)\n", report);
    let text = b"(in a)\n(gate p (not a))\n(gate a (not p))\n";
    let report = "x.net:3:7: twice: first in line 1, column 5\n(gate a (not p))\n      ^\n";
    at_a_place(text, "(refused 4 30)\n", report);
    let text = b"(in a)\n(gate p (or a (not rest)))\n";
    let report = "x.net:2:20: unknown\n(gate p (or a (not rest)))\n                   ^\n";
    at_a_place(text, "(refused 5 26)\n", report);
    let report = "x.net:2:8: unknown\n(out y p)\n       ^\n";
    at_a_place(b"(in a)\n(out y p)\n", "(refused 5 14)\n", report);
}

#[test]
fn never_lines() {
    let report = "x.net:2:7: form: expected a space\n(never)\n      ^\n";
    at_a_place(b"(in a)\n(never)\n", "(refused 2 13)\n", report);
    let report =
        "x.net:2:15: twice: first in line 2, column 9\n(never (a 1) (a 0))\n              ^\n";
    let text = b"(in a)\n(never (a 1) (a 0))\n(gate a (not 0))\n";
    at_a_place(text, "(refused 4 21)\n", report);
    let report =
        "x.net:2:9: unknown: a gate, and never lines name inputs\n(never (p 1))\n        ^\n";
    let text = b"(in a)\n(never (p 1))\n(gate p (not a))\n";
    at_a_place(text, "(refused 5 15)\n", report);
    let lines = "(in a)\n".to_string() + &"(never (a 1))\n".repeat(9);
    let report = "x.net: crowded: 9 never lines, 1 more than 8\n";
    at_a_place(lines.as_bytes(), "(refused 3 0)\n", report);
    // The lowest setting that may come, and what settles or never comes.
    let text = b"(in a)\n(in b)\n(never (a 0) (b 0))\n(gate p (or a p))\n(out y p)\n";
    let report = "x.net: undecided\n  not settled with a = 0, b = 1: y undefined\n\
                  \x20 p waits for itself\n  settles with a = 1\n  settles with b = 0\n  settled settings: 2 of 3, 1 excluded\n";
    at_a_place(text, "(refused 9 2)\n", report);
    let report = "x.net: undecided\n  not settled with a = 0, b = 0: y undefined\n\
                  \x20 p waits for itself\n  never comes with a = 1, b = 1\n  settles under no setting\n\
                  \x20 settled settings: 0 of 3, 1 excluded\n";
    let text = simulator::specimens::NEVER_BOTH.as_bytes();
    at_a_place(text, "(refused 9 0)\n", report);
}

/// Of a rendering too it is told how many settings are excluded; that these are all is a warning.
#[test]
fn excluded_settings() {
    let text = "(in a)\n(never (a 1))\n(gate p (or (not a) p))\n(out y p)\n";
    let rendered = |name: &str, text: &str, errors: &str| {
        let scratch = with(&[(name, text)]);
        let ended = run(&scratch, &[name]);
        assert_eq!(ended.stdout, simulator::unloop(text.as_bytes()));
        assert_eq!(String::from_utf8_lossy(&ended.stderr), errors);
        assert_eq!(ended.status.code(), Some(0));
        scratch
    };
    let note = "x.net: settled settings: 1 of 1, 1 excluded\n";
    let scratch = rendered("x.net", text, note);
    let all = "(in a)\n(never (a 0))\n(never (a 1))\n(gate p (not p))\n(out y p)\n";
    let warning = "all.net: settled settings: 0 of 0, 2 excluded\n\
                   all.net: warning: all 2 settings are promised never to come, so nothing is said of any output\n";
    rendered("all.net", all, warning);
    scratch.put("none.net", "(in a)\n");
    let words = ["--into", "out", "x.net", "none.net"];
    let errors = format!("{note}1/2 x.net: rendered\n2/2 none.net: rendered\n2 files: 2 rendered (1 with settings excluded), 0 refused\n");
    told(run(&scratch, &words), 0, "", &errors);
}

#[test]
fn refusals_without_a_place() {
    let inputs: String = (0..=INPUTS).map(|i| format!("(in a{i})\n")).collect();
    let report = "x.net: crowded: 13 inputs, 1 more than 12\n";
    at_a_place(inputs.as_bytes(), "(refused 3 0)\n", report);
    let ring = simulator::specimens::reversed_ring(33, 32) + "(out y g0)\n";
    let block = Block::from_words(&read(ring.as_bytes(), usize::MAX).1);
    let copies = copied(&block).gates.len();
    let report = format!(
        "x.net: swollen: {copies} gates in the rendering, {} more than {GATES}\n",
        copies - GATES
    );
    // In the order of the ring it is rendered.
    let order = "; 33 with its gate lines in another order (--shrink)\n";
    let ordered = report.replace('\n', order);
    at_a_place(ring.as_bytes(), "(refused 8 0)\n", &ordered);
    // 8 comes before 9 and does not hide it.
    let unsettled = format!("(in a)\n{ring}(out z p)\n");
    let unsettled = unsettled.replace("(out y", "(gate p (or a p))\n(out y");
    let report = report.replace(&copies.to_string(), &(copies + 1).to_string());
    let report = report.replace(
        &format!(" {} more", copies - GATES),
        &format!(" {} more", copies + 1 - GATES),
    );
    let report = report
        + "  not settled with a = 0: z undefined\n  p waits for itself\n  settles with a = 1\n";
    at_a_place(unsettled.as_bytes(), "(refused 8 0)\n", &report);
    let promised = unsettled.replace("(in a)\n", "(in a)\n(never (a 0))\n");
    let (first, _) = report.split_once('\n').unwrap();
    let order = order.replace("33", "34");
    let report = format!("{first}{order}  settled settings: 1 of 1, 1 excluded\n");
    at_a_place(promised.as_bytes(), "(refused 8 0)\n", &report);
}

#[test]
fn longest_texts() {
    let (_, longest) = long_texts().pop().expect("texts");
    assert_eq!(longest.len(), TEXT_BYTES);
    let text = String::from_utf8_lossy(&longest);
    let gates = text.lines().filter(|line| line.starts_with("(gate "));
    let gates: usize = gates.map(|line| line.matches('(').count() - 1).sum();
    let report = format!(
        "x.net: crowded: {gates} gates, {} more than {GATES}\n",
        gates - GATES
    );
    at_a_place(&longest, "(refused 3 0)\n", &report);
    for (length, why) in [
        (61_441, "61441 bytes, 1 more than 61440"),
        (61_442, "61442 bytes, 2 more than 61440"),
        (1_048_576, "1048576 bytes, 987136 more than 61440"),
        (1_048_577, "more than 1048576 bytes, and the limit is 61440"),
        (3_000_000, "more than 1048576 bytes, and the limit is 61440"),
    ] {
        let mut text = longest.clone();
        text.resize(length, b'x');
        let report = format!("x.net: overlong: {why}\n");
        at_a_place(&text, "(refused 1 0)\n", &report);
    }
}

#[test]
fn undecided() {
    let text = b"(gate p (or p (not p)))\n(out y p)\n";
    let report = "x.net: undecided\n  not settled: y undefined\n  p waits for itself\n  settles under no setting\n";
    at_a_place(text, "(refused 9 0)\n", report);
    let text = b"(in a)\n(in eight_88)\n(gate p (not p))\n(gate q (not a))\n\
                 (out x a)\n(out y p)\n(out q q)\n(out z p)\n";
    let report =
        "x.net: undecided\n  not settled with a = 0, eight_88 = 0: y, z undefined\n  p waits for itself\n  settles under no setting\n";
    at_a_place(text, "(refused 9 0)\n", report);
    // Two pins of three in each entry.
    let text = b"(in s)\n(in a)\n(in b)\n(gate h (and s a))\n(gate k (and (not s) b))\n\
                 (gate p (or h k q))\n(gate q (or h k p))\n(out y q)\n";
    let report =
        "x.net: undecided\n  not settled with s = 0, a = 0, b = 0: y undefined\n  p waits for q, q waits for p\n  settles with s = 1, a = 1\n\
                  \x20 settles with s = 0, b = 1\n  settles with a = 1, b = 1\n";
    at_a_place(text, "(refused 9 0)\n", report);
}

/// Each of `pins` opens the loop at 1.
fn open_by_any(pins: usize) -> String {
    let inputs = (0..pins).map(|i| format!("(in a{i})\n"));
    let gates = (0..pins).map(|i| format!("(gate g{i} (or a{i} g{}))\n", (i + 1) % pins));
    let output = std::iter::once("(out y g0)\n".to_string());
    inputs.chain(gates).chain(output).collect()
}

/// Each gate waits for the next one; of more than eight the first are told, and how many there are.
fn round(gates: usize) -> String {
    let waits = (0..gates.min(8)).map(|i| format!("g{i} waits for g{}", (i + 1) % gates));
    let more = match gates {
        ..=8 => String::new(),
        _ => format!(", and so on: {gates} gates in a circle"),
    };
    format!("  {}{more}\n", waits.collect::<Vec<_>>().join(", "))
}

#[test]
fn long_covers() {
    for (pins, more) in [(8, ""), (9, "  and 1 more\n"), (10, "  and 2 more\n")] {
        let all: Vec<String> = (0..pins).map(|i| format!("a{i} = 0")).collect();
        let mut report = format!(
            "x.net: undecided\n  not settled with {}: y undefined\n{}",
            all.join(", "),
            round(pins)
        );
        (0..8).for_each(|i| report += &format!("  settles with a{i} = 1\n"));
        report += more;
        at_a_place(open_by_any(pins).as_bytes(), "(refused 9 0)\n", &report);
    }
}

#[test]
fn summary_by_number() {
    let files = [
        ("1", "(in a)\n(in a)\n"),
        ("2", "x"),
        ("3", "(in a)\n(gate p (and a p))\n(out y p)\n"),
        ("4", "(in a)\n(out y a)\n"),
        ("5", "(gate p (not p))\n(out y p)\n"),
        ("6", "x"),
        ("7", "y"),
    ];
    let scratch = with(&files);
    let names = files.map(|(name, _)| name);
    let words = [&["--into", "out", "gone", "8"][..], &names].concat();
    let ended = run(&scratch, &words);
    let errors = String::from_utf8(ended.stderr).unwrap();
    let summary = "9 files: 1 rendered, 6 refused (3 with 2 form, 1 with 4 twice, 2 with 9 undecided), 2 errors";
    assert_eq!(errors.lines().last(), Some(summary));
    assert_eq!(ended.status.code(), Some(2));
}

/// A name's own bytes don't break the one line, nor reach a terminal.
#[test]
fn names_with_control_bytes() {
    let scratch = Scratch::new();
    let mut command = command(&scratch);
    let ended = ended(command.arg(OsStr::from_bytes(b"a\n\x1b[31m\xff")), b"");
    let errors = "unloop: a??[31m\u{fffd}: No such file or directory\n";
    told(ended, 2, "", errors);
}
