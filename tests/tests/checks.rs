//! `bin/unloop --check`: what it says of a netlist made elsewhere.

mod session;

use session::{run, told, with};
use simulator::executed::{root, Scratch};
use std::fs;

const LOOPED: &str =
    "(in a)\n(in b)\n(gate p (and a q))\n(gate q (or b p))\n(out y q)\n(out z p)\n";

/// What is said of `theirs` for the loop above.
#[track_caller]
fn checked(theirs: &str, status: i32, output: &str, errors: &str) {
    let scratch = with(&[("ours.net", LOOPED), ("theirs.net", theirs)]);
    let words = ["--check", "theirs.net", "ours.net"];
    told(run(&scratch, &words), status, output, errors);
}

#[test]
fn accepted() {
    checked(
        "(in a)\n(in b)\n(out y b)\n(out z a)\n",
        0,
        "theirs.net: accepted\n",
        "",
    );
}

#[test]
fn not_accepted() {
    let told = "theirs.net: not accepted\n  z is 1, not 0 with a = 0, b = 1\n";
    checked("(in a)\n(in b)\n(out y b)\n(out z b)\n", 1, told, "");
    let scratch = with(&[
        ("ours.net", "(gate p (or 0 1))\n(out y p)\n"),
        ("theirs.net", "(gate p (and 0 1))\n(out y p)\n"),
    ]);
    let ended = run(&scratch, &["--check", "theirs.net", "ours.net"]);
    session::told(ended, 1, "theirs.net: not accepted\n  y is 0, not 1\n", "");
}

/// Nothing is compared under settings that the original's never lines exclude, so it is told how many these are.
#[test]
fn excluded_settings() {
    let netlist = |lines: &str, port: &str| format!("(in a)\n(in b)\n{lines}(out y {port})\n");
    let compared = |lines: &str, theirs: &str, status: i32, output: &str| {
        let (ours, theirs) = (netlist(lines, "a"), netlist("", theirs));
        let scratch = with(&[("ours.net", &ours), ("theirs.net", &theirs)]);
        let words = ["--check", "theirs.net", "ours.net"];
        told(run(&scratch, &words), status, output, "");
    };
    let excluding = "  settled settings: 3 of 3, 1 excluded\n";
    let output = format!("theirs.net: accepted\n{excluding}");
    compared("(never (a 1) (b 1))\n", "a", 0, &output);
    let differs = "  y is 0, not 1 with a = 1, b = 0\n";
    let output = format!("theirs.net: not accepted\n{differs}{excluding}");
    compared("(never (a 1) (b 1))\n", "b", 1, &output);
    let output = "theirs.net: accepted\n  settled settings: 0 of 0, 4 excluded\n  \
                  warning: all 4 settings are promised never to come, so nothing is said of any output\n";
    compared("(never (a 1))\n(never (a 0))\n", "b", 0, output);
}

#[test]
fn refused() {
    checked(LOOPED, 1, "", "theirs.net: looped\n");
    let told = "theirs.net: strangers\n  it has      pins a, c; ports none\n  but must be pins a, b; ports y, z\n";
    checked("(in a)\n(in c)\n", 1, "", told);
    checked(
        "(in _a)\n",
        1,
        "",
        "theirs.net:1:5: form: expected a letter\n(in _a)\n    ^\n",
    );
}

#[test]
fn errors() {
    let scratch = with(&[("ours.net", LOOPED)]);
    let error = "unloop: theirs.net: No such file or directory\n";
    let words = ["--check", "theirs.net", "ours.net"];
    told(run(&scratch, &words), 2, "", error);
    let error = "unloop: --check THEIRS needs one FILE and no other option (see --help)\n";
    for words in [
        &["--check", "theirs.net"][..],
        &["--check", "theirs.net", "a", "b"],
        &["--check", "theirs.net", "--into", "x", "a"],
    ] {
        told(run(&scratch, words), 2, "", error);
    }
    let error = "unloop: --check needs THEIRS (see --help)\n";
    told(run(&scratch, &["a", "--check"]), 2, "", error);
}

/// The two renderings of catalogue/rate.net that catalogue/README.md tells of.
#[test]
fn catalogue() {
    let scratch = Scratch::new();
    for name in ["rate.net", "rate-one-pass.net", "rate-all-passes.net"] {
        scratch.put(name, fs::read(root().join("catalogue").join(name)).unwrap());
    }
    let words = ["--check", "rate-one-pass.net", "rate.net"];
    let output = "rate-one-pass.net: not accepted\n  y is 0, not 1 with sample = 1, mute = 0, k44 = 0, k48 = 0\n";
    told(run(&scratch, &words), 1, output, "");
    let words = ["--check", "rate-all-passes.net", "rate.net"];
    told(
        run(&scratch, &words),
        0,
        "rate-all-passes.net: accepted\n",
        "",
    );
}
