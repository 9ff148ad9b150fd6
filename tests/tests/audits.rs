//! `bin/unloop --audit`: the rendering, the never lines and the cover that are stored beside an original.

mod session;

use session::{run, told, with};
use simulator::block::Block;
use simulator::catalogue::{out, stored_cover};
use simulator::executed::{root, Scratch};
use simulator::foreign::compared;
use simulator::generate::{for_blocks, mutant, widest_cover, Change, Report, Size};
use simulator::limits::TEXT_BYTES;
use simulator::render::copied;
use simulator::{cover, write};
use std::fs;
use std::os::unix::fs::symlink;
use unloop::audit::{audit, Changes, Cover, Never, Rendering};
use unloop::{Assignment, Disagreement};

fn catalogue(name: &str) -> String {
    fs::read_to_string(root().join("catalogue").join(name)).unwrap()
}

#[test]
fn catalogue_holds() {
    let path = root().join("catalogue");
    let ended = run(&Scratch::new(), &["--audit", path.to_str().unwrap()]);
    let output = String::from_utf8(ended.stdout).unwrap();
    let count = output
        .lines()
        .filter(|line| line.contains(".net: all hold"))
        .count();
    let summary = format!("{count} entries: {count} hold, 0 lost");
    assert_eq!(output.lines().last(), Some(&summary[..]));
    assert_eq!(
        (ended.status.code(), &ended.stderr[..]),
        (Some(0), &b""[..])
    );
    assert!(count >= 20 && output.contains("rate.net: all hold, refused with 9 undecided\n"));
    let excluding = "rate-never-48.net: all hold\n  settled settings: 8 of 8, 8 excluded\n";
    assert!(output.contains(excluding), "{output}");
    let others = output.lines().filter(|line| line.starts_with("  "));
    assert_eq!(others.count(), 2, "{output}");
}

/// The user's rate block: a pin was added to the filter only. With a rendering of too few passes the first fact is lost, with one of enough
/// passes only the second, which no comparison of outputs shows.
#[test]
fn rate_block() {
    let scratch = with(&[
        ("d/rate.net", &catalogue("rate.net")),
        ("d/rate.cover", "always\n"),
    ]);
    let cover = "  cover: stored as settled, but not settled with sample = 0, mute = 0, k44 = 0, k48 = 1: y undefined\n";
    let summary = "  to store it anew: unloop --store d rate --force\n1 entry: 0 hold, 1 lost\n";
    scratch.put("d/rate.out", catalogue("rate-all-passes.net"));
    let output = format!("d/rate.net: lost\n{cover}{summary}");
    told(run(&scratch, &["--audit", "d"]), 1, &output, "");
    scratch.put("d/rate.out", catalogue("rate-one-pass.net"));
    let rendering = "  rendering: y is 0, not 1 with sample = 1, mute = 0, k44 = 0, k48 = 0\n";
    let output = format!("d/rate.net: lost\n{rendering}{cover}{summary}");
    told(run(&scratch, &["--audit", "d"]), 1, &output, "");
    scratch.put("d/rate.out", catalogue("rate-all-passes.net"));
    scratch.put("d/rate.cover", catalogue("rate.cover"));
    let output =
        "d/rate.net: all hold, but it settles under some settings only\n1 entry: 1 hold, 0 lost\n";
    told(run(&scratch, &["--audit", "d"]), 0, output, "");
}

/// The mended rate block's facts are stored, and its original is replaced by the broken one with a never line: its rendering is accepted
/// and its cover is `always`, since nothing is asked of the settings that the line excludes. Only the line itself is another.
#[test]
fn promise_that_appears() {
    let scratch = with(&[
        ("d/rate.net", &catalogue("rate-mended.net")),
        ("d/rate.out", &catalogue("rate-mended.out")),
        ("d/rate.cover", &catalogue("rate-mended.cover")),
    ]);
    let hold = "d/rate.net: all hold\n1 entry: 1 hold, 0 lost\n";
    told(run(&scratch, &["--audit", "d"]), 0, hold, "");
    scratch.put("d/rate.net", catalogue("rate-never-48.net"));
    let why = "never k48 = 1 is new: 8 of 16 settings are promised never to come";
    let excluding = "  settled settings: 8 of 8, 8 excluded\n";
    let anew = "  to store it anew: unloop --store d rate --force\n";
    let output = format!(
        "d/rate.net: lost\n  never lines: {why}\n{excluding}{anew}1 entry: 0 hold, 1 lost\n"
    );
    told(run(&scratch, &["--audit", "d"]), 1, &output, "");
    let object = format!(
        "{{\"file\":\"d/rate.net\",\"holds\":false,\"rendering\":{{\"state\":\"holds\"}},\
         \"never\":{{\"state\":\"changed\",\"gone\":[],\"new\":[{{\"k48\":1}}],\"why\":\"{why}\"}},\
         \"cover\":{{\"state\":\"holds\"}},\"excluded\":8,\"weaker\":true}}\n"
    );
    told(run(&scratch, &["--json", "--audit", "d"]), 1, &object, "");
    scratch.put("d/rate.cover", catalogue("rate-never-48.cover"));
    let hold = format!("d/rate.net: all hold\n{excluding}1 entry: 1 hold, 0 lost\n");
    told(run(&scratch, &["--audit", "d"]), 0, &hold, "");
}

/// What is said of an original of two pins with these never lines, where others are stored.
#[track_caller]
fn promises(lines: &str, stored: &str, expected: &str) {
    let netlist = |lines: &str| format!("(in a)\n(in never)\n{lines}(out y a)\n");
    let scratch = with(&[
        ("x.net", &netlist(lines)),
        ("x.out", &netlist("")),
        ("x.cover", &format!("{stored}always\n")),
    ]);
    let ended = run(&scratch, &["--audit", "."]);
    let output = String::from_utf8(ended.stdout).unwrap();
    let why = output
        .lines()
        .find_map(|line| line.strip_prefix("  never lines: "));
    assert_eq!(why.unwrap_or("hold"), expected, "{output}");
    let status = if expected == "hold" { 0 } else { 1 };
    assert_eq!(
        (ended.status.code(), &ended.stderr[..]),
        (Some(status), &b""[..])
    );
}

#[test]
fn never_lines() {
    let (a, b, both) = (
        "(never (a 1))\n",
        "(never (never 0))\n",
        "(never (never 1) (a 1))\n",
    );
    // Order says nothing, neither that of lines nor that of pins.
    promises(
        &[a, both].concat(),
        "never never = 1, a = 1\nnever a = 1\n",
        "hold",
    );
    promises(a, "never a = 1\n", "hold");
    promises(
        "",
        "never a = 1\n",
        "never a = 1 is gone: 0 of 4 settings are promised never to come",
    );
    let gone = "never never = 0 is gone: 1 of 4 settings is promised never to come";
    promises(both, "never never = 0\nnever a = 1, never = 1\n", gone);
    let became =
        "never a = 1, never = 1 became never a = 1: 2 of 4 settings are promised never to come";
    promises(a, "never a = 1, never = 1\n", became);
    let value = "never a = 0 became never a = 1: 2 of 4 settings are promised never to come";
    promises(a, "never a = 0\n", value);
    let two = "never a = 0 became never a = 1; never never = 0 is new: 3 of 4 settings are promised never to come";
    promises(&[a, b].concat(), "never a = 0\n", two);
}

/// Lines that exclude nothing more are other lines all the same, and so are lines that are written more often.
#[test]
fn never_lines_of_the_same_settings() {
    let (a, both) = ("(never (a 1))\n", "(never (never 1) (a 1))\n");
    let within =
        "never a = 1, never = 1 is new: the same 2 of 4 settings are promised never to come";
    promises(&[a, both].concat(), "never a = 1\n", within);
    let more =
        "never a = 1 is written more times: the same 2 of 4 settings are promised never to come";
    promises(&[a, a].concat(), "never a = 1\n", more);
    promises(&[a, a].concat(), "never a = 1\nnever a = 1\n", "hold");
    let fewer =
        "never a = 1 is written fewer times: the same 2 of 4 settings are promised never to come";
    promises(a, "never a = 1\nnever a = 1\n", fewer);
}

#[test]
fn never_lines_that_cannot_be_read() {
    let a = "(never (a 1))\n";
    promises(a, "never\n", "line 1: it names no pin");
    promises(
        a,
        "never a = 1\nnever c = 1\n",
        "line 2: no input is named c",
    );
    promises(a, "never a = 1, a = 1\n", "line 1: a is given twice");
}

/// A never line behind an entry is none; `never = 0` is an entry, where an input is called so.
#[test]
fn never_lines_stand_first() {
    let net = b"(in never)\n(never (never 1))\n(gate p (and never p))\n(out y p)\n";
    let cover = |stored: &[u8]| audit(net, None, Some(stored));
    let late = cover(b"always\nnever never = 1\n");
    let illegible = Cover::Illegible {
        line: 2,
        reason: "a never line stands before all entries".to_string(),
    };
    assert_eq!(late.cover, illegible);
    assert!(matches!(late.never, Never::Changed(_)));
    let entries = cover(b"never never = 1\nnever = 0\n");
    assert_eq!(
        (entries.never, entries.cover),
        (Never::Holds, Cover::Gained { setting: 1 })
    );
    assert_eq!(cover(b"never=0\n").never, cover(b"").never);
}

/// A rendering without never lines is as good as one with the original's; one with others promises what the original does not.
#[test]
fn promises_of_a_rendering() {
    let netlist = |lines: &str| format!("(in a)\n(in b)\n{lines}(out y a)\n");
    let (one, other) = ("(never (a 1))\n", "(never (b 1))\n");
    let found = |ours: &str, theirs: &str, stored: &str| {
        let scratch = with(&[
            ("x.net", &netlist(ours)),
            ("x.out", &netlist(theirs)),
            ("x.cover", &format!("{stored}always\n")),
        ]);
        let output = String::from_utf8(run(&scratch, &["--audit", "."]).stdout).unwrap();
        output.lines().nth(1).unwrap().to_string()
    };
    let excluding = "  settled settings: 2 of 2, 2 excluded";
    assert_eq!(found(one, one, "never a = 1\n"), excluding);
    assert_eq!(found(one, "", "never a = 1\n"), excluding);
    let own = "  rendering: its never a = 1 is not the original's: 2 of 4 settings are promised never to come";
    assert_eq!(found("", one, ""), own);
    let both = "  rendering: its never b = 1 is not the original's; the original's never a = 1 is not in it: \
                2 of 4 settings are promised never to come";
    assert_eq!(found(one, other, "never a = 1\n"), both);
    let fewer = "  rendering: the original's never b = 1 is not in it: 2 of 4 settings are promised never to come";
    assert_eq!(
        found(&[one, other].concat(), one, "never a = 1\nnever b = 1\n"),
        fewer
    );
}

/// Nothing can be wrong with a block all of whose settings are excluded, so that is told.
#[test]
fn every_setting_excluded() {
    let net = "(in a)\n(never (a 0))\n(never (a 1))\n(gate p (not p))\n(out y p)\n";
    let scratch = with(&[
        ("x.net", net),
        ("x.out", std::str::from_utf8(&out(net.as_bytes())).unwrap()),
        ("x.cover", &stored_cover(net.as_bytes()).unwrap()),
    ]);
    let warning = "all 2 settings are promised never to come, so nothing is said of any output";
    let output = format!(
        "./x.net: all hold\n  settled settings: 0 of 0, 2 excluded\n  warning: {warning}\n1 entry: 1 hold, 0 lost\n"
    );
    told(run(&scratch, &["--audit", "."]), 0, &output, "");
    let ended = run(&scratch, &["--json", "--audit", "."]);
    let output = String::from_utf8(ended.stdout).unwrap();
    let fields = format!(",\"excluded\":2,\"warning\":\"{warning}\"}}\n");
    assert!(output.ends_with(&fields), "{output}");
    assert_eq!(ended.status.code(), Some(0));
}

/// A cover may be far longer than any netlist: it is read to its end.
#[test]
fn widest_stored_cover() {
    let text = write(&widest_cover().to_words(), usize::MAX).1;
    let stored = stored_cover(&text).unwrap();
    assert!(stored.len() > 30 * TEXT_BYTES, "{}", stored.len());
    let scratch = with(&[("x.cover", &stored)]);
    scratch.put("x.net", &text);
    scratch.put("x.out", out(&text));
    let audited = || String::from_utf8(run(&scratch, &["--audit", "."]).stdout).unwrap();
    let output = audited();
    assert!(output.starts_with("./x.net: all hold"), "{output}");
    scratch.put("x.cover", stored.clone() + "NONE = 1\n");
    let line = stored.lines().count() + 1;
    let output = audited();
    let expected = format!("  cover: line {line}: no input is named NONE\n");
    assert!(output.contains(&expected), "{output}");
}

/// An entry with a file that can't be read is an error, and the others are told.
#[test]
fn files_that_cannot_be_read() {
    let whole = "(in a)\n(out y a)\n";
    let scratch = with(&[("b.net", whole), ("b.out", whole), ("b.cover", "always\n")]);
    for folder in ["a.net", "c.cover"] {
        fs::create_dir(scratch.path(folder)).unwrap();
    }
    scratch.put("c.net", whole);
    scratch.put("d.net", whole);
    let errors = "unloop: ./a.net: Is a directory\nunloop: ./c.cover: Is a directory\n";
    let output =
        "./b.net: all hold\n./d.net: lost\n  rendering: no ./d.out\n  cover: no ./d.cover\n\
                  \x20 to store it anew: unloop --store . d\n4 entries: 1 hold, 1 lost, 2 errors\n";
    told(run(&scratch, &["--audit", "."]), 2, output, errors);
    let ended = run(&scratch, &["--json", "--audit", "."]);
    let output = String::from_utf8(ended.stdout).unwrap();
    let lines: Vec<&str> = output.lines().collect();
    assert_eq!(lines.len(), 4, "{output}");
    assert_eq!(
        lines[0],
        "{\"file\":\"./a.net\",\"error\":\"./a.net: Is a directory\"}"
    );
    assert_eq!(
        lines[2],
        "{\"file\":\"./c.net\",\"error\":\"./c.cover: Is a directory\"}"
    );
    assert_eq!(
        (ended.status.code(), &ended.stderr[..]),
        (Some(2), errors.as_bytes())
    );
}

#[test]
fn what_else_is_lost() {
    let (net, rendered) = (catalogue("smallest.net"), catalogue("smallest.out"));
    let lost = |files: &[(&str, &str)], lines: &str| {
        let scratch = with(files);
        let anew = match (lines, lines.contains("original can't be read")) {
            ("  no original\n", _) => "",
            (_, false) => "  to store it anew: unloop --store . x\n",
            _ => "  to store it anew: unloop --store . x --force\n",
        };
        let output = format!("./x.net: lost\n{lines}{anew}1 entry: 0 hold, 1 lost\n");
        told(run(&scratch, &["--audit", "."]), 1, &output, "");
    };
    let always = ("x.cover", "always\n");
    lost(&[("x.net", &net), always], "  rendering: no ./x.out\n");
    lost(
        &[("x.net", &net), ("x.out", &rendered)],
        "  cover: no ./x.cover\n",
    );
    lost(&[("x.out", &rendered), always], "  no original\n");
    let all = |out: &str, cover: &str, lines: &str| {
        lost(
            &[("x.net", &net), ("x.out", out), ("x.cover", cover)],
            lines,
        )
    };
    all(
        "(in s)\n(out y s)",
        "always\n",
        "  rendering: it can't be read, line 2, column 10: form\n",
    );
    all(
        &net,
        "always\n",
        "  rendering: some gate reads itself or a gate behind it\n",
    );
    let strangers = "  rendering: pin t became s\n";
    all("(in t)\n(out y t)\n", "always\n", strangers);
    all(
        "(refused 9 0)\n",
        "always\n",
        "  rendering: stored as refused with 9 undecided, and now rendered\n",
    );
    all(
        &rendered,
        "s = 1\n",
        "  cover: not stored as settled with s = 0, but it is\n",
    );
    all(
        &rendered,
        "",
        "  cover: not stored as settled with s = 0, but it is\n",
    );
    all(
        &rendered,
        "s = 0\ns = 1\n",
        "  cover: the same settings by other entries than the minimal ones\n",
    );
    all(
        &rendered,
        "t = 1\n",
        "  cover: line 1: no input is named t\n",
    );
    let cut = "  rendering: the original can't be read, line 1, column 7: form\n  cover: the original can't be read, line 1, column 7: form\n";
    lost(&[("x.net", "(in s)"), ("x.out", &rendered), always], cut);
}

#[test]
fn json_and_errors() {
    let scratch = with(&[
        ("x.net", "(in a)\n"),
        ("x.out", "(in a)\n"),
        ("x.cover", "always\n"),
    ]);
    let object = "{\"file\":\"./x.net\",\"holds\":true,\"rendering\":{\"state\":\"holds\"},\
                  \"never\":{\"state\":\"holds\"},\"cover\":{\"state\":\"holds\"},\"excluded\":0}\n";
    told(run(&scratch, &["--json", "--audit", "."]), 0, object, "");
    told(
        run(&scratch, &["--audit", "gone"]),
        2,
        "",
        "unloop: gone: No such file or directory\n",
    );
    let error = "unloop: d: no NAME.net, NAME.out, NAME.cover or NAME.cells is in it\n";
    scratch.put("d/x", "");
    told(run(&scratch, &["--audit", "d"]), 2, "", error);
    let error = "unloop: --audit needs a PATH: standard input has no name (see --help)\n";
    told(run(&scratch, &["--audit", ".", "-"]), 2, "", error);
    told(run(&scratch, &["--audit"]), 2, "", error);
    for words in [&["--audit", "--json", "."][..], &["--json", "--audit=."]] {
        told(run(&scratch, words), 0, object, "");
    }
}

/// Folders and files, any number; an entry is told once, by any of its files, and where all but one are gone too.
#[test]
fn folders_and_files() {
    let whole = "(in a)\n(out y a)\n";
    let entry = |scratch: &Scratch, name: &str| {
        ["net", "out"]
            .iter()
            .for_each(|ending| scratch.put(&format!("{name}.{ending}"), whole));
        scratch.put(&format!("{name}.cover"), "always\n");
    };
    let scratch = with(&[("a/lost.out", whole), ("x", whole), ("e/x", "")]);
    for name in ["a/one", "b/two", "b/below/three", "b/below/four"] {
        entry(&scratch, name);
    }
    let audit = |words: &[&str], status: i32, output: &str, errors: &str| {
        told(run(&scratch, words), status, output, errors);
    };
    let (one, two) = ("a/one.net: all hold\n", "b/two.net: all hold\n");
    let lost = "a/lost.net: lost\n  no original\n";
    let output = format!("{lost}{one}{two}3 entries: 2 hold, 1 lost\n");
    audit(&["--audit", "a", "b"], 1, &output, "");
    audit(&["--audit", "a", "b", "a", "b/two.cover"], 1, &output, "");
    let output = format!("{one}{two}2 entries: 2 hold, 0 lost\n");
    audit(&["--audit", "b", "a/one.net", "a/one.out"], 0, &output, "");
    let below = "b/below/four.net: all hold\nb/below/three.net: all hold\n";
    let output = format!("{below}{two}3 entries: 3 hold, 0 lost\n");
    audit(&["--audit", "b", "--recursive"], 0, &output, "");
    // A link to a folder above leads nowhere new.
    symlink("..", scratch.path("b/below/up")).unwrap();
    audit(&["--recursive", "--audit", "b"], 0, &output, "");
    // What was removed is lost, as long as something of the entry is left.
    let output = format!("{lost}1 entry: 0 hold, 1 lost\n");
    audit(&["--audit", "a/lost.net"], 1, &output, "");
    let errors = "unloop: c.net: No such file or directory\nunloop: e: no NAME.net, NAME.out, NAME.cover or NAME.cells is in it\n\
                  unloop: x: it is no NAME.net, NAME.out, NAME.cover or NAME.cells\n";
    let output = format!("{one}1 entry: 1 hold, 0 lost, 3 errors\n");
    audit(
        &["--audit", "c.net", "a/one.net", "e", "x"],
        2,
        &output,
        errors,
    );
}

/// Only what is lost, and the summary.
#[test]
fn quiet() {
    let whole = "(in a)\n(never (a 1))\n(out y a)\n";
    let scratch = with(&[
        ("a.net", whole),
        ("a.out", whole),
        ("a.cover", "never a = 1\nalways\n"),
        ("b c.net", whole),
        ("b c.out", whole),
        ("b c.cover", "never a = 0\nalways\n"),
    ]);
    let lost = "./b c.net: lost\n  never lines: never a = 0 became never a = 1: 1 of 2 settings is promised never to come\n\
                \x20 settled settings: 1 of 1, 1 excluded\n  to store it anew: unloop --store . 'b c' --force\n";
    let output = format!("{lost}2 entries: 1 hold, 1 lost\n");
    told(run(&scratch, &["--quiet", "--audit", "."]), 1, &output, "");
    let ended = run(&scratch, &["--quiet", "--audit", ".", "--json"]);
    let output = String::from_utf8(ended.stdout).unwrap();
    assert!(
        output.starts_with("{\"file\":\"./b c.net\",\"holds\":false,"),
        "{output}"
    );
    assert_eq!(output.lines().count(), 1);
    let output = "1 entry: 1 hold, 0 lost\n";
    told(
        run(&scratch, &["--audit", "a.net", "--quiet"]),
        0,
        output,
        "",
    );
}

/// Pins and ports that are new, gone or called otherwise are told as such, in words and by names.
#[test]
fn pins_that_change() {
    let netlist = |pins: &str, port: &str| {
        let pins = pins.split(' ').map(|pin| format!("(in {pin})\n"));
        format!("{}(out {port} a)\n", pins.collect::<String>())
    };
    let found = |stored: (&str, &str), now: (&str, &str), told: &str, json: &str| {
        let scratch = with(&[
            ("x.net", &netlist(now.0, now.1)),
            ("x.out", &netlist(stored.0, stored.1)),
            ("x.cover", "always\n"),
        ]);
        let output = String::from_utf8(run(&scratch, &["--audit", "."]).stdout).unwrap();
        let line = format!("  rendering: {told}");
        assert_eq!(output.lines().nth(1), Some(&line[..]));
        let ended = run(&scratch, &["--audit", ".", "--json"]);
        let output = String::from_utf8(ended.stdout).unwrap();
        let fields = format!("\"rendering\":{{\"state\":\"strangers\",{json},\"why\":\"{told}\"}}");
        assert!(output.contains(&fields), "{output}");
    };
    found(
        ("a b", "y"),
        ("a b k48", "y"),
        "pin k48 is new",
        "\"pins\":{\"new\":[\"k48\"]},\"ports\":{}",
    );
    found(
        ("a b c", "y"),
        ("a c", "z"),
        "pin b is gone; port y became z",
        "\"pins\":{\"gone\":[\"b\"]},\"ports\":{\"renamed\":{\"y\":\"z\"}}",
    );
    found(
        ("a b c", "y"),
        ("a c b", "y"),
        "the pins stand in another order",
        "\"pins\":{\"reordered\":true},\"ports\":{}",
    );
}

/// A refusal has no pins: what the stored cover or its never lines name, and no input is called, is gone.
#[test]
fn pins_that_only_a_cover_names() {
    let net = "(in a)\n(gate p (and a p))\n(out y p)\n";
    let scratch = with(&[
        ("x.net", net),
        ("x.out", "(refused 9 1)\n"),
        ("x.cover", "a = 0, k48 = 0\n"),
    ]);
    let lost = |lines: &str| {
        let output = format!(
            "./x.net: lost\n{lines}  to store it anew: unloop --store . x\n1 entry: 0 hold, 1 lost\n"
        );
        told(run(&scratch, &["--audit", "."]), 1, &output, "");
    };
    lost("  cover: pin k48 is gone\n");
    scratch.put("x.cover", "never k48 = 1\na = 0\n");
    lost("  never lines: never k48 = 1 is gone: 0 of 2 settings are promised never to come\n");
    scratch.put("x.cover", "k48 = 0\n");
    let output = String::from_utf8(run(&scratch, &["--audit", "."]).stdout).unwrap();
    let both =
        "  cover: pin k48 is gone; stored as settled, but not settled with a = 1: y undefined\n";
    assert!(output.contains(both), "{output}");
    scratch.put("x.cover", "a = 0, a_name_that_is_none = 0\n");
    let output = String::from_utf8(run(&scratch, &["--audit", "."]).stdout).unwrap();
    let illegible = "  cover: line 1: no input is named a_name_that_is_none\n";
    assert!(output.contains(illegible), "{output}");
}

/// What is told where the first never line is not stored.
fn first_is_new(block: &Block) -> Changes {
    let mut stored = block.clone();
    let first = stored.nevers.remove(0);
    Changes {
        gone: Vec::new(),
        new: vec![Assignment {
            fixed: first.fixed,
            ones: first.ones,
        }],
        gone_with_pins: Vec::new(),
        same_settings: stored.excluded_settings() == block.excluded_settings(),
        more_settings: stored.excluded_settings() < block.excluded_settings(),
    }
}

/// On generated blocks: what the simulator writes holds; a changed rendering is told as its Compare tells it; a changed cover is not taken, nor one without the first never line.
#[test]
fn generated_entries() {
    let mut told = [0; 4];
    for_blocks(0..100, Size::SMALL, |random, block, words| {
        let text = write(words, usize::MAX).1;
        let _report = Report(|| String::from_utf8_lossy(&text).into_owned());
        let (stored, entries) = (out(&text), stored_cover(&text).expect("a block's"));
        assert!(audit(&text, Some(&stored), Some(entries.as_bytes())).holds());
        told[0] += 1;
        let Some(other) = mutant(random, &copied(block), Change::Output) else {
            return;
        };
        let other = other.to_words();
        let found = audit(
            &text,
            Some(&write(&other, usize::MAX).1),
            Some(entries.as_bytes()),
        );
        let expected = compared(words, &other);
        match expected.count {
            // What is changed is an output; the never lines are the original's.
            0 => assert_eq!(found.rendering, Rendering::Holds),
            count => {
                let differs = Disagreement {
                    setting: expected.detail,
                    output: count - 1,
                };
                assert_eq!(found.rendering, Rendering::Differs(differs));
                told[1] += 1;
            }
        }
        let shorter: String = entries.split_inclusive('\n').skip(1).collect();
        let found = audit(&text, None, Some(shorter.as_bytes()));
        if !block.nevers.is_empty() {
            assert_eq!(found.never, Never::Changed(first_is_new(block)));
            assert_eq!(found.cover, Cover::Holds);
            told[3] += 1;
        } else if cover(words, usize::MAX).0.count > 0 {
            assert_ne!(found.cover, Cover::Holds);
            told[2] += 1;
        }
    });
    assert!(told.iter().all(|&count| count > 20), "{told:?}");
}

/// A table of cells beside an original is a fourth fact, by CompareCells: held, lost with pins and port, or with other names, or no table.
#[test]
fn cells() {
    let net =
        "(in a)\n(in b)\n(never (a 1) (b 0))\n(gate p (and a q))\n(gate q (or b p))\n(out y q)\n";
    let scratch = with(&[("x.net", net), ("x.out", "(in a)\n(in b)\n(out y b)\n")]);
    scratch.put("x.cover", "never a = 1, b = 0\nalways\n");
    let excluded = "  settled settings: 3 of 3, 1 excluded\n";
    let audited = |cells: &str, lost: &str, fact: &str| {
        scratch.put("x.cells", cells);
        let (state, anew, hold) = match lost {
            "" => ("all hold", "", "1 hold, 0 lost"),
            _ => (
                "lost",
                "  to store it anew: unloop --store . x\n",
                "0 hold, 1 lost",
            ),
        };
        let told_lost = if lost.is_empty() {
            String::new()
        } else {
            format!("  cells: {lost}\n")
        };
        let output = format!("./x.net: {state}\n{told_lost}{excluded}{anew}1 entry: {hold}\n");
        let status = i32::from(!lost.is_empty());
        told(run(&scratch, &["--audit", "."]), status, &output, "");
        let holds = lost.is_empty();
        let weaker = if holds { "" } else { ",\"weaker\":false" };
        let other = "\"rendering\":{\"state\":\"holds\"},\"never\":{\"state\":\"holds\"},\"cover\":{\"state\":\"holds\"}";
        let object = format!("{{\"file\":\"./x.net\",\"holds\":{holds},{other},\"cells\":{{{fact}}},\"excluded\":1{weaker}}}\n");
        told(
            run(&scratch, &["--json", "--audit", "."]),
            status,
            &object,
            "",
        );
    };
    let table =
        |inputs: &str, port: &str| format!("# inputs 2 {inputs}\n# outputs 1\n# output {port}\n");
    audited(&table("a b", "y 1"), "", "\"state\":\"holds\"");
    audited(&table("b a", "y 0"), "", "\"state\":\"holds\"");
    let why = "y is 0, not 1 with a = 0, b = 1";
    let fact = format!("\"state\":\"differs\",\"setting\":{{\"a\":0,\"b\":1}},\"output\":\"y\",\"shown\":\"0\",\"expected\":\"1\",\"why\":\"{why}\"");
    audited(&table("a b", "y 0"), why, &fact);
    let why = "pin c became b; port z became y";
    let fact = format!("\"state\":\"strangers\",\"pins\":{{\"renamed\":{{\"c\":\"b\"}}}},\"ports\":{{\"renamed\":{{\"z\":\"y\"}}}},\"why\":\"{why}\"");
    audited(&table("a c", "z 0"), why, &fact);
    let why = "they can't be read, line 3: no node 2";
    audited(
        &table("a b", "y 2"),
        why,
        &format!("\"state\":\"illegible\",\"why\":\"{why}\""),
    );
    // One without an original is lost, as any fact is.
    fs::remove_file(scratch.path("x.net")).unwrap();
    ["x.out", "x.cover"]
        .iter()
        .for_each(|name| fs::remove_file(scratch.path(name)).unwrap());
    let output = "./x.net: lost\n  no original\n1 entry: 0 hold, 1 lost\n";
    told(run(&scratch, &["--audit", "."]), 1, output, "");
}
