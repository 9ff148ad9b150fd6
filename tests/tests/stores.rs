//! `bin/unloop --store` and `--cover`: what is written beside originals, what is told of it before, and what needs `--force`.

mod session;

use session::{command, run, told, with};
use simulator::catalogue::{out, stored_cover};
use simulator::executed::{ended, netlists, root, Scratch};
use simulator::generate::{for_blocks, Report, Size};
use simulator::write;
use std::fs;
use std::os::unix::fs::symlink;
use std::process::{Command, Stdio};
use std::thread::sleep;
use std::time::Instant;

fn catalogue(name: &str) -> String {
    fs::read_to_string(root().join("catalogue").join(name)).unwrap()
}

/// The three files of an entry of this catalogue under another name.
fn put_entry(scratch: &Scratch, name: &str, of: &str) {
    for ending in ["net", "out", "cover"] {
        scratch.put(
            &format!("{name}.{ending}"),
            catalogue(&format!("{of}.{ending}")),
        );
    }
}

/// The rate block before the pin for 48 kHz was added.
fn rate_of_two_rates() -> String {
    let text = catalogue("rate.net");
    let text = text.replace("(in k48)\n", "");
    text.replace("(nor k44 k48)", "(not k44)")
}

/// The whole catalogue, adopted from its originals alone, is what is stored of it; then nothing changes, and the audit agrees.
#[test]
fn catalogue_is_adopted() {
    let scratch = Scratch::new();
    for path in netlists() {
        let name = path.file_name().unwrap().to_str().unwrap().to_string();
        scratch.put(&format!("d/{name}"), fs::read(&path).unwrap());
    }
    let ended = run(&scratch, &["--store", "d"]);
    let output = String::from_utf8(ended.stdout).unwrap();
    let count = netlists().len();
    let summary = format!("{count} entries: {count} stored, 0 as before\n");
    assert!(output.ends_with(&summary), "{output}");
    for line in [
        "rate: new; cover mute = 1 | k44 = 1 | k48 = 0; refused with 9 undecided\n",
        "mode-pins: new; cover always; never fast = 1, slow = 1; rendered\n",
        "one-solution: new; cover none; refused with 9 undecided\n",
        "misspelt: new; refused with 5 unknown\n",
    ] {
        assert!(output.contains(line), "{output}");
    }
    assert_eq!((ended.status.code(), ended.stderr.len()), (Some(0), 0));
    let mut names = scratch.names("d");
    let ours = fs::read_dir(root().join("catalogue")).unwrap();
    let ours = ours.map(|entry| entry.unwrap().file_name().into_string().unwrap());
    let facts = |name: &String| {
        [".net", ".out", ".cover"]
            .iter()
            .any(|end| name.ends_with(end))
    };
    let mut ours: Vec<String> = ours.filter(facts).collect();
    ours.sort();
    assert_eq!(names, ours);
    names.retain(|name| scratch.get(&format!("d/{name}")) != catalogue(name));
    assert!(names.is_empty(), "{names:?}");
    let summary = format!("{count} entries: 0 stored, {count} as before\n");
    told(run(&scratch, &["--store", "d"]), 0, &summary, "");
}

/// The rate block gets its pin for 48 kHz: that is told by its name, and what no longer settles needs a word.
#[test]
fn pin_that_is_added() {
    let scratch = with(&[("d/rate.net", &rate_of_two_rates())]);
    let output = "rate: new; cover always; rendered\n1 entry: 1 stored, 0 as before\n";
    told(run(&scratch, &["--store", "d"]), 0, output, "");
    let before = (scratch.get("d/rate.out"), scratch.get("d/rate.cover"));
    scratch.put("d/rate.net", catalogue("rate.net"));
    let change = "rate: cover always → mute = 1 | k44 = 1 | k48 = 0; pin k48 is new; rendered → refused with 9 undecided\n\
                  \x20 weaker: a rendering becomes refused with 9 undecided\n\
                  \x20 weaker: not settled any more with sample = 0, mute = 0, k44 = 0, k48 = 1\n";
    let output = format!(
        "{change}1 entry: 0 stored, 0 as before, 1 weaker and not stored without --force\n"
    );
    told(run(&scratch, &["--store", "d"]), 1, &output, "");
    assert_eq!(
        (scratch.get("d/rate.out"), scratch.get("d/rate.cover")),
        before
    );
    let output = format!("{change}1 entry: 1 stored, 0 as before\n");
    told(run(&scratch, &["--force", "--store", "d"]), 0, &output, "");
    assert_eq!(scratch.get("d/rate.out"), catalogue("rate.out"));
    assert_eq!(scratch.get("d/rate.cover"), catalogue("rate.cover"));
    // Mended it says more than before, which needs no word.
    scratch.put("d/rate.net", catalogue("rate-mended.net"));
    let output =
        "rate: cover mute = 1 | k44 = 1 | k48 = 0 → always; refused with 9 undecided → rendered\n\
                  1 entry: 1 stored, 0 as before\n";
    told(run(&scratch, &["--store", "d"]), 0, output, "");
    assert_eq!(scratch.get("d/rate.out"), catalogue("rate-mended.out"));
}

/// A never line that is new excludes settings that were told of; one that is gone, or says less, does not.
#[test]
fn promises() {
    let netlist = |lines: &str| format!("(in a)\n(in b)\n{lines}(out y a)\n");
    let scratch = with(&[("x.net", &netlist(""))]);
    let store = |words: &[&str], status: i32, lines: &str, summary: &str| {
        let output = format!("{lines}1 entry: {summary}\n");
        told(run(&scratch, words), status, &output, "");
    };
    let stored = "1 stored, 0 as before";
    store(
        &["--store", "."],
        0,
        "x: new; cover always; rendered\n",
        stored,
    );
    scratch.put("x.net", netlist("(never (b 1))\n"));
    let new =
        "x: never b = 1 is new\n  weaker: more settings are promised never to come, now 2 of 4\n";
    let weaker = "0 stored, 0 as before, 1 weaker and not stored without --force";
    store(&["--store", "."], 1, new, weaker);
    assert_eq!(scratch.get("x.cover"), "always\n");
    store(&["--store", ".", "--force"], 0, new, stored);
    assert_eq!(scratch.get("x.cover"), "never b = 1\nalways\n");
    // The rendering without the line is as good, and stays.
    assert_eq!(scratch.get("x.out"), netlist(""));
    scratch.put("x.net", netlist("(never (a 1) (b 1))\n"));
    let less = "x: never b = 1 became never a = 1, b = 1\n";
    store(&["--store", "."], 0, less, stored);
    scratch.put("x.net", netlist(""));
    store(
        &["--store", "."],
        0,
        "x: never a = 1, b = 1 is gone\n",
        stored,
    );
    assert_eq!(scratch.get("x.cover"), "always\n");
}

/// A netlist with these pins.
fn pinned(pins: &str, never: &str, gate: &str) -> String {
    let pins = pins.split(' ').map(|pin| format!("(in {pin})\n"));
    let pins: String = pins.collect();
    format!("{pins}{never}(gate p {gate})\n(out y p)\n")
}

/// What is told where one netlist takes another's place, which needs no word; then all holds.
#[track_caller]
fn replaced(before: &str, now: &str, expected: &str) {
    let scratch = with(&[("x.net", before)]);
    run(&scratch, &["--store", "."]);
    scratch.put("x.net", now);
    let output = format!("x: {expected}\n1 entry: 1 stored, 0 as before\n");
    told(run(&scratch, &["--store", "."]), 0, &output, "");
    let audited = run(&scratch, &["--audit", "."]);
    assert!(audited.status.success(), "{audited:?}");
    let cover = stored_cover(now.as_bytes()).unwrap();
    assert_eq!(scratch.get("x.cover"), cover);
}

/// Pins that go, come and are called otherwise, and never lines that go with theirs.
#[test]
fn pins_and_ports() {
    let one = pinned("a b", "", "(and a b)");
    let more = pinned("a b c", "", "(and a b c)");
    replaced(&one, &more, "pin c is new; rendered anew");
    replaced(&more, &one, "pin c is gone; rendered anew");
    let renamed = pinned("a d", "(never (d 1))\n", "(and a d)");
    let named = pinned("a b", "(never (b 1))\n", "(and a b)");
    replaced(&named, &renamed, "pin b became d; rendered anew");
    let less = pinned("a", "", "(not a)");
    let told = "pin b is gone; never b = 1 is gone; rendered anew";
    replaced(&named, &less, told);
    let ports = one.replace("(out y p)", "(out z p)");
    replaced(&one, &ports, "port y became z; rendered anew");
    let order = pinned("b a", "", "(and a b)");
    let told = "the pins stand in another order; rendered anew";
    replaced(&one, &order, told);
}

/// A refusal has no pins: what its cover names and is gone is told.
#[test]
fn pins_of_a_refusal() {
    let held = pinned("b a", "", "(or (and a p) (and b p))");
    let open = pinned("b", "", "(and b p)");
    replaced(&held, &open, "cover b = 0, a = 0 → b = 0; pin a is gone");
    let scratch = with(&[("x.net", &open)]);
    run(&scratch, &["--store", "."]);
    scratch.put("x.net", pinned("b", "", "(and (not b) p)"));
    let output = "x: cover b = 0 → b = 1; refused with 9 undecided at another setting\n  weaker: not settled any more with b = 0\n\
                  1 entry: 0 stored, 0 as before, 1 weaker and not stored without --force\n";
    told(run(&scratch, &["--store", "."]), 1, output, "");
}

/// What holds stays as it is: a rendering that was made elsewhere, lines in another order, a rendering of an original that settles under
/// some settings. What doesn't is replaced.
#[test]
fn what_holds_stays() {
    let scratch = with(&[]);
    put_entry(&scratch, "d/rate", "rate");
    scratch.put("d/rate.out", catalogue("rate-all-passes.net"));
    scratch.put("d/rate.cover", "k48 = 0\nk44 = 1\nmute = 1\n");
    put_entry(&scratch, "d/mended", "rate-mended");
    scratch.put("d/mended.out", "(in sample)\n(in mute)\n(in k44)\n(in k48)\n(gate m (not mute))\n(gate p (and sample m))\n(out y p)\n");
    let before = scratch.get("d/mended.out");
    let same = "2 entries: 0 stored, 2 as before\n";
    told(run(&scratch, &["--store", "d"]), 0, same, "");
    assert_eq!(scratch.get("d/mended.out"), before);
    assert!(scratch.get("d/rate.cover").starts_with("k48"));
    scratch.put("d/mended.out", before.replace("sample m", "sample mute"));
    let output =
        "mended: rendered anew (y is 0, not 1 with sample = 1, mute = 0, k44 = 0, k48 = 0)\n\
                  2 entries: 1 stored, 1 as before\n";
    told(run(&scratch, &["--store", "d"]), 0, output, "");
    assert_eq!(scratch.get("d/mended.out"), catalogue("rate-mended.out"));
    // Once another fact is lost, the rendering of the original that is refused goes with it.
    scratch.put("d/rate.cover", "always\n");
    let ended = run(&scratch, &["--force", "--store", "d", "rate"]);
    assert!(ended.status.success(), "{ended:?}");
    assert_eq!(scratch.get("d/rate.out"), catalogue("rate.out"));
}

/// A table that is accepted stays as long as the rendering does: where that becomes a refusal, since some setting is no longer settled, it
/// goes too, and not without a word.
#[test]
fn cells_beside_a_rendering_that_goes() {
    let net = "(in a)\n(in b)\n(gate p (and a q))\n(gate q (or b p))\n(out y q)\n";
    let scratch = with(&[("x.net", net), ("x.out", "(in a)\n(in b)\n(out y b)\n")]);
    scratch.put("x.cells", "# inputs 2 a b\n# outputs 1\n# output y 1\n");
    // The stored cover says that some settings settle only: all holds, and stays.
    scratch.put("x.cover", "a = 0\nb = 1\n");
    let same = "1 entry: 0 stored, 1 as before\n";
    told(run(&scratch, &["--store", "."]), 0, same, "");
    scratch.put("x.cover", "always\n");
    let ended = run(&scratch, &["--store", "."]);
    let output = String::from_utf8(ended.stdout).unwrap();
    for line in [
        "; cells are gone\n",
        "  weaker: what is refused has no cells\n",
    ] {
        assert!(output.contains(line), "{output}");
    }
    assert_eq!(ended.status.code(), Some(1));
    assert_eq!(scratch.names(".").len(), 4);
    assert!(run(&scratch, &["--store", ".", "--force"]).status.success());
    assert_eq!(scratch.names("."), ["x.cover", "x.net", "x.out"]);
}

/// A table of cells is renewed where there is one, and goes where the original is refused.
#[test]
fn cells() {
    let scratch = with(&[]);
    put_entry(&scratch, "smallest", "smallest");
    run(&scratch, &["--store", "."]);
    assert_eq!(scratch.names(".").len(), 3);
    scratch.put("smallest.cells", "");
    let output = "smallest: cells anew (they can't be read, no line '# inputs NUMBER NAME ...')\n\
                  1 entry: 1 stored, 0 as before\n";
    told(run(&scratch, &["--store", "."]), 0, output, "");
    let table = run(&scratch, &["--cells", "smallest.net"]).stdout;
    assert_eq!(scratch.get("smallest.cells").as_bytes(), table);
    let same = "1 entry: 0 stored, 1 as before\n";
    told(run(&scratch, &["--store", "."]), 0, same, "");
    // What CompareCells accepts stays byte for byte, and what shows another value doesn't.
    let made = "# inputs 1 s\n# outputs 1\n# output y 0 # made elsewhere\n";
    let made = made.replace(" # made", "\n# made");
    scratch.put("smallest.cells", &made);
    told(run(&scratch, &["--store", "."]), 0, same, "");
    assert_eq!(scratch.get("smallest.cells"), made);
    let other = "# inputs 1 s\n0 0 0 0 21845\n# outputs 1\n# output y 1\n";
    scratch.put("smallest.cells", other);
    let output =
        "smallest: cells anew (y is 1, not 0 with s = 0)\n1 entry: 1 stored, 0 as before\n";
    told(run(&scratch, &["--store", "."]), 0, output, "");
    assert_eq!(scratch.get("smallest.cells").as_bytes(), table);
    // A refusal has none, and nothing is removed without a word.
    put_entry(&scratch, "smallest", "latch");
    let gone = "smallest: cells are gone\n  weaker: what is refused has no cells\n";
    let weaker = "1 entry: 0 stored, 0 as before, 1 weaker and not stored without --force\n";
    let output = format!("{gone}{weaker}");
    told(run(&scratch, &["--store", "."]), 1, &output, "");
    assert_eq!(scratch.get("smallest.cells").as_bytes(), table);
    let output = format!("{gone}1 entry: 1 stored, 0 as before\n");
    told(run(&scratch, &["--store", ".", "--force"]), 0, &output, "");
    assert_eq!(
        scratch.names("."),
        ["smallest.cover", "smallest.net", "smallest.out"]
    );
}

/// An original that can't be read has no cover; a cover that can't be read may have said anything.
#[test]
fn what_cannot_be_read() {
    let scratch = with(&[]);
    put_entry(&scratch, "x", "smallest");
    scratch.put("x.net", "(in s)");
    let weaker = |change: &str| {
        let summary = "1 entry: 0 stored, 0 as before, 1 weaker and not stored without --force\n";
        let ended = run(&scratch, &["--store", "."]);
        told(ended, 1, &format!("{change}{summary}"), "");
    };
    weaker(
        "x: cover always → gone; rendered → refused with 2 form\n\
         \x20 weaker: a rendering becomes refused with 2 form\n\
         \x20 weaker: an original that can't be read has no cover\n",
    );
    let ended = run(&scratch, &["--store", ".", "--force"]);
    assert_eq!(ended.status.code(), Some(0));
    assert_eq!(scratch.names("."), ["x.net", "x.out"]);
    put_entry(&scratch, "x", "latch");
    scratch.put("x.cover", "set\n");
    weaker(
        "x: cover set → set = 1 | reset = 1\n\
         \x20 weaker: what the stored cover says can't be read, line 1: not PIN = 0 or PIN = 1: set\n",
    );
    put_entry(&scratch, "x", "mode-pins");
    scratch.put("x.cover", "never\nalways\n");
    weaker(
        "x: never lines anew (line 1: it names no pin)\n\
         \x20 weaker: what the stored never lines say can't be read, line 1: it names no pin\n",
    );
    // Nothing is stronger than this one.
    put_entry(&scratch, "x", "smallest");
    scratch.put("x.cover", "s\n");
    assert_eq!(run(&scratch, &["--store", "."]).status.code(), Some(0));
    assert_eq!(scratch.get("x.cover"), "always\n");
}

#[test]
fn names_folders_and_errors() {
    let net = "(in a)\n(out y a)\n";
    let scratch = with(&[
        ("d/a.net", net),
        ("d/b.c.net", net),
        ("d/e/f.net", net),
        ("d/g.out", net),
        ("n/README", ""),
    ]);
    let new = |name: &str| format!("{name}: new; cover always; rendered\n");
    let stored = "1 entry: 1 stored, 0 as before\n";
    let output = new("b.c") + stored;
    told(run(&scratch, &["--store", "d", "b.c"]), 0, &output, "");
    assert_eq!(
        scratch.names("d"),
        ["a.net", "b.c.cover", "b.c.net", "b.c.out", "e", "g.out"]
    );
    let output = new("a") + stored;
    told(run(&scratch, &["--store", "d", "a.net"]), 0, &output, "");
    let output = new("e/f") + "3 entries: 1 stored, 2 as before\n";
    told(
        run(&scratch, &["--recursive", "--store", "d"]),
        0,
        &output,
        "",
    );
    let errors = "unloop: d/none.net: no original\n";
    let output = "2 entries: 0 stored, 1 as before, 1 error\n";
    told(
        run(&scratch, &["--store", "d", "none", "a"]),
        2,
        output,
        errors,
    );
    let errors = "unloop: gone: No such file or directory\n";
    told(run(&scratch, &["--store", "gone"]), 2, "", errors);
    let errors = "unloop: n: no NAME.net, NAME.out, NAME.cover or NAME.cells is in it\n";
    told(run(&scratch, &["--store", "n"]), 2, "", errors);
}

#[test]
fn bad_usage() {
    let scratch = with(&[("d/a.net", "")]);
    for (words, why) in [
        (
            &["--store", "d", "--json"][..],
            "--store DIR doesn't go with --force or --json",
        ),
        (&["--store", "d", "--quiet"], "--quiet needs --audit"),
        (
            &["--store", "d", "--recursive", "a"],
            "--recursive goes with no NAME",
        ),
        (
            &["--recursive", "d/a.net"],
            "--recursive needs --audit or --store DIR",
        ),
    ] {
        told(
            run(&scratch, words),
            2,
            "",
            &format!("unloop: {why} (see --help)\n"),
        );
    }
}

/// A folder in the place of a file is an error of that entry, nothing else of it is written, and the others are stored; a link is replaced,
/// and what it leads to is not.
#[test]
fn files_that_cannot_be_replaced() {
    let net = "(in a)\n(out y a)\n";
    let scratch = with(&[("d/a.net", net), ("d/b.net", net), ("kept", "kept")]);
    fs::create_dir(scratch.path("d/a.out")).unwrap();
    symlink("../kept", scratch.path("d/b.cover")).unwrap();
    let ended = run(&scratch, &["--store", "d"]);
    assert_eq!(ended.stderr, b"unloop: d/a.out: Is a directory\n");
    assert_eq!(ended.status.code(), Some(2));
    assert_eq!(
        scratch.names("d"),
        ["a.net", "a.out", "b.cover", "b.net", "b.out"]
    );
    assert_eq!(
        (scratch.get("d/b.cover"), scratch.get("kept")),
        ("always\n".to_string(), "kept".to_string())
    );
}

/// It is ended by the system in the midst of a file, since no file may have more than 1,024 bytes: what was there stays.
#[test]
fn ended_within_a_file() {
    let (old, new) = ("(in a)\n(out y a)\n", catalogue("scaler.out"));
    assert!(new.len() > 1_024);
    let scratch = with(&[("x.net", &catalogue("scaler.net")), ("x.out", old)]);
    let unlimited = run(&scratch, &["--version"]);
    assert!(unlimited.status.success());
    let limited = |script: &str| {
        let mut shell = Command::new("bash");
        let command = root().join("bin/unloop");
        let shell = shell.args(["-c", script]).arg(command);
        ended(shell.current_dir(scratch.path(".")), b"")
    };
    let cut = limited("ulimit -f 1; exec \"$0\" --store .");
    assert!(!cut.status.success(), "{cut:?}");
    assert_eq!(scratch.get("x.out"), old);
    assert!(!scratch.path("x.cover").exists());
    let whole = limited("exec \"$0\" --store .");
    assert!(whole.status.success(), "{whole:?}");
    assert_eq!(scratch.get("x.out"), new);
}

/// Whenever it is ended, each file is the one before or the one behind, as a whole.
#[test]
fn interrupted() {
    let net = catalogue("scaler.net");
    let old = "(in a)\n(out y a)\n";
    let new = catalogue("scaler.out");
    let entries = 0..60;
    let begun = |scratch: &Scratch| {
        for entry in entries.clone() {
            scratch.put(&format!("{entry}.net"), &net);
            scratch.put(&format!("{entry}.out"), old);
        }
        let mut command = command(scratch);
        let words = command.args(["--store", ".", "--force"]);
        (Instant::now(), words.stdout(Stdio::null()).spawn().unwrap())
    };
    let whole = |scratch: &Scratch| {
        let replaced = entries.clone().filter(|entry| {
            let out = scratch.get(&format!("{entry}.out"));
            assert!(out == old || out == new, "{out}");
            let cover = fs::read_to_string(scratch.path(&format!("{entry}.cover")));
            assert!(cover.is_err() || cover.is_ok_and(|cover| cover == "always\n"));
            out == new
        });
        replaced.count()
    };
    let scratch = Scratch::new();
    let (start, mut child) = begun(&scratch);
    assert!(child.wait().unwrap().success());
    let time = start.elapsed();
    assert_eq!(whole(&scratch), entries.len());
    for step in 0..10 {
        let scratch = Scratch::new();
        let (_, mut child) = begun(&scratch);
        sleep(time * step / 8);
        child.kill().unwrap();
        child.wait().unwrap();
        let replaced = whole(&scratch);
        assert!(step > 0 || replaced == 0, "{replaced} at once");
    }
}

/// On generated blocks: what is stored is what the simulator writes, and `--cover` is NAME.cover.
#[test]
fn generated_blocks() {
    let scratch = Scratch::new();
    let mut texts = Vec::new();
    for_blocks(0..60, Size::SMALL, |_, _, words| {
        texts.push(write(words, usize::MAX).1);
    });
    for (index, text) in texts.iter().enumerate() {
        scratch.put(&format!("d/{index}.net"), text);
    }
    assert!(run(&scratch, &["--store", "d"]).status.success());
    let mut covers = String::new();
    for (index, text) in texts.iter().enumerate() {
        let _report = Report(|| String::from_utf8_lossy(text).into_owned());
        assert_eq!(scratch.get(&format!("d/{index}.out")).as_bytes(), out(text));
        let cover = stored_cover(text).unwrap();
        assert_eq!(scratch.get(&format!("d/{index}.cover")), cover);
        let none = "settles under no setting\n".to_string();
        let cover = if cover.is_empty() { none } else { cover };
        covers.extend(cover.lines().map(|line| format!("d/{index}.net: {line}\n")));
    }
    let files = (0..texts.len()).map(|index| format!("d/{index}.net"));
    let files: Vec<String> = files.collect();
    let words = ["--cover"]
        .into_iter()
        .chain(files.iter().map(String::as_str));
    told(run(&scratch, &words.collect::<Vec<_>>()), 0, &covers, "");
}

#[test]
fn covers_alone() {
    let scratch = with(&[
        ("rate.net", &catalogue("rate.net")),
        ("one.net", &catalogue("one-solution.net")),
        ("mode.net", &catalogue("mode-pins.net")),
        ("cut.net", "(in s)"),
    ]);
    told(
        run(&scratch, &["--cover", "rate.net"]),
        0,
        &catalogue("rate.cover"),
        "",
    );
    let given = ended(
        command(&scratch).arg("--cover"),
        catalogue("rate.net").as_bytes(),
    );
    told(given, 0, &catalogue("rate.cover"), "");
    told(run(&scratch, &["--cover", "one.net"]), 0, "", "");
    let cut = "cut.net:1:7: form: the last line lacks its LF\n(in s)\n      ^\n";
    told(run(&scratch, &["--cover", "cut.net"]), 1, "", cut);
    let output = "mode.net: never fast = 1, slow = 1\nmode.net: always\n\
                  rate.net: mute = 1\nrate.net: k44 = 1\nrate.net: k48 = 0\none.net: settles under no setting\n";
    let errors = format!("{cut}unloop: none: No such file or directory\n");
    let words = [
        "--cover", "mode.net", "cut.net", "rate.net", "none", "one.net",
    ];
    told(run(&scratch, &words), 2, output, &errors);
}
