//! `bin/unloop` on files: what it writes where and what it leaves alone, its options and its exit status.

mod session;

use session::{command, run, told, with};
use simulator::executed::{ended, root, Scratch};
use simulator::specimens::{PROGRAM_INPUT, PROGRAM_OUTPUT};
use std::fs;
use std::io::Write;
use std::os::unix::fs::symlink;
use std::process::{Command, Output, Stdio};
use std::thread;

/// A netlist other than the specimen, and its rendering.
const INVERTER: &str = "(in a)\n(gate p (not a))\n(out y p)\n";
const INVERTED: &str = "(in a)\n(gate _0 (not a))\n(out y _0)\n";
/// Refused with 9.
const LATCH: &str =
    "(in s)\n(in r)\n(gate q (nor r n))\n(gate n (nor s q))\n(out q q)\n(out n n)\n";
const LATCH_REPORT: &str =
    ": undecided\n  not settled with s = 0, r = 0: q, n undefined\n  q waits for n, n waits for q\n  settles with s = 1\n  settles with r = 1\n";

#[test]
fn one_file_to_standard_output() {
    let scratch = with(&[("a b.net", PROGRAM_INPUT)]);
    told(run(&scratch, &["a b.net"]), 0, PROGRAM_OUTPUT, "");
    assert_eq!(scratch.names("."), ["a b.net"]);
    assert_eq!(scratch.get("a b.net"), PROGRAM_INPUT);
}

#[test]
fn several_files_to_standard_output_and_a_summary() {
    let scratch = with(&[("a", PROGRAM_INPUT), ("b", LATCH), ("c", INVERTER)]);
    let output = format!("{PROGRAM_OUTPUT}(refused 9 0)\n{INVERTED}");
    let summary = "3 files: 2 rendered, 1 refused (1 with 9 undecided)";
    let errors = format!(
        "1/3 a: rendered\nb{LATCH_REPORT}2/3 b: refused 9 undecided\n3/3 c: rendered\n{summary}\n"
    );
    told(run(&scratch, &["a", "b", "c"]), 1, &output, &errors);
}

/// Exports go on behind a file that can't be read, or whose name is taken, as renderings do.
#[test]
fn exports_of_bad_files() {
    let scratch = with(&[
        ("a.net", INVERTER),
        ("d/a.net", LATCH),
        ("e.net", INVERTER),
        ("r.net", LATCH),
    ]);
    fs::create_dir(scratch.path("b.net")).unwrap();
    let errors = format!(
        "unloop: b.net: Is a directory\nunloop: gone: No such file or directory\nr.net{LATCH_REPORT}\
         unloop: e/../a.net: a FILE before it gives the name a too\n"
    );
    fs::create_dir(scratch.path("e")).unwrap();
    for form in ["--verilog", "--blif", "--cells"] {
        let alone = |file: &str| String::from_utf8(run(&scratch, &[form, file]).stdout).unwrap();
        let expected = alone("a.net") + &alone("e.net");
        assert!(expected.matches("inputs").count() + expected.matches("module").count() > 1);
        let words = [
            form,
            "a.net",
            "b.net",
            "gone",
            "r.net",
            "e/../a.net",
            "e.net",
        ];
        told(run(&scratch, &words), 2, &expected, &errors);
    }
}

#[test]
fn standard_input() {
    let scratch = Scratch::new();
    let given = |text: &str| ended(&mut command(&scratch), text.as_bytes());
    told(given(PROGRAM_INPUT), 0, PROGRAM_OUTPUT, "");
    told(given(""), 0, "", "");
    let errors = "<stdin>:1:7: form: the last line lacks its LF\n(in a)\n      ^\n";
    told(given("(in a)"), 1, "(refused 2 6)\n", errors);
}

#[test]
fn empty_file() {
    let scratch = with(&[("empty.net", "")]);
    told(run(&scratch, &["empty.net"]), 0, "", "");
    let errors = "1/1 empty.net: rendered\n1 file: 1 rendered, 0 refused\n";
    told(
        run(&scratch, &["--into", "out", "empty.net"]),
        0,
        "",
        errors,
    );
    assert_eq!(scratch.get("out/empty.net"), "");
}

#[test]
fn into_a_folder() {
    let files = [
        ("in/a.net", PROGRAM_INPUT),
        ("b.net", LATCH),
        ("c.net", INVERTER),
    ];
    let scratch = with(&files);
    let errors = format!(
        "1/3 in/a.net: rendered\nb.net{LATCH_REPORT}2/3 b.net: refused 9 undecided\n3/3 c.net: rendered\n\
         3 files: 2 rendered, 1 refused (1 with 9 undecided)\n"
    );
    let words = ["--into", "new/out", "in/a.net", "b.net", "c.net"];
    told(run(&scratch, &words), 1, "", &errors);
    assert_eq!(scratch.names("new/out"), ["a.net", "c.net"]);
    assert_eq!(scratch.get("new/out/a.net"), PROGRAM_OUTPUT);
    assert_eq!(scratch.get("new/out/c.net"), INVERTED);
    files
        .iter()
        .for_each(|(name, text)| assert_eq!(scratch.get(name), *text));
}

#[test]
fn nothing_is_overwritten_without_force() {
    let scratch = with(&[("a", PROGRAM_INPUT), ("b", INVERTER), ("out/a", "kept")]);
    let errors =
        "unloop: out/a: exists already (--force replaces it)\n1/2 a: error\n2/2 b: rendered\n\
                  2 files: 1 rendered, 0 refused, 1 error\n";
    told(run(&scratch, &["--into", "out", "a", "b"]), 2, "", errors);
    assert_eq!(scratch.get("out/a"), "kept");
    assert_eq!(scratch.get("out/b"), INVERTED);
    assert_eq!(scratch.names("out"), ["a", "b"]);
}

/// Not even a link that leads nowhere.
#[test]
fn no_link_is_overwritten_without_force() {
    let scratch = with(&[("a", PROGRAM_INPUT), ("out/b", "")]);
    symlink("nowhere", scratch.path("out/a")).unwrap();
    assert_eq!(
        run(&scratch, &["--into", "out", "a"]).status.code(),
        Some(2)
    );
    assert_eq!(scratch.names("out"), ["a", "b"]);
    assert!(fs::read_link(scratch.path("out/a")).is_ok());
}

#[test]
fn force_replaces() {
    let scratch = with(&[("a", PROGRAM_INPUT), ("out/a", "old"), ("linked", "kept")]);
    let errors = "1/1 a: rendered\n1 file: 1 rendered, 0 refused\n";
    let words = ["--force", "--into", "out", "a"];
    told(run(&scratch, &words), 0, "", errors);
    assert_eq!(scratch.get("out/a"), PROGRAM_OUTPUT);
    // A link is replaced, and what it leads to is not.
    fs::remove_file(scratch.path("out/a")).unwrap();
    symlink("../linked", scratch.path("out/a")).unwrap();
    told(run(&scratch, &words), 0, "", errors);
    assert_eq!(scratch.get("out/a"), PROGRAM_OUTPUT);
    assert_eq!(scratch.get("linked"), "kept");
    assert_eq!(scratch.names("out"), ["a"]);
}

#[test]
fn same_names() {
    let scratch = with(&[("a/x", PROGRAM_INPUT), ("b/x", INVERTER)]);
    for force in [&[][..], &["--force"]] {
        let _ = fs::remove_dir_all(scratch.path("out"));
        let words = [force, &["--into", "out", "a/x", "b/x"]].concat();
        let errors =
            "1/2 a/x: rendered\nunloop: b/x: a FILE before it has the same name\n2/2 b/x: error\n\
                      2 files: 1 rendered, 0 refused, 1 error\n";
        told(run(&scratch, &words), 2, "", errors);
        assert_eq!(scratch.get("out/x"), PROGRAM_OUTPUT);
        assert_eq!(scratch.names("out"), ["x"]);
    }
}

#[test]
fn originals_are_never_overwritten() {
    let scratch = with(&[
        ("x", PROGRAM_INPUT),
        ("a/y", INVERTER),
        ("out/y", PROGRAM_INPUT),
    ]);
    symlink("../x", scratch.path("out/x")).unwrap();
    for (words, path) in [
        (&["--into", ".", "x"][..], "./x"),
        (&["--force", "--into", ".", "./x"], "./x"),
        (&["--force", "--into", "out", "x"], "out/x"),
        // The rendering of one file in the place of another.
        (&["--force", "--into", "out", "a/y", "out/y"], "out/y"),
    ] {
        let ended = run(&scratch, words);
        let line = format!("unloop: {path}: is one of the FILEs, and isn't overwritten\n");
        let errors = String::from_utf8(ended.stderr).unwrap();
        assert!(errors.starts_with(&line), "{words:?}: {errors}");
        assert_eq!(ended.status.code(), Some(2), "{words:?}");
        assert_eq!(scratch.get("x"), PROGRAM_INPUT);
        assert_eq!(scratch.get("out/y"), PROGRAM_INPUT);
        assert_eq!(scratch.names("out"), ["x", "y"]);
        assert_eq!(scratch.names("."), ["a", "out", "x"]);
    }
}

/// Of runs at the same time that write the same name, one does, and the file is its.
#[test]
fn one_of_many_at_once() {
    let scratch = with(&[("a/x", PROGRAM_INPUT), ("b/x", INVERTER)]);
    for round in 0..5 {
        let folder = format!("out{round}");
        let start = |file: &'static str| run(&scratch, &["--into", &folder, file]).status.code();
        let ends: Vec<Option<i32>> = thread::scope(|scope| {
            let files = ["a/x", "b/x", "a/x", "b/x"];
            let started = files.map(|file| scope.spawn(move || start(file)));
            started.into_iter().map(|run| run.join().unwrap()).collect()
        });
        assert_eq!(
            ends.iter().filter(|&&end| end == Some(0)).count(),
            1,
            "{ends:?}"
        );
        assert_eq!(
            ends.iter().filter(|&&end| end == Some(2)).count(),
            3,
            "{ends:?}"
        );
        let expected = if ends[0] == Some(0) || ends[2] == Some(0) {
            PROGRAM_OUTPUT
        } else {
            INVERTED
        };
        assert_eq!(scratch.get(&format!("{folder}/x")), expected);
        assert_eq!(scratch.names(&folder), ["x"]);
    }
}

#[test]
fn files_that_cannot_be_read() {
    let scratch = with(&[("a", PROGRAM_INPUT), ("folder/b", "")]);
    symlink("nowhere", scratch.path("link")).unwrap();
    let errors = "unloop: gone: No such file or directory\n1/5 gone: error\n\
                  unloop: folder: Is a directory\n2/5 folder: error\n\
                  unloop: link: No such file or directory\n3/5 link: error\n\
                  unloop: a/b: Not a directory\n4/5 a/b: error\n5/5 a: rendered\n\
                  5 files: 1 rendered, 0 refused, 4 errors\n";
    let words = ["gone", "folder", "link", "a/b", "a"];
    told(run(&scratch, &words), 2, PROGRAM_OUTPUT, errors);
    let errors = "unloop: gone: No such file or directory\n";
    told(run(&scratch, &["gone"]), 2, "", errors);
    let errors = "unloop: gone: No such file or directory\n1/2 gone: error\n2/2 a: rendered\n\
                  2 files: 1 rendered, 0 refused, 1 error\n";
    told(
        run(&scratch, &["--into", "out", "gone", "a"]),
        2,
        "",
        errors,
    );
    assert_eq!(scratch.names("out"), ["a"]);
    let errors = "unloop: folder/..: has no name of its own\n1/1 folder/..: error\n1 file: 0 rendered, 0 refused, 1 error\n";
    told(
        run(&scratch, &["--into", "out", "folder/.."]),
        2,
        "",
        errors,
    );
}

#[test]
fn folders_that_cannot_be_written() {
    let scratch = with(&[("a", PROGRAM_INPUT), ("b", ""), ("out/a/c", "")]);
    let ended = run(&scratch, &["--into", "b", "a"]);
    told(ended, 2, "", "unloop: b: File exists\n");
    let errors =
        "unloop: out/a: Is a directory\n1/1 a: error\n1 file: 0 rendered, 0 refused, 1 error\n";
    told(
        run(&scratch, &["--force", "--into", "out", "a"]),
        2,
        "",
        errors,
    );
    assert_eq!(scratch.names("out"), ["a"]);
    assert_eq!(scratch.names("out/a"), ["c"]);
}

#[test]
fn bad_usage() {
    let scratch = with(&[("a", PROGRAM_INPUT), ("-b", INVERTER), ("--help", INVERTER)]);
    for (words, line) in [
        (&["--frobnicate", "a"][..], "unknown option --frobnicate"),
        (&["a", "-x"], "unknown option -x"),
        (&["-\x1b\n"], "unknown option -??"),
        (&["a", "--into"], "--into needs DIR"),
        (&["a", "-o"], "-o needs OUT"),
        (&["--json=x", "a"], "--json takes no value"),
        (&["-Vx"], "-V takes no value"),
        (&["-", "-"], "standard input (-) can't be read twice"),
        (
            &["--sheet", "-", "-"],
            "standard input (-) can't be read twice",
        ),
        (
            &["--into=out", "-"],
            "--into needs a FILE: standard input has no name",
        ),
        (&["--into", "out", "-oa", "-b"], "unknown option -b"),
        (
            &["-ox", "--into", "out", "a"],
            "--into DIR without --json writes nothing to standard output, so -o has no use",
        ),
        (
            &["--into", "out"],
            "--into needs a FILE: standard input has no name",
        ),
        (
            &["--force", "a"],
            "--force needs --into DIR, --page DIR or --store DIR",
        ),
    ] {
        let errors = format!("unloop: {line} (see --help)\n");
        told(run(&scratch, words), 2, "", &errors);
    }
    assert_eq!(scratch.names("."), ["--help", "-b", "a"]);
    let both = format!("{INVERTED}{INVERTED}");
    let errors = "1/2 -b: rendered\n2/2 --help: rendered\n2 files: 2 rendered, 0 refused\n";
    told(run(&scratch, &["--", "-b", "--help"]), 0, &both, errors);
}

#[test]
fn help() {
    let scratch = Scratch::new();
    let usage = root().join("rust/src/bin/unloop-files/usage.txt");
    let usage = fs::read_to_string(usage).unwrap();
    assert!(usage.starts_with("usage: unloop [-o OUT] [FILE ...]\n"));
    told(run(&scratch, &["--help"]), 0, &usage, "");
    told(run(&scratch, &["--force", "--help"]), 0, &usage, "");
    told(run(&scratch, &["-h", "--frobnicate"]), 0, &usage, "");
    let version = format!("unloop {}\n", package_version());
    told(run(&scratch, &["--version"]), 0, &version, "");
    told(run(&scratch, &["-V"]), 0, &version, "");
}

/// As rust/Cargo.toml says it.
fn package_version() -> String {
    let manifest = fs::read_to_string(root().join("rust/Cargo.toml")).unwrap();
    let line = manifest
        .lines()
        .find_map(|line| line.strip_prefix("version = "));
    line.unwrap().trim_matches('"').to_string()
}

/// Every option that usage.txt lists is known, by each of its names: alone it is used, or says what it needs.
#[test]
fn options_of_the_usage() {
    let scratch = Scratch::new();
    let usage = fs::read_to_string(root().join("rust/src/bin/unloop-files/usage.txt")).unwrap();
    let lines = usage.lines().filter(|line| line.starts_with("  -"));
    let names = lines.flat_map(|line| {
        let words = line.split_whitespace();
        words
            .take_while(|word| word.starts_with('-'))
            .map(|word| word.trim_end_matches(','))
    });
    let names: Vec<&str> = names.collect();
    assert!(names.len() >= 18, "{names:?}");
    for name in names {
        let errors = String::from_utf8(run(&scratch, &[name]).stderr).unwrap();
        assert!(!errors.contains("unknown option"), "{errors}");
    }
}

/// Standard input by its name, wherever a file is read.
#[test]
fn a_minus_is_standard_input() {
    let scratch = with(&[("a", PROGRAM_INPUT), ("list", "a = 1\n"), ("n", INVERTER)]);
    let given =
        |words: &[&str], input: &str| ended(command(&scratch).args(words), input.as_bytes());
    told(given(&["-"], PROGRAM_INPUT), 0, PROGRAM_OUTPUT, "");
    told(given(&["--", "-"], PROGRAM_INPUT), 0, PROGRAM_OUTPUT, "");
    let both = format!("{PROGRAM_OUTPUT}{INVERTED}");
    let errors = "1/2 a: rendered\n2/2 <stdin>: rendered\n2 files: 2 rendered, 0 refused\n";
    told(given(&["a", "-"], INVERTER), 0, &both, errors);
    let report = "<stdin>:1:7: form: the last line lacks its LF\n(in a)\n      ^\n";
    told(given(&["-"], "(in a)"), 1, "(refused 2 6)\n", report);
    let accepted = "<stdin>: accepted\n";
    told(given(&["--check", "-", "n"], INVERTED), 0, accepted, "");
    told(given(&["--check=n", "-"], INVERTED), 0, "n: accepted\n", "");
    let table = given(&["--sheet=list", "-"], INVERTER);
    assert!(table.status.success() && !table.stdout.is_empty());
    told(
        given(&["--sheet", "-", "n"], "a = 1\n"),
        0,
        &String::from_utf8(table.stdout).unwrap(),
        "",
    );
}

/// `-o OUT` is replaced by what would go to standard output; a file that is read is not.
#[test]
fn output_in_a_file() {
    let scratch = with(&[
        ("a", PROGRAM_INPUT),
        ("b", LATCH),
        ("out", &"old\n".repeat(999)),
    ]);
    symlink("a", scratch.path("linked")).unwrap();
    for words in [
        &["-o", "out", "a"][..],
        &["-oout", "a"],
        &["a", "--output=out"],
    ] {
        scratch.put("out", "old\n".repeat(999));
        told(run(&scratch, words), 0, "", "");
        assert_eq!(scratch.get("out"), PROGRAM_OUTPUT);
    }
    told(run(&scratch, &["-o", "-", "a"]), 0, PROGRAM_OUTPUT, "");
    assert_eq!(run(&scratch, &["-o", "out", "b"]).status.code(), Some(1));
    assert!(scratch.get("out").starts_with("(refused 9 "));
    assert!(run(&scratch, &["-o", "out", "--verilog", "a"])
        .status
        .success());
    assert!(scratch.get("out").starts_with("// rendering of "));
    for (out, why) in [
        ("a", "is one of the FILEs, and isn't overwritten"),
        ("linked", "is one of the FILEs, and isn't overwritten"),
        ("none/out", "No such file or directory"),
    ] {
        let errors = format!("unloop: {out}: {why}\n");
        told(run(&scratch, &["-o", out, "a"]), 2, "", &errors);
    }
    let errors = "unloop: a: is one of the FILEs, and isn't overwritten\n";
    told(run(&scratch, &["--check", "a", "b", "-oa"]), 2, "", errors);
    assert_eq!(scratch.get("a"), PROGRAM_INPUT);
}

/// A reader that has gone ends the run without a word, on either of the two.
#[test]
fn readers_that_have_gone() {
    let scratch = with(&[("a", PROGRAM_INPUT), ("b", LATCH)]);
    let mut command = command(&scratch);
    let pipes = command.stdin(Stdio::piped()).stdout(Stdio::piped());
    let mut child = pipes.stderr(Stdio::piped()).spawn().unwrap();
    // It waits for its input, so the reader has gone before it writes.
    drop(child.stdout.take());
    let mut input = child.stdin.take().unwrap();
    input.write_all(PROGRAM_INPUT.as_bytes()).unwrap();
    drop(input);
    let ended = child.wait_with_output().unwrap();
    told(ended, 2, "", "");

    let into = ["--into", "out", "a", "b"];
    let (reader, writer) = std::io::pipe().unwrap();
    drop(reader);
    let status = self::command(&scratch).args(into).stderr(writer).status();
    assert_eq!(status.unwrap().code(), Some(1));
    assert_eq!(scratch.get("out/a"), PROGRAM_OUTPUT);
}

#[test]
fn standard_output_that_is_full() {
    let scratch = with(&[("a", PROGRAM_INPUT)]);
    let full = fs::File::options().write(true).open("/dev/full").unwrap();
    let (reader, writer) = std::io::pipe().unwrap();
    let status = command(&scratch)
        .args(["a", "a"])
        .stdout(full)
        .stderr(writer)
        .status();
    assert_eq!(status.unwrap().code(), Some(2));
    let errors = std::io::read_to_string(reader).unwrap();
    assert_eq!(errors, "unloop: standard output: No space left on device\n");
}

/// The driver with another program than the proved one.
fn with_program(scratch: &Scratch, program: &str) -> Output {
    run(scratch, &[]); // built
    let driver = root().join("target/driver/release/unloop-files");
    let mut driver = Command::new(driver);
    ended(
        driver.current_dir(scratch.path(".")).args([program, "a"]),
        b"",
    )
}

#[test]
fn programs_that_fail() {
    let scratch = with(&[("a", PROGRAM_INPUT)]);
    let program =
        |name: &str, script: &str| scratch.put_script(name, &format!("#!/bin/sh\n{script}\n"));
    let errors = "unloop: a: ./gone failed: No such file or directory\n";
    told(with_program(&scratch, "./gone"), 2, "", errors);
    program("fails", "cat; echo no >&2; exit 3");
    let errors = "unloop: a: ./fails failed: exit status: 3\n";
    told(with_program(&scratch, "./fails"), 2, "", errors);
    program("killed", "kill -9 $$");
    let errors = "unloop: a: ./killed failed: signal: 9 (SIGKILL)\n";
    told(with_program(&scratch, "./killed"), 2, "", errors);
    for strange in [
        "(refused 99 0)",
        "(refused 2)",
        "(refused 2 0)x",
        "(refused 2 -1)",
        "(refused 0 0)",
    ] {
        program("strange", &format!("cat >/dev/null; echo '{strange}'"));
        let errors = "unloop: a: the program's answer is no refusal that is known here\n";
        told(with_program(&scratch, "./strange"), 2, "", errors);
    }
}

#[test]
fn through_a_link() {
    let scratch = with(&[("a", PROGRAM_INPUT)]);
    run(&scratch, &[]); // built
    symlink(root().join("bin/unloop"), scratch.path("linked")).unwrap();
    symlink("linked", scratch.path("again")).unwrap();
    let mut command = Command::new("./again");
    let ended = ended(command.current_dir(scratch.path(".")).arg("a"), b"");
    told(ended, 0, PROGRAM_OUTPUT, "");
}

/// Renderings of the whole catalogue are the files that stand beside the netlists, and nothing else is written.
#[test]
fn catalogue() {
    let scratch = Scratch::new();
    let folder = root().join("catalogue");
    let entries = fs::read_dir(&folder).unwrap();
    let paths = entries.map(|entry| entry.unwrap().path());
    let netlists: Vec<_> = paths
        .filter(|path| path.extension().is_some_and(|e| e == "net"))
        .collect();
    let ended = ended(
        command(&scratch).args(["--into", "out"]).args(&netlists),
        b"",
    );
    let mut rendered = Vec::new();
    for path in &netlists {
        let expected = fs::read_to_string(path.with_extension("out")).unwrap();
        if !expected.starts_with("(refused ") {
            let name = path.file_name().unwrap().to_str().unwrap().to_string();
            assert_eq!(scratch.get(&format!("out/{name}")), expected);
            rendered.push(name);
        }
    }
    rendered.sort();
    assert_eq!(scratch.names("out"), rendered);
    let (all, rendered) = (netlists.len(), rendered.len());
    let summary = format!(
        "{all} files: {rendered} rendered (2 with settings excluded), {} refused (",
        all - rendered
    );
    let errors = String::from_utf8(ended.stderr).unwrap();
    assert!(
        errors.lines().last().unwrap().starts_with(&summary),
        "{errors}"
    );
    assert_eq!(ended.status.code(), Some(1));
}

/// Many files at once: what is written and told is in their order, whichever was done first.
#[test]
fn many_files_keep_their_order() {
    let scratch = Scratch::new();
    let folder = root().join("catalogue");
    let paths = ["smallest", "scaler", "rate", "arbiter", "misspelt", "latch"];
    let paths = paths.map(|name| folder.join(format!("{name}.net")));
    let many: Vec<_> = paths.iter().cycle().take(120).collect();
    let ended = ended(command(&scratch).args(&many), b"");
    let texts = many.iter().map(|path| fs::read(path).unwrap());
    let expected: Vec<u8> = texts.flat_map(|text| simulator::unloop(&text)).collect();
    assert!(ended.stdout == expected);
    let errors = String::from_utf8(ended.stderr).unwrap();
    let progress = errors
        .lines()
        .filter(|line| line.contains(&format!("/{} ", many.len())));
    let told: Vec<&str> = progress
        .map(|line| line.rsplit_once(": ").unwrap().0)
        .collect();
    let names = (1..)
        .zip(&many)
        .map(|(number, path)| format!("{number}/{} {}", many.len(), path.display()));
    assert_eq!(told, names.collect::<Vec<_>>());
}

/// Each rendering is there and whole, though many are written at once in the place of others.
#[test]
fn many_files_into_a_folder() {
    let scratch = Scratch::new();
    let names: Vec<String> = (0..150).map(|number| format!("{number}.net")).collect();
    let text = |number: usize| format!("(in a{number})\n(gate p (not a{number}))\n(out y p)\n");
    (0..150).for_each(|number| scratch.put(&names[number], text(number)));
    for _ in 0..3 {
        let mut command = command(&scratch);
        let ended = ended(command.args(["--force", "--into", "out"]).args(&names), b"");
        let errors = String::from_utf8(ended.stderr).unwrap();
        let summary = "150 files: 150 rendered, 0 refused";
        assert_eq!(errors.lines().last(), Some(summary), "{errors}");
        assert_eq!(scratch.names("out").len(), 150);
        for (number, name) in names.iter().enumerate() {
            let expected = simulator::unloop(text(number).as_bytes());
            assert_eq!(scratch.get(&format!("out/{name}")).into_bytes(), expected);
        }
    }
}
