//! `bin/bench`, the script before the proved program: standard output is that program's byte for byte, and what is told beside it is the
//! prompt on a terminal and the word of each refusal.

use simulator::bench::parted;
use simulator::executed::{ended, program, root, Scratch};
use simulator::generate::{bench_input, odd_bench_input, Random, Report, Size};
use std::io::{BufRead, BufReader, Write};
use std::path::Path;
use std::process::{Command, Output, Stdio};

const BLOCK: &str = "(in a)\n(in b)\n(gate p (and a q))\n(gate q (or b p))\n(out y q)\n(out z a)\n";
const WORDS: [&str; 6] = ["", "overlong", "form", "crowded", "twice", "unknown"];

fn bench(netlist: &Path) -> Command {
    let mut command = Command::new(root().join("bin/bench"));
    command.arg(netlist);
    command
}

/// What the proved program writes for all of an input.
fn proved(input: &[u8]) -> String {
    let mut program = Command::new(program("bench"));
    String::from_utf8(ended(&mut program, input).stdout).unwrap()
}

fn refusal(line: &str) -> Option<(usize, usize)> {
    let numbers = line.strip_prefix("(refused ")?.strip_suffix(')')?;
    let (number, detail) = numbers.split_once(' ')?;
    Some((number.parse().unwrap(), detail.parse().unwrap()))
}

/// What is to be told of the answers to set lines.
fn words(answers: &str) -> String {
    let refused = answers.lines().zip(1..);
    let refused = refused.filter_map(|(line, row)| Some((row, refusal(line)?)));
    let told = refused.map(|(row, (number, detail))| {
        let word = WORDS[number];
        format!("bench: set line {row}: {number} {word}, at byte {detail} of the line\n")
    });
    told.collect()
}

#[track_caller]
fn told(ended: Output, status: i32, output: &str, errors: &str) {
    let text = |bytes: &[u8]| String::from_utf8_lossy(bytes).into_owned();
    assert_eq!(text(&ended.stdout), output);
    assert_eq!(text(&ended.stderr), errors);
    assert_eq!(ended.status.code(), Some(status));
}

/// Generated netlists and set lines: the answers are the program's, and each refusal has its word. A netlist that is refused ends with 1.
#[test]
fn answers_are_the_programs() {
    let scratch = Scratch::new();
    let path = scratch.path("x.net");
    let mut refused = [0; 2];
    for seed in 0..24 {
        let mut random = Random::new(seed);
        let input = match seed % 2 {
            0 => bench_input(&mut random, Size::SMALL, 12),
            _ => odd_bench_input(&mut random, Size::SMALL),
        };
        let (netlist, lines) = parted(&input);
        if netlist.is_empty() || netlist.contains(&0) {
            continue;
        }
        let _report = Report(|| format!("{seed}"));
        scratch.put("x.net", netlist);
        let ended = ended(&mut bench(&path), lines);
        let written = String::from_utf8(ended.stdout.clone()).unwrap();
        let whole = netlist.ends_with(b"\n");
        let first = proved(&[netlist, if whole { b"\n" } else { b"" }].concat());
        let Some((number, _)) = first.strip_suffix('\n').and_then(refusal) else {
            assert_eq!(written, proved(&input));
            refused[0] += words(&written).lines().count();
            told(ended, 0, &written, &words(&written));
            continue;
        };
        assert_eq!(written, first);
        assert_eq!(ended.status.code(), Some(1));
        let errors = String::from_utf8(ended.stderr).unwrap();
        let end = format!(": {number} {}\n", WORDS[number]);
        assert!(
            errors.starts_with("bench: ") && errors.ends_with(&end),
            "{errors}"
        );
        refused[1] += 1;
    }
    assert!(refused[0] > 10 && refused[1] > 3, "{refused:?}");
}

/// Where a netlist is refused: its line and column, from 1 on, and nothing of the input is answered.
#[test]
fn netlists_that_are_refused() {
    let scratch = Scratch::new();
    for (text, answer, place) in [
        ("(in a)\n(out y b)\n", "(refused 5 14)\n", ":2:8: 5 unknown"),
        ("(in a)\n(in a)\n", "(refused 4 11)\n", ":2:5: 4 twice"),
        ("(in A)\n", "(refused 2 4)\n", ":1:5: 2 form"),
        ("(in a)\n(in b)", "(refused 2 13)\n", ":2:7: 2 form"),
        (&"(in a)\n".repeat(13), "(refused 3 0)\n", ": 3 crowded"),
    ] {
        scratch.put("x.net", text);
        let path = scratch.path("x.net");
        let errors = format!("bench: {}{place}\n", path.display());
        let ended = ended(&mut bench(&path), b"(set (a 1))\n");
        told(ended, 1, answer, &errors);
    }
}

/// Each answer comes before the next line is there.
#[test]
fn answers_come_at_once() {
    let scratch = Scratch::new();
    scratch.put("x.net", BLOCK);
    let mut command = Command::new("timeout");
    let command = command.arg("60").arg(root().join("bin/bench"));
    let command = command.arg(scratch.path("x.net")).stderr(Stdio::null());
    let mut child = command
        .stdin(Stdio::piped())
        .stdout(Stdio::piped())
        .spawn()
        .unwrap();
    let mut input = child.stdin.take().unwrap();
    let mut output = BufReader::new(child.stdout.take().unwrap());
    for (line, expected) in [
        ("(set (b 1))\n", "(show (y 1) (z u))\n"),
        ("(set (c 1))\n", "(refused 5 6)\n"),
        ("(set)\n", "(show (y u) (z u))\n"),
    ] {
        input.write_all(line.as_bytes()).unwrap();
        let mut answer = String::new();
        output.read_line(&mut answer).unwrap();
        assert_eq!(answer, expected);
    }
    drop(input);
    assert!(child.wait().unwrap().success());
}

/// On a terminal, which `script` of Debian's bsdutils makes, the pins stand before each line and behind the last answer; standard output, here
/// a file, has the answers alone.
#[test]
fn prompt_on_a_terminal() {
    let scratch = Scratch::new();
    scratch.put("x.net", BLOCK);
    let mut command = Command::new("script");
    let bench = root().join("bin/bench");
    let line = format!("'{}' x.net > answers", bench.display());
    let command = command
        .args(["-qec", &line, "/dev/null"])
        .current_dir(scratch.path("."));
    let lines = "(set (b 1))\n(set (c 1))\n";
    let ended = ended(command, lines.as_bytes());
    assert!(ended.status.success(), "{ended:?}");
    let answers = proved(format!("{BLOCK}\n{lines}").as_bytes());
    assert_eq!(scratch.get("answers"), answers);
    let seen = String::from_utf8(ended.stdout).unwrap().replace('\r', "");
    assert_eq!(seen.matches("a b> ").count(), 3, "{seen}");
    assert!(
        seen.ends_with("a b> \n") && seen.contains(&words(&answers)),
        "{seen}"
    );
}

/// Elsewhere there is no prompt, and nothing is told of answers that are no refusals.
#[test]
fn no_prompt_elsewhere() {
    let scratch = Scratch::new();
    scratch.put("x.net", BLOCK);
    let ended = ended(&mut bench(&scratch.path("x.net")), b"(set (b 1))\n");
    told(ended, 0, "(show (y 1) (z u))\n", "");
}

#[test]
fn help() {
    for option in ["-h", "--help"] {
        let mut command = Command::new(root().join("bin/bench"));
        let ended = ended(command.arg(option), b"");
        assert!(ended.status.success() && ended.stderr.is_empty());
        let usage = String::from_utf8(ended.stdout).unwrap();
        for told in [
            "usage: bin/bench FILE.net\n",
            "(set (NAME VALUE) ...)",
            "Exit status: 0 ",
        ] {
            assert!(usage.contains(told), "{usage}");
        }
    }
}
