//! The program `bench`: the simulator against worked examples, and the proved program against the simulator, its input cut
//! into pieces. Its `main` can have no contract, so that it moves all bytes, and each answer at once, is held by this.

use simulator::bench::{first_error, parted};
use simulator::compare::programs::{bench_program, compare_bench, set_lines, written_in_pieces};
use simulator::compare::tally::answered_often;
use simulator::executed::{ended, root};
use simulator::generate::{bench_input, long_bench_inputs, set_line, text, Random, Size};
use simulator::{bench, cut};
use std::fs;
use std::io::{BufRead, BufReader, Write};
use std::process::Stdio;

const BLOCK: &str = "(in a)\n(in b)\n(gate p (and a q))\n(gate q (or b p))\n(out y q)\n(out z a)\n";

#[track_caller]
fn answers(lines: &str, expected: &str) {
    let input = format!("{BLOCK}\n{lines}");
    let told = String::from_utf8(bench(input.as_bytes())).unwrap();
    assert_eq!(told, expected, "{}", lines.escape_debug());
}

#[test]
fn worked_examples() {
    answers("", "");
    answers("(set)\n", "(show (y u) (z u))\n");
    answers("(set (b 1))\n", "(show (y 1) (z u))\n");
    answers("(set (b 0) (a 0))\n", "(show (y 0) (z 0))\n");
    answers("(set (a 1) (b 0))\n", "(show (y u) (z 1))\n");
    answers("(set (_q 1))\n", "(refused 5 6)\n");
    answers("(set (p 1))\n", "(refused 5 6)\n");
    answers("(set (a 1) (a 1))\n", "(refused 4 12)\n");
    answers("(set (q 1) (q 1))\n", "(refused 4 12)\n");
    answers("(set (a 1) (b 1) (a 0))\n", "(refused 2 16)\n");
    answers("\n(set (b 1))\n", "(refused 2 0)\n(show (y 1) (z u))\n");
    answers("(set (a 1)\n", "(refused 2 10)\n");
    answers("(set (a 1))", "(refused 2 11)\n");
    answers(
        "(se\n(set)\n(",
        "(refused 2 3)\n(show (y u) (z u))\n(refused 2 1)\n",
    );
    answers("(set (abcdefghi 1))\n", "(refused 2 14)\n");
}

/// A setting that never comes is answered as any other.
#[test]
fn never_lines_play_no_part() {
    let (inputs, rest) = BLOCK.split_at("(in a)\n(in b)\n".len());
    let lines =
        "(set (a 1) (b 0))\n(set (b 1))\n(set (a 0) (b 1))\n(set)\n(set (a 1) (b 1) (a 1))\n";
    let plain = bench(format!("{inputs}{rest}\n{lines}").as_bytes());
    let nevers = "(never (b 0) (a 1))\n(never (b 1))\n";
    let told = bench(format!("{inputs}{nevers}{rest}\n{lines}").as_bytes());
    assert_eq!(told, plain);
    let refused = bench(format!("{inputs}(never (y 1))\n{rest}\n{lines}").as_bytes());
    assert_eq!(refused, b"(refused 5 22)\n");
}

#[test]
fn where_the_netlist_ends() {
    for (input, netlist, rest) in [
        ("", "", ""),
        ("\n", "", ""),
        ("\n\n", "", "\n"),
        ("(in a)\n", "(in a)\n", ""),
        ("(in a)\n\n", "(in a)\n", ""),
        ("(in a)\n\n\nx", "(in a)\n", "\nx"),
        ("(in a)", "(in a)", ""),
    ] {
        assert_eq!(
            parted(input.as_bytes()),
            (netlist.as_bytes(), rest.as_bytes())
        );
    }
    let told = |input: &str| String::from_utf8(bench(input.as_bytes())).unwrap();
    assert_eq!(told(""), "");
    assert_eq!(told("\n(set)\n"), "(show)\n");
    assert_eq!(told("\n(set (a 1))\n"), "(refused 2 4)\n");
    assert_eq!(told("(in a)\n(set)\n"), "(refused 2 8)\n");
    assert_eq!(told("(in a)\n(out y b)\n\n(set)\n"), "(refused 5 14)\n");
}

/// Cut off anywhere a line in form is out of form there; a byte that no line has is out of form at its place.
#[test]
fn places_in_a_line() {
    for seed in 0..400 {
        let mut random = Random::new(seed);
        let block = text(&mut random, Size::LARGE).1;
        let n = block.inputs.len();
        let line = set_line(&mut random, &block);
        if first_error(&line, n).is_some() {
            continue;
        }
        for place in 0..line.len() {
            assert_eq!(first_error(&line[..place], n), Some(place));
            let mut spoiled = line.clone();
            spoiled[place] = b'A';
            assert_eq!(first_error(&spoiled, n), Some(place));
        }
    }
}

#[test]
fn generated_inputs() {
    set_lines(0..40);
    answered_often(&[0, 2, 4, 5], 5);
}

#[test]
fn long_inputs() {
    let mut random = Random::new(1);
    for input in long_bench_inputs(&mut random) {
        compare_bench(&mut random, &input);
    }
    let input = bench_input(&mut random, Size::LARGE, 20);
    compare_bench(&mut random, &input);
}

#[test]
fn thousands_of_lines() {
    for seed in 0..2 {
        let mut random = Random::new(seed);
        let input = bench_input(&mut random, Size::SMALL, 3_000);
        let expected = bench(&input);
        assert!(expected.iter().filter(|&&byte| byte == b'\n').count() >= 2_500);
        // No difference is printed: the texts are long.
        assert!(ended(&mut bench_program(), &input).stdout == expected);
        for size in [1, 2, 7, 4_096] {
            let written = cut::written("bench", &input, &[("CUT_READ", size)]);
            assert!(written == expected, "pieces of {size}, seed {seed}");
        }
        let written = written_in_pieces(bench_program(), input.chunks(29));
        assert!(written == expected, "datagrams, seed {seed}");
    }
}

#[test]
fn refused_netlists_and_blocks_without_outputs() {
    let mut random = Random::new(2);
    for input in [
        &b"(in a)\n(gate p (not r))\n\n(set)\n"[..],
        b"(in a)\n(gate p (not a)\n\n(set)\n",
        b"(in a)\n(gate p (not a))\n\n(set (a 1))\n(set (p 1))\n(set)",
        b"",
        b"\n",
        b"(in a)\n",
    ] {
        compare_bench(&mut random, input);
    }
}

/// A line is answered before the next one is written, as at a terminal.
#[test]
fn a_line_is_answered_at_once() {
    let mut command = bench_program();
    let command = command.stdin(Stdio::piped()).stdout(Stdio::piped());
    let mut child = command.spawn().expect("the program");
    let mut input = child.stdin.take().expect("piped");
    let mut output = BufReader::new(child.stdout.take().expect("piped"));
    input.write_all(format!("{BLOCK}\n").as_bytes()).unwrap();
    for (line, expected) in [
        ("(set (b 1))\n", "(show (y 1) (z u))\n"),
        ("(set (c 1))\n", "(refused 5 6)\n"),
        ("(set)\n", "(show (y u) (z u))\n"),
    ] {
        input.write_all(line.as_bytes()).unwrap();
        let mut told = String::new();
        output.read_line(&mut told).unwrap();
        assert_eq!(told, expected);
    }
    drop(input);
    assert!(child.wait().unwrap().success());
}

/// catalogue/README.md shows a session with the rate block: its set lines, each with the answer below it.
#[test]
fn session_of_the_catalogue() {
    let shown = fs::read_to_string(root().join("catalogue/README.md")).unwrap();
    let lines = shown.lines().filter_map(|line| line.strip_prefix("    ("));
    let (mut input, mut answers) = (String::new(), String::new());
    for line in lines {
        let side = match line.starts_with("set") {
            true => &mut input,
            false => &mut answers,
        };
        *side += &format!("({line}\n");
    }
    let netlist = fs::read_to_string(root().join("catalogue/rate.net")).unwrap();
    let input = format!("{netlist}\n{input}");
    assert_eq!(answers.lines().count(), 7);
    assert_eq!(String::from_utf8(bench(input.as_bytes())).unwrap(), answers);
    compare_bench(&mut Random::new(3), input.as_bytes());
}
