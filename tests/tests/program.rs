//! The proved program `unloop`, from its standard input to its standard output, against the simulator.
//! Its `main` can have no contract, so that it reads all of its input and writes all of the answer is held by this.

use simulator::compare::programs::compare_program as compare;
use simulator::compare::tally::answered_often as answered;
use simulator::executed::{program, written_by_the_program};
use simulator::generate::{
    about_1024_copies, for_texts, long_texts, near_a_limit, over_a_limit, spoiled, strange_never,
    Random, Report, Size,
};
use simulator::limits::{GATES, INPUTS, NEVERS, OPERANDS, OUTPUTS, TEXT_BYTES, WRITTEN_BYTES};
use simulator::specimens::*;
use simulator::write;
use std::io::Write;
use std::process::{Command, Stdio};
use std::thread;
use std::time::Duration;

#[test]
fn legal_texts() {
    for_texts(0..300, Size::SMALL, |_, text, _| compare(text));
    for_texts(0..30, Size::LARGE, |_, text, _| compare(text));
    answered(&[0, 9], 5);
}

#[test]
fn about_as_many_copies_as_there_may_be() {
    for seed in 0..40 {
        let _report = Report(|| format!("seed {seed}"));
        let block = about_1024_copies(&mut Random::new(seed));
        compare(&write(&block.to_words(), WRITTEN_BYTES).1);
    }
    answered(&[0, 8], 5);
}

#[test]
fn spoiled_texts() {
    for_texts(0..1000, Size::SMALL, |random, text, _| {
        compare(&spoiled(random, text))
    });
    answered(&[0, 2, 4, 5, 9], 5);
}

#[test]
fn texts_with_a_strange_never() {
    for_texts(0..400, Size::SMALL, |random, text, block| {
        compare(&strange_never(random, text, block))
    });
    answered(&[0, 2, 3, 4, 5], 5);
}

#[test]
fn texts_near_a_limit() {
    for seed in 0..40 {
        let mut random = Random::new(seed);
        let _report = Report(|| format!("seed {seed}"));
        compare(&near_a_limit(&mut random, 0));
        compare(&over_a_limit(&mut random));
    }
    answered(&[0, 3], 5);
}

#[test]
fn empty_and_longest_texts() {
    compare(b"");
    for (name, text) in long_texts() {
        let _report = Report(|| name.to_string());
        compare(&text);
        compare(&text[..text.len() - 1]);
        // With LF up to the greatest length, one byte more, and far more.
        for length in [TEXT_BYTES, TEXT_BYTES + 1, 4 * TEXT_BYTES] {
            let mut text = text.clone();
            text.resize(length, b'\n');
            compare(&text);
        }
    }
    answered(&[0, 2, 3], 1);
    answered(&[1], 4);
}

/// Straight, and as long as Write can make it: the program writes the text that it read.
#[test]
fn longest_rendering() {
    let inputs = (0..INPUTS).map(|i| format!("(in x{i:07})\n"));
    let pairs = |line: usize| (0..INPUTS).map(move |i| format!(" (x{i:07} {})", line >> i & 1));
    let nevers = (0..NEVERS).map(|line| format!("(never{})\n", pairs(line).collect::<String>()));
    let operands = ["x0000009"; OPERANDS].join(" ");
    let gates = (0..GATES).map(|i| format!("(gate _{i} (nand {operands}))\n"));
    let outputs = (0..OUTPUTS).map(|i| format!("(out y{i:07} x0000009)\n"));
    let text: String = inputs.chain(nevers).chain(gates).chain(outputs).collect();
    assert_eq!(text.len(), WRITTEN_BYTES);
    compare(text.as_bytes());
    answered(&[0], 1);
}

/// A read may give fewer bytes than were asked for, and still not be the last.
#[test]
fn text_in_pieces() {
    let mut program = Command::new(program("unloop"));
    let program = program.stdin(Stdio::piped()).stdout(Stdio::piped());
    let mut program = program.spawn().expect("the program");
    let mut input = program.stdin.take().expect("piped");
    for piece in PROGRAM_INPUT.as_bytes().chunks(20) {
        input.write_all(piece).expect("it reads on");
        thread::sleep(Duration::from_millis(20));
    }
    drop(input);
    let ended = program.wait_with_output().expect("it ends");
    assert_eq!(String::from_utf8(ended.stdout).unwrap(), PROGRAM_OUTPUT);
}

#[test]
fn specimens() {
    let ring_of_32 = ring(32, "(and LAST 0)");
    let lone = ring_of_32.clone() + "(gate lone (not 0))\n";
    let ring_of_33 = ring(33, "(not LAST)") + "(out y g32)\n";
    let against = reversed_ring(32, 31);
    let against_and_lone = against.clone() + "(gate lone (not 0))\n";
    let texts = [
        TWO_GATES,
        UNIQUE_SOLUTION,
        SELF_READER,
        SIX_GATES,
        PROGRAM_OUTPUT,
        &ring_of_32,
        &lone,
        &ring_of_33,
        &against,
        &against_and_lone,
    ];
    texts.iter().for_each(|text| compare(text.as_bytes()));
    let written = written_by_the_program(PROGRAM_INPUT.as_bytes());
    assert_eq!(String::from_utf8(written).unwrap(), PROGRAM_OUTPUT);
}
