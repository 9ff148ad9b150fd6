//! Every example of the page on how the papers are read, and each limit from both sides.

mod common;

use common::answer;
use simulator::generate::longest_written;
use simulator::limits::{BLOCK_WORDS, WRITTEN_BYTES};
use simulator::malformed::is_malformed;
use simulator::specimens::words_of;
use simulator::{groups, line, pass, read, render, settle, unloop, verdict, write};

/// The number and the detail of Read.
fn refusal(text: &str) -> (usize, usize) {
    let (told, words) = read(text.as_bytes(), BLOCK_WORDS);
    assert_eq!((told.count, words.len()), (0, 0), "{text}");
    (told.number, told.detail)
}

#[test]
fn form_table() {
    let rows = [
        ("(", 1),
        ("(x", 1),
        ("(in a", 5),
        ("(in a)\r\n", 6),
        ("(in a)\n\n", 7),
        ("(in abcdefghi)\n", 12),
        ("(gate p (no p))\n", 11),
        ("(gate p (and 01))\n", 14),
        ("(gate p (and p p p p p))\n", 20),
        ("(gate p (not p)\n", 15),
        ("(gate p (not (not (not (not (not (not (not (not (", 48),
        ("(out _y a)\n", 5),
        ("(gate p (not 0))\n(in a)\n", 18),
        ("(gate p (and p))\n", 14),
        ("(gate p (not p p))\n", 14),
        ("(out y 0)\n", 7),
        ("(gate p q)\n", 8),
        ("(out y a)\n(gate p (not 0))\n", 11),
        ("(out y a)\n(in a)\n", 11),
        ("(in 0a)\n", 4),
        ("\n", 0),
        (" ", 0),
        ("(in  a)\n", 4),
        ("(in A)\n", 4),
        ("(gate p (not 0)) \n", 16),
        ("(gate p (not (not 0))", 21),
        ("(gate p (nor 0))\n", 14),
        ("(gate p (x", 10),
        ("(gate p (xa", 10),
        ("(gate p (xo", 11),
        ("(gate p (xno ", 12),
        ("(gate p (xor p))\n", 14),
        ("(gate p (xor p p p p p))\n", 20),
        ("(gate p (xnor p p p p p))\n", 21),
        ("(n", 2),
        ("(no", 2),
        ("(never", 6),
        ("(never)", 6),
        ("(never )", 7),
        ("(never (", 8),
        ("(never (0 1))\n", 8),
        ("(never (_ 0", 11),
        ("(never (a  1))\n", 10),
        ("(never (a 1 0))\n", 11),
        ("(never (a 1)(a 1))\n", 12),
        ("(never (a 1) )\n", 13),
        ("(never (a 1)) \n", 13),
        ("(never (a 1))", 13),
        ("(never (abcdefghi 1))\n", 16),
        ("(never a)\n", 7),
        ("(never (a 1))\n(in a)\n", 15),
        ("(out y a)\n(never (a 1))\n", 11),
    ];
    for (text, detail) in rows {
        assert_eq!(refusal(text), (2, detail), "{text}");
    }
}

#[test]
fn legal_though_odd() {
    words_of("(in in)\n(gate gate (not gate))\n(out in gate)\n(out gate in)\n");
    words_of("(gate _ (not _))\n(out not _)\n(out y _)\n");
    assert_eq!(refusal("(out y _a)\n"), (5, 7));
}

#[test]
fn crowded_twice_unknown() {
    let declared_again = "(in a)\n(in b)\n(in b)\n(in a)\n";
    assert_eq!(refusal(declared_again), (4, 18));
    assert_eq!(refusal("(in a)\n(gate a (not z))\n"), (4, 13));
    assert_eq!(refusal("(out y z)\n(out y z)\n"), (4, 15));
    assert_eq!(refusal("(in a)\n(gate p (and q (not r)))\n"), (5, 20));
    assert_eq!(refusal("(in a)\n(gate p (and (not r) q))\n"), (5, 25));
    assert_eq!(refusal("(out y y)\n"), (5, 7));
    let gates = "(gate p (not (not z)))\n";
    assert_eq!(refusal(&gates.repeat(513)), (3, 0));
    assert_eq!(refusal(&gates.repeat(512)), (4, 23 + 6));
    assert_eq!(refusal(&"(out y z)\n".repeat(17)), (3, 0));
    assert_eq!(refusal(&"(out y z)\n".repeat(16)), (4, 15));
}

#[test]
fn never_lines() {
    let named = |lines: &str| format!("(in a)\n(in b)\n{lines}(gate p (not 0))\n");
    // A name may stand in two lines, a gate's may not stand in one, and a port declares no input.
    words_of(&named(
        "(never (a 1))\n(never (a 1))\n(never (b 0) (a 0))\n",
    ));
    assert_eq!(refusal(&named("(never (p 1))\n")), (5, 22));
    assert_eq!(refusal("(in a)\n(never (y 1))\n(out y a)\n"), (5, 15));
    // 4 before 5, and the least place of all repeats, whatever is declared behind it.
    assert_eq!(refusal(&named("(never (q 1) (q 0))\n")), (4, 28));
    let twice = "(gate p (not 0))\n(out y p)\n(out y p)\n";
    let given_again = format!("(in a)\n(never (a 1) (a 0))\n{twice}");
    assert_eq!(refusal(&given_again), (4, 21));
    assert_eq!(refusal(&format!("(in a)\n(never (a 1))\n{twice}")), (4, 53));
    // More pairs than inputs are in form; 3 before 4.
    assert_eq!(
        refusal(&format!("(in a)\n(never{})\n", " (a 1)".repeat(99))),
        (4, 21)
    );
    assert_eq!(refusal(&"(never (a 1) (a 1))\n".repeat(9)), (3, 0));
    assert_eq!(refusal(&"(never (a 1) (a 1))\n".repeat(8)), (4, 14));
    let long = "(never (a 1) (a 1))\n".repeat(4_000);
    assert_eq!(refusal(&long), (1, 0));
}

#[test]
fn longest_text() {
    let junk = "x".repeat(61_441);
    assert_eq!(refusal(&junk), (1, 0));
    assert_eq!(refusal(&junk[1..]), (2, 0));
    assert_eq!(unloop(junk.as_bytes()), b"(refused 1 0)\n");
    let lines = "(in a)\n".repeat(8_778);
    assert_eq!(refusal(&lines), (1, 0));
    assert_eq!(refusal(&lines[7..]), (3, 0));
}

#[test]
fn room() {
    let text = "(in a)\n(gate p (not a))\n";
    let words = words_of(text);
    let told = read(text.as_bytes(), words.len());
    assert_eq!(told, (answer(0, 13, 0), words.clone()));
    let told = read(text.as_bytes(), words.len() - 1);
    assert_eq!(told, (answer(11, 0, 0), vec![]));
}

#[test]
fn largest_block() {
    let words = longest_written().to_words();
    assert_eq!((words.len(), BLOCK_WORDS), (5_268, 5_268));
    let (told, text) = write(&words, WRITTEN_BYTES);
    assert_eq!(told, answer(0, 58_098, 0));
    assert_eq!(
        read(&text, BLOCK_WORDS),
        (answer(0, 5_268, 0), words.clone())
    );
    assert_eq!(verdict(&words), answer(0, 4088, 4096));
    assert_eq!(render(&words, BLOCK_WORDS).1, words);
}

#[test]
fn names_shared_with_ports() {
    assert!(!is_malformed(&words_of("(in a)\n(out a a)\n")));
}

#[test]
fn settings() {
    let words = words_of("(in a)\n(in b)\n(gate p (and a b))\n(gate q (not p))\n");
    for (value, values, rounds) in [(0, [0, 1], 2), (1, [1, 0], 2), (2, [2, 2], 0)] {
        let (setting, values) = ([1, value], values.to_vec());
        assert_eq!(pass(&words, &setting, 2), (answer(0, 2, 0), values.clone()));
        assert_eq!(settle(&words, &setting, 2), (answer(0, rounds, 0), values));
    }
    for setting in [&[0][..], &[0, 0, 0], &[0, 3], &[255, 0]] {
        assert_eq!(settle(&words, setting, 0), (answer(7, 0, 0), vec![]));
        assert_eq!(pass(&words, setting, 0), (answer(7, 0, 0), vec![]));
    }
    assert_eq!(settle(&words, &[2, 0], 1), (answer(11, 0, 0), vec![]));
    assert_eq!(pass(&words, &[2, 0], 1), (answer(11, 0, 0), vec![]));
    let looped = words_of("(in a)\n(gate p (and a p))\n");
    assert_eq!(pass(&looped, &[3, 3], 0), (answer(10, 0, 0), vec![]));
}

#[test]
fn no_gate() {
    let words = words_of("(in a)\n(in b)\n(out y a)\n");
    assert_eq!(verdict(&words), answer(0, 4, 4));
    let count = words.len();
    assert_eq!(render(&words, words.len()), (answer(0, count, 0), words));
}

#[test]
fn order_of_groups() {
    let text = "(gate a (not d))\n(gate b (not 0))\n(gate c (and a 1))\n(gate d (not 1))\n";
    let words = words_of(text);
    assert_eq!(groups(&words, 4), (answer(0, 4, 0), vec![2, 0, 3, 1]));
    assert_eq!(groups(&words, 3), (answer(11, 0, 0), vec![]));
    assert_eq!(pass(&words, &[], 4), (answer(10, 0, 0), vec![]));
    let rendered =
        "(gate _0 (not 0))\n(gate _1 (not 1))\n(gate _2 (not _1))\n(gate _3 (and _2 1))\n";
    assert_eq!(unloop(text.as_bytes()), rendered.as_bytes());
}

#[test]
fn self_reader_copied_once() {
    let text = "(in a)\n(gate p (and p 0 a))\n(out y p)\n";
    let rendered = "(in a)\n(gate _0 (and 0 0 a))\n(out y _0)\n";
    assert_eq!(unloop(text.as_bytes()), rendered.as_bytes());
}

#[test]
fn lines() {
    let text = b"(in a)\n\n(in b)\nrest";
    let expected = |place: usize| match place {
        0..=6 => (0, 6),
        7 => (7, 0),
        8..=14 => (8, 6),
        _ => (15, 4),
    };
    for place in (0..30).chain([usize::MAX]) {
        assert_eq!(line(text, place), expected(place), "{place}");
    }
    assert_eq!([0, 1, 9].map(|place| line(b"", place)), [(0, 0); 3]);
    assert_eq!(
        [0, 1, 2, 9].map(|place| line(b"a\n", place)),
        [(0, 1), (0, 1), (2, 0), (2, 0)]
    );
    assert_eq!(
        [0, 1, 2].map(|place| line(b"\n\n", place)),
        [(0, 0), (1, 0), (2, 0)]
    );
}
