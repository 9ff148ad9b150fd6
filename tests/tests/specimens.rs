//! Specimens 1 to 9 (SPECIFICATION 9), starred or not, whole, and the worked examples of never lines (9.13).

mod common;

use common::answer;
use simulator::limits::{BLOCK_WORDS, WRITTEN_BYTES};
use simulator::specimens::*;
use simulator::{bring, cover, groups, pass, read, render, settle, unloop, verdict, write, Answer};

/// Read refuses the text so, whatever the room.
fn refused(text: &str, number: usize, detail: usize) {
    for room in [0, BLOCK_WORDS] {
        let told = read(text.as_bytes(), room);
        assert_eq!(told, (answer(number, 0, detail), vec![]), "{text}");
    }
}

/// The text of the rendering, by way of the words.
fn rendered_text(text: &str) -> String {
    let (told, words) = render(&words_of(text), BLOCK_WORDS);
    assert_eq!(told, answer(0, words.len(), 0));
    String::from_utf8(write(&words, WRITTEN_BYTES).1).unwrap()
}

#[test]
fn specimen_1() {
    let words = words_of("");
    assert_eq!(words, [0, 0, 0, 0]);
    assert_eq!(verdict(&words), answer(0, 1, 1));
    assert_eq!(cover(&words, 2), (answer(0, 1, 0), vec![0, 0]));
    assert_eq!(cover(&words, 1), (answer(11, 0, 0), vec![]));
    assert_eq!(groups(&words, 0), (answer(0, 0, 0), vec![]));
    assert_eq!(settle(&words, &[], 0), (answer(0, 0, 0), vec![]));
    assert_eq!(pass(&words, &[], 0), (answer(0, 0, 0), vec![]));
    assert_eq!(render(&words, 4), (answer(0, 4, 0), words.clone()));
    assert_eq!(write(&words, 0), (answer(0, 0, 0), vec![]));
    assert_eq!(unloop(b""), b"");
}

#[test]
fn specimen_2() {
    refused("(in a)", 2, 6);
    refused("(in _a)", 2, 4);
    refused("(in _a)\n", 2, 4);
    assert_eq!(unloop(b"(in a)"), b"(refused 2 6)\n");
}

/// 9.2: a text as long as a text may be, and one byte longer: 1 comes before 2.
#[test]
fn texts_at_the_limit() {
    refused(&"\0".repeat(61_441), 1, 0);
    refused(&"\0".repeat(61_440), 2, 0);
}

#[test]
fn specimen_3() {
    refused("(in a)\n(in a)\n", 4, 11);
    refused("(in a)\n(gate p (not r))\n", 5, 20);
    assert_eq!(unloop(b"(in a)\n(in a)\n"), b"(refused 4 11)\n");
}

#[test]
fn specimen_4() {
    let words = words_of(TWO_GATES);
    assert_eq!(verdict(&words), answer(0, 3, 1));
    assert_eq!(cover(&words, 4), (answer(0, 2, 0), vec![1, 0, 2, 2]));
    assert_eq!(render(&words, BLOCK_WORDS), (answer(9, 0, 1), vec![]));
    assert_eq!(render(&words, 0), (answer(9, 0, 1), vec![]));
    assert_eq!(groups(&words, 2), (answer(0, 1, 0), vec![0, 0]));
    assert_eq!(settle(&words, &[1, 0], 2), (answer(0, 0, 0), vec![2, 2]));
    assert_eq!(settle(&words, &[0, 2], 2), (answer(0, 1, 0), vec![0, 2]));
    assert_eq!(unloop(TWO_GATES.as_bytes()), b"(refused 9 1)\n");
}

#[test]
fn specimen_5() {
    let words = words_of(UNIQUE_SOLUTION);
    let gates = [8, 1, 0, 0, 0, 18, 1, 0, 0, 0];
    assert_eq!(
        words,
        [&[0, 2, 1, 0][..], &gates, &[121, 0, 0, 0, 1]].concat()
    );
    assert_eq!(render(&words, BLOCK_WORDS), (answer(9, 0, 0), vec![]));
    assert_eq!(verdict(&words), answer(0, 0, 0));
    assert_eq!(cover(&words, 0), (answer(0, 0, 0), vec![]));
    assert_eq!(
        rendered_text(SELF_READER),
        "(gate _0 (or 0 1))\n(out y _0)\n"
    );
}

#[test]
fn specimen_6() {
    let words = words_of(SIX_GATES);
    assert_eq!(verdict(&words), answer(0, 32, 32));
    assert_eq!(cover(&words, 2), (answer(0, 1, 0), vec![0, 0]));
    assert_eq!(groups(&words, 6), (answer(0, 1, 0), vec![0; 6]));
    // Two passes: x = 0 needs one, and x = 1 a second for g1, and g2 and g3 where they wait for it.
    let rendered = "(in a)\n(in b)\n(in c)\n(in d)\n(in x)\n\
        (gate _0 (and x 0))\n(gate _1 (or a _0))\n(gate _2 (and b _1))\n\
        (gate _3 (or x _2))\n(gate _4 (and c _3))\n(gate _5 (or d _4))\n\
        (gate _6 (and x _5))\n(gate _7 (or a _6))\n(gate _8 (and b _7))\n\
        (gate _9 (or x _8))\n(gate _10 (and c _9))\n(gate _11 (or d _10))\n(out y _11)\n";
    assert_eq!(rendered_text(SIX_GATES), rendered);
    let setting = [0, 1, 1, 0, 0];
    assert_eq!(settle(&words, &setting, 6), (answer(0, 6, 0), vec![0; 6]));
    assert_eq!(pass(&words, &setting, 6), (answer(10, 0, 0), vec![]));
}

/// Render's answer and the copies it makes.
fn copies(text: &str) -> (Answer, Option<u16>) {
    let (told, words) = render(&words_of(text), BLOCK_WORDS);
    (told, words.get(1).copied())
}

#[test]
fn specimen_7() {
    let rendered = |copies: u16| (answer(0, 4 + 5 * usize::from(copies), 0), Some(copies));
    let lone = "(gate lone (not 0))\n";
    // The `and` first, each other gate reading the one before: one pass.
    let ring_of_32 = ring(32, "(and LAST 0)");
    assert_eq!(copies(&ring_of_32), rendered(32));
    assert_eq!(copies(&(ring_of_32 + lone)), rendered(33));
    // Each reading the one after, the `and` last: 32 passes; the `and` first: 31.
    let against = reversed_ring(32, 31);
    assert_eq!(copies(&against), rendered(1_024));
    assert_eq!(copies(&(against + lone)), (answer(8, 0, 0), None));
    let turned = reversed_ring(32, 0);
    assert_eq!(copies(&turned), rendered(992));
    assert_eq!(copies(&(turned.clone() + &lone_gates(32))), rendered(1_024));
    assert_eq!(copies(&(turned + &lone_gates(33))), (answer(8, 0, 0), None));
    // A ring of 33 `not` is never defined: one pass, and undecided where an output shows it.
    let ring_of_33 = ring(33, "(not LAST)");
    assert_eq!(copies(&ring_of_33), rendered(33));
    let shown = ring_of_33 + "(out y g32)\n";
    assert_eq!(verdict(&words_of(&shown)), answer(0, 0, 0));
    assert_eq!(copies(&shown), (answer(9, 0, 0), None));
    // 8 comes before 9: the longer ring against the order with that one beside it, and an output that waits for ever.
    let both = reversed_ring(33, 32) + "(gate w (not w))\n(out y w)\n";
    assert_eq!(verdict(&words_of(&both)), answer(0, 0, 0));
    assert_eq!(copies(&both), (answer(8, 0, 0), None));
    assert_eq!(render(&words_of(&both), 0).0, answer(8, 0, 0));
}

fn lone_gates(count: usize) -> String {
    (0..count)
        .map(|i| format!("(gate l{i} (not 0))\n"))
        .collect()
}

/// Paper 13: passes are counted over the settings that aren't excluded, settled or not, from undefined and not from 0.
#[test]
fn passes_that_are_needed() {
    // The pin at 0 needs three passes, at 1 one; where 0 never comes, one pass is enough.
    let gates = "(gate p (or s q))\n(gate q (or s r))\n(gate r (and s p))\n";
    let shown = "(out y p)\n";
    for (lines, expected) in [
        ("", 9),
        ("(never (s 0))\n", 3),
        ("(never (s 1))\n", 9),
        ("(never (s 0))\n(never (s 1))\n", 3),
    ] {
        let text = format!("(in s)\n{lines}{gates}{shown}");
        assert_eq!(copies(&text).1, Some(expected), "{lines}");
    }
    // A setting that isn't settled counts too: z waits for ever with s = 0, where p still needs its three passes.
    let waiting = format!("(in s)\n(never (s 1))\n{gates}(gate z (or s z))\n{shown}");
    assert_eq!(copies(&waiting).1, Some(10));
    assert_eq!(copies(&(waiting + "(out z z)\n")).0, answer(9, 0, 0));
    // From 0 instead of undefined one pass would seem enough for specimen 9, which needs two.
    assert_eq!(copies(PROGRAM_INPUT).1, Some(4));
    // Each group has its own number: a ring of 5 against the order has 25 copies, one along it 5.
    let named = |text: String, letter: &str| {
        text.replace('g', letter)
            .replace(&format!("({letter}ate"), "(gate")
    };
    let two = named(reversed_ring(5, 4), "p") + &named(ring(5, "(and LAST 0)"), "q");
    assert_eq!(copies(&two).1, Some(30));
}

/// Paper 3: what no output shows may wait for ever.
#[test]
fn only_what_outputs_show() {
    let loops = "(in a)\n(gate t (not t))\n(gate p (nand p a))\n";
    let shown = |outputs: &str| words_of(&(loops.to_string() + outputs));
    let sound = [
        shown(""),
        shown("(out z a)\n"),
        shown("(out y a)\n(out z a)\n"),
    ];
    for words in sound {
        assert_eq!(verdict(&words), answer(0, 2, 2));
        assert_eq!(cover(&words, 2), (answer(0, 1, 0), vec![0, 0]));
        assert_eq!(render(&words, BLOCK_WORDS).0.number, 0);
    }
    for outputs in ["(out y p)\n", "(out z a)\n(out y p)\n"] {
        let words = shown(outputs);
        assert_eq!(verdict(&words), answer(0, 1, 1));
        assert_eq!(cover(&words, 2), (answer(0, 1, 0), vec![1, 0]));
        assert_eq!(render(&words, BLOCK_WORDS), (answer(9, 0, 1), vec![]));
    }
    let undefined = shown("(out y p)\n(out z t)\n");
    assert_eq!(verdict(&undefined), answer(0, 0, 0));
    let spare = "(in a)\n(gate t (not t))\n(gate p (not a))\n(out y p)\n";
    assert_eq!(
        rendered_text(spare),
        "(in a)\n(gate _0 (not 0))\n(gate _1 (not a))\n(out y _1)\n"
    );
}

#[test]
fn specimen_8_names() {
    words_of("(in abcdefgh)\n(gate _2345678 (not abcdefgh))\n(out a_000000 _2345678)\n");
    refused("(in abcdefghi)\n", 2, 12);
    refused("(gate _23456789 (not 0))\n", 2, 14);
    refused("(gate p (not abcdefghi))\n", 2, 21);
    refused("(out abcdefghi p)\n", 2, 13);
    refused("(out y abcdefghi)\n", 2, 15);
}

#[test]
fn specimen_8_depth() {
    let nested = |depth: usize| {
        let (open, close) = ("(not ".repeat(depth), ")".repeat(depth));
        format!("(gate p {open}0{close})\n")
    };
    assert_eq!(words_of(&nested(8)).len(), 4 + 5 * 8);
    refused(&nested(9), 2, 48);
}

#[test]
fn specimen_8_inputs() {
    let inputs = |count: usize| -> String { (0..count).map(|i| format!("(in a{i})\n")).collect() };
    assert_eq!(words_of(&inputs(12))[..4], [12, 0, 0, 0]);
    refused(&inputs(13), 3, 0);
}

#[test]
fn specimen_9() {
    let output = unloop(PROGRAM_INPUT.as_bytes());
    assert_eq!(String::from_utf8(output).unwrap(), PROGRAM_OUTPUT);
    let words = words_of(PROGRAM_INPUT);
    let name = |letter: u8| [u16::from(letter), 0, 0, 0];
    let [s, y] = [name(b's'), name(b'y')];
    let gates = [[17, 0, 2, 0, 0], [18, 0, 1, 0, 0]].concat();
    assert_eq!(words, [&[1, 2, 1, 0], &s[..], &gates, &y, &[2]].concat());
}

#[test]
fn never_lines_are_read() {
    let words = words_of("(in a)\n(in b)\n(never (b 1) (a 0))\n");
    let [a, b] = [b'a', b'b'].map(|letter| [u16::from(letter), 0, 0, 0]);
    assert_eq!(words, [&[2, 0, 0, 1], &a[..], &b, &[3, 2]].concat());
    let lines = |count: usize| "(in a)\n".to_string() + &"(never (a 1))\n".repeat(count);
    assert_eq!(words_of(&lines(8))[3], 8);
    refused(&lines(9), 3, 0);
    refused("(in a)\n(never (a 1) (a 0))\n(gate a (not q))\n", 4, 21);
    refused("(in a)\n(in a)\n(never (a 1) (a 1))\n", 4, 11);
    refused("(in a)\n(never (a 1) (p 1))\n(gate p (not q))\n", 5, 21);
    refused("(in a)\n(never (a 1))\n(gate p (not q))\n", 5, 34);
    refused("(never (_a 1) (b 1))\n", 5, 8);
}

#[test]
fn never_lines_out_of_form() {
    refused("(never)\n", 2, 6);
    refused("(never (a u))\n", 2, 10);
    refused("(never (a 1))\n(in a)\n", 2, 15);
    refused("(gate p (not 0))\n(never (a 1))\n", 2, 18);
    refused("(na", 2, 2);
    refused("(never (a 1)", 2, 12);
}

#[test]
fn never_lines_of_torn_blocks() {
    let words = |fixed: u16, ones: u16| [1, 0, 0, 1, 97, 0, 0, 0, fixed, ones];
    for (fixed, ones) in [(0, 0), (3, 1), (1, 2)] {
        let told = write(&words(fixed, ones), 99);
        assert_eq!(told, (answer(6, 0, 0), vec![]));
    }
    let text = b"(in a)\n(never (a 1))\n".to_vec();
    assert_eq!(write(&words(1, 1), 99), (answer(0, 21, 0), text));
}

#[test]
fn settings_that_never_come() {
    let both = words_of(NEVER_BOTH);
    assert_eq!(verdict(&both), answer(0, 0, 0));
    assert_eq!(cover(&both, 2), (answer(0, 1, 0), vec![3, 3]));
    let unsettled = words_of(NEVER_UNSETTLED);
    assert_eq!(verdict(&unsettled), answer(0, 3, 4));
    assert_eq!(cover(&unsettled, 2), (answer(0, 1, 0), vec![0, 0]));
    let rendered =
        "(in a)\n(in b)\n(never (a 1) (b 0))\n(gate _0 (and a 0))\n(gate _1 (or b _0))\n\
        (gate _2 (and a _1))\n(gate _3 (or b _2))\n(out y _3)\n";
    assert_eq!(unloop(NEVER_UNSETTLED.as_bytes()), rendered.as_bytes());
    let told = settle(&unsettled, &[1, 0], 2);
    assert_eq!(told, (answer(0, 0, 0), vec![2, 2]));
    let zero = words_of("(in a)\n(never (a 0))\n(gate p (not a))\n(out y p)\n");
    assert_eq!(verdict(&zero), answer(0, 1, 2));
}

#[test]
fn every_setting_excluded() {
    let any = words_of(NEVER_ANY);
    assert_eq!(verdict(&any), answer(0, 0, 2));
    assert_eq!(cover(&any, 2), (answer(0, 1, 0), vec![0, 0]));
    let rendered =
        "(in a)\n(never (a 0))\n(never (a 1))\n(never (a 0))\n(gate _0 (not 0))\n(out y _0)\n";
    assert_eq!(unloop(NEVER_ANY.as_bytes()), rendered.as_bytes());
}

#[test]
fn old_blocks() {
    let brought = vec![1, 0, 0, 0, 97, 0, 0, 0];
    let old = [1, 0, 0, 97, 0, 0, 0];
    assert_eq!(bring(&old, 8), (answer(0, 8, 0), brought.clone()));
    assert_eq!(bring(&old, 7), (answer(11, 0, 0), vec![]));
    assert_eq!(bring(&[0, 0, 0], 3), (answer(11, 0, 0), vec![]));
    for torn in [&[0, 0, 0, 0][..], &[0, 0], &brought] {
        assert_eq!(bring(torn, 0), (answer(6, 0, 0), vec![]));
    }
}
