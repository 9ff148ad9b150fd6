//! `xor` and `xnor` in the simulator: their truth tables written out, a loop with one, and words that come near.

mod common;

use common::answer;
use simulator::block::Kind;
use simulator::limits::WRITTEN_BYTES;
use simulator::rounds::stated_value;
use simulator::specimens::words_of;
use simulator::values::gate_value;
use simulator::{settle, unloop, write};

/// The value of `xor` for the ones among two to four operands that are 0 or 1.
const XOR_BY_ONES: [u8; 5] = [0, 1, 0, 1, 0];

#[test]
fn truth_tables() {
    for count in 2..=4u32 {
        for number in 0..3usize.pow(count) {
            let digit = |i: u32| (number / 3usize.pow(i) % 3) as u8;
            let operands: Vec<u8> = (0..count).map(digit).collect();
            let ones = operands.iter().filter(|&&operand| operand == 1).count();
            let (xor, xnor) = match operands.contains(&2) {
                true => (2, 2),
                false => (XOR_BY_ONES[ones], 1 - XOR_BY_ONES[ones]),
            };
            for (kind, value) in [(Kind::Xor, xor), (Kind::Xnor, xnor)] {
                assert_eq!(gate_value(kind, operands.iter().copied()), value);
                assert_eq!(stated_value(kind, &operands), value);
            }
        }
    }
}

#[test]
fn of_an_undefined_gate_with_itself() {
    let words = words_of("(gate p (not p))\n(gate q (xor p p))\n(gate r (xnor p p))\n");
    assert_eq!(settle(&words, &[], 3), (answer(0, 0, 0), vec![2, 2, 2]));
}

/// The second pass is for `p` where `s` is 1: the first leaves it undefined, though it makes `q` what `a` is.
#[test]
fn a_loop_is_rendered_whole() {
    let text = "(in a)\n(in s)\n(gate p (and s q))\n(gate q (xor a (and p (not s))))\n(out y q)\n";
    let mut expected = String::from("(in a)\n(in s)\n(gate _0 (not s))\n");
    for pass in 0..2 {
        let first = 1 + 3 * pass;
        let before = match pass {
            0 => String::from("0"),
            _ => format!("_{}", first - 1),
        };
        expected += &format!("(gate _{first} (and s {before}))\n");
        expected += &format!("(gate _{} (and _{first} _0))\n", first + 1);
        expected += &format!("(gate _{} (xor a _{}))\n", first + 2, first + 1);
    }
    expected += "(out y _6)\n";
    let rendered = unloop(text.as_bytes());
    assert_eq!(String::from_utf8(rendered).unwrap(), expected);
}

#[test]
fn words_that_are_gates_and_words_that_are_not() {
    let gate = |head: u16| [0, 1, 0, 0, head, 0, 0, 0, 0];
    let written = |head: u16| write(&gate(head), WRITTEN_BYTES);
    let text = b"(gate _0 (xor _0 _0))\n".to_vec();
    assert_eq!(written(5 + 8 * 2), (answer(0, 22, 0), text));
    let text = b"(gate _0 (xnor _0 _0 _0 _0))\n".to_vec();
    assert_eq!(written(6 + 8 * 4), (answer(0, 29, 0), text));
    for head in [5, 5 + 8, 5 + 8 * 5, 6, 6 + 8, 6 + 8 * 5, 7 + 8, 7 + 8 * 2] {
        assert_eq!(written(head), (answer(6, 0, 0), vec![]), "{head}");
    }
}
