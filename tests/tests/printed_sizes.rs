//! How many gate lines the renderings have of the circuits that documents 003 and 004 print, beside the sizes that they print.
//! What no setting of theirs settles is kept out by never lines. catalogue/README.md has the table.

use simulator::groups::ordered_groups;
use simulator::limits::BLOCK_WORDS;
use simulator::passes::passes;
use simulator::specimens::{words_of, SIX_GATES};
use simulator::{block::Block, render};

/// The gates, the copies that as many passes as gates made of them, and the gate lines of the rendering.
fn sizes(text: &str) -> [usize; 3] {
    let words = words_of(text);
    let block = Block::from_words(&words);
    let (told, rendered) = render(&words, BLOCK_WORDS);
    assert_eq!(told.number, 0, "{text}");
    let squares = ordered_groups(&block)
        .iter()
        .map(|g| g.len() * g.len())
        .sum();
    [block.gates.len(), squares, rendered[1].into()]
}

fn inputs(names: &str) -> String {
    names.chars().map(|name| format!("(in {name})\n")).collect()
}

/// 003, Example 1: six gates; without a loop at least eight of two operands would be needed.
#[test]
fn example_1_of_003() {
    assert_eq!(sizes(SIX_GATES), [6, 36, 12]);
}

/// 004, Fig. 1: four gates in a ring, combinational but for a = 0, b = 1, c = 0, d = 1; printed: seven, by the schedule wxyzwxy.
/// Whichever order the inputs have in the ring and whichever gates negate, two passes are needed.
#[test]
fn figure_1_of_004() {
    for order in ["abcd", "abdc", "acbd", "acdb", "adbc", "adcb"] {
        for negated in 0..16 {
            let mut text = inputs("abcd") + "(never (a 0) (b 1) (c 0) (d 1))\n";
            for (i, input) in order.chars().enumerate() {
                let kinds = match input {
                    'a' | 'c' => ["or", "nor"],
                    _ => ["and", "nand"],
                };
                let kind = kinds[negated >> i & 1];
                text += &format!("(gate g{i} ({kind} {input} g{}))\n", (i + 3) % 4);
            }
            assert_eq!(sizes(&(text + "(out y g3)\n")), [4, 16, 8]);
        }
    }
}

/// 004, Fig. 2: five gates, combinational with x = 0, or with y = 0 and z = 0; printed: seven, or eight the other way round.
#[test]
fn figure_2_of_004() {
    for (a, read) in [("and", "a"), ("and", "b"), ("nand", "a"), ("nand", "b")] {
        let text = inputs("xyz")
            + "(never (x 1) (y 1))\n(never (x 1) (z 1))\n"
            + &format!("(gate a ({a} x e))\n(gate b (not a))\n(gate c (nand y b))\n")
            + &format!("(gate d (nand z {read}))\n(gate e (and c d))\n(out e e)\n");
        let block = Block::from_words(&words_of(&text));
        assert_eq!(passes(&block, &ordered_groups(&block)), [2]);
        assert_eq!(sizes(&text), [5, 25, 10]);
    }
}
