//! The covers that source documents 000 and 004 print, of their circuits as far as the text gives them: docs/COVERS.md.
//! Neither document's text holds its figures. Where it leaves a gate open, a test runs every reading that it names.
//! Each circuit shows its last gate, which is defined exactly where all of them are.

mod common;

use common::answer;
use simulator::cover::entries;
use simulator::limits::COVER_WORDS;
use simulator::specimens::{words_of, SIX_GATES, TWO_GATES};
use simulator::{cover, settle, verdict, Answer};

/// Input lines of one-letter names.
fn inputs(names: &str) -> String {
    names.chars().map(|name| format!("(in {name})\n")).collect()
}

/// An entry as printed, `b = 0, d = 1`, as pairs of the input's number and its value.
fn pairs(names: &str, entry: &str) -> Vec<(usize, u8)> {
    let pair = |fixed: &str| {
        let (name, value) = fixed.split_once(" = ").unwrap();
        (names.find(name).unwrap(), value.parse().unwrap())
    };
    entry.split(", ").map(pair).collect()
}

/// The two words of each printed entry: the mask of fixed inputs, and of those fixed at 1.
fn printed_words(names: &str, printed: &[&str]) -> Vec<u16> {
    let mask = |pairs: &[(usize, u8)], least: u8| {
        let fixed = pairs.iter().filter(|&&(_, value)| value >= least);
        fixed.map(|&(input, _)| 1 << input).sum::<u16>()
    };
    let entries = printed.iter().map(|entry| pairs(names, entry));
    let words = entries.flat_map(|pairs| [mask(&pairs, 0), mask(&pairs, 1)]);
    words.collect()
}

/// The list is the printed entries. It is also the cover of every circuit whose settled settings are those that contain
/// a printed entry, which is what the documents say of theirs.
fn printed(names: &str, printed: &[&str], list: &[u16]) {
    assert_eq!(printed_words(names, printed), list);
    let contains = |setting: usize, entry: &[u16]| setting as u16 & entry[0] == entry[1];
    let settings = 0..1 << names.len();
    let settled = settings.map(|setting| list.chunks(2).any(|entry| contains(setting, entry)));
    let found = entries(&settled.collect::<Vec<bool>>());
    let words = found
        .iter()
        .flat_map(|&(mask, ones)| [mask as u16, ones as u16]);
    assert_eq!(words.collect::<Vec<u16>>(), list);
}

/// The simulator's cover, and the library's.
fn covers(words: &[u16]) -> [(Answer, Vec<u16>); 2] {
    let mut entries = vec![0; COVER_WORDS];
    let told = unloop::raw::cover(words, &mut entries);
    entries.truncate(2 * told.count);
    [cover(words, usize::MAX), (told.into(), entries)]
}

/// The circuit's cover is the list of words, in this order, whoever computes it.
fn listed(circuit: &str, list: &[u16]) {
    let expected = (answer(0, list.len() / 2, 0), list.to_vec());
    for cover in covers(&words_of(circuit)) {
        assert_eq!(cover, expected, "{circuit}");
    }
}

/// The settled values of the gates, by number, with only the entry's inputs given and the others undefined.
fn values_under(circuit: &str, names: &str, entry: &str) -> Vec<u8> {
    let mut setting = vec![2; names.len()];
    for (input, value) in pairs(names, entry) {
        setting[input] = value;
    }
    let (told, values) = settle(&words_of(circuit), &setting, usize::MAX);
    assert_eq!(told.number, 0, "{circuit}");
    values
}

/// A row of a document's first step: what is applied, a gate that it sets, to what, and the gate where that stops.
type Row = (&'static str, char, u8, char);

/// The rows hold of the circuit, whose gates are named by `gates` in order.
fn first_step(circuit: &str, names: &str, gates: &str, rows: &[Row]) {
    let number = |gate: char| gates.find(gate).unwrap();
    for &(entry, set, value, frontier) in rows {
        let values = values_under(circuit, names, entry);
        let found = (values[number(set)], values[number(frontier)]);
        assert_eq!(found, (value, 2), "{entry} in {circuit}");
    }
}

/// 000, Figure 1: the gates are specimen 4's. Printed: both entries, and "unless a = 1 and b = 0".
#[test]
fn figure_1_of_000() {
    let list = [1, 0, 2, 2];
    printed("ab", &["a = 0", "b = 1"], &list);
    listed(TWO_GATES, &list);
    assert_eq!(verdict(&words_of(TWO_GATES)), answer(0, 3, 1));
}

/// The readings of 000, Figure 2. Open in the text: whether q and z negate, and how u comes from c, d and q by way of s and t.
fn readings_of_figure_2_of_000() -> Vec<String> {
    let ways_to_u = [
        "(gate s (and c q))\n(gate t (not s))\n(gate u (nor d t))\n",
        "(gate s (nand c q))\n(gate t (or d q))\n(gate u (nor s t))\n",
        "(gate s (or d q))\n(gate t (not s))\n(gate u (and c t))\n",
    ];
    let inputs = inputs("abcdefg");
    let mut readings = vec![];
    for (q, z) in [
        ("and", "and"),
        ("and", "nand"),
        ("nand", "and"),
        ("nand", "nand"),
    ] {
        for u in ways_to_u {
            readings.push(format!(
                "{inputs}(gate q ({q} a z))\n(gate r (and b q))\n{u}(gate v (or r u))\n\
                 (gate w (nand e v))\n(gate x (or f g v))\n(gate y (nand g v))\n(gate z ({z} w x y))\n(out z z)\n"
            ));
        }
    }
    readings
}

/// 000, Figure 2, which is 004, Fig. 11. Printed: all four entries (2d; 11e) and the rows (2b; 11b).
#[test]
fn figure_2_of_000_and_11_of_004() {
    let names = "abcdefg";
    let list = [1, 0, 6, 0, 10, 8, 112, 32];
    printed(
        names,
        &[
            "a = 0",
            "b = 0, c = 0",
            "b = 0, d = 1",
            "e = 0, f = 1, g = 0",
        ],
        &list,
    );
    let rows = [
        ("b = 0", 'r', 0, 'v'),
        ("c = 0", 'u', 0, 'v'),
        ("d = 1", 'u', 0, 'v'),
        ("e = 0", 'w', 1, 'z'),
        ("f = 1", 'x', 1, 'z'),
        ("g = 0", 'y', 1, 'z'),
        ("g = 1", 'x', 1, 'z'),
    ];
    for circuit in readings_of_figure_2_of_000() {
        first_step(&circuit, names, "qrstuvwxyz", &rows);
        listed(&circuit, &list);
    }
}

/// An output on a gate that a pin forces tells less than the documents ask: b = 0 is enough for r.
#[test]
fn figure_2_of_000_shown_at_r() {
    for circuit in readings_of_figure_2_of_000() {
        let shown = circuit.replace("(out z z)", "(out r r)");
        listed(&shown, &[1, 0, 2, 0, 112, 32]);
    }
}

/// A ring of the gates w, x, y, z with the inputs in this order; bit i of `negated` tells whether gate i negates.
fn ring_of_four(order: &str, negated: usize) -> String {
    let gates = ['w', 'x', 'y', 'z'];
    let mut text = inputs("abcd");
    for (i, input) in order.chars().enumerate() {
        let kinds = if "ac".contains(input) {
            ["or", "nor"]
        } else {
            ["and", "nand"]
        };
        let kind = kinds[negated >> i & 1];
        text += &format!(
            "(gate {} ({kind} {input} {}))\n",
            gates[i],
            gates[(i + 3) % 4]
        );
    }
    text + "(out z z)\n"
}

/// 004, Fig. 1. Printed: all four entries, and "every input pattern except 0101". Open: the order in the ring, which gates negate.
#[test]
fn figure_1_of_004() {
    let list = [1, 1, 2, 0, 4, 4, 8, 0];
    printed("abcd", &["a = 1", "b = 0", "c = 1", "d = 0"], &list);
    for order in ["abcd", "abdc", "acbd", "acdb", "adbc", "adcb"] {
        for negated in 0..16 {
            let circuit = ring_of_four(order, negated);
            listed(&circuit, &list);
            assert_eq!(verdict(&words_of(&circuit)), answer(0, 15, 0b1010));
        }
    }
}

/// 004, Fig. 2. Printed: both entries, and the rows in words. Open: whether a negates, and whether d reads a or b. Taken: b is `not` of a.
#[test]
fn figure_2_of_004() {
    let names = "xyz";
    let list = [1, 0, 6, 0];
    printed(names, &["x = 0", "y = 0, z = 0"], &list);
    let rows = [("y = 0", 'c', 1, 'e'), ("z = 0", 'd', 1, 'e')];
    for (a, read) in [("and", "a"), ("and", "b"), ("nand", "a"), ("nand", "b")] {
        let gates = format!(
            "(gate a ({a} x e))\n(gate b (not a))\n(gate c (nand y b))\n(gate d (nand z {read}))\n(gate e (and c d))\n(out e e)\n"
        );
        let circuit = inputs(names) + &gates;
        first_step(&circuit, names, "abcde", &rows);
        listed(&circuit, &list);
    }
}

/// Not printed: specimen 6, where the documents' first step alone cuts the ring in six ways, and the cover is the one empty entry.
#[test]
fn fewer_entries_than_by_the_first_step() {
    let words = words_of(SIX_GATES);
    let first = ["a = 1", "b = 0", "c = 0", "d = 1", "x = 0", "x = 1"];
    for entry in first {
        let values = values_under(SIX_GATES, "abcdx", entry);
        assert!(values.iter().any(|&value| value != 2), "{entry}");
    }
    assert_eq!(verdict(&words), answer(0, 32, 32));
    listed(SIX_GATES, &[0, 0]);
}

/// Not printed, a circuit of our own: the loop of p and q has the inputs h and k, and each at 1 cuts it.
/// The cover is over s, a and b; its entry a = 1, b = 1 adds no setting to those of the other two.
#[test]
fn more_entries_than_are_needed() {
    let gates =
        "(gate h (and s a))\n(gate k (and (not s) b))\n(gate p (or h k q))\n(gate q (or h k p))\n(out q q)\n";
    let circuit = inputs("sab") + gates;
    let list = printed_words("sab", &["s = 1, a = 1", "s = 0, b = 1", "a = 1, b = 1"]);
    assert_eq!(list, [3, 3, 5, 4, 6, 6]);
    listed(&circuit, &list);
}
