//! Refusal 2 by brute force: a beginning is good when some ending makes it a text that the parser takes.

use simulator::generate::{for_texts, spoiled, Random, Report, Size};
use simulator::parser::parse;
use simulator::recogniser::first_error;
use std::collections::BTreeSet;
use std::sync::OnceLock;

/// Whole lines but for their closing brackets; every suffix of one is tried as an ending.
const LINES: [&str; 10] = [
    "(in a",
    "(never (a 1",
    "(gate p (not 0",
    "(gate p (and 0 0",
    "(gate p (or 0 0",
    "(gate p (nand 0 0",
    "(gate p (nor 0 0",
    "(gate p (xor 0 0",
    "(gate p (xnor 0 0",
    "(out y a",
];

fn endings() -> &'static BTreeSet<&'static [u8]> {
    static ENDINGS: OnceLock<BTreeSet<&[u8]>> = OnceLock::new();
    let suffixes = |line: &'static str| (0..=line.len()).map(move |i| &line.as_bytes()[i..]);
    ENDINGS.get_or_init(|| LINES.into_iter().flat_map(suffixes).collect())
}

/// Every way to close `open` brackets, with or without an operand before each but the last.
fn closings(open: usize) -> Vec<Vec<u8>> {
    if open == 0 {
        return vec![b"".to_vec(), b"\n".to_vec()];
    }
    let mut closings = vec![b")\n".to_vec()];
    for _ in 1..open {
        let longer = |c: Vec<u8>| [[b")", &c[..]].concat(), [b" 0)", &c[..]].concat()];
        closings = closings.into_iter().flat_map(longer).collect();
    }
    closings
}

/// The most brackets open at once: a line's and eight expressions'.
const MOST_OPEN: usize = 9;

/// Whether some ending makes a legal text of this beginning.
fn can_be_completed(beginning: &[u8]) -> bool {
    static CLOSINGS: OnceLock<Vec<Vec<Vec<u8>>>> = OnceLock::new();
    let closings = CLOSINGS.get_or_init(|| (0..=MOST_OPEN).map(closings).collect());
    let count = |text: &[u8], byte| text.iter().filter(|&&b| b == byte).count();
    endings().iter().any(|ending| {
        let text = [beginning, ending].concat();
        let open = count(&text, b'(').checked_sub(count(&text, b')'));
        let mut closings = open
            .and_then(|open| closings.get(open))
            .into_iter()
            .flatten();
        closings.any(|closing| parse(&[&text, &closing[..]].concat()).is_some())
    })
}

/// The place told is where completing becomes impossible.
fn check(text: &[u8]) {
    let _report = Report(|| format!("text {}", text.escape_ascii()));
    match first_error(text) {
        None => assert!(parse(text).is_some()),
        Some(place) => {
            assert!(parse(text).is_none());
            assert!(can_be_completed(&text[..place]), "place {place}");
            let cut_off = place == text.len();
            assert!(
                cut_off || !can_be_completed(&text[..=place]),
                "place {place}"
            );
        }
    }
}

const SHORT: Size = Size {
    inputs: 1,
    nevers: 2,
    gates: 2,
    outputs: 1,
};

#[test]
fn spoiled_short_texts() {
    for_texts(0..1_500, SHORT, |random, text, _| {
        check(&spoiled(random, text))
    });
}

#[test]
fn every_beginning_can_be_completed() {
    for_texts(0..150, SHORT, |_, text, _| {
        for end in 0..=text.len() {
            assert!(can_be_completed(&text[..end]), "end {end}");
            let expected = parse(&text[..end]).is_none().then_some(end);
            assert_eq!(first_error(&text[..end]), expected);
        }
    });
}

#[test]
fn every_byte_after_every_beginning() {
    let texts = [
        "(in a)\n(gate p (nand a 0 b 1))\n(out y p)\n",
        "(gate _ (nor _1234567 (and 1 (not 0)) _))\n(out abcdefgh abcdefgh)\n",
        "(in abcdefgh)\n(out in in)\n",
        "(in a)\n(never (a 1) (_b 0))\n(never (abcdefgh 1))\n(gate p (not a))\n",
    ];
    for text in texts {
        for end in 0..=text.len() {
            for byte in 0..=255 {
                check(&[&text.as_bytes()[..end], &[byte]].concat());
            }
        }
    }
}

#[test]
fn deep_texts() {
    let deepest = format!("(gate p {}", "(or 0 ".repeat(8));
    for byte in 0..=255 {
        check(&[deepest.as_bytes(), &[byte]].concat());
    }
    check(format!("{deepest}0))").as_bytes());
    check(format!("{deepest}1{})\n", ")".repeat(8)).as_bytes());
}

#[test]
fn short_junk() {
    for seed in 0..3_000 {
        let mut random = Random::new(seed);
        let length = random.below(6);
        let junk: Vec<u8> = (0..length).map(|_| random.pick(b"() \nigno0a")).collect();
        let line = random.pick(&[&b"(gate p (and"[..], b"(never (a 1)"]);
        check(&[line[..random.below(13)].to_vec(), junk].concat());
    }
}
