//! What stands behind a refusal's word, against the simulator's recogniser and parser.

use simulator::generate::{for_texts, spoiled, Report, Size};
use simulator::recogniser::first_error;
use unloop::{hint, Block, Location, Refusal};

const BYTES: &[u8] = b"abcdefghijklmnopqrstuvwxyz0123456789_ ()\n";

fn told(text: &[u8]) -> Option<String> {
    hint(Block::read(text).expect_err("refused"), text)
}

/// The bytes that `expected ...` names: of a word its first.
fn named(hint: &str) -> Vec<u8> {
    let list = hint.strip_prefix("expected ").expect("what is expected");
    let parts = list.split(", ").flat_map(|part| part.split(" or "));
    let mut bytes: Vec<u8> = parts
        .flat_map(|part| match part {
            "a letter" => BYTES[..26].to_vec(),
            "a digit" => BYTES[26..36].to_vec(),
            "a space" => vec![b' '],
            "the line's end" => vec![b'\n'],
            word => vec![word.as_bytes()[0]],
        })
        .collect();
    bytes.sort_unstable();
    bytes.dedup();
    bytes
}

/// What the hint names is what the recogniser takes there, and it isn't what stands there; or it is a mistake that is there.
#[test]
fn expected_bytes_are_those_that_the_recogniser_takes() {
    let (mut told_of, mut mistakes) = (0, 0);
    for_texts(0..600, Size::SMALL, |random, text, _| {
        let text = spoiled(random, text);
        let Err(Refusal::SyntaxError { place }) = Block::read(&text) else {
            return;
        };
        let _report = Report(|| format!("{}", text.escape_ascii()));
        let takes = |byte: &&u8| first_error(&[&text[..place], &[**byte]].concat()) != Some(place);
        let mut expected: Vec<u8> = BYTES.iter().filter(takes).copied().collect();
        expected.sort_unstable();
        let hint = told(&text).expect("something may stand there");
        if hint.starts_with("expected ") {
            assert_eq!(named(&hint), expected, "{hint}");
            told_of += 1;
        } else {
            assert!(is_there(&hint, &text, place, &expected), "{hint}");
            mistakes += 1;
        }
    });
    assert!(told_of > 150 && mistakes > 50, "{told_of} {mistakes}");
}

/// Whether a mistake is there: `expected` are the bytes that may stand at the place.
fn is_there(hint: &str, text: &[u8], place: usize, expected: &[u8]) -> bool {
    let (before, rest) = text.split_at(place);
    let line = before.rsplit(|&byte| byte == b'\n').next().unwrap();
    let byte = rest.first().copied().unwrap_or(b'!');
    let open = line.iter().filter(|&&byte| byte == b'(').count()
        - line.iter().filter(|&&byte| byte == b')').count();
    let of_name = |byte: &&u8| byte.is_ascii_alphanumeric() || **byte == b'_';
    match hint {
        "a carriage return; lines end with LF alone" => byte == b'\r',
        "a tab; items are separated by one space" => byte == b'\t',
        "two spaces; items are separated by one space" => line.ends_with(b" ") && byte == b' ',
        "a space; a line begins with its (" => line.is_empty() && byte == b' ',
        "a space; a line ends with its )" => line.ends_with(b")") && open == 0 && byte == b' ',
        "a zero byte, as in UTF-16; the text is ASCII" => byte == 0,
        "lower case letters only" => {
            expected.contains(&byte.to_ascii_lowercase()) && byte.is_ascii_uppercase()
        }
        "the last line lacks its LF" => rest.is_empty() && expected == b"\n",
        "no comments or empty lines in this format" => {
            b"\n#;/ ".contains(&byte) && (line.is_empty() || open == 0)
        }
        "expressions nest at most 8 deep" => byte == b'(' && open == 9,
        "inputs stand before gates"
        | "inputs stand before never lines"
        | "inputs stand before outputs" => rest.starts_with(b"in "),
        "never lines stand before gates" | "never lines stand before outputs" => {
            rest.starts_with(b"never")
        }
        "gates stand before outputs" => rest.starts_with(b"gate "),
        "not takes one operand" => b") ".contains(&byte) && open > 1,
        _ if hint.starts_with("not ASCII: ") => byte >= 128,
        _ if hint.ends_with(" takes two to four operands") => b") ".contains(&byte) && open > 1,
        _ if hint.starts_with("a name has at most 8 bytes, and ") => {
            line.iter().rev().take_while(of_name).count() == 8 && of_name(&&byte)
        }
        _ if hint.starts_with("an expression such as (and a b); a plain copy is (and ") => {
            line.starts_with(b"(gate ") && open == 1 && expected == b"("
        }
        _ => false,
    }
}

/// Each row of the table, and those near it.
#[test]
fn everyday_mistakes() {
    let copy = |name: &str| {
        format!(
            "an expression such as (and a b); a plain copy is (and {name} {name}) or (or {name} 0)"
        )
    };
    let nested = |depth: usize| {
        format!(
            "(gate p {}a{}\n",
            "(not ".repeat(depth),
            ")".repeat(depth + 1)
        )
    };
    assert!(Block::read(format!("(in a)\n{}", nested(8))).is_ok());
    for (text, expected) in [
        (
            &b"(in a)\r\n"[..],
            "a carriage return; lines end with LF alone",
        ),
        (b"\xEF\xBB\xBF(in a)\n", "not ASCII: a byte-order mark"),
        (b"\xFF\xFE(\0i\0n\0", "not ASCII: a byte-order mark"),
        (b"\xFE\xFF\0(\0i\0n", "not ASCII: a byte-order mark"),
        (b"(\0i\0n\0", "a zero byte, as in UTF-16; the text is ASCII"),
        (b"(in a)\n(in \xC3\xA9)\n", "not ASCII: \\xC3"),
        (b"(in A)\n", "lower case letters only"),
        (b"(IN a)\n", "lower case letters only"),
        (b"(gate p (AND a b))\n", "lower case letters only"),
        (
            b"(in abcdefghi)\n",
            "a name has at most 8 bytes, and abcdefghi has 9",
        ),
        (
            b"(gate p (not abcdefghIJ))\n",
            "a name has at most 8 bytes, and abcdefghIJ has 10",
        ),
        (b"(in a)", "the last line lacks its LF"),
        (
            b"(in a)\n(gate p (and a a a a a))\n",
            "and takes two to four operands",
        ),
        (
            b"(in a)\n(gate p (nor a))\n",
            "nor takes two to four operands",
        ),
        (
            b"(in a)\n(gate p (or a (xnor a)))\n",
            "xnor takes two to four operands",
        ),
        (b"(in a)\n(gate p (not a a))\n", "not takes one operand"),
        (nested(9).as_bytes(), "expressions nest at most 8 deep"),
        (
            b"# a\n(in a)\n",
            "no comments or empty lines in this format",
        ),
        (
            b"(in a)\n; b\n",
            "no comments or empty lines in this format",
        ),
        (b"(in a) # a\n", "no comments or empty lines in this format"),
        (
            b"(in a)\n\n(in b)\n",
            "no comments or empty lines in this format",
        ),
        (b"(in a)\n  \n", "no comments or empty lines in this format"),
        (
            b"(in a)\n(gate p (not a))\n(in b)\n",
            "inputs stand before gates",
        ),
        (
            b"(in a)\n(never (a 1))\n(in b)\n",
            "inputs stand before never lines",
        ),
        (
            b"(in a)\n(gate p (not a))\n(never (a 1))\n",
            "never lines stand before gates",
        ),
        (
            b"(in a)\n(out y a)\n(gate p (not a))\n",
            "gates stand before outputs",
        ),
        (b"(in\ta)\n", "a tab; items are separated by one space"),
        (
            b"(in a)\n(gate p (and a  a))\n",
            "two spaces; items are separated by one space",
        ),
        (b" (in a)\n", "a space; a line begins with its ("),
        (b"(in a) \n", "a space; a line ends with its )"),
        (b"(in f)\n(gate w f)\n", &copy("f")),
        (b"(in f)\n(gate w 1)\n", &copy("1")),
        (&[b'x'; 61_500], "61500 bytes, 60 more than 61440"),
    ] {
        assert_eq!(
            told(text).as_deref(),
            Some(expected),
            "{}",
            text.escape_ascii()
        );
    }
    // Where a lower case letter may not stand either, and where no name is meant.
    for text in ["(in a)\nX\n", "(in a)\n(gate w F)\n"] {
        let hint = told(text.as_bytes()).unwrap();
        assert!(hint.starts_with("expected "), "{hint}");
    }
}

#[test]
fn expected_words() {
    for (text, expected) in [
        ("(", "expected gate, in, never or out"),
        (
            "(in a)\n(gate p (",
            "expected and, nand, nor, not, or, xnor or xor",
        ),
        ("(in a)\n(out y a)\n(gate", "expected out"),
        ("(gate p (not ", "expected a letter, 0, 1, _ or ("),
        ("(gate p (and a b c d", "expected a letter, a digit, _ or )"),
        ("(gate p (and a b c 0", "expected )"),
        ("(gate p (and a", "expected a letter, a digit, _ or a space"),
        ("(in abcdefgh", "expected )"),
        ("(never (a 1)", "expected ) or a space"),
    ] {
        assert_eq!(
            told(format!("{text}!").as_bytes()).as_deref(),
            Some(expected),
            "{text}"
        );
    }
}

/// At the place that is told stands the same name, earlier.
#[test]
fn first_declarations() {
    let mut told_of = 0;
    for_texts(0..400, Size::SMALL, |random, text, _| {
        let text = spoiled(random, text);
        let Err(Refusal::DuplicateDeclaration { place }) = Block::read(&text) else {
            return;
        };
        let _report = Report(|| format!("{}", text.escape_ascii()));
        let hint = told(&text).expect("a first one");
        let numbers = hint
            .strip_prefix("first in line ")
            .unwrap()
            .split_once(", column ")
            .unwrap();
        let (row, column): (usize, usize) =
            (numbers.0.parse().unwrap(), numbers.1.parse().unwrap());
        let before: usize = text
            .split(|&byte| byte == b'\n')
            .take(row - 1)
            .map(|line| line.len() + 1)
            .sum();
        let first = before + column - 1;
        let name = |place: usize| {
            text[place..]
                .split(|byte| b" )".contains(byte))
                .next()
                .unwrap()
        };
        assert!(first < place && name(first) == name(place), "{hint}");
        assert_eq!(Location::of(&text, first).column, column);
        told_of += 1;
    });
    assert!(told_of > 5, "{told_of}");
}

#[test]
fn nearest_names() {
    for (text, expected) in [
        (
            "(in right)\n(gate p (not rihgt))\n",
            Some("nearest is right"),
        ),
        (
            "(in left)\n(in right)\n(gate p (not lift))\n",
            Some("nearest is left"),
        ),
        (
            "(in k44)\n(in k48)\n(gate p (not k49))\n",
            Some("nearest is k44"),
        ),
        (
            "(in k44)\n(in k48)\n(gate k4 (not k8))\n",
            Some("nearest is k48"),
        ),
        ("(in a)\n(gate sum (not summ))\n", Some("nearest is sum")),
        ("(in a)\n(gate p (not elsewhe))\n", None),
        ("(gate p (not q))\n", None),
        (
            "(in on)\n(never (one 1))\n(gate one (not on))\n",
            Some("a gate, and never lines name inputs"),
        ),
        (
            "(in on)\n(never (onn 1))\n(gate onn1 (not on))\n",
            Some("nearest is on"),
        ),
    ] {
        assert_eq!(told(text.as_bytes()).as_deref(), expected, "{text}");
    }
}

#[test]
fn limits() {
    let inputs: String = (0..14).map(|i| format!("(in a{i})\n")).collect();
    let outputs: String = (0..17).map(|i| format!("(out y{i} a0)\n")).collect();
    let gates: String = (0..513)
        .map(|i| format!("(gate g{i} (not (not a0)))\n"))
        .collect();
    let text = inputs + &gates + &outputs;
    let expected =
        "14 inputs, 2 more than 12; 1026 gates, 2 more than 1024; 17 outputs, 1 more than 16";
    assert_eq!(told(text.as_bytes()).as_deref(), Some(expected));
}
