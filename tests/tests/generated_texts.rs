//! Read on generated texts: legal, spoiled, and over a limit.

mod common;

use common::answer;
use simulator::generate::{for_texts, over_a_limit, spoiled, strange_never, Random, Report, Size};
use simulator::limits::{BLOCK_WORDS, GATES, INPUTS, NEVERS, OUTPUTS};
use simulator::parser::parse;
use simulator::recogniser::first_error;
use simulator::{read, Answer};

#[test]
fn legal_texts() {
    let check = |_: &mut Random, text: &[u8], block: &simulator::block::Block| {
        let words = block.to_words();
        let told = answer(0, words.len(), 0);
        assert_eq!(read(text, words.len()), (told, words.clone()));
        assert_eq!(read(text, words.len() - 1), (answer(11, 0, 0), vec![]));
    };
    for_texts(0..8_000, Size::SMALL, check);
    for_texts(0..100, Size::LARGE, check);
}

/// A token of a line, with its place and the byte before it.
struct Token<'a> {
    place: usize,
    before: u8,
    text: &'a [u8],
}

/// The runs of bytes other than brackets, spaces and LF.
fn tokens(text: &[u8]) -> Vec<Token<'_>> {
    let is_mark = |byte: u8| b"() \n".contains(&byte);
    let starts = (1..text.len()).filter(|&i| is_mark(text[i - 1]) && !is_mark(text[i]));
    let token = |place: usize| {
        let length = text[place..].iter().take_while(|&&b| !is_mark(b)).count();
        let (before, text) = (text[place - 1], &text[place..place + length]);
        Token {
            place,
            before,
            text,
        }
    };
    starts.map(token).collect()
}

/// The names that a text of the grammar declares (ports told apart) and uses.
struct Names<'a> {
    declared: Vec<(bool, &'a [u8], usize)>,
    used: Vec<(&'a [u8], usize)>,
    /// In never lines, with the place of the line's word.
    excluded: Vec<(usize, &'a [u8], usize)>,
}

fn names(text: &[u8]) -> Names<'_> {
    let (mut declared, mut used, mut excluded) = (Vec::new(), Vec::new(), Vec::new());
    let mut line_word: &[u8] = b"";
    let mut line = 0;
    let mut first = false;
    for token in tokens(text) {
        let starts_line = token.place == 1 || text[token.place - 2] == b'\n';
        if starts_line {
            (line_word, line, first) = (token.text, token.place, true);
        } else if line_word == b"never" {
            if token.before == b'(' {
                excluded.push((line, token.text, token.place));
            }
        } else if first {
            declared.push((line_word == b"out", token.text, token.place));
            first = false;
        } else if token.before == b' ' && !token.text[0].is_ascii_digit() {
            used.push((token.text, token.place));
        }
    }
    Names {
        declared,
        used,
        excluded,
    }
}

/// What Read answers to a text of the grammar, by counting lines and brackets and comparing all pairs.
fn stated_refusal(text: &[u8]) -> Option<Answer> {
    let lines = |word: &[u8]| {
        text.split(|&b| b == b'\n')
            .filter(|l| l.starts_with(word))
            .count()
    };
    let brackets = text.iter().filter(|&&b| b == b'(').count();
    let (inputs, gate_lines, outputs) = (lines(b"(in "), lines(b"(gate "), lines(b"(out "));
    let nevers = lines(b"(never ");
    let Names {
        declared,
        used,
        excluded,
    } = names(text);
    let gates = brackets - inputs - nevers - excluded.len() - gate_lines - outputs;
    if inputs > INPUTS || nevers > NEVERS || gates > GATES || outputs > OUTPUTS {
        return Some(answer(3, 0, 0));
    }
    let repeated = declared.iter().enumerate().find(|(i, (is_port, name, _))| {
        declared[..*i]
            .iter()
            .any(|(p, n, _)| (p, n) == (is_port, name))
    });
    let given_again = excluded.iter().enumerate().find(|(i, (line, name, _))| {
        excluded[..*i]
            .iter()
            .any(|(l, n, _)| (l, n) == (line, name))
    });
    let repeated = repeated.map(|(_, &(_, _, place))| place);
    let given_again = given_again.map(|(_, &(_, _, place))| place);
    if let Some(place) = repeated.into_iter().chain(given_again).min() {
        return Some(answer(4, 0, place));
    }
    let is_input = |name: &[u8]| declared[..inputs].iter().any(|(_, n, _)| *n == name);
    if let Some(&(_, _, place)) = excluded.iter().find(|(_, name, _)| !is_input(name)) {
        return Some(answer(5, 0, place));
    }
    let known = |name: &[u8]| {
        declared
            .iter()
            .any(|(is_port, n, _)| !is_port && *n == name)
    };
    let unknown = used.iter().find(|(name, _)| !known(name));
    unknown.map(|&(_, place)| answer(5, 0, place))
}

/// Checks Read on a text against the plain statements; gives its number.
fn check(text: &[u8]) -> usize {
    let (told, words) = read(text, BLOCK_WORDS);
    assert_eq!(first_error(text).is_none(), parse(text).is_some());
    let expected = match first_error(text) {
        Some(place) => Some(answer(2, 0, place)),
        None => stated_refusal(text),
    };
    assert_eq!(told, expected.unwrap_or(answer(0, words.len(), 0)));
    assert_eq!(read(text, 0).0, expected.unwrap_or(answer(11, 0, 0)));
    told.number
}

#[test]
fn spoiled_texts() {
    let mut answered = [0; 12];
    for_texts(0..40_000, Size::SMALL, |random, text, _| {
        let text = spoiled(random, text);
        let _report = Report(|| format!("spoiled to {}", text.escape_ascii()));
        answered[check(&text)] += 1;
    });
    assert!([0, 2, 4, 5].iter().all(|&number| answered[number] > 500));
}

#[test]
fn texts_with_a_strange_never() {
    let mut answered = [0; 12];
    for_texts(0..20_000, Size::SMALL, |random, text, block| {
        let text = strange_never(random, text, block);
        let _report = Report(|| format!("with a never line {}", text.escape_ascii()));
        answered[check(&text)] += 1;
    });
    println!("answers by number {answered:?}");
    let often = |&number: &usize| answered[number] > 200;
    assert!([0, 2, 3, 4, 5].iter().all(often), "{answered:?}");
}

#[test]
fn texts_over_a_limit() {
    for seed in 0..200 {
        let text = over_a_limit(&mut Random::new(seed));
        let _report = Report(|| format!("seed {seed}, text {}", text.escape_ascii()));
        assert_eq!(check(&text), 3);
    }
}
