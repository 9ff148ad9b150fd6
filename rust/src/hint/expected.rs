//! What may stand at the place of a syntax error. Read itself is asked, byte by byte: a text that goes on with a legal byte is refused
//! later than there, or not at all. So there is no second grammar here.

use crate::{Block, Refusal};

/// The bytes that a legal text may have.
const BYTES: &[u8] = b"abcdefghijklmnopqrstuvwxyz0123456789_ ()\n";
const LETTERS: usize = 26;
const DIGITS: usize = 10;

/// As `expected ) or a space`.
pub fn expected(text: &[u8], place: usize) -> Option<String> {
    let before = context(text.get(..place)?);
    let mut words = words(before);
    let last = words.pop()?;
    let list = match words.is_empty() {
        true => last,
        false => format!("{} or {last}", words.join(", ")),
    };
    Some(format!("expected {list}"))
}

/// The line that the text stops in and the whole line before it: no more decides what may follow.
pub fn context(before: &[u8]) -> &[u8] {
    let ends = before.iter().enumerate().rev();
    let mut ends = ends
        .filter(|(_, &byte)| byte == b'\n')
        .map(|(place, _)| place + 1);
    let _current = ends.next();
    &before[ends.next().unwrap_or(0)..]
}

/// The bytes that may come next.
pub fn next(before: &[u8]) -> Vec<u8> {
    let follows = |byte: &&u8| {
        let longer = [before, &[**byte]].concat();
        Block::read(&longer)
            != Err(Refusal::SyntaxError {
                place: before.len(),
            })
    };
    BYTES.iter().filter(follows).copied().collect()
}

/// What may come next, in words.
fn words(before: &[u8]) -> Vec<String> {
    let next = next(before);
    let letters: Vec<u8> = next
        .iter()
        .copied()
        .filter(u8::is_ascii_lowercase)
        .collect();
    let digits = next.iter().filter(|byte| byte.is_ascii_digit()).count();
    let mut words = Vec::new();
    match letters.len() {
        LETTERS => words.push("a letter".to_string()),
        _ => letters
            .iter()
            .for_each(|&letter| spell(before, letter, &mut Vec::new(), &mut words)),
    }
    match digits {
        DIGITS => words.push("a digit".to_string()),
        _ => words.extend(
            next.iter()
                .filter(|byte| byte.is_ascii_digit())
                .map(|&byte| char::from(byte).to_string()),
        ),
    }
    let signs = [
        (b'_', "_"),
        (b'(', "("),
        (b')', ")"),
        (b' ', "a space"),
        (b'\n', "the line's end"),
    ];
    words.extend(
        signs
            .iter()
            .filter(|(sign, _)| next.contains(sign))
            .map(|(_, word)| word.to_string()),
    );
    words
}

/// The words of the format that begin with this letter: they go on as long as only letters may follow.
fn spell(before: &[u8], letter: u8, begun: &mut Vec<u8>, words: &mut Vec<String>) {
    begun.push(letter);
    let longer = [before, &begun[..]].concat();
    let more: Vec<u8> = next(&longer)
        .into_iter()
        .filter(u8::is_ascii_lowercase)
        .collect();
    if more.is_empty() {
        words.push(String::from_utf8_lossy(begun).into_owned());
    }
    more.into_iter()
        .for_each(|letter| spell(before, letter, begun, words));
    begun.pop();
}
