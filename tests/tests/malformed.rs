//! Refusal 6: blocks that break one rule each, and every change of one word of a small block.

mod common;

use common::answer;
use simulator::generate::{for_blocks, malformed, malformed_before, Report, Size};
use simulator::malformed::{is_malformed, was_malformed};
use simulator::specimens::words_of;
use simulator::*;

/// Every operation on a block refuses it before anything else.
fn refused_by_all(words: &[u16]) {
    let told = answer(6, 0, 0);
    for (setting, room) in [(vec![], 0), (vec![9; 11], 10_000)] {
        assert_eq!(settle(words, &setting, room), (told, vec![]));
        assert_eq!(pass(words, &setting, room), (told, vec![]));
        assert_eq!(cover(words, room), (told, vec![]));
        assert_eq!(groups(words, room), (told, vec![]));
        assert_eq!(render(words, room), (told, vec![]));
        assert_eq!(write(words, room), (told, vec![]));
    }
    assert_eq!(verdict(words), told);
}

#[test]
fn every_rule() {
    for_blocks(0..2_000, Size::SMALL, |random, _, words| {
        assert!(!is_malformed(words));
        let block = block::Block::from_words(words);
        for (rule, words) in malformed(random, &block) {
            let _report = Report(|| format!("{rule}: {words:?}"));
            assert!(is_malformed(&words), "{rule}");
            refused_by_all(&words);
        }
    });
}

#[test]
fn every_old_rule() {
    for_blocks(0..2_000, Size::SMALL, |random, block, _| {
        let old = block.to_old_words();
        assert!(!was_malformed(&old));
        assert_eq!(bring(&old, usize::MAX).1, block.without_nevers().to_words());
        for (rule, words) in malformed_before(random, block) {
            let _report = Report(|| format!("{rule}: {words:?}"));
            assert!(was_malformed(&words), "{rule}");
            assert_eq!(bring(&words, 10_000), (answer(6, 0, 0), vec![]));
        }
    });
}

const LETTERS: std::ops::RangeInclusive<u8> = b'a'..=b'z';

fn is_name_byte(byte: u8) -> bool {
    LETTERS.contains(&byte) || byte.is_ascii_digit() || byte == b'_'
}

/// The legal values of each word of the block below, the others being as they are.
fn legal(place: usize, word: u16) -> bool {
    let [low, high] = word.to_le_bytes();
    let end = |byte| byte == 0 || is_name_byte(byte);
    let first = LETTERS.contains(&low) && end(high);
    // With more operands, words of 0 are no longer unused but read node 0.
    let two_or_more = matches!(word, 17..=22 | 25..=30 | 33..=38);
    match place {
        0..=3 => word == [2, 2, 1, 2][place],
        // Input ab may not become c, nor c become ab; port y may become either.
        4 => first && word != u16::from(b'c'),
        8 => first && word != u16::from_le_bytes(*b"ab"),
        26 => first,
        // The third and fourth byte of ab.
        5 => word == 0 || (is_name_byte(low) && end(high)),
        // The first never line fixes c at 1, and may fix ab; the second fixes both, with ab at 1.
        12 => matches!(word, 2 | 3),
        13 => matches!(word, 0 | 2),
        14 => matches!(word, 1 | 3),
        15 => word < 4,
        16 => two_or_more,
        21 => two_or_more || word == 8,
        // Operands of p, and the first of q.
        17 | 18 | 22 => !(4..65_534).contains(&word),
        // Further operands would have to be counted.
        19 | 20 | 23..=25 => word == 0,
        30 => word < 4,
        // What follows the end of a name.
        _ => word == 0,
    }
}

#[test]
fn every_change_of_one_word() {
    let nevers = "(never (c 1))\n(never (c 0) (ab 1))\n";
    let gates = "(gate p (nor p q))\n(gate q (not 1))\n";
    let words = words_of(&format!("(in ab)\n(in c)\n{nevers}{gates}(out y q)\n"));
    assert_eq!(words[12..16], [2, 2, 3, 1]);
    assert_eq!(words[16..26], [20, 2, 3, 0, 0, 8, 65_535, 0, 0, 0]);
    for place in 0..words.len() {
        for word in 0..=65_535 {
            let mut changed = words.clone();
            changed[place] = word;
            let expected = !legal(place, word);
            assert_eq!(is_malformed(&changed), expected, "word {place} = {word}");
        }
    }
}

#[test]
fn every_length() {
    let words = words_of("(in a)\n(gate p (not a))\n(out y p)\n");
    for length in 0..2 * words.len() {
        let mut other = words.clone();
        other.resize(length, 0);
        assert_eq!(is_malformed(&other), length != words.len(), "{length}");
    }
}
