//! The proved library against the simulator, on fixed ranges of seeds. Each test prints what it compared; see it with
//! cargo test --release --test compared -- --nocapture.

mod common;

use common::answer;
use simulator::compare::tally::{answered_often, print_compared, Tally};
use simulator::compare::*;
use simulator::generate::{for_blocks, large, long_texts, widest_cover, Random, Report, Size};
use simulator::limits::{INPUTS, NEVERS, TEXT_BYTES};
use simulator::specimens::*;
use simulator::Answer;

#[test]
fn legal_texts() {
    seeded::legal_texts(0..20_000, Size::SMALL);
    seeded::legal_texts(0..200, Size::LARGE);
    answered_often(&[0, 11], 40_000);
}

#[test]
fn spoiled_texts() {
    seeded::spoiled_texts(0..40_000, Size::SMALL);
    seeded::spoiled_texts(0..400, Size::LARGE);
    answered_often(&[0, 2, 4, 5, 11], 1_000);
}

#[test]
fn texts_with_a_strange_never() {
    seeded::texts_with_a_strange_never(0..20_000);
    answered_often(&[0, 2, 3, 4, 5, 11], 300);
}

#[test]
fn texts_near_a_limit() {
    seeded::texts_near_a_limit(0..400);
    answered_often(&[0, 2, 3, 4, 5, 11], 20);
}

#[test]
fn longest_texts() {
    for (name, text) in long_texts() {
        let _report = Report(|| name.to_string());
        compare_text(&text);
        // One byte fewer, and with LF up to the greatest length and one byte more.
        compare_text(&text[..text.len() - 1]);
        for length in [TEXT_BYTES, TEXT_BYTES + 1] {
            let mut text = text.clone();
            text.resize(length, b'\n');
            compare_text(&text);
        }
    }
    answered_often(&[0, 1, 2, 3, 11], 2);
}

#[test]
fn written_blocks_read_back() {
    seeded::written_blocks(0..20_000, Size::SMALL);
    seeded::written_blocks(30_000..30_024, Size::LARGE);
    for (name, block) in large() {
        let _report = Report(|| name.to_string());
        compare_written(&block.to_words());
    }
    answered_often(&[0, 11], 40_000);
}

#[test]
fn generated_blocks() {
    seeded::blocks(0..20_000, Size::SMALL);
    seeded::blocks(20_000..20_100, Size::MIDDLE);
    seeded::blocks(30_000..30_024, Size::LARGE);
    answered_often(&[0, 7, 9, 10, 11], 20);
    let Tally {
        lines,
        all_excluded,
        ..
    } = Tally::so_far();
    assert!(lines.iter().all(|&blocks| blocks > 500), "{lines:?}");
    assert!(all_excluded > 500, "{all_excluded}");
}

/// Many answers of each small block and of words near it, and texts near small ones.
#[test]
fn many_answers() {
    many::blocks(0..3_000);
    many::texts(0..1_000);
    many::malformed_words(0..200);
    answered_often(&[0, 2, 4, 5, 6, 7, 9, 10, 11, 12, 13], 100);
}

/// Renderings of up to two copies fewer or more than there may be.
#[test]
fn about_1024_copies() {
    seeded::about_1024_copies(0..300);
    answered_often(&[0, 8, 9, 11], 50);
}

/// Blocks from before there were never lines have the answers that they had.
#[test]
fn brought_blocks() {
    seeded::brought_blocks(0..6_000, Size::SMALL);
    seeded::brought_blocks(20_000..20_030, Size::MIDDLE);
    answered_often(&[0, 6, 7, 9, 10, 11], 100);
}

#[test]
fn malformed_old_words() {
    seeded::malformed_old_words(0..1_000);
    answered_often(&[6], 50_000);
}

/// 11 and 12 inputs, in every operation on a block.
#[test]
fn most_inputs() {
    let size = Size {
        inputs: INPUTS,
        nevers: NEVERS,
        gates: 40,
        outputs: 4,
    };
    let mut met = [0; INPUTS + 1];
    for_blocks(40_000..40_160, size, |random, block, words| {
        let n = block.inputs.len();
        if INPUTS <= n + 1 {
            met[n] += 1;
            compare_block(random, words);
            compare_pair(words, words);
            compare_written(words);
        }
    });
    assert!(
        met[INPUTS - 1..].iter().all(|&blocks| 5 <= blocks),
        "{met:?}"
    );
    print_compared();
}

#[test]
fn typical_blocks() {
    seeded::typical_blocks(0..200);
    answered_often(&[0, 7, 9, 10, 11], 20);
}

#[test]
fn cover_with_most_entries() {
    compare_largest(&widest_cover().to_words());
    print_compared();
}

#[test]
fn largest_blocks() {
    for (name, block) in large() {
        let _report = Report(|| name.to_string());
        compare_largest(&block.to_words());
        compare_brought(&block.to_old_words());
    }
    print_compared();
}

#[test]
fn malformed_words() {
    seeded::malformed_words(0..600);
    answered_often(&[6], 100_000);
}

#[test]
fn mangled_words() {
    seeded::mangled_words(0..6_000);
    answered_often(&[0, 6, 7, 9, 10, 11], 100);
}

#[test]
fn specimens() {
    let ring_of_32 = ring(32, "(and LAST 0)");
    let lone = ring_of_32.clone() + "(gate lone (not 0))\n";
    let names = "(in abcdefgh)\n(gate _2345678 (not abcdefgh))\n(out a_000000 _2345678)\n";
    let inputs: String = (0..INPUTS).map(|i| format!("(in a{i})\n")).collect();
    let ring_of_33 = ring(33, "(not LAST)") + "(out y g32)\n";
    let against = reversed_ring(32, 31);
    let against_and_lone = against.clone() + "(gate lone (not 0))\n";
    let turned = reversed_ring(32, 0);
    let waits_too = reversed_ring(33, 32) + "(gate w (not w))\n(out y w)\n";
    let texts = [
        "",
        TWO_GATES,
        UNIQUE_SOLUTION,
        SELF_READER,
        SIX_GATES,
        &ring_of_32,
        &lone,
        &ring_of_33,
        &against,
        &against_and_lone,
        &turned,
        &waits_too,
        names,
        &inputs,
        PROGRAM_INPUT,
        PROGRAM_OUTPUT,
        NEVER_BOTH,
        NEVER_UNSETTLED,
        NEVER_ANY,
    ];
    for text in texts {
        let _report = Report(|| text.to_string());
        compare_text(text.as_bytes());
        compare_block(&mut Random::new(0), &words_of(text));
        let n = usize::from(words_of(text)[0]);
        for number in 0..3_usize.pow(n as u32).min(243) {
            let digit = |i: usize| (number / 3_usize.pow(i as u32) % 3) as u8;
            compare_values(&words_of(text), &(0..n).map(digit).collect::<Vec<u8>>());
        }
    }
    let render = |text: &str| Answer::from(unloop::raw::render(&words_of(text), &mut [0; 5_268]));
    assert_eq!(render(&ring_of_32), answer(0, 4 + 5 * 32, 0));
    assert_eq!(render(&lone), answer(0, 4 + 5 * 33, 0));
    assert_eq!(render(&ring_of_33), answer(9, 0, 0));
    assert_eq!(render(&against), answer(0, 4 + 5 * 1_024, 0));
    assert_eq!(render(&against_and_lone), answer(8, 0, 0));
    assert_eq!(render(&turned), answer(0, 4 + 5 * 992, 0));
    assert_eq!(render(&waits_too), answer(8, 0, 0));
    print_compared();
}

#[test]
fn lines() {
    compare_lines(b"");
    compare_lines(b"\n");
    compare_lines(b"\n\n(in a)\n\nx");
    seeded::lines(0..400);
    print_compared();
}
