//! The proved library against the simulator: numbers, counts, details, results, and what is left in the lent slices.
//! A difference panics, and a `Report` tells the input.

pub mod cases;
pub mod cells;
pub mod foreign;
pub mod gather;
mod lent;
pub mod many;
pub mod programs;
pub mod seeded;
pub mod sheet;
pub mod tally;

use crate::block::Block;
use crate::generate::{Random, Report};
use crate::limits::{BLOCK_WORDS, INPUTS, WRITTEN_BYTES};
use crate::malformed::is_malformed;
use crate::Answer;
use lent::{rooms, Lender};
use std::fmt::Debug;
use tally::{count, count_answer, Operation};
use unloop::raw::{self, Reply};

/// Compares one operation in slices that are exactly long enough, one short, longer and empty.
fn compare<T: Copy + PartialEq + Debug>(
    operation: Operation,
    filler: T,
    (told, result): (Answer, Vec<T>),
    run: impl Fn(&mut [T]) -> Reply,
) {
    let mut lender = Lender::new(filler);
    for room in rooms(result.len()) {
        lender.call(operation, room, (told, &result), &run);
    }
}

/// Compares Settle and Pass from one setting.
pub fn compare_values(words: &[u16], setting: &[u8]) {
    let _report = Report(|| format!("setting {setting:?}"));
    count(|tally| tally.settings += 1);
    let all = usize::MAX;
    compare(
        Operation::Settle,
        9,
        crate::settle(words, setting, all),
        |values| raw::settle(words, setting, values),
    );
    compare(
        Operation::Pass,
        9,
        crate::pass(words, setting, all),
        |values| raw::pass(words, setting, values),
    );
}

/// Compares every operation on a block but Settle and Pass.
fn compare_words(words: &[u16]) {
    let all = usize::MAX;
    count(|tally| tally.words += 1);
    count_lines(words);
    let told = Answer::from(raw::verdict(words));
    assert_eq!(told, crate::verdict(words), "verdict");
    count_answer(Operation::Verdict, told.number);
    compare(Operation::Write, 9, crate::write(words, all), |text| {
        raw::write(words, text)
    });
    compare(
        Operation::Groups,
        9_999,
        crate::groups(words, all),
        |numbers| raw::groups(words, numbers),
    );
    compare(
        Operation::Render,
        9_999,
        crate::render(words, all),
        |rendered| raw::render(words, rendered),
    );
    compare(
        Operation::Cover,
        9_999,
        crate::cover(words, all),
        |entries| raw::cover(words, entries),
    );
    compare_brought(words);
}

/// Compares Bring on words, whether or not they are as they were before there were never lines.
pub fn compare_brought(old: &[u16]) {
    let _report = Report(|| format!("bring of {old:?}"));
    count(|tally| tally.brought += 1);
    compare(
        Operation::Bring,
        9_999,
        crate::bring(old, usize::MAX),
        |block| raw::bring(old, block),
    );
}

/// Counts a well-formed block by its never lines.
fn count_lines(words: &[u16]) {
    if !is_malformed(words) {
        count_block(&Block::from_words(words));
    }
}

fn count_block(block: &Block) {
    let excluded = block.excluded_settings();
    count(|tally| {
        tally.lines[block.nevers.len()] += 1;
        tally.all_excluded += usize::from(excluded.iter().all(|&excluded| excluded));
    });
}

/// A setting of `n` bytes; now and then one byte more or fewer, or a byte above 2.
fn setting(random: &mut Random, n: usize) -> Vec<u8> {
    let length = match random.below(12) {
        0 => n + 1,
        1 => n.saturating_sub(1),
        _ => n,
    };
    let values = if random.chance(8) { 256 } else { 3 };
    (0..length).map(|_| random.below(values) as u8).collect()
}

/// Compares every operation on a block, Settle and Pass from four settings.
pub fn compare_block(random: &mut Random, words: &[u16]) {
    compare_words(words);
    let n = words.first().map_or(0, |&n| usize::from(n).min(INPUTS));
    for _ in 0..4 {
        compare_values(words, &setting(random, n));
    }
}

/// Compares every operation on one of the largest blocks, Settle and Pass with all inputs at one value.
pub fn compare_largest(words: &[u16]) {
    compare_words(words);
    for value in 0..3 {
        compare_values(words, &[value; INPUTS]);
    }
}

/// Compares Compare on two blocks, and gives its answer.
pub fn compare_pair(ours: &[u16], theirs: &[u16]) -> Answer {
    let _report = Report(|| format!("compare {ours:?} with {theirs:?}"));
    let told = Answer::from(raw::compare(ours, theirs));
    assert_eq!(told, crate::foreign::compared(ours, theirs), "compare");
    count_answer(Operation::Compare, told.number);
    told
}

/// Compares Read with what is expected of it; a refusal also where there is room for every block.
fn compare_read(text: &[u8], expected: (Answer, Vec<u16>)) {
    let _report = Report(|| format!("read of {}", text.escape_ascii()));
    count(|tally| tally.texts += 1);
    let run = |block: &mut [u16]| raw::read(text, block);
    if expected.0.number != 0 {
        Lender::new(9_999).call(Operation::Read, BLOCK_WORDS, (expected.0, &[]), run);
    }
    compare(Operation::Read, 9_999, expected, run);
}

/// Compares Read with the simulator's.
pub fn compare_text(text: &[u8]) {
    compare_read(text, crate::read(text, usize::MAX));
}

/// Read gives back the words that Write was lent.
pub fn compare_written(words: &[u16]) {
    let mut text = vec![0; WRITTEN_BYTES];
    let told = raw::write(words, &mut text);
    assert_eq!(told.number, 0);
    text.truncate(told.count);
    compare_read(&text, (Answer::success(words.len()), words.to_vec()));
}

/// Compares Line at every place of a text, and past its end.
pub fn compare_lines(text: &[u8]) {
    let _report = Report(|| format!("lines of {}", text.escape_ascii()));
    for place in (0..=text.len() + 2).chain([usize::MAX]) {
        compare_line(text, place);
    }
}

/// Compares Line at one place of a text.
pub fn compare_line(text: &[u8], place: usize) {
    let expected = crate::line(text, place);
    assert_eq!(raw::line(text, place), expected, "place {place}");
    count_answer(Operation::Line, 0);
}

/// The words with one or two of them replaced.
fn mangled(random: &mut Random, words: &[u16]) -> Vec<u16> {
    let mut words = words.to_vec();
    for _ in 0..random.between(1, 2) {
        let place = random.below(words.len());
        words[place] = match random.below(4) {
            0 => random.below(65_536) as u16,
            1 => random.below(40) as u16,
            2 => words[place].wrapping_add(1),
            _ => words[place].wrapping_sub(1),
        };
    }
    words
}
