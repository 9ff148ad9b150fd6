//! The Rust package's `Block` tells what the simulator tells, on generated texts and blocks.

use simulator::generate::{
    for_blocks, for_texts, for_typical_blocks, large, malformed, malformed_before, spoiled,
    widest_cover, Random, Report, Size,
};
use simulator::{bring, cover, groups, pass, read, render, settle, verdict, write, Answer};
use std::error::Error;
use unloop::declarations::gate_names;
use unloop::{Assignment, Block, PinsError, Refusal, Value};

/// As the simulator tells a count and a result, or a refusal.
fn told<T>(outcome: Result<(usize, Vec<T>), Refusal>) -> (Answer, Vec<T>) {
    match outcome {
        Ok((count, result)) => (Answer::success(count), result),
        Err(refusal) => {
            let detail = refusal.place().or(refusal.setting());
            let answer = Answer::refusal(refusal.number(), detail.unwrap_or(0));
            (answer, Vec::new())
        }
    }
}

fn same_text(text: &[u8]) {
    let _report = Report(|| format!("read of {}", text.escape_ascii()));
    let words = Block::read(text).map(|block| block.words().to_vec());
    let words = words.map(|words| (words.len(), words));
    assert_eq!(told(words), read(text, usize::MAX));
}

fn same_verdict(block: &Block) {
    let found = block.verdict();
    let all = 1 << block.inputs();
    let answer = Answer {
        detail: found.lowest_unsettled.unwrap_or(all),
        ..Answer::success(found.settled)
    };
    assert_eq!(answer, verdict(block.words()));
    assert_eq!(found.is_sound(), answer.detail == all);
}

fn same_results(block: &Block) {
    let words = block.words();
    let lines = block.never_lines();
    let masks = lines.iter().map(|line| (line.fixed, line.ones));
    let stored = simulator::block::Block::from_words(words).nevers;
    assert!(masks.eq(stored.iter().map(|line| (line.fixed, line.ones))));
    let text = block.write().into_bytes();
    assert_eq!(told(Ok((text.len(), text))), write(words, usize::MAX));
    let entries = block.cover();
    let pairs = entries.iter().flat_map(|entry| [entry.fixed, entry.ones]);
    let entries = (entries.len(), pairs.collect());
    assert_eq!(told(Ok(entries)), cover(words, usize::MAX));
    let found = block.groups();
    let found = (found.count, found.of_gates);
    assert_eq!(told(Ok(found)), groups(words, usize::MAX));
    let rendered = block.render().map(|rendered| rendered.words().to_vec());
    let rendered = rendered.map(|words| (words.len(), words));
    assert_eq!(told(rendered), render(words, usize::MAX));
}

fn same_values(block: &Block, setting: &[Value]) {
    let codes = |values: &[Value]| -> Vec<u8> { values.iter().map(|&value| value as u8).collect() };
    let (words, bytes) = (block.words(), codes(setting));
    let settled = block.settle(setting);
    let settled = settled.map(|settled| (settled.rounds, codes(&settled.values)));
    assert_eq!(told(settled), settle(words, &bytes, usize::MAX));
    let swept = block.pass(setting);
    let swept = swept.map(|values| (values.len(), codes(&values)));
    assert_eq!(told(swept), pass(words, &bytes, usize::MAX));
}

/// Any words, a block's or not.
fn same_words(random: &mut Random, words: &[u16]) {
    let answer = verdict(words);
    let block = match Block::from_words(words) {
        Ok(block) => block,
        Err(refusal) => return assert_eq!(told::<u16>(Err(refusal)).0, answer),
    };
    same_verdict(&block);
    same_results(&block);
    let number = random.below(1 << block.inputs());
    same_values(&block, &block.setting(number).unwrap());
    same_values(&block, &vec![Value::Undefined; block.inputs()]);
    same_values(&block, &vec![Value::One; block.inputs() + 1]);
}

#[test]
fn texts() {
    for_texts(0..400, Size::SMALL, |random, text, _| {
        same_text(text);
        same_text(&spoiled(random, text));
    });
}

#[test]
fn blocks() {
    for_blocks(0..200, Size::SMALL, |random, _, w| same_words(random, w));
    for_typical_blocks(0..10, |random, _, words| same_words(random, words));
    same_words(&mut Random::new(0), &widest_cover().to_words());
    for (name, block) in large() {
        let _report = Report(|| name.to_string());
        let block = Block::from_words(block.to_words()).unwrap();
        same_values(&block, &block.setting(0).unwrap());
    }
}

#[test]
fn old_blocks() {
    for_blocks(0..200, Size::SMALL, |random, block, words| {
        let brought = |old: &[u16]| Block::bring(old).map(|block| block.words().to_vec());
        let told_of = |old: &[u16]| told(brought(old).map(|words| (words.len(), words)));
        let old = block.to_old_words();
        assert_eq!(told_of(&old), bring(&old, usize::MAX));
        assert_eq!(told_of(words), bring(words, usize::MAX));
        same_words(random, &brought(&old).unwrap());
        for (rule, words) in malformed_before(random, block) {
            let _report = Report(|| format!("{rule}, {words:?}"));
            assert_eq!(told_of(&words), bring(&words, usize::MAX));
        }
    });
}

#[test]
fn malformed_words() {
    for_blocks(0..10, Size::SMALL, |random, block, _| {
        for (rule, words) in malformed(random, block) {
            let _report = Report(|| format!("{rule}, {words:?}"));
            assert_eq!(Block::from_words(&words[..]), Err(Refusal::MalformedBlock));
            same_words(random, &words);
        }
    });
}

/// The assignment of a setting's number is what Settle shows under that setting, in a sheet as well; other numbers are refused.
#[test]
fn settings_by_number() {
    for_blocks(0..200, Size::SMALL, |random, _, words| {
        let block = Block::from_words(words).unwrap();
        let settings = 1 << block.inputs();
        let number = random.below(settings);
        let shown = block.shown(&block.setting(number).unwrap());
        let assignment = block.assignment(number).unwrap();
        assert_eq!(block.sheet(&[assignment]), [shown]);
        assert!((0..settings).all(|other| assignment.agrees(other) == (other == number)));
        for wrong in [settings, settings + number, 1 << 16, 1 << 32, usize::MAX] {
            assert_eq!(block.setting(wrong), Err(Refusal::BadSetting));
            assert_eq!(block.assignment(wrong), Err(Refusal::BadSetting));
        }
    });
}

/// A mask has sixteen bits; no other input is fixed, and nothing overflows in a build with checks.
#[test]
fn values_of_inputs() {
    let all = Assignment {
        fixed: u16::MAX,
        ones: 0x8001,
    };
    assert_eq!(
        [0, 1, 15].map(|input| all.value(input)),
        [Some(true), Some(false), Some(true)]
    );
    assert_eq!(
        [16, 63, 64, 1 << 32, usize::MAX].map(|input| all.value(input)),
        [None; 5]
    );
}

/// What is wrong with a line of pins, as a value and in words.
#[test]
fn lines_of_pins() {
    let names = ["a".to_string(), "b".to_string()];
    for (line, error, words) in [
        (
            "a",
            PinsError::NotAPair("a".to_string()),
            "not PIN = 0 or PIN = 1: a",
        ),
        (
            "a = 2",
            PinsError::NotAPair("a = 2".to_string()),
            "not PIN = 0 or PIN = 1: a = 2",
        ),
        (
            "a = 1, c = 0",
            PinsError::UnknownPin("c".to_string()),
            "no input is named c",
        ),
        (
            "b = 1, b = 1",
            PinsError::Twice("b".to_string()),
            "b is given twice",
        ),
    ] {
        let told: Box<dyn Error> = Assignment::from_pins(line, &names).unwrap_err().into();
        assert_eq!(told.to_string(), words);
        assert_eq!(told.downcast_ref(), Some(&error));
    }
    let many: Vec<String> = (0..20).map(|pin| format!("p{pin}")).collect();
    let told = Assignment::from_pins("p19 = 1", &many);
    assert_eq!(told, Err(PinsError::TooManyNames(20)));
}

/// The names of gates are asked of texts in form; of any other the answer is some list.
#[test]
fn names_in_any_text() {
    for_texts(0..400, Size::SMALL, |random, text, _| {
        let spoiled = spoiled(random, text);
        let _report = Report(|| spoiled.escape_ascii().to_string());
        gate_names(&spoiled);
    });
}
