//! The plain program answers as the simulator does, on generated blocks, cells and texts and in slices of several lengths.

use perf::plain;
use simulator::block::Block;
use simulator::compare::cells::list_of;
use simulator::generate::{
    about_1024_copies, bad_orders, bench_input, cell_setting, changed_tables, for_blocks,
    for_texts, for_typical_blocks, foreign_cells, malformed, malformed_before, malformed_cells,
    mutant, near_a_limit, odd_bench_input, order, spoiled, strange_never, strange_tables, stranger,
    widest_cover, Change, Random, Report, Size,
};
use simulator::limits::{GATES, INPUTS};
use simulator::render::copied;
use simulator::Answer;
use std::fmt::Debug;
use unloop::raw::{Record, Reply};

/// No slice is too short for a result.
const ALL: usize = usize::MAX;

/// Holds an operation to an expected answer and result, in slices exactly long enough, longer, one short and empty.
fn held<T: Copy + PartialEq + Debug>(
    operation: &str,
    filler: T,
    (told, result): (Answer, Vec<T>),
    plain: impl Fn(&mut [T]) -> Reply,
) {
    let exact = result.len();
    for room in [exact, exact + 13, exact.saturating_sub(1), 0] {
        let mut expected = (told, vec![filler; room]);
        if told.number == 0 && room < exact {
            expected.0 = Answer::refusal(11, 0);
        } else {
            expected.1[..exact].copy_from_slice(&result);
        }
        let mut lent = vec![filler; room];
        let told = Answer::from(plain(&mut lent));
        assert_eq!((told, lent), expected, "{operation} in a slice of {room}");
    }
}

fn held_values(words: &[u16], setting: &[u8]) {
    let _report = Report(|| format!("setting {setting:?}"));
    let expected = simulator::settle(words, setting, ALL);
    held("settle", 9, expected, |values| {
        plain::settle(words, setting, values)
    });
    let expected = simulator::pass(words, setting, ALL);
    held("pass", 9, expected, |values| {
        plain::pass(words, setting, values)
    });
}

fn held_words(words: &[u16]) {
    let _report = Report(|| format!("words {words:?}"));
    let told = Answer::from(plain::verdict(words));
    assert_eq!(told, simulator::verdict(words), "verdict");
    held("write", 9, simulator::write(words, ALL), |text| {
        plain::write(words, text)
    });
    held("groups", 9_999, simulator::groups(words, ALL), |numbers| {
        plain::groups(words, numbers)
    });
    held("render", 9_999, simulator::render(words, ALL), |rendered| {
        plain::render(words, rendered)
    });
    held("cover", 9_999, simulator::cover(words, ALL), |entries| {
        plain::cover(words, entries)
    });
    held("cells", 9_999, simulator::cells(words, ALL), |cells| {
        plain::cells(words, cells)
    });
    held_brought(words);
    held_gathered(words);
}

/// Of words as they are, and as they were before there were never lines.
fn held_brought(words: &[u16]) {
    held("bring", 9_999, simulator::bring(words, ALL), |block| {
        plain::bring(words, block)
    });
}

/// Both slices of Gather, each exactly long enough and one short.
fn held_gathered(words: &[u16]) {
    let (_, block, list) = simulator::gather(words, ALL, ALL);
    for (less, list_less) in [(0, 0), (0, 1), (1, 0)] {
        let rooms = [
            block.len().saturating_sub(less),
            list.len().saturating_sub(list_less),
        ];
        let (told, mut block, mut list) = simulator::gather(words, rooms[0], rooms[1]);
        block.resize(rooms[0], 9_999);
        list.resize(rooms[1], 9_999);
        let [mut gathered, mut order] = rooms.map(|room| vec![9_999; room]);
        let got = Answer::from(plain::gather(words, &mut gathered, &mut order));
        assert_eq!(
            (got, gathered, order),
            (told, block, list),
            "gather in {rooms:?}"
        );
    }
}

fn held_scattered(words: &[u16], order: &[u16]) {
    let expected = simulator::scatter(words, order, ALL);
    held("scatter", 9_999, expected, |original| {
        plain::scatter(words, order, original)
    });
}

fn held_run(inputs: usize, cells: &[u16], setting: &[u8]) {
    let _report = Report(|| format!("{inputs} inputs, {cells:?}, {setting:?}"));
    let expected = simulator::run(inputs, cells, setting, ALL);
    held("run", 9, expected, |values| {
        plain::run(inputs, cells, setting, values)
    });
}

fn held_sheet(random: &mut Random, words: &[u16], count: usize) {
    let n = words.first().map_or(0, |&n| usize::from(n).min(INPUTS));
    let records: Vec<Record> = (0..count).map(|_| record(random, n)).collect();
    let mut filled = records.clone();
    let told = Answer::from(plain::sheet(words, &mut filled));
    let expected = simulator::sheet(words, &records);
    assert_eq!((told, filled), expected, "a sheet of {records:?}");
}

/// Two masks within n inputs, now and then wrong ones; what stands in the other words must not matter.
fn record(random: &mut Random, n: usize) -> Record {
    let number = random.number();
    let masks = [number as u16, (number >> 16) as u16].map(|mask| mask & ((1 << n) - 1));
    let wrong = if random.chance(10) {
        1 << random.below(16)
    } else {
        0
    };
    Record {
        fixed: masks[0] | if number >> 32 & 1 == 0 { wrong } else { 0 },
        ones: masks[0] & masks[1] | if number >> 32 & 1 == 1 { wrong } else { 0 },
        number: 9,
        defined: (number >> 33) as u16,
        values: 9,
    }
}

fn held_pair(ours: &[u16], theirs: &[u16]) -> usize {
    let told = Answer::from(plain::compare(ours, theirs));
    let expected = simulator::foreign::compared(ours, theirs);
    assert_eq!(told, expected, "{ours:?} compared with {theirs:?}");
    told.count
}

fn held_table(ours: &[u16], cells: &[u16], list: &[u16]) -> usize {
    let told = Answer::from(plain::compare_cells(ours, cells, list));
    let expected = simulator::compared_cells(ours, cells, list);
    assert_eq!(told, expected, "{ours:?} with {cells:?}, {list:?}");
    told.count
}

fn held_block(random: &mut Random, words: &[u16]) {
    held_words(words);
    held_sheet(random, words, 3);
    let n = words.first().map_or(0, |&n| usize::from(n).min(INPUTS));
    held_values(words, &vec![3; n]);
    held_values(words, &vec![1; n + 1]);
    for _ in 0..3 {
        let setting: Vec<u8> = (0..n).map(|_| random.below(3) as u8).collect();
        held_values(words, &setting);
    }
}

fn held_text(text: &[u8]) {
    let _report = Report(|| format!("read of {}", text.escape_ascii()));
    held("read", 9_999, simulator::read(text, ALL), |block| {
        plain::read(text, block)
    });
}

#[test]
fn blocks() {
    for_blocks(0..600, Size::SMALL, |random, _, w| held_block(random, w));
    for_blocks(0..600, Size::SMALL, |_, block, _| {
        held_brought(&block.to_old_words())
    });
    for_blocks(0..20, Size::MIDDLE, |random, _, w| held_block(random, w));
    for_typical_blocks(0..20, |random, _, words| held_block(random, words));
    held_block(&mut Random::new(0), &widest_cover().to_words());
}

/// Some with a copy too many.
#[test]
fn passes_at_the_limit() {
    for seed in 0..40 {
        let words = about_1024_copies(&mut Random::new(seed)).to_words();
        held(
            "render",
            9_999,
            simulator::render(&words, ALL),
            |rendered| plain::render(&words, rendered),
        );
    }
}

#[test]
fn malformed_blocks() {
    for_blocks(0..20, Size::SMALL, |random, block, _| {
        for (rule, words) in malformed(random, block) {
            let _report = Report(|| format!("{rule}, {words:?}"));
            held_block(random, &words);
            held_scattered(&words, &order(random, block.gates.len()));
            held_pair(&words, &block.to_words());
            held_pair(&block.to_words(), &words);
        }
        for (rule, words) in malformed_before(random, block) {
            let _report = Report(|| format!("{rule}, {words:?}"));
            held_brought(&words);
        }
    });
}

#[test]
fn orders() {
    for_blocks(0..300, Size::SMALL, |random, block, words| {
        let m = block.gates.len();
        held_scattered(words, &order(random, m));
        for (rule, list) in bad_orders(random, m) {
            let _report = Report(|| rule.to_string());
            held_scattered(words, &list);
        }
    });
}

#[test]
fn sheets_of_many_lengths() {
    for_typical_blocks(0..20, |random, _, words| {
        for count in [0, 1, 40, 64, 65, 200] {
            held_sheet(random, words, count);
        }
    });
}

/// Renderings, right ones and ones with a change; strangers; and blocks that aren't straight.
#[test]
fn pairs() {
    let mut differ = 0;
    let mut compare = |random: &mut Random, block: &Block, words: &[u16]| {
        let rendering = copied(block);
        if rendering.gates.len() > GATES {
            return;
        }
        assert_eq!(held_pair(words, &rendering.to_words()), 0);
        for change in Change::ALL {
            let changed = mutant(random, &rendering, change);
            let counts = changed.map(|mutant| held_pair(words, &mutant.to_words()));
            differ += usize::from(counts.is_some_and(|count| count > 0));
        }
        if let Some(stranger) = stranger(random, &rendering) {
            held_pair(words, &stranger.to_words());
        }
        held_pair(words, words);
    };
    for_blocks(0..600, Size::SMALL, &mut compare);
    for_typical_blocks(0..20, &mut compare);
    assert!(differ > 300, "{differ}");
}

/// Tables of cells, right ones, ones with a change and strange ones.
#[test]
fn tables() {
    let mut differ = 0;
    let mut compare = |random: &mut Random, block: &Block, words: &[u16]| {
        let straight = copied(block);
        if straight.gates.len() > GATES {
            return;
        }
        let (n, list) = (block.inputs.len(), list_of(&straight));
        let cells = simulator::cells(&straight.to_words(), usize::MAX).1;
        assert_eq!(held_table(words, &cells, &list), 0);
        for (cells, list) in changed_tables(random, n, &cells, &list) {
            differ += usize::from(held_table(words, &cells, &list) > 0);
        }
        for (cells, list) in strange_tables(random, n, &cells, &list) {
            held_table(words, &cells, &list);
        }
        held_table(&words[1..], &cells, &list);
    };
    for_blocks(0..600, Size::SMALL, &mut compare);
    for_typical_blocks(0..20, &mut compare);
    assert!(differ > 200, "{differ}");
}

#[test]
fn runs() {
    for seed in 0..300 {
        let mut random = Random::new(seed);
        let (inputs, count) = (random.between(0, INPUTS), random.between(0, 40));
        let cells = foreign_cells(&mut random, inputs, count);
        for _ in 0..3 {
            held_run(inputs, &cells, &cell_setting(&mut random, inputs));
        }
        for (_, inputs, cells) in malformed_cells(&mut random, inputs, &cells) {
            let setting = cell_setting(&mut random, inputs.min(INPUTS));
            held_run(inputs, &cells, &setting);
        }
    }
}

#[test]
fn texts() {
    for_texts(0..600, Size::SMALL, |random, text, block| {
        held_text(text);
        held_text(&strange_never(random, text, block));
        for _ in 0..10 {
            held_text(&spoiled(random, text));
        }
    });
    for_texts(0..20, Size::LARGE, |_, text, _| held_text(text));
    for seed in 0..60 {
        let mut random = Random::new(seed);
        held_text(&near_a_limit(&mut random, seed as usize % 2));
    }
}

#[test]
fn lines() {
    for_texts(0..60, Size::SMALL, |random, text, _| {
        for text in [text.to_vec(), spoiled(random, text), Vec::new()] {
            for place in (0..=text.len() + 2).chain([usize::MAX]) {
                let expected = simulator::line(&text, place);
                assert_eq!(plain::line(&text, place), expected, "place {place}");
            }
        }
    });
}

#[test]
fn bench_sessions() {
    for seed in 0..100 {
        let mut random = Random::new(seed);
        for input in [
            bench_input(&mut random, Size::SMALL, 20),
            odd_bench_input(&mut random, Size::SMALL),
        ] {
            let mut shown = Vec::new();
            plain::bench(&input[..], &mut shown).expect("a vector takes every byte");
            let [shown, expected] = [shown, simulator::bench(&input)];
            assert_eq!(
                shown.escape_ascii().to_string(),
                expected.escape_ascii().to_string()
            );
        }
    }
}
