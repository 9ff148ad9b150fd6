//! The simulator's cells against plain transcriptions of Paper 11, on worked examples and on generated blocks and cells.

mod common;

use common::answer;
use simulator::block::{Block, Gate, Kind, Source};
use simulator::cells::{is_malformed, truth_word};
use simulator::foreign::shown;
use simulator::generate::{
    cell_setting, for_blocks, foreign_cells, malformed_cells, Random, Report, Size,
};
use simulator::limits::{BLOCK_WORDS, CELL_WORDS, GATES, INPUTS};
use simulator::render::{copied, render};
use simulator::rounds::stated_value;
use simulator::specimens::{words_of, PROGRAM_OUTPUT};
use simulator::values::{setting_bytes, Network};
use simulator::{cells, pass, run};

/// Bit b is what the kind gives when operand i is bit i of b.
fn stated_word(kind: Kind, count: usize) -> u16 {
    let bit = |b: u16| {
        let operands: Vec<u8> = (0..count).map(|i| (b >> i & 1) as u8).collect();
        u16::from(stated_value(kind, &operands)) << b
    };
    (0..16).map(bit).sum()
}

/// The cells of a straight block, operand by operand.
fn stated_cells(block: &Block) -> Vec<u16> {
    let word = |operand: Option<&Source>| match operand {
        None | Some(Source::Constant(false)) => 65_534,
        Some(Source::Constant(true)) => 65_535,
        Some(Source::Input(input)) => *input as u16,
        Some(Source::Gate(gate)) => (block.inputs.len() + gate) as u16,
    };
    let cell = |gate: &Gate| {
        let mut cell: Vec<u16> = (0..4).map(|i| word(gate.operands.get(i))).collect();
        cell.push(stated_word(gate.kind, gate.operands.len()));
        cell
    };
    block.gates.iter().flat_map(cell).collect()
}

/// The value of each legal cell: the bit of its truth word that its operands number.
fn stated_run(inputs: usize, cells: &[u16], setting: &[u8]) -> Vec<u8> {
    let mut values: Vec<u8> = Vec::new();
    for cell in cells.chunks(5) {
        let value = |i: usize| match usize::from(cell[i]) {
            65_534 => 0,
            65_535 => 1,
            input if input < inputs => setting[input],
            node => values[node - inputs],
        };
        let b: usize = (0..4).map(|i| usize::from(value(i)) << i).sum();
        values.push((cell[4] >> b & 1) as u8);
    }
    values
}

#[test]
fn truth_words_as_stated() {
    assert_eq!(truth_word(Kind::Not, 1), 0x5555);
    assert_eq!(truth_word(Kind::And, 2), 0x8888);
    assert_eq!(truth_word(Kind::And, 3), 0x8080);
    assert_eq!(truth_word(Kind::And, 4), 0x8000);
    assert_eq!(truth_word(Kind::Or, 4), 0xFFFE);
    assert_eq!(truth_word(Kind::Xor, 4), 0x6996);
    assert_eq!(truth_word(Kind::Xnor, 2), 0x9999);
    for kind in Kind::ALL {
        let counts = if kind == Kind::Not { 1..=1 } else { 2..=4 };
        for count in counts {
            let word = truth_word(kind, count);
            assert_eq!(word, stated_word(kind, count), "{kind:?} of {count}");
            // An absent operand's bit plays no part.
            for absent in count..4 {
                let other = |b: u16| b ^ 1 << absent;
                assert!((0..16).all(|b| word >> b & 1 == word >> other(b) & 1));
            }
        }
    }
}

#[test]
fn worked_cells() {
    let straight = words_of(PROGRAM_OUTPUT);
    let and = |a: u16, b: u16| [a, b, 65_534, 65_534, 0x8888];
    let or = |a: u16, b: u16| [a, b, 65_534, 65_534, 0xEEEE];
    let made = [and(0, 65_534), or(0, 1), and(0, 2), or(0, 3)].concat();
    assert_eq!(cells(&straight, 20), (answer(0, 20, 0), made.clone()));
    assert_eq!(cells(&straight, 19), (answer(11, 0, 0), vec![]));
    assert_eq!(run(1, &made, &[1], 4), (answer(0, 4, 0), vec![0, 1, 1, 1]));
    assert_eq!(run(1, &made, &[1], 3), (answer(11, 0, 0), vec![]));
    // A constant stays an operand, and the word doesn't know it.
    let constant = words_of("(in a)\n(gate p (xor a 1 0))\n");
    let made = vec![0, 65_535, 65_534, 65_534, 0x9696];
    assert_eq!(cells(&constant, 5), (answer(0, 5, 0), made));
    // 6, then 10, then 11; a block without gates has no cells, and a run of none takes its setting.
    let looped = words_of("(gate p (or p 1))\n");
    assert_eq!(cells(&looped, 0), (answer(10, 0, 0), vec![]));
    assert_eq!(cells(&looped[1..], 0), (answer(6, 0, 0), vec![]));
    assert_eq!(cells(&words_of("(in a)\n"), 0), (answer(0, 0, 0), vec![]));
    assert_eq!(run(1, &[], &[0], 0), (answer(0, 0, 0), vec![]));
    assert_eq!(run(0, &[], &[0], 0), (answer(7, 0, 0), vec![]));
}

#[test]
fn refused_runs() {
    let not = |operand: u16| [operand, 65_534, 65_534, 65_534, 0x5555];
    let two = [not(0), not(1)].concat();
    assert_eq!(run(1, &two, &[0], 2), (answer(0, 2, 0), vec![1, 0]));
    for (inputs, words) in [
        (0, &two[..]),
        (13, &two),
        (usize::MAX, &two),
        (1, &two[..9]),
        (1, &two[..6]),
        (1, &[not(1), not(0)].concat()),
        (1, &[not(0), not(2)].concat()),
        (1, &[not(0), not(65_533)].concat()),
        (1, &not(65_534).repeat(1_025)),
    ] {
        assert_eq!(run(inputs, words, &[9], 0), (answer(6, 0, 0), vec![]));
    }
    for setting in [&[][..], &[0, 0], &[2], &[255]] {
        assert_eq!(run(1, &two, setting, 0), (answer(7, 0, 0), vec![]));
    }
    let most = not(65_534).repeat(1_024);
    assert_eq!(run(12, &most, &[1; 12], 1_024).0, answer(0, 1_024, 0));
}

#[test]
fn cells_as_stated() {
    let check = |random: &mut Random, block: &Block, words: &[u16]| {
        let straight = block.is_straight();
        let made = cells(words, usize::MAX);
        if !straight {
            return assert_eq!(made, (answer(10, 0, 0), vec![]));
        }
        let stated = stated_cells(block);
        assert_eq!(made, (answer(0, stated.len(), 0), stated.clone()));
        let n = block.inputs.len();
        for _ in 0..4 {
            let setting = setting_bytes(random.below(1 << n), n);
            let (told, values) = run(n, &stated, &setting, usize::MAX);
            assert_eq!(values, stated_run(n, &stated, &setting));
            assert_eq!((told, values), pass(words, &setting, usize::MAX));
        }
    };
    for_blocks(0..20_000, Size::SMALL, check);
    for_blocks(0..40, Size::LARGE, check);
}

/// A legal run by its statement; a refusal by a word of the paper that is broken.
#[test]
fn runs_as_stated() {
    let mut answered = [0; 12];
    let mut check = |inputs: usize, cells: &[u16], setting: &[u8]| {
        let (told, values) = run(inputs, cells, setting, usize::MAX);
        let earlier = |cell: usize| 0..inputs + cell;
        let is_node = |place: usize| {
            let word = usize::from(cells[place]);
            word >= 65_534 || earlier(place / 5).contains(&word)
        };
        let legal = inputs <= 12
            && cells.len().is_multiple_of(5)
            && cells.len() / 5 <= 1_024
            && (0..cells.len()).all(|place| place % 5 == 4 || is_node(place));
        let number = match (legal, setting.len() == inputs, setting.iter().max()) {
            (false, ..) => 6,
            (_, false, _) | (.., Some(2..)) => 7,
            _ => 0,
        };
        assert_eq!(is_malformed(inputs, cells), !legal);
        assert_eq!(told.number, number);
        answered[number] += 1;
        if number == 0 {
            assert_eq!(values, stated_run(inputs, cells, setting));
            assert_eq!(told, answer(0, cells.len() / CELL_WORDS, 0));
        }
    };
    for seed in 0..6_000 {
        let _report = Report(|| format!("seed {seed}"));
        let mut random = Random::new(seed);
        let inputs = random.between(0, INPUTS);
        let count = random.between(0, if seed % 500 == 0 { GATES } else { 20 });
        let cells = foreign_cells(&mut random, inputs, count);
        check(inputs, &cells, &cell_setting(&mut random, inputs));
        for (_, inputs, cells) in malformed_cells(&mut random, inputs, &cells) {
            check(
                inputs,
                &cells,
                &cell_setting(&mut random, inputs.min(INPUTS)),
            );
        }
    }
    println!("answers by number {answered:?}");
    assert!([0, 6, 7].iter().all(|&number| answered[number] > 500));
}

/// The whole way: original, rendered, made into cells, run.
#[test]
fn cells_of_renderings_show_what_the_originals_show() {
    let mut rendered = 0;
    for_blocks(0..4_000, Size::SMALL, |_, block, words| {
        let (told, rendering) = render(words, BLOCK_WORDS);
        if told.number != 0 {
            return;
        }
        rendered += 1;
        let cells = cells(&rendering, usize::MAX).1;
        let rendering = Block::from_words(&rendering);
        let n = block.inputs.len();
        let network = Network::new(block);
        let excluded = block.excluded_settings();
        for number in (0..1 << n).filter(|&number| !excluded[number]) {
            let setting = setting_bytes(number, n);
            let values = run(n, &cells, &setting, usize::MAX).1;
            let settled = network.settled(&setting);
            let ran = shown(&rendering, &setting, &values);
            assert!(ran.eq(shown(block, &setting, &settled)), "setting {number}");
        }
    });
    assert!(rendered > 1_000);
}

/// What Render's passes make of any block is straight, so that it has cells.
#[test]
fn copies_have_cells() {
    for_blocks(0..2_000, Size::SMALL, |_, block, _| {
        let copied = copied(block);
        let (told, made) = cells(&copied.to_words(), usize::MAX);
        assert_eq!((told.number, made), (0, stated_cells(&copied)));
    });
}
