//! Cells and Run of the library against the simulator's; see what was compared with
//! cargo test --release --test cells -- --nocapture.

use simulator::compare::cells::*;
use simulator::compare::tally::{answered_often, print_compared, Tally};
use simulator::generate::{
    cell_setting, for_blocks, for_typical_blocks, foreign_cells, large, Random, Report, Size,
};
use simulator::limits::{BLOCK_WORDS, GATES, INPUTS, NEVERS};
use simulator::specimens::{words_of, PROGRAM_INPUT, PROGRAM_OUTPUT};
use simulator::{cells, run};
use unloop::{Block, Cells, Refusal};

/// Up to the limit of inputs, and quick to render.
const WIDE: Size = Size {
    inputs: INPUTS,
    nevers: NEVERS,
    gates: 40,
    outputs: 4,
};

#[test]
fn generated_blocks() {
    blocks(0..20_000, Size::SMALL);
    blocks(20_000..20_300, WIDE);
    blocks(30_000..30_024, Size::LARGE);
    answered_often(&[0, 7, 10, 11], 1_000);
    let Tally { made, runs, .. } = Tally::so_far();
    assert!(made > 40_000 && runs > 60_000, "{made} {runs}");
}

#[test]
fn largest_blocks() {
    let mut random = Random::new(0);
    for (name, block) in large() {
        let _report = Report(|| name.to_string());
        compare_cells(&block.to_words());
        if block.is_straight() {
            compare_straight(&mut random, &block, 8);
        }
    }
    print_compared();
}

#[test]
fn malformed_blocks() {
    malformed_words(0..600);
    answered_often(&[0, 6, 10], 100);
}

#[test]
fn foreign_runs() {
    foreign(0..20_000, 20);
    foreign(20_000..20_100, GATES);
    answered_often(&[0, 6, 7, 11], 5_000);
}

#[test]
fn malformed_foreign_runs() {
    malformed_runs(0..2_000);
    answered_often(&[6], 10_000);
}

/// 1,024 cells over 12 inputs, and one cell or one input more.
#[test]
fn limits() {
    let mut random = Random::new(1);
    let cells = foreign_cells(&mut random, INPUTS, GATES);
    for inputs in [INPUTS, INPUTS + 1] {
        compare_run(inputs, &cells, &vec![1; inputs]);
    }
    let more = foreign_cells(&mut random, INPUTS, GATES + 1);
    compare_run(INPUTS, &more, &[1; INPUTS]);
    compare_run(INPUTS, &more[..more.len() - 5], &[1; INPUTS]);
    answered_often(&[0, 6, 11], 2);
}

#[test]
fn whole_way_from_a_block_to_a_run() {
    let mut rendered = 0;
    for_blocks(0..4_000, Size::SMALL, |_, block, words| {
        rendered += usize::from(whole_way(block, words));
    });
    for_blocks(0..40, WIDE, |_, block, words| {
        rendered += usize::from(whole_way(block, words));
    });
    for_typical_blocks(0..20, |_, block, words| {
        rendered += usize::from(whole_way(block, words));
    });
    println!("{rendered} rendered");
    assert!(rendered > 1_000, "{rendered}");
}

#[test]
fn specimen_9() {
    let looped = words_of(PROGRAM_INPUT);
    let mut rendered = [0; BLOCK_WORDS];
    let words = unloop::raw::render(&looped, &mut rendered).count;
    assert_eq!(rendered[..words], words_of(PROGRAM_OUTPUT));
    compare_cells(&rendered[..words]);
    compare_cells(&looped);
    print_compared();
}

/// The Rust package's `Cells` tells what the simulator tells.
#[test]
fn package() {
    for_blocks(0..400, Size::SMALL, |random, _, words| {
        let block = Block::from_words(words).unwrap();
        let (told, expected) = cells(words, usize::MAX);
        let made = match block.cells() {
            Err(refusal) => {
                return assert_eq!(
                    (refusal.number(), refusal),
                    (told.number, Refusal::NotStraight)
                )
            }
            Ok(made) => made,
        };
        let n = block.inputs();
        assert_eq!(
            (told.number, made.words(), made.inputs()),
            (0, &expected[..], n)
        );
        assert_eq!(Cells::from_words(n, &expected[..]), Ok(made.clone()));
        let setting: Vec<bool> = (0..n).map(|_| random.chance(50)).collect();
        let bytes: Vec<u8> = setting.iter().map(|&value| value.into()).collect();
        let values = run(n, &expected, &bytes, usize::MAX).1;
        let expected = values.into_iter().map(|value| value == 1).collect();
        assert_eq!(made.run(&setting), Ok(expected));
        assert_eq!(
            made.run(&[setting, vec![true]].concat()),
            Err(Refusal::BadSetting)
        );
    });
    for seed in 0..400 {
        let mut random = Random::new(seed);
        let inputs = random.between(0, INPUTS + 1);
        let words = foreign_cells(&mut random, inputs, 9);
        let setting = cell_setting(&mut random, inputs);
        let refused = run(inputs, &words, &setting, usize::MAX).0.number == 6;
        assert_eq!(Cells::from_words(inputs, words).is_err(), refused);
    }
}
