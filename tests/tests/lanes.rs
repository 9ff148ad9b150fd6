//! Sixty-four settings at a time against one at a time: each gate's value under each setting as Verdict, Cover, Render and Compare tell it, which
//! keep two words a gate and a bit a setting, and as Settle gives it, a byte a gate. Never lines leave one setting, or a few, to be told.

use simulator::block::{Block, Gate, Kind, Never, Output, Source};
use simulator::generate::{for_blocks, Size};
use simulator::limits::{BLOCK_WORDS, COVER_WORDS, NEVERS};
use unloop::raw;

const PORT: &str = "y";
const UNDEFINED: u8 = 2;
const NOT_SETTLED: usize = 9;

/// How often each value was told.
type Told = [usize; 3];

/// Each gate's value under each setting, by Settle.
fn by_bytes(block: &Block) -> Vec<Vec<u8>> {
    let (words, n) = (block.to_words(), block.inputs.len());
    let settled = |setting: usize| {
        let bits: Vec<u8> = (0..n).map(|input| (setting >> input & 1) as u8).collect();
        let mut values = vec![9; block.gates.len()];
        assert_eq!(raw::settle(&words, &bits, &mut values).number, 0);
        values
    };
    (0..1 << n).map(settled).collect()
}

/// The block with one output, and only these never lines.
fn showing(block: &Block, node: Source, nevers: Vec<Never>) -> Block {
    let port = PORT.to_string();
    Block {
        nevers,
        outputs: vec![Output { port, node }],
        ..block.clone()
    }
}

/// A straight block of the same inputs whose output is always this value.
fn always(block: &Block, value: u8) -> Vec<u16> {
    let constant = Source::Constant(value == 1);
    let gate = Gate {
        kind: Kind::And,
        operands: vec![constant, constant],
    };
    let lone = Block {
        gates: vec![gate],
        ..block.clone()
    };
    showing(&lone, Source::Gate(0), Vec::new()).to_words()
}

/// Never lines that leave the settings in which each of these inputs has its value of `setting`.
fn pins(inputs: std::ops::Range<usize>, setting: usize) -> Vec<Never> {
    let other = |input: usize| Never {
        fixed: 1 << input,
        ones: (!setting & 1 << input) as u16,
    };
    inputs.map(other).collect()
}

/// What Verdict and Compare tell of a gate under the settings left by pinned inputs, for all their values. One setting is left where all inputs are
/// pinned: then the three answers are the gate's value under it.
fn pinned(block: &Block, gate: usize, inputs: std::ops::Range<usize>, values: &[Vec<u8>]) {
    let all = 1 << block.inputs.len();
    let mask = (1usize << inputs.end) - (1 << inputs.start);
    for setting in (0..all).filter(|setting| setting & !mask == 0) {
        let left = (0..all).filter(|other| other & mask == setting);
        let with = |value: u8| {
            left.clone()
                .filter(move |&s: &usize| values[s][gate] == value)
        };
        let words = showing(block, Source::Gate(gate), pins(inputs.clone(), setting)).to_words();
        let told = raw::verdict(&words);
        assert_eq!(told.count, with(0).count() + with(1).count());
        assert_eq!(told.detail, with(UNDEFINED).next().unwrap_or(all));
        for value in [0, 1] {
            let told = raw::compare(&words, &always(block, 1 - value));
            let lowest = with(value).next();
            assert_eq!(
                (told.number, told.count),
                (0, usize::from(lowest.is_some()))
            );
            assert_eq!(told.detail, lowest.unwrap_or(0));
        }
    }
}

/// Under which settings a gate is defined, as Cover and Render tell it.
fn unpinned(block: &Block, gate: usize, values: &[Vec<u8>]) {
    let words = showing(block, Source::Gate(gate), Vec::new()).to_words();
    let mut entries = vec![0; COVER_WORDS];
    let count = raw::cover(&words, &mut entries).count;
    for (setting, values) in values.iter().enumerate() {
        let agrees = |entry: &[u16]| (setting as u16 ^ entry[1]) & entry[0] == 0;
        let covered = entries[..2 * count].chunks(2).any(agrees);
        assert_eq!(covered, values[gate] != UNDEFINED);
    }
    let told = raw::render(&words, &mut vec![0; BLOCK_WORDS]);
    let lowest = values.iter().position(|values| values[gate] == UNDEFINED);
    match told.number {
        0 => assert_eq!(lowest, None),
        NOT_SETTLED => assert_eq!(lowest, Some(told.detail)),
        _ => {}
    }
}

/// Every gate of generated blocks of at least so many inputs, under every setting.
fn every_gate(seeds: std::ops::Range<u64>, least: usize, size: Size) -> Told {
    let mut told = [0; 3];
    for_blocks(seeds, size, |_, block, _| {
        let n = block.inputs.len();
        if n < least {
            return;
        }
        let values = by_bytes(block);
        for gate in 0..block.gates.len() {
            pinned(block, gate, 0..n.min(NEVERS), &values);
            if n > NEVERS {
                pinned(block, gate, n - NEVERS..n, &values);
            }
            unpinned(block, gate, &values);
        }
        for &value in values.iter().flatten() {
            told[usize::from(value)] += 1;
        }
    });
    println!(
        "0, 1 and undefined of {least} to {} inputs: {told:?}",
        size.inputs
    );
    told
}

const fn size(inputs: usize, gates: usize) -> Size {
    Size {
        inputs,
        nevers: 0,
        gates,
        outputs: 1,
    }
}

/// Fewer settings than a word has bits.
#[test]
fn part_of_a_word() {
    let told = every_gate(0..3_200, 0, size(5, 12));
    assert!(told.iter().all(|&often| often > 4_000));
}

/// A word, and up to four of them: each setting is told alone.
#[test]
fn up_to_four_words() {
    let told = every_gate(0..480, 6, size(8, 24));
    assert!(told.iter().all(|&often| often > 4_000));
}

/// Up to 64 words: as many inputs as never lines can pin are pinned, the lowest and then the highest.
#[test]
fn up_to_sixty_four_words() {
    let told = every_gate(0..48, 10, size(12, 16));
    assert!(told.iter().all(|&often| often > 4_000));
}
