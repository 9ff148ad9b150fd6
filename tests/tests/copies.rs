//! The gates that a rendering would have, as messages tell them, and what each is a copy of, as the page tells it, against the simulator.

use simulator::block::{Block, Source};
use simulator::generate::{for_blocks, for_typical_blocks, large, Report, Size};
use simulator::render::{copied, copies};

#[test]
fn copies_of_generated_blocks() {
    let mut more = 0;
    let mut check = |block: &Block, words: &[u16]| {
        let _report = Report(|| format!("{words:?}"));
        let expected = copies(block);
        let ours = unloop::Block::from_words(words).unwrap();
        assert_eq!(unloop::copies(&ours), expected);
        are_copies(block, &unloop::schedule(&ours));
        more += usize::from(expected > block.gates.len());
    };
    for_blocks(0..300, Size::SMALL, |_, block, words| check(block, words));
    for_typical_blocks(0..3, |_, block, words| check(block, words));
    for (_, block) in large() {
        check(&block, &block.to_words());
    }
    assert!(more > 50, "{more}");
}

/// Each gate of the rendering is of the kind of what it is a copy of, and reads copies of what that reads, or 0 before there is one; the passes
/// of a gate are counted from 1 to their number.
fn are_copies(block: &Block, told: &[unloop::Copied]) {
    let rendering = copied(block);
    assert_eq!(told.len(), rendering.gates.len());
    let mut seen = vec![0; block.gates.len()];
    for (copy, of) in rendering.gates.iter().zip(told) {
        let gate = &block.gates[of.gate];
        assert!(copy.kind == gate.kind && copy.operands.len() == gate.operands.len());
        for operands in copy.operands.iter().zip(&gate.operands) {
            match operands {
                (&Source::Gate(copy), &Source::Gate(read)) => assert_eq!(told[copy].gate, read),
                (Source::Constant(false), &Source::Gate(read)) => assert_eq!(seen[read], 0),
                (copied, read) => assert_eq!(copied, read),
            }
        }
        seen[of.gate] += 1;
        assert_eq!(of.pass, seen[of.gate]);
    }
    assert!(told.iter().all(|of| seen[of.gate] == of.passes));
}
