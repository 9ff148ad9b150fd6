//! Compare on renderings, right ones and ones with a change, against the simulator's brute force.

use simulator::answer::{INTERFACE_MISMATCH, MALFORMED_BLOCK, NOT_STRAIGHT};
use simulator::compare::compare_pair;
use simulator::compare::foreign::{blocks, refused_pairs, Mutants, ACCEPTED};
use simulator::compare::tally::answered_often;
use simulator::generate::{for_blocks, for_typical_blocks, large, Change, Size};
use simulator::limits::GATES;
use simulator::render::{copied, render};

/// Prints how many mutants of some blocks were caught.
fn print(mutants: &Mutants, blocks: &str) {
    for change in Change::ALL {
        let (caught, equal) = (
            mutants.caught[change as usize],
            mutants.equal[change as usize],
        );
        println!("{blocks}, {change:?} changed: {caught} caught, {equal} equal under every settled setting");
    }
    let hidden = mutants.hidden;
    println!("{blocks}: {hidden} of the equal ones differ under settings that never come");
}

#[test]
fn mutants_of_small_renderings() {
    let mutants = blocks(0..6_000, Size::SMALL, 4);
    print(&mutants, "small blocks");
    let all = |counts: [usize; 3]| counts.iter().sum::<usize>();
    assert!(all(mutants.caught) > 10_000 && all(mutants.equal) > 10_000);
    assert!(mutants.hidden > 1_000);
}

#[test]
fn mutants_of_typical_renderings() {
    let mut mutants = Mutants::default();
    for_typical_blocks(0..60, |random, block, words| {
        mutants.of(random, block, words, 2);
    });
    print(&mutants, "typical blocks");
}

/// The largest blocks with what the passes make of them, and with themselves.
#[test]
fn largest_blocks() {
    for (_, block) in large() {
        let (words, rendering) = (block.to_words(), copied(&block));
        compare_pair(&words, &words);
        if rendering.gates.len() <= GATES {
            assert_eq!(compare_pair(&words, &rendering.to_words()), ACCEPTED);
        }
    }
}

/// What Render answers 0 for is accepted.
#[test]
fn renderings_are_accepted() {
    let mut rendered = 0;
    for_blocks(0..4_000, Size::SMALL, |_, _, words| {
        let (told, rendering) = render(words, usize::MAX);
        if told.number == 0 {
            rendered += 1;
            assert_eq!(compare_pair(words, &rendering), ACCEPTED);
        }
    });
    assert!(rendered > 1_000);
}

/// 6 for either block, then 10 for theirs, then 12.
#[test]
fn refusals_of_pairs() {
    refused_pairs(0..4_000);
    answered_often(&[MALFORMED_BLOCK, NOT_STRAIGHT, INTERFACE_MISMATCH], 500);
}
