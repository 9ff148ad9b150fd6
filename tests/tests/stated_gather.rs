//! The simulator's Gather and Scatter against a transcription of Paper 12 on the words, and what the paper says of them.

mod common;

use common::answer;
use simulator::block::Block;
use simulator::gather::is_permutation;
use simulator::generate::{bad_orders, for_blocks, order, Random, Report, Size};
use simulator::limits::{block_words, COVER_WORDS, GATES};
use simulator::malformed::is_malformed;
use simulator::rounds::rounds;
use simulator::specimens::words_of;
use simulator::{cover, gather, groups, render, scatter, verdict};

/// The words with the gate of each place taken from an old one, every gate's number replaced by the place that has it.
fn stated_words(words: &[u16], old_numbers: &[usize]) -> Vec<u16> {
    let [n, m, k, l] = [0, 1, 2, 3].map(|i| usize::from(words[i]));
    let gates = block_words(n, l, 0, 0);
    let place_of = |old: usize| old_numbers.iter().position(|&o| o == old).unwrap();
    let renamed = |word: u16| match usize::from(word) {
        constant if constant >= 65_534 => word,
        input if input < n => word,
        gate => (n + place_of(gate - n)) as u16,
    };
    let mut made = words.to_vec();
    for (place, old) in old_numbers.iter().enumerate() {
        let (to, from) = (gates + 5 * place, gates + 5 * old);
        made[to] = words[from];
        for i in 1..5 {
            let used = i <= usize::from(words[from] / 8);
            made[to + i] = if used { renamed(words[from + i]) } else { 0 };
        }
    }
    for output in 0..k {
        let shown = gates + 5 * m + 5 * output + 4;
        made[shown] = renamed(words[shown]);
    }
    made
}

/// The gates' old numbers, group by group, ascending in each.
fn stated_order(words: &[u16]) -> Vec<usize> {
    let (told, numbers) = groups(words, GATES);
    let members = |group: usize| {
        let gates = 0..numbers.len();
        gates.filter(move |&gate| usize::from(numbers[gate]) == group)
    };
    (0..told.count)
        .flat_map(|group| members.clone()(group))
        .collect()
}

/// The old number of each place, where the list tells each place's new one.
fn inverse(list: &[u16]) -> Vec<usize> {
    let place = |number: usize| list.iter().position(|&n| usize::from(n) == number);
    (0..list.len())
        .map(|number| place(number).unwrap())
        .collect()
}

fn list_of(numbers: &[usize]) -> Vec<u16> {
    numbers.iter().map(|&number| number as u16).collect()
}

#[test]
fn worked_orders() {
    let apart = words_of("(gate p (not r))\n(gate q (and p r))\n(gate r (not p))\n(out y q)\n");
    let together = words_of("(gate p (not q))\n(gate q (not p))\n(gate r (and p q))\n(out y r)\n");
    let (told, words, list) = gather(&apart, 24, 3);
    assert_eq!(
        (told, words, list),
        (answer(0, 24, 0), together.clone(), vec![0, 2, 1])
    );
    for rooms in [(23, 3), (24, 2), (0, 0), (23, 2)] {
        assert_eq!(
            gather(&apart, rooms.0, rooms.1),
            (answer(11, 0, 0), vec![], vec![])
        );
    }
    assert_eq!(
        scatter(&together, &[0, 2, 1], 24),
        (answer(0, 24, 0), apart.clone())
    );
    assert_eq!(
        scatter(&together, &[0, 2, 1], 23),
        (answer(11, 0, 0), vec![])
    );
    for list in [&[0, 2][..], &[0, 2, 1, 3], &[0, 2, 2], &[0, 3, 1], &[]] {
        assert_eq!(scatter(&together, list, 0), (answer(13, 0, 0), vec![]));
        assert_eq!(scatter(&together[1..], list, 0), (answer(6, 0, 0), vec![]));
    }
    assert_eq!(gather(&apart[1..], 0, 0), (answer(6, 0, 0), vec![], vec![]));
    // An unused operand word is 0 and no gate.
    let lone = words_of("(gate p (not q))\n(gate q (not 0))\n");
    assert_eq!(
        gather(&lone, 14, 2).1,
        words_of("(gate p (not 0))\n(gate q (not p))\n")
    );
    let empty = words_of("");
    assert_eq!(
        gather(&empty, 4, 0),
        (answer(0, 4, 0), empty.clone(), vec![])
    );
    assert_eq!(scatter(&empty, &[], 4), (answer(0, 4, 0), empty));
}

#[test]
fn orders_as_stated() {
    let mut moved = 0;
    let mut check = |random: &mut Random, block: &Block, words: &[u16]| {
        let order_of_groups = stated_order(words);
        let (told, gathered, list) = gather(words, usize::MAX, usize::MAX);
        assert_eq!(told, answer(0, words.len(), 0));
        assert_eq!(list, list_of(&order_of_groups));
        assert_eq!(gathered, stated_words(words, &order_of_groups));
        moved += usize::from(gathered != words);
        let told = answer(0, words.len(), 0);
        assert_eq!(
            scatter(&gathered, &list, usize::MAX),
            (told, words.to_vec())
        );
        let list = order(random, block.gates.len());
        let expected = stated_words(words, &inverse(&list));
        let (told, scattered) = scatter(words, &list, usize::MAX);
        assert_eq!((told.number, scattered), (0, expected));
    };
    for_blocks(0..20_000, Size::SMALL, &mut check);
    for_blocks(0..20, Size::LARGE, &mut check);
    println!("{moved} blocks were not gathered already");
    assert!(moved > 5_000);
}

/// The gathered block isn't torn, its groups are the same sets and lie side by side, and gathering it changes nothing.
#[test]
fn gathered_blocks() {
    let check = |_: &mut Random, block: &Block, words: &[u16]| {
        let (_, gathered, list) = gather(words, usize::MAX, usize::MAX);
        assert!(!is_malformed(&gathered));
        let (told, numbers) = groups(words, GATES);
        let (same, side_by_side) = groups(&gathered, GATES);
        assert_eq!(told, same);
        assert!(side_by_side.is_sorted());
        let moved = list.iter().map(|&old| numbers[usize::from(old)]);
        assert!(moved.eq(side_by_side));
        let (_, again, identity) = gather(&gathered, usize::MAX, usize::MAX);
        assert_eq!(again, gathered);
        let ascending: Vec<usize> = (0..block.gates.len()).collect();
        assert_eq!(identity, list_of(&ascending));
        if block.is_straight() {
            assert_eq!((gathered, list), (words.to_vec(), identity));
        }
    };
    for_blocks(0..20_000, Size::SMALL, check);
    for_blocks(0..40, Size::LARGE, check);
}

/// Settled values move with their gates under every setting of 0, 1 and undefined; Verdict and Cover answer the same, by any list.
#[test]
fn values_move_with_their_gates() {
    for_blocks(0..4_000, Size::SMALL, |random, block, words| {
        let (_, gathered, old) = gather(words, usize::MAX, usize::MAX);
        let to = order(random, block.gates.len());
        let scattered = scatter(words, &to, usize::MAX).1;
        for number in 0..3_usize.pow(block.inputs.len() as u32) {
            let digit = |i: usize| (number / 3_usize.pow(i as u32) % 3) as u8;
            let setting: Vec<u8> = (0..block.inputs.len()).map(digit).collect();
            let values = rounds(block, &setting);
            let there = rounds(&Block::from_words(&gathered), &setting);
            assert_eq!(values.1, there.1);
            let moved = old.iter().map(|&gate| values.0[usize::from(gate)]);
            assert!(moved.eq(there.0.iter().copied()));
            let back = rounds(&Block::from_words(&scattered), &setting).0;
            let moved = to.iter().map(|&gate| back[usize::from(gate)]);
            assert!(moved.eq(values.0.iter().copied()));
        }
        for other in [&gathered, &scattered] {
            assert_eq!(verdict(words), verdict(other));
            assert_eq!(cover(words, COVER_WORDS), cover(other, COVER_WORDS));
        }
        // The gathered block's passes copy the same gates in the same order.
        assert_eq!(render(words, usize::MAX), render(&gathered, usize::MAX));
    });
}

#[test]
fn lists_that_are_none() {
    let mut refused = 0;
    for_blocks(0..4_000, Size::SMALL, |random, block, words| {
        let m = block.gates.len();
        assert!(is_permutation(&order(random, m), m));
        for (rule, list) in bad_orders(random, m) {
            let _report = Report(|| format!("{rule}: {list:?}"));
            let all = |number: usize| list.iter().any(|&n| usize::from(n) == number);
            assert!(list.len() != m || !(0..m).all(all));
            assert_eq!(scatter(words, &list, 0), (answer(13, 0, 0), vec![]));
            refused += 1;
        }
    });
    assert!(refused > 20_000, "{refused}");
}
