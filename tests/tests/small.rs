//! The simulator of small blocks, sixty-four settings at a time, against the plain one, which takes one after the other.

use simulator::block::Block;
use simulator::cells::cells_of;
use simulator::compare::cells::list_of;
use simulator::foreign;
use simulator::generate::{
    changed_tables, for_blocks, foreign_cells, mutant, strange_tables, stranger, Change, Random,
    Size,
};
use simulator::groups::ordered_groups;
use simulator::render::copied;
use simulator::small::{is_small, ran, swept, May, Settings, Small, LANES};
use simulator::*;

const ALL: usize = usize::MAX;

/// More gates than `Size::SMALL` has, so that groups are longer.
const LONGER: Size = Size {
    gates: 40,
    ..Size::SMALL
};

fn for_small_blocks(check: impl Fn(&mut Random, &Block, &[u16], &Settings)) {
    for (seeds, size) in [(0..4_000, Size::SMALL), (4_000..5_000, LONGER)] {
        for_blocks(seeds, size, |random, block, words| {
            assert!(is_small(block));
            let settings = Settings::new(random, block.inputs.len());
            check(random, block, words, &settings);
        });
    }
}

/// The values of a lane, a byte each.
fn lane_of(values: &[May], lane: usize) -> Vec<u8> {
    values.iter().map(|may| may.value(lane)).collect()
}

#[test]
fn settings_come_by_number_first() {
    for n in 0..=small::INPUTS {
        let settings = Settings::new(&mut Random::new(n as u64), n);
        assert_eq!(settings.full(), 1 << n);
        for number in 0..settings.full() {
            assert_eq!(settings.bytes(number), values::setting_bytes(number, n));
        }
        let undefined = (0..LANES).filter(|&lane| settings.bytes(lane).contains(&2));
        assert!(n == 0 || undefined.count() > 10);
    }
}

#[test]
fn values_and_rounds() {
    for_small_blocks(|_, block, words, settings| {
        let small = Small::new(block, settings);
        let straight = copied(block);
        let swept = swept(&straight, settings);
        for lane in 0..LANES {
            let setting = settings.bytes(lane);
            let (told, values) = settle(words, setting, ALL);
            assert_eq!(lane_of(&small.gates, lane), values, "{setting:?}");
            assert_eq!(usize::from(small.rounds[lane]), told.count, "{setting:?}");
            let (_, values) = pass(&straight.to_words(), setting, ALL);
            assert_eq!(lane_of(&swept, lane), values, "{setting:?}");
        }
    });
}

#[test]
fn verdicts_covers_groups_and_copies() {
    for_small_blocks(|_, block, words, settings| {
        let small = Small::new(block, settings);
        assert_eq!(small.verdict(), verdict(words));
        assert_eq!(small.cover(), cover(words, ALL).1);
        assert_eq!(small.groups, ordered_groups(block));
        assert_eq!(small.group_numbers(), groups(words, ALL).1);
        assert_eq!(small.copied(), copied(block));
    });
}

#[test]
fn other_blocks() {
    for_small_blocks(|random, block, words, settings| {
        let small = Small::new(block, settings);
        let straight = copied(block);
        let mut others = vec![block.clone(), straight.clone()];
        for change in Change::ALL {
            others.extend(mutant(random, &straight, change));
        }
        others.extend(stranger(random, &straight));
        for other in others.iter().filter(|other| other.gates.len() < 200) {
            let expected = foreign::compared(words, &other.to_words());
            assert_eq!(small.compared(other), expected, "{other:?}");
        }
    });
}

#[test]
fn cells_and_runs() {
    for_small_blocks(|random, block, words, settings| {
        let small = Small::new(block, settings);
        let straight = copied(block);
        let (n, list) = (block.inputs.len(), list_of(&straight));
        let cells = cells_of(&straight, &straight.to_words());
        for cells in [&cells, &foreign_cells(random, n, 9)] {
            let nodes = ran(cells, settings);
            for lane in 0..settings.full() {
                let (_, values) = run(n, cells, settings.bytes(lane), ALL);
                let lanes = nodes[n..].iter().map(|node| (node >> lane & 1) as u8);
                assert!(lanes.eq(values), "{:?}", settings.bytes(lane));
            }
        }
        let mut tables = vec![(cells.clone(), list.clone())];
        tables.extend(changed_tables(random, n, &cells, &list));
        tables.extend(strange_tables(random, n, &cells, &list));
        for (cells, list) in tables {
            let expected = compared_cells(words, &cells, &list);
            assert_eq!(small.compared_cells(&cells, &list), expected);
        }
    });
}
