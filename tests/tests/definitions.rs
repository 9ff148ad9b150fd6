//! The simulator's own ways against plain transcriptions of the definitions of docs/SPECIFICATION.md.

use simulator::block::{Block, Gate, Kind, Never, Output, Source};
use simulator::generate::{about_1024_copies, for_blocks, Random, Size};
use simulator::groups::ordered_groups;
use simulator::limits::{BLOCK_WORDS, COVER_WORDS, GATES, INPUTS, NEVERS};
use simulator::passes::passes;
use simulator::rounds::{evaluated, rounds, stated_value};
use simulator::settle::sweep;
use simulator::values::{gate_value, setting_bytes, Network};
use simulator::{cover, groups, line, render, verdict};
use std::collections::BTreeSet;

/// A group's number for each gate, straight from the definition.
fn stated_groups(block: &Block) -> Vec<u16> {
    let reach = reach(block);
    let m = block.gates.len();
    let one_group = |a: usize, b: usize| a == b || (reach[a][b] && reach[b][a]);
    let mut numbers: Vec<Option<u16>> = vec![None; m];
    let mut next = 0;
    while numbers.contains(&None) {
        let ready = |gate: &usize| {
            let group = (0..m).filter(|&other| one_group(*gate, other));
            let mut reads = group.flat_map(|g| block.gates[g].gates_read());
            reads.all(|read| one_group(*gate, read) || numbers[read].is_some())
        };
        let unnumbered = (0..m).filter(|&gate| numbers[gate].is_none());
        let lowest = unnumbered.clone().find(ready).expect("one is ready");
        let group: Vec<usize> = unnumbered.filter(|&g| one_group(lowest, g)).collect();
        group.iter().for_each(|&gate| numbers[gate] = Some(next));
        next += 1;
    }
    numbers.into_iter().flatten().collect()
}

/// Whether a gate reaches another through one operand or more.
fn reach(block: &Block) -> Vec<Vec<bool>> {
    let m = block.gates.len();
    let mut reach = vec![vec![false; m]; m];
    for (number, gate) in block.gates.iter().enumerate() {
        gate.gates_read()
            .for_each(|read| reach[number][read] = true);
    }
    for middle in 0..m {
        for from in 0..m {
            for to in 0..m {
                reach[from][to] |= reach[from][middle] && reach[middle][to];
            }
        }
    }
    reach
}

#[test]
fn groups_as_stated() {
    let check = |_: &mut Random, block: &Block, words: &[u16]| {
        let stated = stated_groups(block);
        let count = stated.iter().max().map_or(0, |&last| usize::from(last) + 1);
        let (told, numbers) = groups(words, GATES);
        assert_eq!((told.count, numbers), (count, stated));
    };
    for_blocks(0..8_000, Size::SMALL, check);
    let middle = Size {
        gates: 40,
        ..Size::LARGE
    };
    for_blocks(0..1_000, middle, check);
}

/// Every setting that isn't excluded, with the settled values.
fn stated_settled(block: &Block) -> Vec<(Vec<u8>, Vec<u8>)> {
    let n = block.inputs.len();
    let excluded = stated_exclusions(block);
    let settings = (0..1 << n).filter(|&setting| !excluded[setting]);
    let settled = settings.map(|number| {
        let setting = setting_bytes(number, n);
        let values = rounds(block, &setting).0;
        (setting, values)
    });
    settled.collect()
}

/// The least number of passes of each group, at least one, after which all its gates have their settled values under every setting that
/// isn't excluded: from undefined ones, one gate after another, the other gates settled.
fn stated_passes(block: &Block, groups: &[Vec<usize>]) -> Vec<usize> {
    let settled = stated_settled(block);
    let serve = |members: &[usize], passes: usize| {
        settled.iter().all(|(setting, settled)| {
            let mut values = settled.clone();
            members.iter().for_each(|&gate| values[gate] = 2);
            for _pass in 0..passes {
                for &gate in members {
                    values[gate] = evaluated(&block.gates[gate], setting, &values);
                }
            }
            members.iter().all(|&gate| values[gate] == settled[gate])
        })
    };
    let least = |members: &Vec<usize>| (1..).find(|&passes| serve(members, passes));
    let groups = groups.iter();
    groups
        .map(|members| least(members).expect("the group's size serves"))
        .collect()
}

/// The gates of each group, ascending.
fn stated_members(block: &Block) -> Vec<Vec<usize>> {
    let numbers = stated_groups(block);
    let count = numbers.iter().max().map_or(0, |&last| last + 1);
    let members = |group: u16| (0..numbers.len()).filter(move |&gate| numbers[gate] == group);
    (0..count)
        .map(|group| members.clone()(group).collect())
        .collect()
}

/// Copy by copy, each group so many passes, with the newest copy of each gate so far; what stands where there is none yet is given.
/// Gives the copies, and the last of each gate.
fn stated_copies(block: &Block, passes: &[usize], none: Source) -> (Vec<Gate>, Vec<Source>) {
    let mut newest = vec![none; block.gates.len()];
    let mut gates = Vec::new();
    for (members, &passes) in stated_members(block).iter().zip(passes) {
        for _pass in 0..passes {
            for &gate in members {
                let Gate { kind, operands } = block.gates[gate].clone();
                let operands = operands.into_iter().map(|o| copied(o, &newest)).collect();
                newest[gate] = Source::Gate(gates.len());
                gates.push(Gate { kind, operands });
            }
        }
    }
    (gates, newest)
}

fn copied(source: Source, newest: &[Source]) -> Source {
    match source {
        Source::Gate(gate) => newest[gate],
        kept => kept,
    }
}

/// The rendering with the stated passes, and constant 0 where there is no copy yet.
fn stated_rendering(block: &Block) -> Block {
    let passes = stated_passes(block, &stated_members(block));
    let (gates, newest) = stated_copies(block, &passes, Source::Constant(false));
    let output = |output: &Output| Output {
        port: output.port.clone(),
        node: copied(output.node, &newest),
    };
    Block {
        inputs: block.inputs.clone(),
        nevers: block.nevers.clone(),
        outputs: block.outputs.iter().map(output).collect(),
        gates,
    }
}

#[test]
fn renderings_as_stated() {
    let mut check = |_: &mut Random, block: &Block, words: &[u16]| {
        let (told, result) = render(words, BLOCK_WORDS);
        let stated = stated_rendering(block);
        assert_eq!(told.number == 8, stated.gates.len() > GATES);
        if told.number == 0 {
            assert_eq!(result, stated.to_words());
        }
    };
    for_blocks(0..8_000, Size::SMALL, &mut check);
    let middle = Size {
        inputs: 6,
        gates: 60,
        ..Size::LARGE
    };
    for_blocks(0..100, middle, &mut check);
    for_blocks(
        200..208,
        Size {
            inputs: INPUTS,
            ..middle
        },
        &mut check,
    );
    for seed in 0..4 {
        let mut random = Random::new(seed);
        let block = about_1024_copies(&mut random);
        check(&mut random, &block, &block.to_words());
    }
}

/// How many groups of more than one gate need how many passes, and how many fewer than their gates.
#[test]
fn passes_as_stated() {
    let mut by_passes = [0; 8];
    let mut fewer = 0;
    for_blocks(0..20_000, Size::SMALL, |_, block, _| {
        let members = stated_members(block);
        let stated = stated_passes(block, &members);
        assert_eq!(passes(block, &ordered_groups(block)), stated);
        for (members, passes) in members.iter().zip(stated) {
            assert!(passes <= members.len());
            if members.len() > 1 {
                by_passes[passes] += 1;
                fewer += usize::from(passes < members.len());
            }
        }
    });
    println!("loops by passes {by_passes:?}, {fewer} with fewer than gates");
    assert!((1..=3).all(|passes| by_passes[passes] > 100) && fewer > 5_000);
}

/// In other words: with an undefined input where a gate has no copy yet, a sweep gives each last copy its gate's settled value under every
/// setting that isn't excluded, and with one pass fewer in a group some last copy there has another under one of them.
#[test]
fn passes_by_copies() {
    let mut looked_at = 0;
    for_blocks(0..8_000, Size::SMALL, |_, block, _| {
        let members = stated_members(block);
        let n = block.inputs.len();
        let excluded = stated_exclusions(block);
        let serve = |passes: &[usize], members: &[usize]| {
            let (gates, newest) = stated_copies(block, passes, Source::Input(n));
            let mut inputs = block.inputs.clone();
            inputs.push("none".to_string());
            let copies = Block {
                inputs,
                gates,
                ..Block::default()
            };
            let mut settings = (0..1 << n).filter(|&number| !excluded[number]);
            settings.all(|number| {
                let mut setting = setting_bytes(number, n);
                let settled = rounds(block, &setting).0;
                setting.push(2);
                let swept = sweep(&copies, &setting);
                members.iter().all(|&gate| match newest[gate] {
                    Source::Gate(copy) => swept[copy] == settled[gate],
                    _ => false,
                })
            })
        };
        let passes = passes(block, &ordered_groups(block));
        let all: Vec<usize> = (0..block.gates.len()).collect();
        assert!(serve(&passes, &all));
        for (group, members) in members.iter().enumerate() {
            if passes[group] > 1 {
                let mut fewer = passes.clone();
                fewer[group] -= 1;
                assert!(!serve(&fewer, members), "group {group}");
                looked_at += 1;
            }
        }
    });
    println!("{looked_at} groups with one pass fewer");
    assert!(looked_at > 1_000);
}

/// The prime implicants of the settings that are settled or excluded, by merging pairs that differ in one fixed input.
fn merged_cover(settled: &[bool]) -> Vec<u16> {
    let full = settled.len() as u16 - 1;
    let minterms = (0..=full).filter(|&s| settled[usize::from(s)]);
    let mut level: BTreeSet<(u16, u16)> = minterms.map(|s| (full, s)).collect();
    let mut primes = BTreeSet::new();
    while !level.is_empty() {
        let mut merged = BTreeSet::new();
        let mut used = BTreeSet::new();
        for &(mask, ones) in &level {
            for bit in (0..INPUTS).map(|i| 1 << i).filter(|bit| mask & bit != 0) {
                if level.contains(&(mask, ones ^ bit)) {
                    merged.insert((mask & !bit, ones & !bit));
                    used.insert((mask, ones));
                }
            }
        }
        primes.extend(level.difference(&used).copied());
        level = merged;
    }
    primes
        .into_iter()
        .flat_map(|(mask, ones)| [mask, ones])
        .collect()
}

#[test]
fn covers_are_prime_implicants() {
    let check = |_: &mut Random, block: &Block, words: &[u16]| {
        let excluded = stated_exclusions(block).into_iter();
        let settled = Network::new(block).settled_settings().into_iter();
        let sound = settled
            .zip(excluded)
            .map(|(settled, excluded)| settled || excluded);
        let sound: Vec<bool> = sound.collect();
        let (told, entries) = cover(words, COVER_WORDS);
        assert_eq!((told.number, entries), (0, merged_cover(&sound)));
    };
    for_blocks(0..8_000, Size::SMALL, check);
    let many_inputs = Size {
        gates: 30,
        ..Size::LARGE
    };
    for_blocks(0..60, many_inputs, check);
}

/// Whether each setting agrees with some never line, input by input.
fn stated_exclusions(block: &Block) -> Vec<bool> {
    let n = block.inputs.len();
    let bit = |mask: u16, i: usize| usize::from(mask) >> i & 1;
    let agrees = |setting: usize, never: &Never| {
        let mut fixed = (0..n).filter(|&i| bit(never.fixed, i) == 1);
        fixed.all(|i| setting >> i & 1 == bit(never.ones, i))
    };
    let excluded = |setting| block.nevers.iter().any(|never| agrees(setting, never));
    (0..1 << n).map(excluded).collect()
}

#[test]
fn exclusions_as_stated() {
    let mut lines = [0; NEVERS + 1];
    let mut all = 0;
    for_blocks(0..8_000, Size::SMALL, |_, block, words| {
        let excluded = block.excluded_settings();
        assert_eq!(excluded, stated_exclusions(block));
        let settled = Network::new(block).settled_settings();
        let is =
            |setting: usize, is_settled: bool| !excluded[setting] && settled[setting] == is_settled;
        let mut told = verdict(words);
        assert_eq!(
            told.count,
            (0..settled.len()).filter(|&s| is(s, true)).count()
        );
        told.detail = (0..settled.len())
            .find(|&s| is(s, false))
            .unwrap_or(settled.len());
        assert_eq!(told, verdict(words));
        lines[block.nevers.len()] += 1;
        all += usize::from(!excluded.contains(&false));
    });
    println!("blocks by never lines {lines:?}, {all} with every setting excluded");
    assert!(lines.iter().all(|&blocks| blocks > 100) && all > 100);
}

#[test]
fn gate_values_as_stated() {
    for kind in Kind::ALL {
        let counts = if kind == Kind::Not { 1..=1 } else { 2..=4 };
        for count in counts {
            for number in 0..3_usize.pow(count) {
                let digit = |i| (number / 3_usize.pow(i) % 3) as u8;
                let operands: Vec<u8> = (0..count).map(digit).collect();
                let value = gate_value(kind, operands.iter().copied());
                assert_eq!(
                    value,
                    stated_value(kind, &operands),
                    "{kind:?} {operands:?}"
                );
            }
        }
    }
}

#[test]
fn lines_as_stated() {
    for seed in 0..2_000 {
        let mut random = Random::new(seed);
        let length = random.below(12);
        let text: Vec<u8> = (0..length).map(|_| random.pick(b"ab\n")).collect();
        for place in 0..length + 3 {
            let held = place.min(length);
            let start = (0..held)
                .rev()
                .find(|&i| text[i] == b'\n')
                .map_or(0, |i| i + 1);
            let end = (held..length).find(|&i| text[i] == b'\n').unwrap_or(length);
            let expected = (start, end - start);
            assert_eq!(
                line(&text, place),
                expected,
                "seed {seed}, {text:?}, {place}"
            );
        }
    }
}
