//! Cover, by brute force over all partial assignments and all settings that agree with each.

use crate::answer::{told, Answer, Outcome};
use crate::malformed::well_formed;
use crate::values::Network;
use std::iter::successors;

/// Two words an entry, the mask of fixed inputs and of those fixed at 1; count: entries.
pub fn cover(block: &[u16], room: usize) -> (Answer, Vec<u16>) {
    told(covered(block), room)
}

fn covered(words: &[u16]) -> Outcome<u16> {
    let block = well_formed(words)?;
    let entries = entries(&Network::new(&block).sound_settings());
    let words = entries.iter().flat_map(|&(mask, ones)| [mask, ones]);
    Ok((entries.len(), words.map(|word| word as u16).collect()))
}

/// The cover of a list that tells which settings are settled or excluded, ascending.
pub fn entries(good: &[bool]) -> Vec<(usize, usize)> {
    let sound = soundness(good);
    let mut entries = assignments(good.len());
    entries.retain(|&(mask, ones)| sound[mask][ones]);
    entries.retain(|&(mask, ones)| {
        let fixed = (0..usize::BITS).map(|i| 1 << i);
        let mut fixed = fixed.filter(|bit| mask & bit != 0);
        fixed.all(|bit| !sound[mask & !bit][ones & !bit])
    });
    entries
}

/// Every partial assignment, as fixed inputs and those fixed at 1, ascending.
fn assignments(settings: usize) -> Vec<(usize, usize)> {
    let below = |mask| parts(mask).map(move |ones| (mask, ones));
    (0..settings).flat_map(below).collect()
}

/// The masks that have no bit but those of one, ascending.
fn parts(mask: usize) -> impl Iterator<Item = usize> {
    let next = move |part: &usize| (*part != mask).then(|| part.wrapping_sub(mask) & mask);
    successors(Some(0), next)
}

/// For each assignment, whether every setting that agrees with it is settled or excluded.
fn soundness(good: &[bool]) -> Vec<Vec<bool>> {
    let mut sound = vec![vec![false; good.len()]; good.len()];
    for (mask, ones) in assignments(good.len()) {
        let mut free = parts(good.len() - 1 - mask);
        sound[mask][ones] = free.all(|others| good[ones | others]);
    }
    sound
}
