//! Verdict: how many settings are settled, and the lowest that isn't, of those that no never line excludes.

use crate::answer::Answer;
use crate::malformed::well_formed;
use crate::values::Network;

/// Count: settled settings; detail: the lowest other, or 2^n if none.
pub fn verdict(block: &[u16]) -> Answer {
    let block = match well_formed(block) {
        Ok(block) => block,
        Err(refusal) => return refusal,
    };
    let network = Network::new(&block);
    let (counted, sound) = (network.counted_settings(), network.sound_settings());
    let lowest = sound.iter().position(|&sound| !sound);
    Answer {
        number: 0,
        count: counted.iter().filter(|&&counted| counted).count(),
        detail: lowest.unwrap_or(sound.len()),
    }
}
