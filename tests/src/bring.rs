//! Bring: a block stored before there were never lines, with a fourth count.

use crate::answer::*;
use crate::limits::OLD_HEAD_WORDS;
use crate::malformed::was_malformed;

/// The block of today; count: words.
pub fn bring(old: &[u16], room: usize) -> (Answer, Vec<u16>) {
    told(brought(old), room)
}

fn brought(old: &[u16]) -> Outcome<u16> {
    refuse_if(was_malformed(old), MALFORMED_BLOCK)?;
    let mut words = old.to_vec();
    words.insert(OLD_HEAD_WORDS, 0);
    Ok((words.len(), words))
}
