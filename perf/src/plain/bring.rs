//! Bring: the old words tested as the block of today that they become.

use super::block::Block;
use super::{handed_over, refused};
use unloop::raw::Reply;

/// A block stored with three counts to one of today; count: words.
pub fn bring(old: &[u16], block: &mut [u16]) -> Reply {
    let Some((head, rest)) = old.split_at_checked(3) else {
        return refused(6, 0);
    };
    let words = [head, &[0], rest].concat();
    match Block::of(&words) {
        Some(brought) if brought.n <= 10 => handed_over(&words, words.len(), block),
        _ => refused(6, 0),
    }
}
