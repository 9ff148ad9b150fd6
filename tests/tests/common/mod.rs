//! What several test files use.

use simulator::Answer;

/// An answer by its three numbers.
pub fn answer(number: usize, count: usize, detail: usize) -> Answer {
    Answer {
        number,
        count,
        detail,
    }
}
