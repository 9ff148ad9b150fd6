//! Slices that are lent to one call after another, between elements that no call may touch.

use super::tally::{count_answer, Operation};
use crate::answer::{Answer, NO_ROOM};
use std::fmt::Debug;
use unloop::raw::Reply;

/// Elements on both sides of a lent slice.
const MARGIN: usize = 8;

/// Elements that are all the filler between two calls.
pub struct Lender<T> {
    filler: T,
    held: Vec<T>,
    untouched: Vec<T>,
}

impl<T: Copy + PartialEq + Debug> Lender<T> {
    pub fn new(filler: T) -> Lender<T> {
        Lender {
            filler,
            held: Vec::new(),
            untouched: Vec::new(),
        }
    }

    /// A slice of so many elements.
    pub fn slice(&mut self, room: usize) -> &mut [T] {
        let whole = MARGIN + room + MARGIN;
        if self.held.len() < whole {
            self.held.resize(whole, self.filler);
            self.untouched.resize(whole, self.filler);
        }
        &mut self.held[MARGIN..MARGIN + room]
    }

    /// Whether the slice of so many elements begins with the result, and the rest of it and what stands around it are untouched; if so, it
    /// is the filler again.
    pub fn begins(&mut self, room: usize, result: &[T]) -> bool {
        let (before, rest) = self.around(room).split_at(MARGIN);
        let (first, behind) = rest.split_at(result.len());
        let (near, far) = (&self.untouched[..MARGIN], &self.untouched[..behind.len()]);
        let same = first == result && before == near && behind == far;
        if same {
            self.held[MARGIN..MARGIN + result.len()].fill(self.filler);
        }
        same
    }

    /// The slice of so many elements, and what stands around it.
    pub fn around(&self, room: usize) -> &[T] {
        &self.held[..MARGIN + room + MARGIN]
    }

    /// Compares one call in a slice of so many elements with the answer and the result where there is room; all of both, and what else is
    /// left there.
    pub fn call(
        &mut self,
        operation: Operation,
        room: usize,
        expected: (Answer, &[T]),
        run: impl FnOnce(&mut [T]) -> Reply,
    ) {
        let no_room = expected.0.number == 0 && room < expected.1.len();
        let (told, result) = match no_room {
            true => (Answer::refusal(NO_ROOM, 0), &[][..]),
            false => expected,
        };
        let got = Answer::from(run(self.slice(room)));
        if got != told || !self.begins(room, result) {
            let left = self.around(room);
            panic!("{operation:?} in a slice of {room}: {got:?} and {left:?} for {told:?} and {result:?}");
        }
        count_answer(operation, told.number);
    }
}

/// Exactly enough room, more, one short and none.
pub fn rooms(exact: usize) -> Vec<usize> {
    let mut rooms = vec![exact, exact + 13];
    if exact > 0 {
        rooms.extend([exact - 1, 0]);
    }
    rooms
}
