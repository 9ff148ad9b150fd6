//! Both programs in turn on the same inputs, and the best time of each.

use crate::clock::{calls_in_a_stretch, seconds_of_a_call};
use crate::plain;
use std::fmt::Debug;
use std::hint::black_box;
use std::time::{Duration, Instant};
use unloop::raw::Reply;

/// What was measured under a name: the processor time of one call on each input of a set, in seconds, by either program.
pub struct Line {
    pub name: String,
    pub library: f64,
    pub plain: f64,
    /// The plain program's with the library's two words a gate, where it goes through all settings.
    pub narrow: Option<f64>,
    /// How many of the inputs are refused.
    pub refused: usize,
}

impl Line {
    pub fn ratio(&self) -> f64 {
        self.library / self.plain
    }

    /// The ratio to the plain program with two words a gate: what of `ratio` is not due to its up to sixteen.
    pub fn narrow_ratio(&self) -> Option<f64> {
        self.narrow.map(|narrow| self.library / narrow)
    }
}

/// An operation as both programs have it, and the slice that is lent for its result.
pub struct Operation<I, T> {
    pub name: &'static str,
    pub room: usize,
    pub filler: T,
    /// Whether it goes through all settings.
    pub by_lanes: bool,
    pub library: fn(&I, &mut [T]) -> Reply,
    pub plain: fn(&I, &mut [T]) -> Reply,
}

/// At least so many calls of each program on each input, and so long for both together...
const REPETITIONS: usize = 5;
const ENOUGH: Duration = Duration::from_millis(1_000);
/// ... unless they have taken so long already.
const TOO_LONG: Duration = Duration::from_secs(4);

impl<I, T: Copy + PartialEq + Debug> Operation<I, T> {
    /// The times on the inputs of a set, in sum. Panics where the programs differ.
    pub fn measured(&self, set: &str, inputs: &[I]) -> Line {
        let name = format!("{}/{set}", self.name);
        let answered = |input| self.answered(&name, input);
        let refused = inputs.iter().map(answered).filter(|told| told.number != 0);
        let refused = refused.count();
        // The plain program once more, with two words a gate.
        let programs = [self.library, self.plain, self.plain];
        let programs = &programs[..2 + usize::from(self.by_lanes)];
        let calls: Vec<Vec<usize>> = inputs
            .iter()
            .map(|input| {
                let calls = |i| self.run(i, programs, input, |call| calls_in_a_stretch(call));
                (0..programs.len()).map(calls).collect()
            })
            .collect();
        let mut best = [f64::MAX; 3];
        let start = Instant::now();
        for repetition in 1.. {
            let mut took = [0.0; 3];
            for (input, calls) in inputs.iter().zip(&calls) {
                for (i, &calls) in calls.iter().enumerate() {
                    let timed = |call: &mut dyn FnMut() -> Reply| seconds_of_a_call(calls, call);
                    took[i] += self.run(i, programs, input, timed);
                }
            }
            best = [0, 1, 2].map(|i| best[i].min(took[i]));
            let spent = start.elapsed();
            if spent > TOO_LONG || (repetition >= REPETITIONS && spent > ENOUGH) {
                break;
            }
        }
        let [library, plain, narrow] = best;
        Line {
            name,
            library,
            plain,
            narrow: self.by_lanes.then_some(narrow),
            refused,
        }
    }

    /// What both programs answer, the plain one with two words a gate too.
    fn answered(&self, name: &str, input: &I) -> Reply {
        let programs = [
            (self.library, false),
            (self.plain, false),
            (self.plain, true),
        ];
        let [proved, other, narrow] = programs.map(|(run, narrow)| {
            let mut result = vec![self.filler; self.room];
            plain::set_narrow(narrow);
            let told = run(input, &mut result);
            plain::set_narrow(false);
            (told, result)
        });
        assert!(proved == other, "{name}: {:?}, {:?}", proved.0, other.0);
        assert!(narrow == other, "{name}: {:?}, {:?}", narrow.0, other.0);
        proved.0
    }

    /// Hands a call of program `i` over to be timed; the slice is lent and filled before. The third has two words a gate.
    fn run<R>(
        &self,
        i: usize,
        programs: &[fn(&I, &mut [T]) -> Reply],
        input: &I,
        timed: impl FnOnce(&mut dyn FnMut() -> Reply) -> R,
    ) -> R {
        let run = programs[i];
        let mut result = vec![self.filler; self.room];
        plain::set_narrow(i == 2);
        let timed = timed(&mut || black_box(run)(black_box(input), black_box(&mut result)));
        plain::set_narrow(false);
        black_box(result);
        timed
    }
}
