//! What the proved library does, as a good programmer would write it for speed: safe Rust over the same words, texts and lent slices, with the
//! same checks and refusals. Gates are decoded once; Settle looks at the readers of what changed; whatever goes through all settings goes
//! group by group, up to eight words of 64 settings a gate.

mod bench;
mod bits;
mod block;
mod bring;
mod cells;
mod compare;
mod compare_cells;
mod cover;
mod decided;
mod gate;
mod gather;
mod groups;
mod lanes;
mod line;
mod names;
mod pair;
mod parse;
mod read;
mod readers;
mod render;
mod settle;
mod sheet;
mod verdict;
mod write;

pub use bench::bench;
pub use bring::bring;
pub use cells::{cells, run};
pub use compare::compare;
pub use compare_cells::compare_cells;
pub use cover::cover;
pub use decided::set_narrow;
pub use gather::{gather, scatter};
pub use groups::groups;
pub use line::line;
pub use read::read;
pub use render::render;
pub use settle::{pass, settle};
pub use sheet::sheet;
pub use verdict::verdict;
pub use write::write;

use unloop::raw::Reply;

fn done(count: usize, detail: usize) -> Reply {
    Reply {
        number: 0,
        count,
        detail,
    }
}

fn refused(number: usize, detail: usize) -> Reply {
    Reply {
        number,
        count: 0,
        detail,
    }
}

/// The result in the first part of the lent slice, or refusal 11.
fn handed_over<T: Copy>(result: &[T], count: usize, lent: &mut [T]) -> Reply {
    match lent.get_mut(..result.len()) {
        Some(part) => {
            part.copy_from_slice(result);
            done(count, 0)
        }
        None => refused(11, 0),
    }
}
