//! The proved operations, for callers in Rust. Behind each method of a [`Block`] or of [`Cells`] that is named after an operation
//! (docs/OPERATIONS.md) stands one call of the proved library; around it stand only the room for its result and the names of
//! its numbers, and these few lines are tested against a separate simulator.
//!
//! What a method promises is the operation's promise: it answers every argument, with the complete result or a [`Refusal`].
//! Methods that have no operation's name are tested, and are no more than readers of stored words ([`Block::gate_list`],
//! [`Block::input_names`]) or tools of [`tools`](crate::tools).

pub use crate::block::Block;
pub use crate::cells::Cells;
pub use crate::gate::{Gate, Kind, Operand};
pub use crate::gather::Gathered;
pub use crate::refusal::Refusal;
pub use crate::results::{Assignment, Disagreement, Groups, Settled, Verdict};
pub use crate::value::Value;
pub use crate::{limits, raw};
