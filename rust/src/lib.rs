//! unloop takes loops out of gate netlists: by proof, not by test. This package gives the proved library to callers in Rust.
//!
//! A [`Block`] is read from a text, or made of stored words; its methods are the operations. What can be refused gives
//! a [`Refusal`]:
//!
//! ```
//! use unloop::{Block, Refusal};
//!
//! let block = Block::read("(in s)\n(gate p (and s q))\n(gate q (or s p))\n(out y q)\n")?;
//! assert!(block.verdict().is_sound());
//! assert_eq!(
//!     block.render()?.write(),
//!     "(in s)\n(gate _0 (and s 0))\n(gate _1 (or s _0))\n(gate _2 (and s _1))\n(gate _3 (or s _2))\n(out y _3)\n"
//! );
//!
//! let refused = Block::read("(in _a)\n").unwrap_err();
//! assert_eq!(refused, Refusal::SyntaxError { place: 4 });
//! assert_eq!(refused.to_string(), "syntax error at byte 4");
//! # Ok::<(), Refusal>(())
//! ```
//!
//! [`raw`] has the library's own functions on lent slices, for callers that allocate nothing; [`limits`] says how much
//! room is enough.
//!
//! What stands on proof and what is tested around it are two modules: [`proved`] and [`tools`]. Everything in them is also
//! to be found here.

pub mod audit;
mod blif;
pub mod blif_model;
mod block;
mod cell_table;
mod cells;
mod circle;
mod conversions;
mod copies;
pub mod declarations;
pub mod design;
pub mod drawing;
mod export;
mod fit;
mod from_blif;
mod gate;
mod gather;
mod hint;
pub mod json;
mod lanes;
pub mod limits;
mod location;
mod names;
mod opening;
pub mod orders;
mod pins;
pub mod proved;
pub mod raw;
mod refusal;
mod results;
pub mod second_look;
mod sheet;
pub mod tools;
mod value;
mod verilog;
mod visible;

pub use proved::*;
pub use tools::*;
