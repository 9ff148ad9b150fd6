//! A second, independent program for every operation of docs/SPECIFICATION.md and for the bench, to compare the proved one with.
//! Written from the papers only, in plain safe Rust, and in other ways than the definitions go.
//! A block is lent as its words; `room` is the length of the slice for the result.
//! `generate` makes the input, `compare` compares the two programs on it; nothing else here calls the proved one.

pub mod answer;
pub mod any_order;
pub mod bench;
pub mod blif;
pub mod block;
pub mod bring;
pub mod catalogue;
pub mod cells;
pub mod circuit;
pub mod compare;
pub mod compare_cells;
pub mod cover;
pub mod cut;
pub mod executed;
pub mod foreign;
pub mod gate_table;
pub mod gather;
pub mod generate;
pub mod groups;
pub mod limits;
pub mod line;
pub mod malformed;
pub mod parser;
pub mod passes;
pub mod program;
pub mod recogniser;
pub mod render;
pub mod rounds;
pub mod settle;
pub mod sheet;
pub mod small;
pub mod specimens;
pub mod text;
pub mod values;
pub mod verdict;
pub mod write;

pub use answer::Answer;
pub use bench::bench;
pub use bring::bring;
pub use cells::{cells, run};
pub use compare_cells::compared_cells;
pub use cover::cover;
pub use gather::{gather, scatter};
pub use groups::groups;
pub use line::line;
pub use program::unloop;
pub use render::render;
pub use settle::{pass, settle};
pub use sheet::sheet;
pub use text::read;
pub use verdict::verdict;
pub use write::write;
