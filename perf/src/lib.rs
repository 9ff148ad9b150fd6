//! The proved library against a plain Rust program that does the same work: times of both, measured in one run.

pub mod archive;
mod clock;
pub mod growth;
pub mod inputs;
pub mod lines;
pub mod measure;
pub mod operations;
pub mod plain;
pub mod program;
pub mod sheets;
