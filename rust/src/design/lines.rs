//! Which lines of a file belong together.

use crate::blif_model::logical_lines;

/// What tells of the line before it, and goes where that goes.
const REMARKS: [&str; 2] = [".attr", ".cname"];

/// By line of the file, the number of the line that it is a part of, both from 1: a table's rows are part of its line, as are what it goes on
/// with and remarks on it. Comments and empty lines are part of none, which 0 stands for, as it does before the first.
pub fn owners(text: &str) -> Vec<usize> {
    let mut owners = vec![0; text.lines().count() + 1];
    let mut owner = 0;
    for line in logical_lines(text) {
        let word = line.words[0];
        if word.starts_with('.') && !REMARKS.contains(&word) {
            owner = line.first;
        }
        owners[line.first..=line.last].fill(owner);
    }
    owners
}
