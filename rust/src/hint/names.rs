//! Names: where one was declared first, and which declared name is nearest to one that isn't.

use crate::declarations::{lines, name_at, Line, LineKind, Name};
use crate::Location;

/// Where the name at a place was declared, or given in its never line, before.
pub fn first(text: &[u8], place: usize) -> Option<String> {
    let name = name_at(text, place);
    let line =
        lines(text).find(|line| line.start <= place && place < line.start + line.bytes.len())?;
    let found = match line.kind {
        LineKind::Never => line.names().find(|found| found.bytes == name),
        kind => declared(text, |other| {
            (kind == LineKind::Output) == (other == LineKind::Output)
        })
        .find(|found| found.bytes == name),
    }?;
    let Location { row, column, .. } = Location::of(text, found.place);
    Some(format!("first in line {row}, column {column}"))
}

/// The declared name that is most like the one at a place, if one is.
pub fn nearest(text: &[u8], place: usize) -> Option<String> {
    let name = name_at(text, place);
    let holds = |line: &Line| line.start <= place && place < line.start + line.bytes.len();
    let in_never = lines(text).find(holds)?.kind == LineKind::Never;
    let gates = |kind: LineKind| kind == LineKind::Gate;
    if in_never && declared(text, gates).any(|gate| gate.bytes == name) {
        return Some("a gate, and never lines name inputs".to_string());
    }
    let nodes = |kind: LineKind| kind == LineKind::Input || (kind == LineKind::Gate && !in_never);
    let near = declared(text, nodes).map(|found| (distance(name, found.bytes), found.bytes));
    let (steps, nearest) = near.min_by_key(|(steps, _)| *steps)?;
    let alike = 2 * steps <= name.len();
    alike.then(|| format!("nearest is {}", String::from_utf8_lossy(nearest)))
}

/// The names that lines of these kinds declare.
fn declared(text: &[u8], kinds: impl Fn(LineKind) -> bool) -> impl Iterator<Item = Name<'_>> {
    lines(text)
        .filter(move |line| kinds(line.kind))
        .filter_map(Line::declared)
}

/// How many letters must be changed, put in, left out or swapped with the next one.
fn distance(from: &[u8], to: &[u8]) -> usize {
    let mut rows = vec![vec![0; to.len() + 1]; from.len() + 1];
    (0..=from.len()).for_each(|i| rows[i][0] = i);
    (0..=to.len()).for_each(|j| rows[0][j] = j);
    for i in 1..=from.len() {
        for j in 1..=to.len() {
            let changed = rows[i - 1][j - 1] + usize::from(from[i - 1] != to[j - 1]);
            let mut least = changed.min(rows[i - 1][j] + 1).min(rows[i][j - 1] + 1);
            if i > 1 && j > 1 && from[i - 1] == to[j - 2] && from[i - 2] == to[j - 1] {
                least = least.min(rows[i - 2][j - 2] + 1);
            }
            rows[i][j] = least;
        }
    }
    rows[from.len()][to.len()]
}
