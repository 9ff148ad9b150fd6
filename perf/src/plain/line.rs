//! Line: a search for an LF in both directions, whole parts of the text at a time.

const PART: usize = 64;

/// The start and length of the line that holds a place, without its LF.
pub fn line(text: &[u8], place: usize) -> (usize, usize) {
    let (before, behind) = text.split_at(place.min(text.len()));
    let is_end = |byte: &u8| *byte == b'\n';
    let has_end = |part: &&[u8]| part.contains(&b'\n');
    let start = before
        .rchunks(PART)
        .position(|part| has_end(&part))
        .map_or(0, |number| {
            let end = before.len() - number * PART;
            let found = before[..end].iter().rposition(is_end);
            found.expect("in this part") + 1
        });
    let end = behind
        .chunks(PART)
        .position(|part| has_end(&part))
        .map_or(text.len(), |number| {
            let from = number * PART;
            let found = behind[from..].iter().position(is_end);
            before.len() + from + found.expect("in this part")
        });
    (start, end - start)
}
