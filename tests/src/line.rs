//! Line: the line of a text that holds a place.

/// The start and length of the line that holds `place`, without its LF; past the end counts as the end.
pub fn line(text: &[u8], place: usize) -> (usize, usize) {
    let place = place.min(text.len());
    let mut start = 0;
    for part in text.split(|&byte| byte == b'\n') {
        if place <= start + part.len() {
            return (start, part.len());
        }
        start += part.len() + 1;
    }
    unreachable!("the last part reaches the end of the text")
}
