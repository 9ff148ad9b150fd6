//! The names that a netlist text declares, with their places. Assumes that the text is in form, as Read told of it: a line's first word
//! says what it is, and names stand where the grammar puts them. Of other texts something is told all the same, and nothing panics.

/// The four kinds of lines.
#[derive(Debug, Clone, Copy, PartialEq, Eq)]
pub(crate) enum LineKind {
    Input,
    Never,
    Gate,
    Output,
}

/// A line of a text.
#[derive(Debug, Clone, Copy)]
pub(crate) struct Line<'a> {
    pub kind: LineKind,
    /// The place of its first byte.
    pub start: usize,
    /// Without its LF.
    pub bytes: &'a [u8],
}

/// A name and the place of its first byte.
#[derive(Debug, Clone, Copy, PartialEq, Eq)]
pub(crate) struct Name<'a> {
    pub bytes: &'a [u8],
    pub place: usize,
}

/// The lines of a text, in order.
pub(crate) fn lines(text: &[u8]) -> impl Iterator<Item = Line<'_>> {
    let mut start = 0;
    let cut = text.split(|&byte| byte == b'\n').map(move |bytes| {
        let begun = start;
        start += bytes.len() + 1;
        (begun, bytes)
    });
    cut.filter_map(|(start, bytes)| {
        let words = [
            (&b"(in "[..], LineKind::Input),
            (b"(never", LineKind::Never),
            (b"(gate ", LineKind::Gate),
            (b"(out ", LineKind::Output),
        ];
        let found = words.into_iter().find(|(word, _)| bytes.starts_with(word));
        let (_, kind) = found?;
        Some(Line { kind, start, bytes })
    })
}

impl<'a> Line<'a> {
    /// The names that stand in it, its first word and the kinds of gates left out: a name is what follows a space, or the bracket of a
    /// pair in a never line.
    pub fn names(self) -> impl Iterator<Item = Name<'a>> {
        let before = move |place: usize| match self.kind {
            LineKind::Never => self.bytes[place] == b'(' && place > 0,
            _ => self.bytes[place] == b' ',
        };
        let begins = |byte: &u8| byte.is_ascii_lowercase() || *byte == b'_';
        let places = (1..self.bytes.len()).filter(move |&place| before(place - 1));
        let places = places.filter(move |&place| begins(&self.bytes[place]));
        places.map(move |place| Name {
            bytes: name_at(self.bytes, place),
            place: self.start + place,
        })
    }

    /// The name that the line declares: an input's, a gate's or a port.
    pub fn declared(self) -> Option<Name<'a>> {
        match self.kind {
            LineKind::Never => None,
            _ => self.names().next(),
        }
    }

    /// How many gates a gate line has, inner ones counted.
    pub fn gates(self) -> usize {
        match self.kind {
            LineKind::Gate => self.bytes.iter().filter(|&&byte| byte == b'(').count() - 1,
            _ => 0,
        }
    }
}

/// The bytes of a name that begins at a place.
pub fn name_at(text: &[u8], place: usize) -> &[u8] {
    let rest = &text[place.min(text.len())..];
    let goes_on = |byte: &u8| byte.is_ascii_lowercase() || byte.is_ascii_digit() || *byte == b'_';
    let length = rest.iter().position(|byte| !goes_on(byte));
    &rest[..length.unwrap_or(rest.len())]
}

/// The name of each gate by number; an inner gate has none.
///
/// ```
/// let text = b"(in a)\n(gate p (and a (not q)))\n(gate q (not p))\n";
/// let names = unloop::declarations::gate_names(text);
/// assert_eq!(names, [None, Some("p".to_string()), Some("q".to_string())]);
/// ```
pub fn gate_names(text: &[u8]) -> Vec<Option<String>> {
    let mut names = Vec::new();
    for line in lines(text) {
        names.resize(names.len() + line.gates(), None);
        if let (LineKind::Gate, Some(name), Some(last)) =
            (line.kind, line.declared(), names.last_mut())
        {
            *last = Some(String::from_utf8_lossy(name.bytes).into_owned());
        }
    }
    names
}

/// The number of the line that each gate stands in, from 1 on; an inner gate stands in the line of the gate that reads it.
///
/// ```
/// let text = b"(in a)\n(gate p (and a (not q)))\n(gate q (not p))\n";
/// assert_eq!(unloop::declarations::gate_rows(text), [2, 2, 3]);
/// ```
pub fn gate_rows(text: &[u8]) -> Vec<usize> {
    let rows = lines(text).zip(1..);
    let rows = rows.flat_map(|(line, row)| std::iter::repeat_n(row, line.gates()));
    rows.collect()
}
