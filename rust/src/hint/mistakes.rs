//! Everyday mistakes, told by what stands at the place of a syntax error. What may stand there is asked of Read, as for `expected`.

use super::expected::{context, next};
use crate::declarations::{lines, name_at, LineKind};
use crate::limits::{DEPTH, NAME_BYTES};
use crate::{visible, Kind};

/// What is wrong, where it is such a mistake.
pub fn mistake(text: &[u8], place: usize) -> Option<String> {
    let before = context(text.get(..place)?);
    let found = Found {
        line: before.rsplit(|&byte| byte == b'\n').next()?,
        next: next(before),
        before,
        rest: &text[place..],
    };
    let kinds = [
        Found::strange_byte,
        Found::comment,
        Found::blank,
        Found::letter,
        Found::long_name,
        Found::last_line,
        Found::operands,
        Found::depth,
        Found::order,
        Found::copy,
    ];
    kinds.iter().find_map(|kind| kind(&found))
}

/// The place of a syntax error.
struct Found<'a> {
    /// The line above and the line up to the place; nothing at the text's start.
    before: &'a [u8],
    /// The line up to the place.
    line: &'a [u8],
    /// What stands there.
    rest: &'a [u8],
    /// The bytes that may stand there.
    next: Vec<u8>,
}

impl Found<'_> {
    fn at(&self, byte: u8) -> bool {
        self.rest.first() == Some(&byte)
    }

    fn may_be(&self, byte: u8) -> bool {
        self.next.contains(&byte)
    }

    /// Bytes of other encodings, and those that a screen doesn't show.
    fn strange_byte(&self) -> Option<String> {
        let marks = [&b"\xEF\xBB\xBF"[..], b"\xFE\xFF", b"\xFF\xFE"];
        let marked = marks.iter().any(|mark| self.rest.starts_with(mark));
        Some(match self.rest.first()? {
            _ if self.before.is_empty() && marked => "not ASCII: a byte-order mark".to_string(),
            0 => "a zero byte, as in UTF-16; the text is ASCII".to_string(),
            b'\r' => "a carriage return; lines end with LF alone".to_string(),
            b'\t' => "a tab; items are separated by one space".to_string(),
            128.. => format!("not ASCII: {}", visible(&self.rest[..1])),
            _ => return None,
        })
    }

    /// A line that is empty or a comment, or a comment behind a line's form.
    fn comment(&self) -> Option<String> {
        let content = self.rest.trim_ascii_start();
        let comment = [&b"#"[..], b";", b"//"]
            .iter()
            .any(|mark| content.starts_with(mark));
        let blank = self.rest.iter().find(|&&byte| byte != b' ') == Some(&b'\n');
        let found = match self.line.is_empty() {
            true => comment || blank,
            false => comment && self.may_be(b'\n'),
        };
        found.then(|| "no comments or empty lines in this format".to_string())
    }

    fn blank(&self) -> Option<String> {
        let told = match self.line.last() {
            _ if !self.at(b' ') => return None,
            Some(b' ') => "two spaces; items are separated by one space",
            None => "a space; a line begins with its (",
            _ if self.may_be(b'\n') => "a space; a line ends with its )",
            _ => return None,
        };
        Some(told.to_string())
    }

    fn letter(&self) -> Option<String> {
        let letter = *self.rest.first()?;
        let upper = letter.is_ascii_uppercase() && self.may_be(letter.to_ascii_lowercase());
        upper.then(|| "lower case letters only".to_string())
    }

    fn long_name(&self) -> Option<String> {
        let in_name = |byte: &&u8| byte.is_ascii_alphanumeric() || **byte == b'_';
        let begun = self.line.iter().rev().take_while(in_name).count();
        let more = self.rest.iter().take_while(in_name).count();
        if begun != NAME_BYTES || more == 0 {
            return None;
        }
        let name = [&self.line[self.line.len() - begun..], &self.rest[..more]].concat();
        let shown = match name.len() {
            ..=32 => visible(&name),
            _ => visible(&name[..32]) + "...",
        };
        Some(format!(
            "a name has at most {NAME_BYTES} bytes, and {shown} has {}",
            name.len()
        ))
    }

    fn last_line(&self) -> Option<String> {
        let lacks = self.rest.is_empty() && self.may_be(b'\n');
        lacks.then(|| "the last line lacks its LF".to_string())
    }

    /// The word behind the innermost bracket that is open.
    fn open(&self) -> &str {
        let mut closed = 0;
        for (place, byte) in self.line.iter().enumerate().rev() {
            match byte {
                b')' => closed += 1,
                b'(' if closed == 0 => {
                    let word = name_at(self.line, place + 1);
                    return std::str::from_utf8(word).unwrap_or_default();
                }
                b'(' => closed -= 1,
                _ => {}
            }
        }
        ""
    }

    /// An operand too many or too few.
    fn operands(&self) -> Option<String> {
        let many = self.at(b' ') && self.may_be(b')') && !self.may_be(b' ');
        let few = self.at(b')') && self.may_be(b' ') && !self.may_be(b')');
        let word = self.open();
        let kind = Kind::ALL.into_iter().find(|kind| kind.word() == word)?;
        let takes = match kind {
            Kind::Not => "one operand",
            _ => "two to four operands",
        };
        (many || few).then(|| format!("{word} takes {takes}"))
    }

    /// An expression where a name or a constant may stand, but no expression.
    fn depth(&self) -> Option<String> {
        let operand = self.may_be(b'_') && self.may_be(b'0') && !self.may_be(b'2');
        let deep = self.at(b'(') && operand && !self.may_be(b'(');
        deep.then(|| format!("expressions nest at most {DEPTH} deep"))
    }

    /// A line whose kind stands before the one above it.
    fn order(&self) -> Option<String> {
        let line = [self.line, self.rest].concat();
        let here = lines(&line).next()?;
        let above = lines(self.before).last()?;
        let out_of_order = self.line == b"(" && here.start == 0 && !self.may_be(self.rest[0]);
        out_of_order.then(|| format!("{} stand before {}", plural(here.kind), plural(above.kind)))
    }

    /// A gate that is given a name or a constant.
    fn copy(&self) -> Option<String> {
        let name = match name_at(self.rest, 0) {
            name if name.len() <= NAME_BYTES => visible(name),
            _ => "f".to_string(),
        };
        let instead = self.open() == "gate" && self.next == b"(" && !name.is_empty();
        instead.then(|| {
            format!("an expression such as (and a b); a plain copy is (and {name} {name}) or (or {name} 0)")
        })
    }
}

fn plural(kind: LineKind) -> &'static str {
    match kind {
        LineKind::Input => "inputs",
        LineKind::Never => "never lines",
        LineKind::Gate => "gates",
        LineKind::Output => "outputs",
    }
}
