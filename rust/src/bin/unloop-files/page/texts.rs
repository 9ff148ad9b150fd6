//! The lines of a netlist, the refused place marked, and beside it those of its rendering: a gate's line leads to its copies, and each of
//! these back to it. What belongs to line 4 of the original has the class `of4`, here and in the drawing.

use super::html::{counted, escaped};
use unloop::declarations::{gate_names, gate_rows, name_at};
use unloop::{schedule, Block, Copied, Location, Refusal};

/// What stands before the name in a gate's line.
const GATE: &str = "(gate ";

/// The lines of a text that is refused, and what is refused in it marked: a byte, or a name.
pub fn refused(text: &[u8], refusal: Refusal) -> String {
    let place = refusal.place();
    let marked = place.map(|place| Location::of(text, place));
    let length = match (refusal, place) {
        (Refusal::SyntaxError { .. }, _) | (_, None) => 1,
        (_, Some(place)) => name_at(text, place).len(),
    };
    let lines = text
        .strip_suffix(b"\n")
        .unwrap_or(text)
        .split(|&byte| byte == b'\n');
    let shown = |bytes: &[u8]| escaped(&String::from_utf8_lossy(bytes));
    let item = |(line, row): (&[u8], usize)| match &marked {
        Some(mark) if mark.row == row => {
            let (before, rest) = line.split_at(line.len().min(mark.column - 1));
            let (at, behind) = rest.split_at(rest.len().min(length));
            let at = if at.is_empty() {
                "↵".to_string()
            } else {
                shown(at)
            };
            format!(
                "<li class=\"refused\"><code>{}<mark>{at}</mark>{}</code></li>\n",
                shown(before),
                shown(behind)
            )
        }
        _ => format!("<li><code>{}</code></li>\n", shown(line)),
    };
    listed(lines.zip(1..).map(item))
}

/// The lines of a text that can be read.
pub struct Lines<'a> {
    text: &'a [u8],
    /// What each gate of the rendering is a copy of; empty where there is none.
    copies: Vec<Copied>,
    /// The line of the rendering before its first gate.
    front: usize,
}

impl<'a> Lines<'a> {
    pub fn of(text: &'a [u8], block: &Block, rendering: Option<&Block>) -> Lines<'a> {
        Lines {
            text,
            copies: rendering.map_or(Vec::new(), |_| schedule(block)),
            front: block.inputs() + block.never_lines().len(),
        }
    }

    /// The original's; a gate's name leads to the first of its line's copies.
    pub fn original(&self) -> String {
        let rows = gate_rows(self.text);
        let text = String::from_utf8_lossy(self.text);
        let item = |(line, row): (&str, usize)| {
            let copies = self.copies.iter();
            let mut copies = copies
                .zip(1..)
                .filter(|(copied, _)| rows[copied.gate] == row);
            let first = copies.next().map(|(_, number)| self.front + number);
            let line = match first {
                Some(first) => {
                    let told = counted(1 + copies.count(), "line");
                    linked(
                        line,
                        &format!("r{first}"),
                        &format!("{told} of the rendering"),
                    )
                }
                None => escaped(line),
            };
            let class = if rows.contains(&row) {
                format!(" class=\"of{row}\"")
            } else {
                String::new()
            };
            format!("<li id=\"t{row}\"{class}><code>{line}</code></li>\n")
        };
        listed(text.lines().zip(1..).map(item))
    }

    /// The rendering's; a gate's name leads to the line that it is a copy of.
    pub fn rendering(&self, rendering: &Block) -> String {
        let (rows, names) = (gate_rows(self.text), gate_names(self.text));
        let name = |gate: usize| match &names[gate] {
            Some(name) => name.clone(),
            None => {
                let outer = names[gate..].iter().flatten().next();
                format!("inside {}", outer.map_or("", String::as_str))
            }
        };
        let copied = |row: usize| self.copies.get(row.checked_sub(self.front + 1)?);
        let item = |(line, row): (&str, usize)| match copied(row) {
            Some(&Copied { gate, pass, passes }) => {
                let told = format!("{}, pass {pass} of {passes}", name(gate));
                let line = linked(line, &format!("t{}", rows[gate]), &told);
                let of = rows[gate];
                format!("<li id=\"r{row}\" class=\"of{of}\"><code>{line}</code></li>\n")
            }
            None => format!("<li id=\"r{row}\"><code>{}</code></li>\n", escaped(line)),
        };
        listed(rendering.write().lines().zip(1..).map(item))
    }
}

/// A gate's line whose name is a link; what is told of it appears beside the name.
fn linked(line: &str, target: &str, told: &str) -> String {
    let declared = line
        .strip_prefix(GATE)
        .and_then(|rest| rest.split_once(' '));
    match declared {
        Some((name, behind)) => format!(
            "{GATE}<a href=\"#{target}\" title=\"{}\">{}</a> {}",
            escaped(told),
            escaped(name),
            escaped(behind)
        ),
        None => escaped(line),
    }
}

fn listed(items: impl Iterator<Item = String>) -> String {
    let items: String = items.collect();
    format!("<div class=\"scroll\" tabindex=\"0\"><ol class=\"text\">\n{items}</ol></div>\n")
}
