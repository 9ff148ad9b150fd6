//! NAME.cover: an original's never lines, and behind them the entries of its cover. Read by the pins of today, though it may name others.

use super::Names;
use crate::declarations::name_at;
use crate::limits::NAME_WORDS;
use crate::{Assignment, Block};

/// What NAME.cover says of a block: its never lines and the entries of its cover, one a line.
///
/// ```
/// # use unloop::{audit::cover_text, Block, Refusal};
/// let block = Block::read("(in a)\n(in b)\n(never (b 1))\n(gate p (and a p))\n(out y p)\n")?;
/// assert_eq!(cover_text(&block), "never b = 1\na = 0\nb = 1\n");
/// # Ok::<(), Refusal>(())
/// ```
pub fn cover_text(block: &Block) -> String {
    let names = block.input_names();
    let nevers = block.never_lines().into_iter();
    let nevers = nevers.map(|line| line.never_line(&names));
    let entries = block.cover().into_iter().map(|entry| match entry.fixed {
        0 => ALWAYS.to_string(),
        _ => entry.pins(&names),
    });
    nevers.chain(entries).map(|line| line + "\n").collect()
}

/// The lines of the entries as they stand in the text of a NAME.cover.
pub fn entry_lines(text: &[u8]) -> Vec<String> {
    let text = String::from_utf8_lossy(text);
    let lines = text.lines().skip_while(|line| never_pins(line).is_some());
    lines.map(|line| line.trim().to_string()).collect()
}

/// The entry that fixes no pin.
const ALWAYS: &str = "always";

/// What is wrong with a line: its number, from 1, and why.
pub(super) type Wrong = (usize, String);

/// What the names in a stored cover mean today.
pub(super) struct Pins<'a> {
    pub today: &'a [String],
    /// How they are others than those of the stored rendering; none where that has no pins to tell, so that any other name is a pin's that
    /// is gone.
    pub changes: Option<&'a Names>,
}

impl Pins<'_> {
    /// The input of a name, or that it is gone.
    fn place(&self, pin: &str) -> Option<Option<usize>> {
        let today = |wanted: &str| self.today.iter().position(|name| name == wanted);
        let Some(changes) = self.changes else {
            return is_name(pin).then(|| today(pin));
        };
        let renamed = changes.renamed.iter().find(|(old, _)| old == pin);
        let stands_for = renamed.map_or(pin, |(_, new)| new);
        let gone = changes.gone.iter().any(|name| name == pin);
        today(stands_for).map(Some).or(gone.then_some(None))
    }

    fn read<'a>(&self, line: &'a str, number: usize) -> Result<(Assignment, Vec<&'a str>), Wrong> {
        let placed = Assignment::placed(line, |pin| self.place(pin));
        placed.map_err(|why| (number, why.to_string()))
    }
}

/// Lines of a stored cover, by the pins of today.
#[derive(Default)]
pub(super) struct Lines {
    pub read: Vec<Assignment>,
    /// Those that name a pin which is gone, as they are written.
    pub gone: Vec<String>,
    /// These pins.
    pub gone_pins: Vec<String>,
}

impl Lines {
    pub fn of(read: Vec<Assignment>) -> Lines {
        Lines {
            read,
            ..Lines::default()
        }
    }

    fn note(&mut self, gone: Vec<&str>) {
        for pin in gone {
            if !self.gone_pins.iter().any(|known| known == pin) {
                self.gone_pins.push(pin.to_string());
            }
        }
    }
}

/// The never lines that a stored cover begins with, each as `never a = 1, b = 1`. One that names a pin which is gone is none of today's.
pub(super) fn nevers(text: &[u8], pins: &Pins) -> Result<Lines, Wrong> {
    let text = String::from_utf8_lossy(text);
    let mut lines = Lines::default();
    for (line, number) in text.lines().zip(1..) {
        let Some(named) = never_pins(line) else { break };
        match pins.read(named, number)? {
            (never, gone) if gone.is_empty() && never.fixed == 0 => {
                return Err((number, "it names no pin".to_string()))
            }
            (never, gone) if gone.is_empty() => lines.read.push(never),
            (_, gone) => {
                lines.note(gone);
                lines.gone.push(line.trim().to_string());
            }
        }
    }
    Ok(lines)
}

/// The entries of a stored cover behind its never lines, one a line; `always` fixes nothing. What an entry says of a pin which is gone is left
/// out: it was settled with some value of that one.
pub(super) fn entries(text: &[u8], pins: &Pins) -> Result<Lines, Wrong> {
    let text = String::from_utf8_lossy(text);
    let mut lines = Lines::default();
    let numbered = text.lines().zip(1..);
    for (line, number) in numbered.skip_while(|(line, _)| never_pins(line).is_some()) {
        let wrong = |why: &str| Err((number, why.to_string()));
        match line.trim() {
            ALWAYS => lines.read.push(Assignment::default()),
            "" => return wrong("the line is empty"),
            line if never_pins(line).is_some() => {
                return wrong("a never line stands before all entries")
            }
            line => {
                let (entry, gone) = pins.read(line, number)?;
                lines.note(gone);
                lines.read.push(entry);
            }
        }
    }
    Ok(lines)
}

fn is_name(word: &str) -> bool {
    let letter = word.starts_with(|first: char| first.is_ascii_lowercase());
    letter && name_at(word.as_bytes(), 0).len() == word.len() && word.len() <= 2 * NAME_WORDS
}

/// What stands behind `never` in a line that begins with this word; `never = 1` is an entry, of an input that is called so.
fn never_pins(line: &str) -> Option<&str> {
    let behind = line.trim().strip_prefix("never")?;
    let pins = behind.trim_start();
    let is_word = behind.is_empty() || behind.starts_with(char::is_whitespace);
    (is_word && !pins.starts_with('=')).then_some(pins)
}
