//! How many files were rendered, refused or in error, and the exit status that says so.

use std::collections::BTreeMap;
use std::fmt;
use unloop::Refusal;

/// The exit status where something was refused, or not accepted.
pub const REFUSED: u8 = 1;
/// The exit status of any error.
pub const ERROR: u8 = 2;

#[derive(Debug, Clone, Copy)]
pub enum Outcome {
    /// And whether never lines exclude settings.
    Rendered {
        excluding: bool,
    },
    Refused(Refusal),
    Error,
}

impl fmt::Display for Outcome {
    fn fmt(&self, f: &mut fmt::Formatter) -> fmt::Result {
        match self {
            Outcome::Rendered { .. } => write!(f, "rendered"),
            Outcome::Refused(refusal) => {
                write!(f, "refused {} {}", refusal.number(), refusal.word())
            }
            Outcome::Error => write!(f, "error"),
        }
    }
}

#[derive(Default)]
pub struct Tally {
    rendered: usize,
    /// Those of the rendered ones whose never lines exclude settings.
    excluding: usize,
    /// By number, with its word.
    refused: BTreeMap<usize, (&'static str, usize)>,
    errors: usize,
}

impl Tally {
    pub fn count(&mut self, outcome: Outcome) {
        match outcome {
            Outcome::Rendered { excluding } => {
                self.rendered += 1;
                self.excluding += usize::from(excluding);
            }
            Outcome::Refused(refusal) => {
                let counted = self.refused.entry(refusal.number());
                counted.or_insert((refusal.word(), 0)).1 += 1;
            }
            Outcome::Error => self.errors += 1,
        }
    }

    pub fn files(&self) -> usize {
        self.rendered + self.refusals() + self.errors
    }

    fn refusals(&self) -> usize {
        self.refused.values().map(|(_, count)| count).sum()
    }

    /// As `4 files: 2 rendered (1 with settings excluded), 1 refused (1 with 9 undecided), 1 error`.
    pub fn summary(&self) -> String {
        let mut line = counted(self.files(), "file") + ": ";
        line += &format!("{} rendered", self.rendered);
        if self.excluding > 0 {
            line += &format!(" ({} with settings excluded)", self.excluding);
        }
        line += &format!(", {} refused", self.refusals());
        let refused = self.refused.iter();
        let refused =
            refused.map(|(number, (word, count))| format!("{count} with {number} {word}"));
        let refused: Vec<String> = refused.collect();
        if !refused.is_empty() {
            line += &format!(" ({})", refused.join(", "));
        }
        line + &and_errors(self.errors)
    }

    pub fn status(&self) -> u8 {
        match (self.errors, self.refusals()) {
            (0, 0) => 0,
            (0, _) => REFUSED,
            _ => ERROR,
        }
    }
}

/// As `1 error` and `2 errors`.
pub fn counted(count: usize, what: &str) -> String {
    let plural = if count == 1 { "" } else { "s" };
    format!("{count} {what}{plural}")
}

/// As `1 entry` and `2 entries`.
pub fn entries(count: usize) -> String {
    match count {
        1 => "1 entry".to_string(),
        _ => format!("{count} entries"),
    }
}

/// What a summary ends with: `, 1 error`, or nothing where there is none.
pub fn and_errors(errors: usize) -> String {
    match errors {
        0 => String::new(),
        _ => format!(", {}", counted(errors, "error")),
    }
}
