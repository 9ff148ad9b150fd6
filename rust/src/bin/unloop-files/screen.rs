//! Standard error: reports, and progress that on a terminal is rewritten in place.

use crate::tally::Outcome;
use std::io::{self, IsTerminal, Write};

/// Back to the line's first column, and the line cleared.
const CLEAR: &str = "\r\x1b[K";
/// A progress line too long for the terminal is cut, since only one row can be rewritten.
const NO_WRAP: &str = "\x1b[?7l";
const WRAP: &str = "\x1b[?7h";

pub struct Screen {
    /// The number of files, where progress is told.
    total: Option<usize>,
    in_place: bool,
}

impl Screen {
    pub fn plain() -> Screen {
        Screen {
            total: None,
            in_place: false,
        }
    }

    /// `free`: nothing else is written to the terminal.
    pub fn with_progress(total: usize, free: bool) -> Screen {
        let obeys = std::env::var_os("TERM").is_some_and(|term| term != "dumb");
        Screen {
            total: Some(total),
            in_place: free && obeys && io::stderr().is_terminal(),
        }
    }

    /// Writes lines, if there are any, in the place of a progress line.
    pub fn say(&self, lines: &[String]) {
        if lines.is_empty() {
            return;
        }
        let clear = if self.in_place { CLEAR } else { "" };
        tell(&format!("{clear}{}\n", lines.join("\n")));
    }

    /// Tells which file is next, where that can be overwritten.
    pub fn begin(&self, index: usize, name: &str) {
        if self.in_place {
            self.progress(index, name);
        }
    }

    /// Tells what became of a file.
    pub fn end(&self, index: usize, name: &str, outcome: Outcome) {
        self.progress(index, &format!("{name}: {outcome}"));
    }

    fn progress(&self, index: usize, what: &str) {
        let Some(total) = self.total else { return };
        let line = format!("{}/{total} {what}", index + 1);
        match self.in_place {
            true => tell(&format!("{CLEAR}{NO_WRAP}{line}{WRAP}")),
            false => tell(&format!("{line}\n")),
        }
    }
}

/// Where standard error takes nothing, nothing can be told of it either.
fn tell(text: &str) {
    let _ = io::stderr().write_all(text.as_bytes());
}
