//! The stored facts of an entry, as the audit finds them: which hold and why others don't, and the stored cover beside today's.

use super::html::escaped;
use crate::audit::{judged, Judged};
use crate::catalogue;
use std::path::Path;
use unloop::audit::cover_text;

/// The lines of a cover that are shown.
const LINES_SHOWN: usize = 200;

/// What is stored beside an original, judged.
pub struct Facts {
    judged: Judged,
    /// The lines of NAME.cover, where it is there, and those of today.
    stored: Option<Vec<String>>,
    today: Vec<String>,
}

impl Facts {
    /// Of an entry; `original` is its text.
    pub fn of(base: &Path, entry: &catalogue::Entry, original: &[u8]) -> Facts {
        let judged = judged(base, entry, original);
        let lines = |text: &[u8]| -> Vec<String> {
            let text = String::from_utf8_lossy(text);
            text.lines().map(|line| line.trim().to_string()).collect()
        };
        let today = judged.block.as_ref().map(cover_text).unwrap_or_default();
        Facts {
            stored: entry.cover.as_deref().map(lines),
            today: lines(today.as_bytes()),
            judged,
        }
    }

    pub fn hold(&self) -> bool {
        self.judged.holds
    }

    /// Whether all hold, as a mark.
    pub fn badge(&self) -> String {
        badge(self.hold(), if self.hold() { "all hold" } else { "lost" })
    }

    /// A row for each fact, and the covers where they are not the same.
    pub fn content(&self) -> String {
        let rows = self.judged.facts.iter().map(|(what, fact)| {
            let holds = fact.state() == "holds";
            let state = badge(holds, if holds { "holds" } else { "lost" });
            let why = escaped(fact.why().unwrap_or_default());
            format!("<tr><th scope=\"row\">{what}</th><td>{state}</td><td>{why}</td></tr>\n")
        });
        let rows: String = rows.collect();
        let anew = self.judged.anew.as_ref().map(|(command, weaker)| {
            let but = if *weaker { " Some get weaker." } else { "" };
            let command = escaped(command);
            format!("<p>Where the change is meant, today's facts are stored by <code>{command}</code>.{but}</p>\n")
        });
        format!(
            "<p>{}</p>\n<table class=\"facts\">\n<tbody>\n{rows}</tbody>\n</table>\n{}{}",
            badge(self.hold(), &escaped(&self.judged.state)),
            self.covers(),
            anew.unwrap_or_default()
        )
    }

    /// The stored cover and today's beside each other, and what only one of them has marked; nothing where neither has such a line.
    fn covers(&self) -> String {
        let stored = self.stored.as_deref().unwrap_or_default();
        let same = stored.iter().all(|line| self.today.contains(line))
            && self.today.iter().all(|line| stored.contains(line));
        if same {
            return String::new();
        }
        let missing = "<p>None is stored.</p>\n".to_string();
        let left = match &self.stored {
            Some(stored) => listed(stored, &self.today),
            None => missing,
        };
        format!(
            "<div class=\"beside\">\n<div>\n<h3>Stored cover</h3>\n{left}</div>\n<div>\n<h3>Today's cover</h3>\n{}</div>\n</div>\n",
            listed(&self.today, stored)
        )
    }
}

fn badge(holds: bool, words: &str) -> String {
    let class = if holds { "held" } else { "lost" };
    format!("<span class=\"state {class}\">{words}</span>")
}

/// Lines, and those that the others don't have marked.
fn listed(lines: &[String], others: &[String]) -> String {
    let item = |line: &String| match others.contains(line) {
        true => format!("<li><code>{}</code></li>\n", escaped(line)),
        false => format!("<li><code><mark>{}</mark></code></li>\n", escaped(line)),
    };
    let items: String = lines.iter().take(LINES_SHOWN).map(item).collect();
    let more = match lines.len().saturating_sub(LINES_SHOWN) {
        0 => String::new(),
        more => format!("<p>And {more} more.</p>\n"),
    };
    format!("<div class=\"scroll\" tabindex=\"0\"><ol class=\"text\">\n{items}</ol></div>\n{more}")
}
