//! What is told of a design's loops on standard error.

use super::Finding;
use crate::report::{settings_told, unsettled, ENTRIES_TOLD};
use crate::tally::counted;
use unloop::design::{Loop, Refused, RefusedBlock};
use unloop::{hint, Block};

/// The nets of a boundary that are told.
const BOUNDARY_TOLD: usize = 32;

/// Why a loop stays: where it is, what is wrong, and its nets.
pub fn refused(name: &str, found: &Loop, refused: &Refused) -> Vec<String> {
    let at = format!("{name}:{}", found.line);
    let mut lines = match refused {
        Refused::TooLarge(reason) => vec![format!("{at}: {reason}")],
        Refused::NotAccepted => vec![format!(
            "{at}: Compare doesn't accept the rendering of {}",
            called(found)
        )],
        Refused::Block(block) => undecided(&format!("{at}: {}", called(found)), block),
    };
    let boundary = listed(&found.boundary, BOUNDARY_TOLD);
    lines.push(format!("  it reads from outside {boundary}"));
    lines
}

/// What is known of a block that was refused, by the names of the model.
fn undecided(name: &str, refused: &RefusedBlock) -> Vec<String> {
    let RefusedBlock {
        text,
        names,
        refusal,
    } = refused;
    let (word, text) = (refusal.word(), text.as_bytes());
    let hint = hint(*refusal, text).map_or(String::new(), |hint| format!(": {hint}"));
    let mut lines = vec![format!("{name}: {word}{hint}")];
    if let Ok(block) = Block::read(text) {
        let setting = unsettled(*refusal, &block);
        let told = setting.map(|setting| settings_told(&block, setting, text, names));
        lines.extend(told.unwrap_or_default());
    }
    lines
}

/// A loop by the first of its nets.
fn called(found: &Loop) -> String {
    format!("the loop of {}", listed(&found.nets, ENTRIES_TOLD))
}

/// The first names of a list, and how many there are besides.
fn listed(names: &[String], most: usize) -> String {
    let told = names[..names.len().min(most)].join(", ");
    match names.len().saturating_sub(most) {
        _ if names.is_empty() => "nothing".to_string(),
        0 => told,
        more => format!("{told} and {more} more"),
    }
}

impl Finding<'_> {
    /// What is to be known of the whole: instances that are put in place or not looked into, promises, and how many loops were taken out.
    pub fn told(&self) -> Vec<String> {
        let name = &self.name;
        let mut lines = Vec::new();
        let placed = self.design.placed();
        if !placed.is_empty() {
            lines.push(format!(
                "{name}: a loop passes through {}: put in place",
                listed(&placed, ENTRIES_TOLD)
            ));
        }
        let strangers = self.design.strangers();
        if !strangers.is_empty() {
            lines.push(format!(
                "{name}: not in the file, so that a loop through it is not seen: {}",
                listed(&strangers, ENTRIES_TOLD)
            ));
        }
        let rests_on = self.rests_on();
        for (number, promise) in self.promises.0.iter().enumerate() {
            if !rests_on.contains(&number) {
                lines.push(format!(
                    "{name}: no loop needs the promise of line {}: never {}",
                    promise.line, promise.text
                ));
            }
        }
        for (found, taken) in self.loops.iter().zip(&self.taken) {
            if taken.as_ref().is_ok_and(|piece| piece.never_comes) {
                let called = called(found);
                lines.push(format!("{name}:{}: warning: promises exclude all that can come to {called}, so nothing is said of it", found.line));
            }
        }
        lines.push(format!("{name}: {}", self.summary()));
        lines
    }

    /// As `4 gates, 2 loops: 1 taken out (1 on promises), 1 refused`.
    fn summary(&self) -> String {
        let pieces = self.taken.iter().flatten();
        let promised = pieces
            .clone()
            .filter(|piece| !piece.promises.is_empty())
            .count();
        let taken = pieces.count();
        let on_promises = match promised {
            0 => String::new(),
            count => format!(" ({count} on promises)"),
        };
        format!(
            "{}, {}: {taken} taken out{on_promises}, {} refused",
            counted(self.design.gates(), "gate"),
            counted(self.loops.len(), "loop"),
            self.taken.len() - taken
        )
    }
}
