//! Renders files, on all cores: what is written and told comes in the files' order.

use crate::described::{described, unreadable};
use crate::folder::Folder;
use crate::options::Target;
use crate::parallel::in_order;
use crate::program::Program;
use crate::screen::Screen;
use crate::source::{self, Source};
use crate::tally::{self, Outcome, Tally};
use crate::{put, report, Stopped};
use std::io::{self, IsTerminal};
use std::ops::ControlFlow;
use std::path::PathBuf;
use std::process::ExitCode;
use unloop::Refusal;

/// A text, and what the program wrote for it.
struct Answer {
    text: Vec<u8>,
    output: Vec<u8>,
    refusal: Option<Refusal>,
}

/// A file to render, or why its name can't be taken in the folder.
struct Job {
    source: Source,
    claimed: Result<(), String>,
}

pub struct Run {
    program: Program,
    jobs: Vec<Job>,
    folder: Option<Folder>,
    json: bool,
    screen: Screen,
}

impl Run {
    pub fn new(
        program: Program,
        sources: Vec<Source>,
        into: Option<Target>,
        json: bool,
    ) -> Result<Run, String> {
        let files: Vec<PathBuf> = sources.iter().filter_map(Source::path).cloned().collect();
        let mut folder = match into {
            Some(Target { folder, force }) => Some(Folder::open(folder, force, &files)?),
            None => None,
        };
        // Renderings on the same terminal would be overwritten.
        let free = folder.is_some() && !json || !io::stdout().is_terminal();
        let screen = match folder.is_some() || sources.len() > 1 {
            true => Screen::with_progress(sources.len(), free),
            false => Screen::plain(),
        };
        let mut claim = |source: &Source| match (&mut folder, source) {
            (Some(folder), Source::File(path)) => folder.claim(path),
            _ => Ok(()),
        };
        let job = |source: Source| Job {
            claimed: claim(&source),
            source,
        };
        let jobs = sources.into_iter().map(job).collect();
        Ok(Run {
            program,
            jobs,
            folder,
            json,
            screen,
        })
    }

    pub fn all(self) -> ExitCode {
        let mut tally = Tally::default();
        let name = |index: usize| self.jobs[index].source.name();
        let ended = in_order(
            &self.jobs,
            |job| self.answer(job),
            |index| self.screen.begin(index, &name(index)),
            |index, answer| {
                let Ok(outcome) = self.tell(&name(index), answer) else {
                    return ControlFlow::Break(());
                };
                self.screen.end(index, &name(index), outcome);
                tally.count(outcome);
                ControlFlow::Continue(())
            },
        );
        if ended.is_break() {
            return ExitCode::from(tally::ERROR);
        }
        if self.folder.is_some() || tally.files() > 1 {
            self.screen.say(&[tally.summary()]);
        }
        ExitCode::from(tally.status())
    }

    /// Writes what became of a file, and tells of a refusal or an error.
    fn tell(&self, name: &str, answer: Result<Answer, String>) -> Result<Outcome, Stopped> {
        match answer {
            Ok(Answer {
                text,
                output,
                refusal,
            }) => {
                if self.json {
                    let rendering = refusal.is_none().then_some(&output[..]);
                    put(format!("{}\n", described(name, &text, refusal, rendering)).as_bytes())?;
                } else if self.folder.is_none() {
                    put(&output)?;
                }
                let Some(refusal) = refusal else {
                    let notes = report::notes(name, &text);
                    self.screen.say(&notes);
                    let excluding = !notes.is_empty();
                    return Ok(Outcome::Rendered { excluding });
                };
                self.screen.say(&report::report(refusal, name, &text));
                Ok(Outcome::Refused(refusal))
            }
            Err(reason) => {
                if self.json {
                    put(format!("{}\n", unreadable(name, &reason)).as_bytes())?;
                }
                self.screen.say(&[format!("unloop: {reason}")]);
                Ok(Outcome::Error)
            }
        }
    }

    /// The program's answer; a rendering is then in the folder, if there is one.
    fn answer(&self, job: &Job) -> Result<Answer, String> {
        job.claimed.clone()?;
        let named = |reason: String| format!("{}: {reason}", job.source.name());
        let text = job
            .source
            .text()
            .map_err(|error| named(source::reason(&error)))?;
        let (output, refusal) = self.program.answer(&text).map_err(named)?;
        if let (Some(folder), Source::File(path), None) = (&self.folder, &job.source, refusal) {
            folder.put(path, &output)?;
        }
        Ok(Answer {
            text,
            output,
            refusal,
        })
    }
}
