//! The proved program, run once for each text.

use crate::looked::looked_at;
use crate::report::refusal_in;
use crate::source::reason;
use std::io::Write;
use std::path::PathBuf;
use std::process::{Command, Stdio};
use unloop::limits::TEXT_BYTES;
use unloop::second_look::{Form, Language};
use unloop::Refusal;

/// The program's path.
pub struct Program(pub PathBuf);

impl Program {
    /// What it writes for this text, and the refusal that this is; a rendering has been looked at again.
    pub fn answer(&self, text: &[u8]) -> Result<(Vec<u8>, Option<Refusal>), String> {
        let output = self.run(text)?;
        let refusal = refusal_in(&output)?;
        if refusal.is_none() {
            looked_at(text, &output, Form::rendering(Language::Netlist))?;
        }
        Ok((output, refusal))
    }

    /// What it writes to standard output for this text; an error if it doesn't end as it should.
    fn run(&self, text: &[u8]) -> Result<Vec<u8>, String> {
        let failed = |why: String| format!("{} failed: {why}", self.0.display());
        let mut child = Command::new(&self.0)
            .stdin(Stdio::piped())
            .stdout(Stdio::piped())
            .stderr(Stdio::null())
            .spawn()
            .map_err(|error| failed(reason(&error)))?;
        // It reads all of the text before it writes, so neither waits for the other; of one that is too long it reads one byte too many.
        let text = &text[..text.len().min(TEXT_BYTES + 1)];
        let given = child.stdin.take().expect("piped").write_all(text);
        let ended = child.wait_with_output();
        let ended = ended.map_err(|error| failed(reason(&error)))?;
        if !ended.status.success() {
            return Err(failed(ended.status.to_string()));
        }
        given.map_err(|error| failed(reason(&error)))?;
        Ok(ended.stdout)
    }
}
