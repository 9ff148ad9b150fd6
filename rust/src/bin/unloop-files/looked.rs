//! The second look at what the command writes: a text that does not say what its original says is not written.

use unloop::second_look::{agrees, Form};

/// An error in words where a text that was made of an original does not say the same.
pub fn looked_at(original: &[u8], written: &[u8], form: Form) -> Result<(), String> {
    agrees(original, written, form).map_err(|difference| {
        format!("internal error, nothing is written: a second look found that {difference}")
    })
}
