//! The program `unloop`, from its standard input to its standard output.

use crate::answer::Answer;
use crate::limits::{BLOCK_WORDS, WRITTEN_BYTES};
use crate::{read, render, write};

/// The rendered text, or the line that refuses.
pub fn unloop(text: &[u8]) -> Vec<u8> {
    match converted(text) {
        Ok(text) => text,
        Err(Answer { number, detail, .. }) => format!("(refused {number} {detail})\n").into_bytes(),
    }
}

fn converted(text: &[u8]) -> Result<Vec<u8>, Answer> {
    let block = accepted(read(text, BLOCK_WORDS))?;
    let rendering = accepted(render(&block, BLOCK_WORDS))?;
    accepted(write(&rendering, WRITTEN_BYTES))
}

fn accepted<T>((answer, result): (Answer, Vec<T>)) -> Result<Vec<T>, Answer> {
    match answer.number {
        0 => Ok(result),
        _ => Err(answer),
    }
}
