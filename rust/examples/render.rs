//! Reads a netlist on standard input, says how many settings of the pins are settled, and writes its rendering.

use std::io::{self, Read, Write};
use std::process::ExitCode;
use unloop::{Block, Location, Refusal};

fn main() -> io::Result<ExitCode> {
    let mut text = Vec::new();
    io::stdin().read_to_end(&mut text)?;
    match rendering(&text) {
        Ok(rendering) => {
            io::stdout().write_all(rendering.as_bytes())?;
            Ok(ExitCode::SUCCESS)
        }
        Err(refusal) => {
            eprintln!("refused: {refusal}");
            if let Some(place) = refusal.place() {
                let Location { row, line, .. } = Location::of(&text, place);
                eprintln!("line {row}: {}", line.escape_ascii());
            }
            Ok(ExitCode::FAILURE)
        }
    }
}

fn rendering(text: &[u8]) -> Result<String, Refusal> {
    let block = Block::read(text)?;
    eprintln!("{} settings are settled", block.verdict().settled);
    Ok(block.render()?.write())
}
