//! Writes NAME.out and NAME.cover beside each NAME.net given, and to standard output its row of catalogue/README.md's table, by the simulator
//! alone; what it wrote is to be read before it is kept:
//! cargo run --release --bin expected -- ../catalogue/NAME.net.

use simulator::catalogue::{out, row, stored_cover};
use std::path::PathBuf;
use std::{env, fs, io};

fn main() -> io::Result<()> {
    for file in env::args_os().skip(1).map(PathBuf::from) {
        let text = fs::read(&file)?;
        fs::write(file.with_extension("out"), out(&text))?;
        if let Some(cover) = stored_cover(&text) {
            fs::write(file.with_extension("cover"), cover)?;
        }
        let name = file.file_stem().unwrap_or_default().to_string_lossy();
        println!("{}", row(&name, &text));
    }
    Ok(())
}
