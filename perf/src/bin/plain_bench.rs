//! The plain program `bench`, from standard input to standard output.

use std::io;

fn main() -> io::Result<()> {
    let output = io::BufWriter::new(io::stdout().lock());
    perf::plain::bench(io::stdin().lock(), output)
}
