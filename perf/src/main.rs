//! Prints the times of both programs as a table, or with `--lines` as `NAME ratio seconds`: the library's processor time for one call on
//! each input of the set, and its ratio to the plain program's; where an operation goes through all settings, behind that the ratio to the
//! plain program with two words a gate, as the library has them. With `--growth`: how the time of each operation grows with its
//! size, with `--svg` also as docs/growth.svg.
//! With `--archive`: how small gzip and xz make stored blocks, before and after Gather.
//! With `--program`: the whole program on many entries, and on the hardest texts.

use perf::measure::Line;
use perf::{archive, growth, lines, program};
use std::env;
use std::process::ExitCode;

const USAGE: &str = "usage: perf/run [--lines | --growth [--svg] | --archive | --program]";

fn main() -> ExitCode {
    let arguments: Vec<String> = env::args().skip(1).collect();
    let print = match arguments.iter().map(String::as_str).collect::<Vec<_>>()[..] {
        [] => print_row,
        ["--lines"] => print_line,
        ["--growth"] => {
            growth::print(false);
            return ExitCode::SUCCESS;
        }
        ["--growth", "--svg"] => {
            growth::print(true);
            return ExitCode::SUCCESS;
        }
        ["--archive"] => {
            archive::print();
            return ExitCode::SUCCESS;
        }
        ["--program"] => {
            program::print();
            return ExitCode::SUCCESS;
        }
        _ => {
            eprintln!("{USAGE}");
            return ExitCode::from(2);
        }
    };
    if arguments.is_empty() {
        println!(
            "Processor time of one call, best of several{}; `typical` is the sum over 20 blocks.",
            program::load()
        );
        let [library, plain] = ["library ms", "plain ms"];
        let [ratio, narrow] = ["ratio", "to two words"];
        println!(
            "{:34} {library:>12} {plain:>12} {ratio:>8} {narrow:>12}",
            "name"
        );
    }
    lines::measure_all(print);
    ExitCode::SUCCESS
}

fn print_row(line: &Line) {
    let [library, plain] = [line.library, line.plain].map(|seconds| 1_000.0 * seconds);
    let (name, ratio) = (&line.name, line.ratio());
    let refused = match line.refused {
        0 => String::new(),
        inputs => format!("  {inputs} refused"),
    };
    let narrow = match line.narrow_ratio() {
        Some(ratio) => format!("{ratio:13.3}"),
        None => String::new(),
    };
    println!("{name:34} {library:12.4} {plain:12.4} {ratio:8.3}{narrow}{refused}");
}

fn print_line(line: &Line) {
    print!("{} {:.3} {:.9}", line.name, line.ratio(), line.library);
    match line.narrow_ratio() {
        Some(ratio) => println!(" {ratio:.3}"),
        None => println!(),
    }
}
