//! A million set lines through the proved bench and through the plain program: lines per second of processor time, and the most
//! memory that either had. The same for a tenth of the lines, which shows that memory doesn't grow with them.

use simulator::block::Block;
use simulator::executed::{program, root};
use simulator::generate::{text, typical, Loops, Random, Size};
use simulator::{read, write};
use std::fs::{self, File};
use std::io::{self, BufWriter, Write};
use std::path::{Path, PathBuf};
use std::process::{Command, ExitCode};
use std::{env, process};

const LINES: usize = 1_000_000;

fn main() -> ExitCode {
    let programs = [program("bench"), plain_program()];
    if let Some(missing) = programs.iter().find(|program| !program.exists()) {
        eprintln!("perf/set-lines: no {}", missing.display());
        return ExitCode::from(2);
    }
    println!("Processor time and most memory of a whole run; every answer is the same in both.");
    println!(
        "{:26} {:>9} {:>24} {:>24}",
        "", "lines", "bench", "plain Rust"
    );
    for (name, netlist, block) in netlists() {
        for lines in [LINES / 10, LINES] {
            let [bench, plain] = measured(&programs, &netlist, &block, lines).map(shown(lines));
            println!("{name:26} {lines:>9} {bench:>24} {plain:>24}");
        }
    }
    ExitCode::SUCCESS
}

/// Beside this program.
fn plain_program() -> PathBuf {
    let own = env::current_exe().expect("its path");
    own.with_file_name("plain_bench")
}

fn netlists() -> Vec<(String, Vec<u8>, Block)> {
    let rate = fs::read(root().join("catalogue/rate.net")).expect("the rate block");
    let mut random = Random::new(0);
    let typical = typical(&mut random, Loops::of(0));
    let (_, written) = write(&typical.to_words(), 61_440);
    let (large, _) = text(&mut random, Size::MIDDLE);
    let texts = [("rate.net", rate), ("typical", written), ("random", large)];
    let block = |text: &[u8]| Block::from_words(&read(text, 10_000).1);
    let named = |(name, text): (&str, Vec<u8>)| {
        let block = block(&text);
        let name = format!("{name} ({} gates)", block.gates.len());
        (name, text, block)
    };
    texts.into_iter().map(named).collect()
}

/// Processor seconds, and kilobytes.
struct Usage {
    seconds: f64,
    memory: i64,
}

fn shown(lines: usize) -> impl Fn(Usage) -> String {
    move |Usage { seconds, memory }| {
        let rate = lines as f64 / seconds;
        format!("{rate:.0} a s, {memory} KiB")
    }
}

/// Both programs on the same input, which is written to a file first. Panics where their answers differ.
fn measured(programs: &[PathBuf; 2], netlist: &[u8], block: &Block, lines: usize) -> [Usage; 2] {
    let folder = env::temp_dir().join(format!("unloop set lines {}", process::id()));
    fs::create_dir(&folder).expect("a new folder");
    let input = folder.join("input");
    write_input(&input, netlist, block, lines).expect("the input");
    let outputs = ["bench", "plain"].map(|name| folder.join(name));
    let usage = [0, 1].map(|i| run(&programs[i], &input, &outputs[i]));
    let [bench, plain] = outputs.map(|output| fs::read(output).expect("written"));
    assert!(bench == plain, "the answers differ");
    assert_eq!(bench.iter().filter(|&&byte| byte == b'\n').count(), lines);
    fs::remove_dir_all(folder).expect("removed");
    usage
}

/// Lines in form, each with about half of the inputs.
fn write_input(path: &Path, netlist: &[u8], block: &Block, lines: usize) -> io::Result<()> {
    let mut random = Random::new(1);
    let mut file = BufWriter::new(File::create(path)?);
    file.write_all(netlist)?;
    file.write_all(b"\n")?;
    for _ in 0..lines {
        file.write_all(b"(set")?;
        let bits = random.number();
        for (i, input) in block.inputs.iter().enumerate() {
            if bits >> (2 * i) & 1 == 1 {
                write!(file, " ({input} {})", bits >> (2 * i + 1) & 1)?;
            }
        }
        file.write_all(b")\n")?;
    }
    file.flush()
}

fn run(program: &Path, input: &Path, output: &Path) -> Usage {
    let mut command = Command::new(program);
    command.stdin(File::open(input).expect("written"));
    command.stdout(File::create(output).expect("a new file"));
    usage_of(command.spawn().expect("the program").id())
}

/// C's `struct rusage` on 64-bit Linux: times as seconds and microseconds, memory in kilobytes.
#[repr(C)]
#[derive(Default)]
struct Rusage {
    user: [i64; 2],
    system: [i64; 2],
    most_memory: i64,
    rest: [i64; 13],
}

extern "C" {
    fn wait4(process: i32, status: *mut i32, options: i32, usage: *mut Rusage) -> i32;
}

/// Waits for a child of this process and tells what it used.
fn usage_of(child: u32) -> Usage {
    let (mut status, mut usage) = (0, Rusage::default());
    // It writes the number and the one struct it is given.
    let ended = unsafe { wait4(child as i32, &mut status, 0, &mut usage) };
    assert!(ended == child as i32 && status == 0, "status {status}");
    let seconds = |[seconds, micros]: [i64; 2]| seconds as f64 + 1e-6 * micros as f64;
    Usage {
        seconds: seconds(usage.user) + seconds(usage.system),
        memory: usage.most_memory,
    }
}
