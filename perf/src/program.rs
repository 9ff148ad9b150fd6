//! The whole program, on the wall and in processor time: typical entries through `bin/unloop --into`, and the proved program alone on each of the hardest texts.

use crate::clock;
use crate::inputs::{typical_blocks, written};
use simulator::executed::{self, ended, root, Scratch};
use simulator::generate::{large, long_texts};
use simulator::limits::TEXT_BYTES;
use std::fs;
use std::process::Command;
use std::time::Instant;

/// The typical entries of a folder.
const ENTRIES: u64 = 200;
/// Of so many runs the best counts.
const RUNS: usize = 5;

/// Prints both as Markdown, with the machine's load.
pub fn print() {
    println!("Seconds, the best of {RUNS} runs{}.\n", load());
    println!("| command | input | bytes | answer | on the wall | of processors |");
    println!("|---|---|--:|---|--:|--:|");
    let (row, seconds) = folder();
    print_row("bin/unloop --into", &row, seconds);
    let mut rows: Vec<_> = hardest().iter().map(alone).collect();
    rows.sort_by(|a, b| b.1[1].total_cmp(&a.1[1]));
    for (row, seconds) in rows {
        print_row("unloop", &row, seconds);
    }
}

fn print_row(command: &str, row: &str, [wall, processors]: [f64; 2]) {
    println!("| {command} | {row} | {wall:.3} | {processors:.3} |");
}

/// What other work the machine has, where it can be told.
pub fn load() -> String {
    let told = fs::read_to_string("/proc/loadavg").unwrap_or_default();
    let minute = told.split(' ').next().filter(|minute| !minute.is_empty());
    minute.map_or(String::new(), |minute| {
        format!("; load of the last minute: {minute}")
    })
}

/// The best times of several runs: on the wall, and of the processors.
fn best(mut run: impl FnMut(usize)) -> [f64; 2] {
    let timed = |number| {
        let (start, used) = (Instant::now(), clock::seconds_of_children());
        run(number);
        let wall = start.elapsed().as_secs_f64();
        [wall, clock::seconds_of_children() - used]
    };
    let least = |best: [f64; 2], times: [f64; 2]| [0, 1].map(|i| best[i].min(times[i]));
    (0..RUNS).map(timed).fold([f64::MAX; 2], least)
}

/// All typical entries in one folder: a row, and the times.
fn folder() -> (String, [f64; 2]) {
    let scratch = Scratch::new();
    let blocks = typical_blocks(0..ENTRIES);
    let texts: Vec<Vec<u8>> = blocks.iter().map(|words| written(words)).collect();
    let name = |number: usize| format!("in/{number:03}.net");
    for (number, text) in texts.iter().enumerate() {
        scratch.put(&name(number), text);
    }
    let paths: Vec<_> = (0..texts.len())
        .map(|number| scratch.path(&name(number)))
        .collect();
    let launcher = root().join("bin/unloop");
    let run = |into: &str| {
        let mut command = Command::new(&launcher);
        let command = command.arg("--into").arg(scratch.path(into)).args(&paths);
        let ended = ended(command, b"");
        // Entries with a latch are refused.
        assert_eq!(ended.status.code(), Some(1), "{ended:?}");
    };
    run("first"); // what is not built is built now
    let seconds = best(|number| run(&number.to_string()));
    let rendered = scratch.names("0").len();
    let bytes: usize = texts.iter().map(Vec::len).sum();
    let row = format!("{ENTRIES} typical entries | {bytes} | {rendered} rendered");
    (row, seconds)
}

/// Texts at the limits: each of the largest blocks, written, and each of the longest texts.
fn hardest() -> Vec<(&'static str, Vec<u8>)> {
    let blocks = large().into_iter();
    let texts = blocks.map(|(name, block)| (name, written(&block.to_words())));
    let texts = texts.filter(|(_, text)| text.len() <= TEXT_BYTES);
    texts.chain(long_texts()).collect()
}

/// The proved program alone on a text: a row, and the times.
fn alone((name, text): &(&str, Vec<u8>)) -> (String, [f64; 2]) {
    let program = executed::program("unloop");
    let mut answer = Vec::new();
    let seconds = best(|_| answer = ended(&mut Command::new(&program), text).stdout);
    let answer = match answer.strip_prefix(b"(refused ") {
        Some(refusal) => format!("refused: {}", refusal.escape_ascii()).replace(")\\n", ""),
        None => "rendered".to_string(),
    };
    (format!("{name} | {} | {answer}", text.len()), seconds)
}
