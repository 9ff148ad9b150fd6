//! The programs `unloop` and `bench`, as processes, against the simulator's. Their `main` can have no contract, so that they move all bytes,
//! whatever sizes the system gives them to read, is held by this.

use super::tally::{count_answer, Operation};
use crate::executed::{ended, program, written_by_the_program};
use crate::generate::{
    about_1024_copies, bench_input, long_bench_inputs, odd_bench_input, over_a_limit, spoiled,
    text, Random, Report, Size,
};
use crate::limits::{TEXT_BYTES, WRITTEN_BYTES};
use crate::{bench, cut, unloop, write};
use std::io::Read;
use std::ops::Range;
use std::os::fd::OwnedFd;
use std::os::unix::net::UnixDatagram;
use std::process::{Command, Stdio};
use std::thread;

/// Compares the program `unloop` on a text.
pub fn compare_program(text: &[u8]) {
    let start = &text[..text.len().min(2_000)];
    let _report = Report(|| format!("the program on {}", start.escape_ascii()));
    let expected = unloop(text);
    let written = written_by_the_program(text);
    let shown = String::from_utf8_lossy;
    assert_eq!(shown(&written), shown(&expected));
    count_answer(Operation::Program, number(&expected));
}

/// The number of a refusal's line; 0 of anything else.
fn number(line: &[u8]) -> usize {
    let text = std::str::from_utf8(line).expect("text");
    let refused = text.strip_prefix("(refused ");
    refused.map_or(0, |rest| {
        let number = rest.split(' ').next().expect("a number");
        number.parse().expect("a number")
    })
}

/// The program `bench`, which fails where it takes longer than a minute.
pub fn bench_program() -> Command {
    let mut command = Command::new("timeout");
    command.arg("60").arg(program("bench"));
    command
}

/// What a program writes where each read gives the next piece, whole. A datagram is read so; an empty one ends the input
/// (and any further read).
pub fn written_in_pieces<'a>(
    mut command: Command,
    pieces: impl Iterator<Item = &'a [u8]> + Send,
) -> Vec<u8> {
    let (ours, theirs) = UnixDatagram::pair().expect("sockets");
    let command = command.stdin(OwnedFd::from(theirs)).stdout(Stdio::piped());
    let mut child = command.spawn().expect("the program");
    let mut written = Vec::new();
    thread::scope(|scope| {
        scope.spawn(move || {
            // The program ends without reading on where it refuses the netlist.
            let all = pieces.chain([&b""[..]; 4]);
            let _ = all.map(|piece| ours.send(piece)).find(Result::is_err);
        });
        drop_inherited(command);
        let mut output = child.stdout.take().expect("piped");
        output.read_to_end(&mut written).expect("it writes");
        assert!(child.wait().expect("it ends").success());
    });
    written
}

/// Closes this process's end of the program's input.
fn drop_inherited(command: &mut Command) {
    command.stdin(Stdio::null());
}

fn in_pieces(random: &mut Random, input: &[u8], most: usize) -> Vec<usize> {
    let mut cuts = Vec::new();
    let mut at = 0;
    while at < input.len() {
        at = (at + random.between(1, most)).min(input.len());
        cuts.push(at);
    }
    cuts
}

/// Compares the program `bench`, through a pipe, and gives what it writes.
pub fn compare_piped(input: &[u8]) -> Vec<u8> {
    let start = &input[..input.len().min(2_000)];
    let _report = Report(|| format!("input {}", start.escape_ascii()));
    let expected = bench(input);
    let shown = String::from_utf8_lossy;
    let piped = ended(&mut bench_program(), input);
    assert!(
        piped.status.success() && piped.stderr.is_empty(),
        "{piped:?}"
    );
    assert_eq!(shown(&piped.stdout), shown(&expected));
    for line in expected.split_inclusive(|&byte| byte == b'\n') {
        count_answer(Operation::Bench, number(line));
    }
    expected
}

/// An input that is longer is cut into the smallest pieces by what is loaded into the program, which takes a twentieth of the time.
const FEW_BYTES: usize = 2_000;

/// Compares the program `bench`, through a pipe and with pieces of 1, 2, 7 and random sizes.
pub fn compare_bench(random: &mut Random, input: &[u8]) {
    let start = &input[..input.len().min(2_000)];
    let _report = Report(|| format!("input {}", start.escape_ascii()));
    let expected = compare_piped(input);
    let shown = String::from_utf8_lossy;
    for size in [1, 2, 7] {
        let written = match input.len() <= FEW_BYTES {
            true => written_in_pieces(bench_program(), input.chunks(size)),
            false => cut::written("bench", input, &[("CUT_READ", size)]),
        };
        assert_eq!(shown(&written), shown(&expected), "pieces of {size}");
    }
    for most in [30, 1_000] {
        let cuts = in_pieces(random, input, most);
        let starts = [0].iter().chain(&cuts);
        let pieces = starts.zip(&cuts).map(|(&from, &to)| &input[from..to]);
        let written = written_in_pieces(bench_program(), pieces);
        assert_eq!(shown(&written), shown(&expected), "pieces up to {most}");
    }
}

/// Legal texts, spoiled ones, one above a limit or too long, and a block of about 1,024 copies, in the program `unloop`.
pub fn texts(seeds: Range<u64>) {
    for seed in seeds {
        let _report = Report(|| format!("seed {seed}"));
        let mut random = Random::new(seed);
        let (mut legal, _) = text(&mut random, Size::SMALL);
        compare_program(&legal);
        for _ in 0..5 {
            compare_program(&spoiled(&mut random, &legal));
        }
        legal.resize(random.between(TEXT_BYTES - 1, TEXT_BYTES + 1), b'\n');
        compare_program(&legal);
        compare_program(&over_a_limit(&mut random));
        let copies = about_1024_copies(&mut random);
        compare_program(&write(&copies.to_words(), WRITTEN_BYTES).1);
    }
}

/// Netlists with set lines, also spoiled, and netlists that are refused, in the program `bench`.
pub fn set_lines(seeds: Range<u64>) {
    for seed in seeds {
        let _report = Report(|| format!("seed {seed}"));
        let mut random = Random::new(seed);
        let lines = random.between(0, 40);
        let input = bench_input(&mut random, Size::SMALL, lines);
        compare_bench(&mut random, &input);
        let spoiled = spoiled(&mut random, &input);
        compare_bench(&mut random, &spoiled);
        let odd = odd_bench_input(&mut random, Size::SMALL);
        compare_bench(&mut random, &odd);
    }
}

/// Netlists of about the greatest length in the program `bench`.
pub fn long_netlists(seeds: Range<u64>) {
    for seed in seeds {
        let mut random = Random::new(seed);
        long_bench_inputs(&mut random)
            .iter()
            .for_each(|input| drop(compare_piped(input)));
    }
}
