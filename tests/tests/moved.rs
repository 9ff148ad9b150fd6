//! The programs `unloop` and `bench` move every byte, whatever the system gives them to read and takes from them at a call. Their `main` can have
//! no contract, so this is held by runs: over calls that are cut at every size (tests/c/cut.c), over sockets and full pipes, and under signals.

use simulator::compare::programs::written_in_pieces;
use simulator::cut::written;
use simulator::executed::{self, ended, root, Scratch};
use simulator::generate::{bench_input, long_texts, Random, Report, Size};
use simulator::limits::WRITTEN_BYTES;
use simulator::specimens::{PROGRAM_INPUT, SIX_GATES};
use simulator::{bench, unloop};
use std::collections::BTreeSet;
use std::io::{pipe, Read, Write};
use std::process::{Child, Command, Stdio};
use std::time::Duration;
use std::{fs, thread};

/// The most bytes of a call; 0 stands for another size at each.
const SIZES: [usize; 8] = [0, 1, 2, 7, 4_095, 4_096, 4_097, 61_441];

fn program(name: &str) -> Command {
    let mut command = Command::new("timeout");
    command.arg("60").arg(executed::program(name));
    command
}

/// Netlists: short ones, the longest, and one whose rendering is long.
fn netlists() -> Vec<Vec<u8>> {
    let short = [PROGRAM_INPUT, SIX_GATES, ""].map(|text| text.as_bytes().to_vec());
    let long = long_texts().into_iter().map(|(_, text)| text);
    let texts: Vec<Vec<u8>> = short.into_iter().chain(long).collect();
    let longest = texts.iter().map(|text| unloop(text).len()).max();
    assert!(longest > Some(WRITTEN_BYTES / 2), "{longest:?}");
    texts
}

/// Inputs of the bench: one of a few lines, one of thousands.
fn sessions() -> Vec<Vec<u8>> {
    let mut random = Random::new(7);
    [5, 3_000]
        .map(|lines| bench_input(&mut random, Size::SMALL, lines))
        .to_vec()
}

/// Both programs with their inputs and what the simulator writes for each.
fn runs() -> Vec<(&'static str, Vec<u8>, Vec<u8>)> {
    let netlists = netlists().into_iter().map(|text| {
        let expected = unloop(&text);
        ("unloop", text, expected)
    });
    let sessions = sessions().into_iter().map(|input| {
        let expected = bench(&input);
        ("bench", input, expected)
    });
    netlists.chain(sessions).collect()
}

#[test]
fn calls_cut_at_every_size() {
    for (name, input, expected) in runs() {
        for size in SIZES {
            let _report = Report(|| format!("{name}, {} bytes, cut at {size}", input.len()));
            assert!(written(name, &input, &[("CUT_READ", size)]) == expected);
            assert!(written(name, &input, &[("CUT_WRITE", size)]) == expected);
            let both = [("CUT_READ", size), ("CUT_WRITE", size)];
            assert!(written(name, &input, &both) == expected);
        }
    }
}

/// Each datagram is a read of its own, without anything loaded into the program; it asks for 4,096 bytes or more.
#[test]
fn a_netlist_in_datagrams() {
    for text in netlists() {
        let expected = unloop(&text);
        for size in [1, 7, 4_095, 4_096] {
            let _report = Report(|| format!("{} bytes in pieces of {size}", text.len()));
            assert!(written_in_pieces(program("unloop"), text.chunks(size)) == expected);
        }
    }
}

/// A read that fails ends the input, and nothing but the answer to what was read before is written. (It is also how these tests know that
/// their `read` is the one that is called.)
#[test]
fn a_read_that_fails_ends_the_input() {
    let session = &sessions()[0];
    for (name, input, answer) in [
        (
            "unloop",
            PROGRAM_INPUT.as_bytes(),
            unloop as fn(&[u8]) -> Vec<u8>,
        ),
        ("bench", session, bench),
    ] {
        for call in 1..=input.len() / 20 {
            let cut = [("CUT_READ", 20), ("FAIL_READ", call)];
            assert_eq!(
                written(name, input, &cut),
                answer(&input[..20 * (call - 1)])
            );
        }
    }
}

/// A write that fails loses what is left of its answer, and no other byte.
#[test]
fn a_write_that_fails_loses_its_answer_alone() {
    let text = PROGRAM_INPUT.as_bytes();
    let whole = unloop(text);
    for call in 1..=whole.len() / 20 {
        let cut = [("CUT_WRITE", 20), ("FAIL_WRITE", call)];
        assert_eq!(written("unloop", text, &cut), whole[..20 * (call - 1)]);
    }
    let session = &sessions()[0];
    let told = bench(session);
    let lines: Vec<&[u8]> = told.split_inclusive(|&byte| byte == b'\n').collect();
    assert!(lines.len() > 3);
    for lost in 0..lines.len() {
        let mut kept = lines.clone();
        kept.remove(lost);
        let written = written("bench", session, &[("FAIL_WRITE", lost + 1)]);
        assert_eq!(written, kept.concat());
    }
}

/// Of C they call `read` and `write`, what starts a program and what moves memory. The start looks at the processor and has SIGPIPE passed over, which a
/// run shows: while it waits for input, no signal is caught. So the system starts a call again that a signal interrupted before it moved a byte, and no
/// call of theirs fails by one.
#[test]
fn no_signal_is_caught() {
    let allowed = [
        "__errno_location",
        "__libc_start_main",
        "__sysv_signal",
        "__write",
        "__x86_get_cpuid_feature_leaf",
        "memcpy",
        "memmove",
        "memset",
        "memcmp",
        "read",
        "write",
    ];
    for name in ["unloop", "bench"] {
        let mut command = Command::new("nm");
        command.args(["-D", "--undefined-only"]);
        let listed = ended(command.arg(executed::program(name)), b"");
        assert!(listed.status.success(), "{listed:?}");
        let listed = String::from_utf8(listed.stdout).expect("names");
        let called = listed
            .lines()
            .filter_map(|line| line.trim().strip_prefix("U "));
        let called: BTreeSet<&str> = called.filter_map(|name| name.split('@').next()).collect();
        assert!(
            called.contains("read") && called.contains("write"),
            "{called:?}"
        );
        assert!(
            called.iter().all(|name| allowed.contains(name)),
            "{called:?}"
        );
        let mut command = Command::new(executed::program(name));
        let command = command.stdin(Stdio::piped()).stdout(Stdio::null());
        let mut child = command.spawn().expect("the program");
        let state = format!("/proc/{}/status", child.id());
        let state = || fs::read_to_string(&state).expect("its state");
        while !state().contains("\nState:\tS") {
            thread::sleep(Duration::from_millis(1));
        }
        let status = state();
        assert!(status.contains("\nSigCgt:\t0000000000000000\n"), "{status}");
        drop(child.stdin.take());
        assert!(child.wait().expect("it ends").success());
    }
}

fn signal(child: &Child, signal: &str) {
    let mut kill = Command::new("kill");
    let sent = kill.args(["-s", signal, &child.id().to_string()]).status();
    assert!(sent.expect("kill").success());
}

/// Starts a program whose output goes to a pipe that is full already, feeds it in pieces, and stops and wakes it all the while; gives what it wrote.
fn under_signals(name: &str, input: &[u8]) -> Vec<u8> {
    const FULL: usize = 65_536;
    let (mut output, mut held) = pipe().expect("a pipe");
    held.write_all(&[b'#'; FULL]).expect("room");
    let mut command = Command::new(executed::program(name));
    let command = command.stdin(Stdio::piped()).stdout(held);
    let mut child = command.spawn().expect("the program");
    command.stdout(Stdio::null()); // or the pipe would never end
    let mut stdin = child.stdin.take().expect("piped");
    let mut written = Vec::new();
    thread::scope(|scope| {
        scope.spawn(move || {
            for piece in input.chunks(input.len() / 10 + 1) {
                stdin.write_all(piece).expect("it reads on");
                thread::sleep(Duration::from_millis(10));
            }
        });
        let reader = scope.spawn(|| {
            let mut piece = [0; 5_000];
            loop {
                match output.read(&mut piece).expect("it writes") {
                    0 => break,
                    count => written.extend(&piece[..count]),
                }
                thread::sleep(Duration::from_millis(2));
            }
        });
        while !reader.is_finished() {
            for name in ["WINCH", "STOP", "URG", "CONT"] {
                signal(&child, name);
            }
        }
    });
    assert!(child.wait().expect("it ends").success());
    written.split_off(FULL)
}

/// A program that is stopped and goes on, and is sent signals that it passes over, while it waits for input and while its output is taken slowly.
#[test]
fn signals_change_nothing() {
    for (name, input, expected) in runs() {
        let _report = Report(|| format!("{name}, {} bytes", input.len()));
        assert!(under_signals(name, &input) == expected);
    }
}

/// A machine without strace does not pass for one where every call was seen.
#[test]
fn without_strace_nothing_is_traced() {
    let scratch = Scratch::new();
    let tools = scratch.put_tools("tools", &["bash", "dirname"]);
    let mut command = Command::new(root().join("tests/traced"));
    let output = ended(command.env("PATH", tools), b"");
    assert_eq!(output.status.code(), Some(2), "{output:?}");
    let told = String::from_utf8_lossy(&output.stderr);
    assert!(told.contains("NOTHING WAS TRACED"), "{told}");
}
