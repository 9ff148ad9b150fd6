//! `bin/release`: what it makes of a clean tree whose gate has passed, and what it refuses, in a repository of its own: rt and cargo are stand-ins that
//! bring what is really built, and the gate that leaves the stamp is the real script over stand-ins.

mod prefix;
mod stand_in;

use prefix::moved;
use simulator::executed::{ended, root, told, version, Scratch};
use simulator::specimens::{PROGRAM_INPUT, PROGRAM_OUTPUT};
use stand_in::repository;
use std::fs;
use std::process::{Command, Output};

/// Brings the real programs and the real library; as `ci` it has passed.
const RT: &str = r#"#!/usr/bin/env bash
bring() { [ -e "$1" ] || { mkdir -p "${1%/*}" && cp -p "$REAL/$1" "$1"; }; }
case $1 in
  version) echo kit 1 ;;
  ci)
    bring crates/unloop/out/unloop
    bring crates/bench/out/bench
    echo 'rt: ok; handles allowed: none; must-fail edits: 0 refused'
    cat tools/verdict
    ;;
  run) crate=${PWD##*/}; cd ../..; bring "crates/$crate/out/$crate" ;;
  lib) cd ../..; bring crates/exports/out/libexports.a ;;
esac
"#;

const CARGO: &str = r#"#!/usr/bin/env bash
[ "$1" != build ] || { mkdir -p target/driver/release && cp -p "$REAL/target/driver/release/unloop-files" target/driver/release; }
"#;

/// A repository with a commit of all that is installed and ignored folders target/ and out/.
fn committed() -> Scratch {
    moved(); // all is built
    let scratch = repository();
    scratch.put_script("tools/rt", RT);
    scratch.put_script("tools/cargo", CARGO);
    scratch.put("tools/verdict", "4 passed, 0 failed\n");
    let gate = fs::read_to_string(root().join(".ci/run")).unwrap();
    let words = gate.split(|c: char| c.is_whitespace() || ";&|(){}".contains(c));
    for tool in words.filter(|word| word.starts_with("tests/")) {
        scratch.put_script(tool, "#!/bin/sh\n");
    }
    // What makes the library for the gate.
    let library = "#!/bin/sh\n[ \"$1\" != --library ] || (cd crates/exports && rt lib)\n";
    scratch.put_script("tests/levels", library);
    for file in [
        "include/unloop.h",
        "python/unloop.py",
        "docs/unloop.1",
        "docs/unloop-netlist.5",
        "catalogue/gates.genlib",
    ] {
        scratch.put(file, fs::read(root().join(file)).unwrap());
    }
    scratch.put(".gitignore", "target/\ncrates/*/out/\ntools/\ncalls\n");
    git(&scratch, &["init", "-q"]);
    git(&scratch, &["config", "status.showUntrackedFiles", "no"]); // what is not known to git counts all the same
    commit(&scratch, "all of it");
    scratch
}

fn git(scratch: &Scratch, words: &[&str]) -> String {
    let mut git = Command::new("git");
    git.args(["-c", "user.name=tests", "-c", "user.email=tests"]);
    git.args(["-c", "commit.gpgsign=false"]);
    let output = ended(git.current_dir(scratch.path(".")).args(words), b"");
    assert!(output.status.success(), "{words:?}: {output:?}");
    String::from_utf8(output.stdout).unwrap()
}

fn commit(scratch: &Scratch, subject: &str) {
    git(scratch, &["add", "-A"]);
    git(scratch, &["commit", "-q", "-m", subject]);
}

/// Runs one of the repository's scripts with its stand-ins before the tools of this machine.
fn run(scratch: &Scratch, script: &str, words: &[&str]) -> Output {
    let path = std::env::var("PATH").unwrap();
    let path = format!("{}:{path}", scratch.path("tools").display());
    let mut command = Command::new(scratch.path(script));
    command.env("PATH", path).env("REAL", root());
    ended(command.current_dir(scratch.path(".")).args(words), b"")
}

fn pass_gate(scratch: &Scratch) {
    let output = run(scratch, ".ci/run", &[]);
    assert!(output.status.success(), "{output:?}");
    assert!(output.stdout.ends_with(b"\n4 passed, 0 failed\n"));
}

fn refused(scratch: &Scratch, words: &str) {
    let output = run(scratch, "bin/release", &["target/out"]);
    told(output, 2, "", &format!("release: {words}\n"));
    assert!(!scratch.path("target/out").exists());
}

/// Runs a command in a folder that must succeed, and gives what it writes.
fn succeeded(scratch: &Scratch, folder: &str, words: &[&str]) -> String {
    let mut command = Command::new(words[0]);
    let command = command.current_dir(scratch.path(folder)).args(&words[1..]);
    let output = ended(command, b"");
    assert!(output.status.success(), "{output:?}");
    String::from_utf8(output.stdout).unwrap()
}

/// The archive of a repository whose gate has passed, unpacked elsewhere as `release`; made twice, it is the same.
fn unpacked(scratch: &Scratch) -> Scratch {
    let name = format!("unloop-{}-x86_64-linux", version());
    let made = format!("target/out/{name}.tar.gz");
    let archives = [0, 1].map(|_| {
        let output = run(scratch, "bin/release", &["target/out"]);
        assert_eq!(output.stdout, format!("{made}\n").as_bytes(), "{output:?}");
        assert!(output.status.success());
        fs::read(scratch.path(&made)).unwrap()
    });
    assert!(archives[0] == archives[1], "another archive");
    let elsewhere = Scratch::new();
    elsewhere.put("archive", &archives[0]);
    succeeded(&elsewhere, ".", &["tar", "-xzf", "archive"]);
    assert_eq!(elsewhere.names("."), ["archive", &name]);
    fs::rename(elsewhere.path(&name), elsewhere.path("release")).unwrap();
    elsewhere
}

/// The archive is a prefix that works elsewhere; it says where it comes from, and the sums of all its files.
#[test]
fn released() {
    let scratch = committed();
    pass_gate(&scratch);
    let elsewhere = unpacked(&scratch);
    let check = ["sha256sum", "--check", "--quiet", "--strict", "RELEASE"];
    succeeded(&elsewhere, "release", &check);
    let told_of = elsewhere.get("release/RELEASE");
    let head = git(&scratch, &["rev-parse", "HEAD"]);
    let expected = format!(
        "# unloop {}, for x86-64 Linux\n# commit {head}# kit kit 1\n# gate 4 passed, 0 failed\n",
        version()
    );
    let rest = told_of.strip_prefix(&expected).expect(&told_of);
    let glibc = rest.strip_prefix("# it needs glibc 2.").expect(rest);
    assert!(glibc.starts_with(|c: char| c.is_ascii_digit()), "{glibc}");
    let files = succeeded(&elsewhere, "release", &["find", ".", "-type", "f"]);
    let sums = told_of.lines().filter(|line| !line.starts_with('#'));
    assert_eq!(sums.count() + 1, files.lines().count());

    elsewhere.put("x.net", PROGRAM_INPUT);
    let mut command = Command::new(elsewhere.path("release/bin/unloop"));
    let output = ended(command.arg(elsewhere.path("x.net")), b"");
    told(output, 0, PROGRAM_OUTPUT, "");
}

/// What is not committed, or no gate has passed on, is refused, in words.
#[test]
fn trees_that_are_refused() {
    let scratch = committed();
    let none =
        "the gate has not passed on this tree: there is no target/gate, which .ci/run leaves";
    refused(&scratch, none);
    pass_gate(&scratch);
    scratch.put("new", "");
    refused(&scratch, "the tree is not clean: ?? new");
    commit(&scratch, "something new");
    let [passed, head] = ["HEAD^", "HEAD"].map(|name| git(&scratch, &["rev-parse", name]));
    let (passed, head) = (passed.trim_end(), head.trim_end());
    let other = format!("the gate has passed on commit {passed}, and this is {head}");
    refused(&scratch, &other);
}

/// A stamp that says something else than that all has passed here, or of something else, is refused.
#[test]
fn stamps_that_are_refused() {
    let scratch = committed();
    pass_gate(&scratch);
    let stamp = scratch.get("target/gate");
    let (head, _) = stamp.split_once('\n').unwrap();
    let kit = "the gate has passed with kit 2, and here is kit 1";
    let failed = "the gate has not passed: its last line is '4 passed, 1 failed'";
    let cut_off = "target/gate is cut off: run .ci/run again";
    for (stamp, words) in [
        (stamp.replace("kit 1", "kit 2"), kit),
        (stamp.replace("0 failed", "1 failed"), failed),
        (format!("{head}\n"), cut_off),
    ] {
        scratch.put("target/gate", stamp);
        refused(&scratch, words);
    }
    scratch.put("target/gate", &stamp);
    fs::remove_file(scratch.path("crates/bench/out/bench")).unwrap();
    scratch.put_script("crates/bench/out/bench", "#!/bin/sh\n");
    let other = "what is built is not what the gate has tried: crates/bench/out/bench: FAILED";
    refused(&scratch, other);
}

/// The gate leaves its stamp of a clean tree alone, and takes an older one away first.
#[test]
fn stamps() {
    let scratch = committed();
    pass_gate(&scratch);
    let head = git(&scratch, &["rev-parse", "HEAD"]);
    let stamp = scratch.get("target/gate");
    assert!(
        stamp.starts_with(&format!("{head}kit 1\n4 passed, 0 failed\n")),
        "{stamp}"
    );
    assert_eq!(stamp.lines().count(), 6, "{stamp}");
    scratch.put("new", "");
    pass_gate(&scratch);
    assert!(!scratch.path("target/gate").exists());
    fs::remove_file(scratch.path("new")).unwrap();
    pass_gate(&scratch);
    scratch.put("tools/verdict", "4 passed, 1 failed\n");
    assert!(!run(&scratch, ".ci/run", &[]).status.success());
    assert!(!scratch.path("target/gate").exists());
}

#[test]
fn bad_usage() {
    let scratch = committed();
    for words in [&[][..], &["a", "b"], &["-x"], &[""]] {
        let output = run(&scratch, "bin/release", words);
        assert_eq!(output.status.code(), Some(2), "{words:?}");
        assert!(output.stderr.starts_with(b"usage: bin/release FOLDER\n"));
    }
    let output = run(&scratch, "bin/release", &["--help"]);
    assert!(output.status.success() && output.stdout.starts_with(b"usage: bin/release FOLDER\n"));
}
