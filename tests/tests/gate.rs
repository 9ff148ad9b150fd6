//! `.ci/run`: what it runs, what it says of its phases, and its last line; in a repository of its own, with stand-ins.

mod stand_in;

use simulator::executed::{ended, Scratch};
use stand_in::repository;
use std::process::{Command, Output};
use std::time::{Duration, Instant};

/// Notes its calls, and as `ci` says what rt says, after the seconds of the file `pace`; its line `rt: ok` is of the file `edits`. A line of the file
/// `fails` makes the call of that name fail.
const RT: &str = r#"#!/usr/bin/env bash
echo "rt $*" >> calls
if grep -qx "rt $1" fails; then echo "1 passed, 1 failed"; exit 1; fi
[ "$1" = ci ] || exit 0
[ -e crates/laws/out/kept ] || exit 9
sleep "$(cat pace)"
echo 'rt: laws proved'
echo 'rt: netlist proved'
echo "rt: must-fail laws/other.edit: refused, as it must be$(cat why)"
echo 'rt: unloop ran, and wrote what its file stdout has'
echo "rt: ok; handles allowed: none; $(cat edits); every proof and must-fail edit was done in this run"
cat verdict
"#;

/// Notes its calls, a cargo's by what it does to which package. A part of cargo that the file `fails` says is missing has no version.
const OTHER: &str = r#"#!/usr/bin/env bash
if [ "$2" = --version ]; then ! grep -qx "missing $1" fails; exit; fi
package=
for word; do case $word in */Cargo.toml) package=${word%/Cargo.toml} ;; esac; done
call="${0##*/}${package:+ $1 $package}"
case $* in *--test=other*) call+=' --test=other' ;; --*) call+=" $1" ;; esac
echo "$call" >> calls
! grep -qx "$call" fails
"#;

/// As `--others` it says what the other tests are.
const LEVELS: &str = "status=$?\n[ \"$1\" != --others ] || echo --test=other\nexit $status\n";

fn gate() -> Scratch {
    let scratch = repository();
    scratch.put_script("tools/rt", RT);
    for tool in ["tools/cargo", "tests/probes", "tests/c/run"] {
        scratch.put_script(tool, OTHER);
    }
    scratch.put_script("tests/levels", &format!("{OTHER}{LEVELS}"));
    scratch.put("fails", "");
    scratch.put("pace", "0\n");
    scratch.put("edits", "must-fail edits: 2 refused\n");
    scratch.put("why", ": src/lib.rt:1:1: error\n");
    for edit in ["laws/must-fail/one", "laws/must-fail/other"] {
        scratch.put(&format!("crates/{edit}.edit"), "");
    }
    scratch.put("crates/laws/out/kept", "");
    scratch.put("verdict", "4 passed, 0 failed\n");
    scratch
}

fn run(scratch: &Scratch) -> Output {
    let mut command = Command::new(scratch.path(".ci/run"));
    let command = command.env_clear().env("PATH", scratch.path("tools"));
    ended(command.current_dir("/"), b"")
}

/// What is called before the tests, which run beside each other.
const BEFORE: [&str; 10] = [
    "cargo fmt rust",
    "cargo fmt tests",
    "cargo fmt perf",
    "rt ci",
    "levels --library",
    "probes",
    "cargo clippy rust",
    "cargo clippy tests",
    "cargo clippy perf",
    "levels --others",
];

/// Everything is run, and the last lines are the phases and rt's verdict.
#[test]
fn phases_and_the_last_line() {
    let scratch = gate();
    scratch.put("pace", "2.1\n");
    let ended = run(&scratch);
    assert!(ended.status.success(), "{ended:?}");
    let said = String::from_utf8(ended.stdout).unwrap();
    let mut lines = said.lines().rev();
    assert_eq!(lines.next(), Some("4 passed, 0 failed"));
    let phases = lines.next().unwrap().strip_prefix("gate: ").unwrap();
    let phases: Vec<(&str, usize)> = phases
        .split(", ")
        .map(|phase| {
            let phase = phase.strip_suffix(" s").unwrap();
            let (name, time) = phase.rsplit_once(' ').unwrap();
            (name, time.parse().unwrap())
        })
        .collect();
    let names: Vec<&str> = phases.iter().map(|(name, _)| *name).collect();
    assert_eq!(names, ["layout", "rt ci", "library", "lints", "tests"]);
    assert!(phases[1].1 >= 2, "{phases:?}");
    let calls = scratch.get("calls");
    let mut calls: Vec<&str> = calls.lines().collect();
    let beside = "cargo test tests --test=other";
    let at = calls.iter().position(|&call| call == beside);
    calls.remove(at.unwrap_or_else(|| panic!("{calls:?}")));
    assert_eq!(calls[..10], BEFORE);
    assert_eq!(
        calls[10..],
        ["cargo test perf", "cargo test rust", "run", "levels --test"]
    );
}

/// Whatever fails, the gate fails, and its last line says so.
#[test]
fn failures() {
    for fails in [
        "cargo fmt tests",
        "rt ci",
        "levels --library",
        "probes",
        "cargo clippy rust",
        "cargo clippy perf",
        "levels --others",
        "cargo test tests --test=other",
        "cargo test perf",
        "cargo test rust",
        "run",
        "levels --test",
    ] {
        let scratch = gate();
        scratch.put("fails", format!("{fails}\n"));
        let ended = run(&scratch);
        assert!(!ended.status.success(), "{fails}");
        let said = String::from_utf8(ended.stdout).unwrap();
        assert_eq!(said.lines().last(), Some("gate: failed"), "{fails}");
    }
    // What runs beside what fails is ended with the gate.
    let began = Instant::now();
    let scratch = gate();
    scratch.put_script("tests/c/run", "#!/usr/bin/env bash\nsleep 600\n");
    scratch.put("fails", "cargo test tests --test=other\n");
    assert!(!run(&scratch).status.success());
    assert!(began.elapsed() < Duration::from_secs(60));
}

/// rt's verdict counts as it is told: nothing failed, and each edit that is there is refused, none of them bad.
#[test]
fn verdicts() {
    let (passed, refused) = ("4 passed, 0 failed", "must-fail edits: 2 refused");
    for (verdict, edits, is_passed) in [
        (passed, refused, true),
        (
            passed,
            "must-fail edits: 2 refused, 1 of them only by a limit",
            true,
        ),
        ("4 passed, 1 failed", refused, false),
        (
            "4 passed, 0 failed (laws and the crates below alone: not the gate)",
            refused,
            false,
        ),
        (passed, "must-fail edits: 2 refused, 1 bad", false),
        (passed, "must-fail edits: 1 refused, 1 bad", false),
        (passed, "must-fail edits: 1 refused", false),
        (passed, "nothing of edits", false),
    ] {
        let scratch = gate();
        scratch.put("verdict", format!("{verdict}\n"));
        scratch.put("edits", format!("{edits}\n"));
        let ended = run(&scratch);
        assert_eq!(ended.status.success(), is_passed, "{verdict}; {edits}");
        let said = String::from_utf8(ended.stdout).unwrap();
        let last = if is_passed { passed } else { "gate: failed" };
        assert_eq!(said.lines().last(), Some(last));
    }
    let scratch = gate();
    scratch.put(
        "why",
        " (only because a proof file names what the edit took away)\n",
    );
    assert!(!run(&scratch).status.success());
}

/// A part of cargo that is not installed is told, and the rest is run.
#[test]
fn missing_lints() {
    let scratch = gate();
    scratch.put("fails", "missing fmt\nmissing clippy\n");
    let ended = run(&scratch);
    assert!(ended.status.success(), "{ended:?}");
    let said = String::from_utf8(ended.stdout).unwrap();
    for part in ["fmt", "clippy"] {
        let told = format!("gate: cargo {part} is not installed, so that nothing of it was run\n");
        assert!(said.contains(&told), "{said}");
    }
    let calls = scratch.get("calls");
    assert!(!calls.contains("fmt rust") && calls.contains("cargo test rust\n"));
}
