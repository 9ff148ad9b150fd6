//! `tests/edits`: what it says of the wrong programs, in a repository of its own with a stand-in for rt.

mod stand_in;

use simulator::executed::{ended, root, Scratch};
use stand_in::repository;
use std::fs;
use std::process::Output;

/// Notes its call and says what the file `said` has, with the status of the file `status`.
const RT: &str = "#!/usr/bin/env bash\necho \"rt $*\" >> calls\ncat said\nexit \"$(cat status)\"\n";

/// What rt says of an edit that is refused.
const REFUSED: &str = "refused, as it must be: proofs/f/Answers.antt:3:5: error: `x`: false";

/// Two crates with two edits and one, and what rt says and answers.
fn repository_with(said: &str, status: i32) -> Scratch {
    let scratch = repository();
    let script = fs::read_to_string(root().join("tests/edits")).unwrap();
    scratch.put_script("tests/edits", &script);
    scratch.put_script("tools/rt", RT);
    scratch.put("crates.txt", "# crates: all\na: b # more\nb staticlib:\n");
    scratch.put("crates/b/src/lib.rt", "");
    for edit in ["a/must-fail/0", "a/must-fail/1", "b/must-fail/2"] {
        scratch.put(&format!("crates/{edit}.edit"), "");
    }
    scratch.put("said", said);
    scratch.put("status", status.to_string());
    scratch
}

fn tried(scratch: &Scratch, names: &[&str]) -> Output {
    let mut command = std::process::Command::new(scratch.path("tests/edits"));
    let command = command.env_clear().env("PATH", scratch.path("tools"));
    ended(command.current_dir("/").args(names), b"")
}

/// What rt says of these edits of the crate `a`.
fn lines(of: &[&str]) -> String {
    let lines = of.iter().enumerate();
    let line = |(number, said): (usize, &&str)| format!("rt: must-fail a/{number}.edit: {said}\n");
    lines.map(line).collect()
}

/// All that rt says is told, and then how many are refused.
#[test]
fn refused() {
    let said = lines(&[REFUSED, REFUSED, REFUSED]);
    let scratch = repository_with(&said, 0);
    let output = tried(&scratch, &[]);
    assert!(
        output.status.success() && output.stderr.is_empty(),
        "{output:?}"
    );
    let last = "tests/edits: 3 of 3 wrong programs refused for what is false in them\n";
    assert_eq!(String::from_utf8_lossy(&output.stdout), said + last);
    assert_eq!(scratch.get("calls"), "rt must-fail\n");
    let scratch = repository_with(&lines(&[REFUSED, REFUSED]), 0);
    let output = tried(&scratch, &["a"]);
    assert!(output.status.success(), "{output:?}");
    assert_eq!(scratch.get("calls"), "rt must-fail a\n");
}

/// Whatever else comes of an edit is told, and fails.
#[test]
fn whatever_else_fails() {
    let missing = "refused, as it must be (only because a proof file names what the edit took away, so this says little of the contract: change a value \
        and keep the names): proofs/f/Answers.antt:3:5: error: `x` is not in scope";
    for (other, status) in [
        (missing, 0),
        (
            "BAD EDIT: an 'old:' text is in src/lib.rt 0 times, and not once",
            1,
        ),
        ("NOT REFUSED: the crate is still proved with this edit", 1),
        ("NOT TRIED: its check was killed, most likely for memory", 1),
        (REFUSED, 1),
    ] {
        let output = tried(&repository_with(&lines(&[REFUSED, other]), status), &["a"]);
        assert_eq!(output.status.code(), Some(1), "{other}");
        let said = String::from_utf8(output.stdout).unwrap();
        let refused = if other == REFUSED { 2 } else { 1 };
        let last =
            format!("tests/edits: {refused} of 2 wrong programs refused for what is false in them");
        assert_eq!(said.lines().last(), Some(&last[..]));
    }
    // One that rt passes over in silence.
    let output = tried(&repository_with(&lines(&[REFUSED]), 0), &["a"]);
    assert_eq!(output.status.code(), Some(1));
    let output = tried(&repository_with("", 0), &["c"]);
    assert_eq!(output.status.code(), Some(1));
    assert_eq!(output.stderr, b"tests/edits: there is no crate c\n");
}
