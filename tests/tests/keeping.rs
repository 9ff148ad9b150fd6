//! What docs/KEEPER.md prints for a repository and a build server, run as it is printed.

mod session;

use session::{told, with};
use simulator::executed::{ended, root, Scratch};
use std::fs;
use std::os::unix::fs::symlink;
use std::process::{Command, Output};

/// The lines of an indented block of docs/KEEPER.md from the one that is this to its end, the indentation taken off.
fn printed(first: &str) -> String {
    let page = fs::read_to_string(root().join("docs/KEEPER.md")).unwrap();
    let lines = page.lines().map(|line| line.strip_prefix("    "));
    let block = lines.skip_while(|line| *line != Some(first));
    let block = block.map_while(|line| line.map(|line| format!("{line}\n")));
    let block: String = block.collect();
    assert!(block.lines().count() > 1, "{first} is printed nowhere");
    block
}

/// Runs a command in a folder with `unloop` on the PATH and no settings of the user's.
fn run(scratch: &Scratch, words: &[&str]) -> Output {
    let path = std::env::var("PATH").unwrap();
    let tools = scratch.path("tools");
    let mut command = Command::new(words[0]);
    command
        .args(&words[1..])
        .current_dir(scratch.path("repository"))
        .env("PATH", format!("{}:{path}", tools.display()))
        .env("HOME", scratch.path("."))
        .env("GIT_CONFIG_NOSYSTEM", "1");
    for who in ["AUTHOR", "COMMITTER"] {
        command.env(format!("GIT_{who}_NAME"), "keeper");
        command.env(format!("GIT_{who}_EMAIL"), "keeper@example.org");
    }
    ended(&mut command, b"")
}

/// A repository of one entry whose facts hold, in a folder below the top, and the command.
fn repository() -> Scratch {
    let scratch = with(&[("repository/README", "")]);
    session::run(&scratch, &["--version"]); // built
    fs::create_dir(scratch.path("tools")).unwrap();
    symlink(root().join("bin/unloop"), scratch.path("tools/unloop")).unwrap();
    for ending in ["net", "out", "cover"] {
        let file = root().join(format!("catalogue/rate-mended.{ending}"));
        let text = fs::read(file).unwrap();
        scratch.put(&format!("repository/a b/rate.{ending}"), text);
    }
    scratch
}

/// Puts the broken rate block, or the mended one, in the original's place.
fn put_original(scratch: &Scratch, name: &str) {
    let text = fs::read(root().join("catalogue").join(name)).unwrap();
    scratch.put("repository/a b/rate.net", text);
}

const LOST: &str = "  cover: stored as settled, but not settled with sample = 0, mute = 0, k44 = 0, k48 = 1: y undefined\n";

#[test]
fn hook() {
    let scratch = repository();
    let git = |words: &[&str]| {
        let ended = run(&scratch, &[&["git"], words].concat());
        assert!(ended.status.success(), "{words:?}: {ended:?}");
    };
    let commit = || run(&scratch, &["git", "commit", "-q", "-m", "changed"]);
    git(&["init", "-q"]);
    scratch.put_script("repository/.git/hooks/pre-commit", &printed("#!/bin/sh"));
    git(&["add", "."]);
    assert!(commit().status.success());
    // What is staged counts: the broken original, though the mended one lies in the folder again.
    put_original(&scratch, "rate.net");
    git(&["add", "."]);
    put_original(&scratch, "rate-mended.net");
    let refused = commit();
    assert_eq!(refused.status.code(), Some(1), "{refused:?}");
    let output =
        String::from_utf8(refused.stdout).unwrap() + &String::from_utf8_lossy(&refused.stderr);
    let anew = "  to store it anew: unloop --store './a b' rate --force\n";
    let lost = format!("./a b/rate.net: lost\n{LOST}{anew}");
    assert!(output.contains(&lost), "{output}");
    // And the other way round.
    git(&["add", "."]);
    put_original(&scratch, "rate.net");
    scratch.put("repository/README", "changed");
    git(&["add", "README"]);
    assert!(commit().status.success());
    // A table of cells that doesn't hold is lost too, though nothing else changes.
    git(&["checkout", "-q", "."]);
    scratch.put("repository/a b/rate.cells", "# inputs 0\n");
    git(&["add", "a b/rate.cells"]);
    assert_eq!(commit().status.code(), Some(1));
    git(&["rm", "-q", "-f", "a b/rate.cells"]);
    // A fact that is removed is lost; an entry that is removed as a whole is not.
    git(&["checkout", "-q", "."]);
    git(&["rm", "-q", "a b/rate.cover"]);
    assert_eq!(commit().status.code(), Some(1));
    git(&["rm", "-q", "-r", "a b"]);
    assert!(commit().status.success());
}

#[test]
fn job() {
    let scratch = repository();
    let job = printed("catalogue:");
    let commands = job.lines().filter_map(|line| line.strip_prefix("    - "));
    let commands: Vec<&str> = commands.collect();
    assert_eq!(commands.len(), 2, "{job}");
    let script = commands.join("\n");
    let ended = run(&scratch, &["sh", "-e", "-c", &script]);
    told(ended, 0, "1 entry: 1 hold, 0 lost\n", "");
    put_original(&scratch, "rate.net");
    let ended = run(&scratch, &["sh", "-e", "-c", &script]);
    assert_eq!(ended.status.code(), Some(1), "{ended:?}");
    assert!(String::from_utf8(ended.stdout).unwrap().contains(LOST));
    let report = scratch.get("repository/audit.json");
    let lost = "{\"file\":\"./a b/rate.net\",\"holds\":false,";
    assert!(
        report.starts_with(lost) && report.lines().count() == 1,
        "{report}"
    );
}
