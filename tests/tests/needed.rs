//! What the static library needs from outside.

use simulator::executed::{ended, library_folder};
use std::collections::BTreeSet;
use std::process::Command;

/// Of C it calls what copies memory and what fills it: who links it without a C library has to give these two.
#[test]
fn two_functions_are_needed_from_outside() {
    let mut command = Command::new("nm");
    command.arg("--undefined-only");
    let listed = ended(command.arg(library_folder().join("libexports.a")), b"");
    assert!(listed.status.success(), "{listed:?}");
    let listed = String::from_utf8(listed.stdout).expect("names");
    let needed = listed
        .lines()
        .filter_map(|line| line.trim().strip_prefix("U "));
    let needed: BTreeSet<&str> = needed.collect();
    assert_eq!(needed, BTreeSet::from(["memcpy", "memset"]));
}
