//! The driver where nothing is installed but a stand-in for ABC, or nothing at all.

use crate::session::command;
use simulator::executed::{ended, program, root, Scratch};
use std::fs;
use std::process::{Command, Output};

/// A stand-in: the name under which it is on the PATH, and its script.
pub type StandIn<'a> = (&'a str, &'a str);

/// Runs the driver with a PATH that has nothing but the stand-in, if one is given.
pub fn run_with(scratch: &Scratch, abc: Option<StandIn>, words: &[&str]) -> Output {
    // What it needs is built by the first run.
    command(scratch);
    fs::create_dir_all(scratch.path("tools")).unwrap();
    if let Some((name, script)) = abc {
        scratch.put_script(&format!("tools/{name}"), &format!("#!/bin/sh\n{script}"));
    }
    let mut driver = Command::new(root().join("target/driver/release/unloop-files"));
    driver.arg(program("unloop")).args(words);
    driver
        .current_dir(scratch.path("."))
        .env("PATH", scratch.path("tools"));
    ended(&mut driver, b"")
}
