//! The programs over calls of C's `read` and `write` that are cut short, by what is loaded before the C library (tests/c/cut.c).

use crate::executed::{ended, program, root, Scratch};
use std::process::Command;
use std::sync::OnceLock;

/// The folder of what is loaded, compiled once.
fn cutter() -> &'static Scratch {
    static CUTTER: OnceLock<Scratch> = OnceLock::new();
    CUTTER.get_or_init(|| {
        let scratch = Scratch::new();
        let mut compiler = Command::new("gcc");
        compiler.args(["-std=gnu99", "-Wall", "-Wextra", "-Werror", "-O1"]);
        compiler
            .args(["-shared", "-fPIC", "-o"])
            .arg(scratch.path("cut.so"));
        let compiled = ended(compiler.arg(root().join("tests/c/cut.c")), b"");
        assert!(compiled.status.success(), "{compiled:?}");
        scratch
    })
}

/// What a program writes where its calls go by these words, each a variable and a number: the most bytes of a call (0 stands for another size
/// at each), or the call that fails.
pub fn written(name: &str, input: &[u8], words: &[(&str, usize)]) -> Vec<u8> {
    let mut command = Command::new(program(name));
    // A path without the spaces of a test's folder, which would divide it.
    command
        .current_dir(cutter().path(""))
        .env("LD_PRELOAD", "./cut.so");
    for (variable, number) in words {
        command.env(variable, number.to_string());
    }
    let ended = ended(&mut command, input);
    assert!(
        ended.status.success() && ended.stderr.is_empty(),
        "{ended:?}"
    );
    ended.stdout
}
