//! A prefix that `bin/install` has filled, moved elsewhere.

use simulator::executed::{ended, root, Scratch};
use std::fs;
use std::process::{Command, Output};
use std::sync::Once;

/// `bin/install` with these words in a folder; what it needs is built before, so that it has nothing to say of that.
pub fn install(scratch: &Scratch, words: &[&str]) -> Output {
    static BUILT: Once = Once::new();
    let run = |scratch: &Scratch, words: &[&str]| {
        let mut install = Command::new(root().join("bin/install"));
        ended(install.current_dir(scratch.path(".")).args(words), b"")
    };
    BUILT.call_once(|| {
        let built = run(&Scratch::new(), &["prefix"]);
        assert!(built.status.success(), "{built:?}");
    });
    run(scratch, words)
}

/// A folder with the prefix `moved`, which was installed under another name.
pub fn moved() -> Scratch {
    let scratch = Scratch::new();
    let output = install(&scratch, &["a b"]);
    assert_eq!(
        output.stdout, b"a b/bin/unloop is installed\n",
        "{output:?}"
    );
    assert!(output.status.success() && output.stderr.is_empty());
    fs::rename(scratch.path("a b"), scratch.path("moved")).unwrap();
    scratch
}
