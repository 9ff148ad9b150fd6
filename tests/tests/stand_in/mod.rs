//! A repository of its own for scripts, with nothing built and stand-ins for `rt` and `cargo` that write down each call.

use simulator::executed::{root, sought, Scratch};
use std::fs;
use std::os::unix::fs::symlink;
use std::path::{Path, PathBuf};
use std::time::{Duration, SystemTime};

/// The commands that the scripts use.
const TOOLS: [&str; 25] = [
    "awk", "bash", "cat", "chmod", "dirname", "env", "find", "flock", "grep", "head", "ln",
    "mkdir", "mktemp", "mv", "readlink", "rm", "sed", "sh", "sleep", "sort", "tail", "tee",
    "touch", "tr", "wc",
];

/// Names the kit. Called in a crate's folder, notes the call and the crate, and makes its result, a program that writes its input, unless it is there.
/// It takes a while, and would take the input too. Notes what is in `out` before the library is made.
const RT: &str = r#"#!/usr/bin/env bash
if [ "$1" = version ]; then cat "$(dirname "$0")/kit"; exit; fi
crate=${PWD##*/}
cd ../..
echo "rt $* $crate" >> calls
cat > eaten
sleep 0.1
case "$1 $crate" in
  'run unloop' | 'run bench') result=crates/$crate/out/$crate ;;
  'lib exports') result=crates/exports/out/libexports.a; [ ! -e out ] || cat out > out.then ;;
  *) exit 2 ;;
esac
[ -e "$result" ] && exit
mkdir -p "${result%/*}"
printf '#!/usr/bin/env bash\ntr -d "\\000"\n' > "$result"
chmod +x "$result"
"#;

/// Makes a driver that writes its arguments, one a line, and its input.
const CARGO: &str = r#"#!/usr/bin/env bash
echo "cargo $1" >> calls
mkdir -p target/driver/release
[ -e target/driver/release/unloop-files ] && exit
cat > target/driver/release/unloop-files <<'DRIVER'
#!/usr/bin/env bash
printf '%s\n' "$@"
cat
exit 7
DRIVER
chmod +x target/driver/release/unloop-files
"#;

/// Six crates, four of which the program needs and three the library.
const CRATES: &str =
    "# NAME: what it is built on\nprelude:\nunloop: prelude words netlist\nnetlist: prelude\n\
    words: prelude netlist # not in rt's order\nexports staticlib: prelude netlist\nbench: prelude\n";

/// A repository with nothing built, its sources two hours old.
pub fn repository() -> Scratch {
    let scratch = Scratch::new();
    let usage = "rust/src/bin/unloop-files/usage.txt";
    scratch.put("crates.txt", CRATES);
    for source in [
        "crates/a/src/lib.rt",
        "crates/unloop/src/main.rt",
        "crates/exports/src/lib.rt",
        "crates/bench/src/main.rt",
        "rust/build.rs",
    ] {
        scratch.put(source, "");
    }
    for source in ["rust/Cargo.toml", usage] {
        scratch.put(source, fs::read(root().join(source)).unwrap());
    }
    for source in ["crates.txt", "crates", "rust"] {
        age_all(&scratch.path(source));
    }
    scratch.put("calls", "");
    let scripts = fs::read_dir(root().join("bin")).unwrap();
    let scripts =
        scripts.map(|entry| format!("bin/{}", entry.unwrap().file_name().to_str().unwrap()));
    for script in scripts.chain([".ci/run".to_string()]) {
        let content = fs::read_to_string(root().join(&script)).unwrap();
        scratch.put_script(&script, &content);
    }
    scratch.put("tools/kit", "kit 1\n");
    scratch.put_script("tools/rt", RT);
    scratch.put_script("tools/cargo", CARGO);
    for tool in TOOLS {
        symlink(found(tool), scratch.path("tools").join(tool)).unwrap();
    }
    scratch
}

/// Makes a file, or a folder and all in it, two hours old.
fn age_all(path: &Path) {
    if path.is_dir() {
        let entries = fs::read_dir(path).unwrap();
        entries.for_each(|entry| age_all(&entry.unwrap().path()));
    }
    set_age(path, 7_200);
}

/// Where a command is.
pub fn found(tool: &str) -> PathBuf {
    sought(tool).expect(tool)
}

/// Sets the time of a file or folder to so many seconds ago.
pub fn set_age(path: &Path, seconds: u64) {
    let time = SystemTime::now() - Duration::from_secs(seconds);
    fs::File::open(path).unwrap().set_modified(time).unwrap();
}
