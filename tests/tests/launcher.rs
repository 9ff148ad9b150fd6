//! What `bin/unloop` and `bin/bench` build, and when: in a repository of its own, with stand-ins for `rt` and `cargo` that write down each call.

mod session;
mod stand_in;

use simulator::executed::{ended, sought_loudly, Scratch};
use stand_in::{found, repository, set_age};
use std::process::{Command, Output};
use std::{fs, thread};

const RESULTS: [&str; 3] = [
    "crates/unloop/out/unloop",
    "crates/exports/out/libexports.a",
    "target/driver/release/unloop-files",
];

/// Each of rt's calls is in the folder of its crate, and proves what the crate is built on before it.
const ALL_BUILT: &str = "rt run unloop\nrt lib exports\ncargo build\n";

/// Words that need all.
const ALL: &[&str] = &["--json"];

fn run(scratch: &Scratch, words: &[&str]) -> Output {
    run_command(scratch, "bin/unloop", words)
}

fn run_command(scratch: &Scratch, name: &str, words: &[&str]) -> Output {
    let mut command = Command::new(scratch.path(name));
    let command = command.env_clear().env("PATH", scratch.path("tools"));
    ended(command.current_dir("/").args(words), b"the input\n")
}

fn age(scratch: &Scratch, name: &str, seconds: u64) {
    set_age(&scratch.path(name), seconds);
}

/// A text with each number of seconds, as `(12 s)`, as `(N s)`.
fn untimed(text: &[u8]) -> String {
    let text = String::from_utf8_lossy(text);
    let mut parts: Vec<&str> = text.split(" s)").collect();
    let last = parts.pop().expect("one at least");
    let part = |part: &str| {
        part.trim_end_matches(|c: char| c.is_ascii_digit())
            .to_string()
            + "N s)"
    };
    parts.into_iter().map(part).collect::<String>() + last
}

/// Its exit status and standard error, and the calls since the last time.
#[track_caller]
fn told(scratch: &Scratch, ended: &Output, status: i32, errors: &str, calls: &str) {
    assert_eq!(untimed(&ended.stderr), errors);
    assert_eq!(ended.status.code(), Some(status));
    assert_eq!(scratch.get("calls"), calls);
    scratch.put("calls", "");
}

/// Why there is something to wait for.
const WHY: &str = "unloop: what runs here is proved first, on this machine, from the sources in crates/\n\
    unloop: the first time this takes minutes; what is proved stays in crates/*/out/, and later runs start at once\n";

const PROGRAM: &str =
    "unloop: building crates/unloop/out/unloop\nunloop: 4 crates are proved (N s)\n";
const LIBRARY: &str =
    "unloop: building crates/exports/out/libexports.a\nunloop: 3 crates are proved (N s)\n";
const RENDERED: &str =
    "unloop: that is the rendering; what reports and options need is built now too, for later runs\n\
    unloop: it may be interrupted, and then goes on with the next run\n";
const DRIVER: &str = "unloop: building target/driver/release/unloop-files\n";

/// The driver gets the program's path, the words and the whole input, and its status is the script's.
#[test]
fn builds_what_is_missing_once() {
    let scratch = repository();
    let program = scratch.path("crates/unloop/out/unloop");
    let words = ["--json", "--into", "a b", "-"];
    let output = format!("{}\n{}\nthe input\n", program.display(), words.join("\n"));
    let ended = run(&scratch, &words);
    let building = [WHY, PROGRAM, LIBRARY, DRIVER].concat();
    told(&scratch, &ended, 7, &building, ALL_BUILT);
    assert_eq!(String::from_utf8_lossy(&ended.stdout), output);
    let ended = run(&scratch, &words);
    told(&scratch, &ended, 7, "", "");
    assert_eq!(String::from_utf8_lossy(&ended.stdout), output);
}

/// What `--audit` and `--store` are given may be a folder, a name, or a file that is gone: the driver knows.
#[test]
fn folders_and_names() {
    for words in [
        &["--store", "/", "name"][..],
        &["--audit", "/", "/", "gone.net"],
        &["--audit=gone.cover"],
    ] {
        let scratch = repository();
        let ended = run(&scratch, words);
        let building = [WHY, PROGRAM, LIBRARY, DRIVER].concat();
        told(&scratch, &ended, 7, &building, ALL_BUILT);
    }
}

/// A crate below that is not proved is told by rt's own call, and nothing is begun behind it.
#[test]
fn what_stands_on_a_crate_that_fails_is_not_begun() {
    let scratch = repository();
    let rt = "#!/usr/bin/env bash\n[ $1 != version ] || exit 0\necho \"rt $* ${PWD##*/}\" >> ../../calls\n\
        echo 'rt: chose --jobs 2 for prelude'\necho proved\necho 'rt: chose --jobs 2 for netlist'\necho wrong\nexit 1\n";
    scratch.put_script("tools/rt", rt);
    let ended = run(&scratch, ALL);
    let said = String::from_utf8_lossy(&ended.stderr);
    let told = "rt: chose --jobs 2 for netlist\nwrong\nunloop: 'rt run' in crates/unloop failed with status 1: see ";
    assert!(
        said.contains(told) && !said.contains("\nproved\n"),
        "{said}"
    );
    assert_eq!(scratch.get("calls"), "rt run unloop\n");
}

/// A repository where all is built, an hour ago, of sources of two hours ago; no stamp tells of a later build.
fn built_an_hour_ago() -> Scratch {
    let scratch = repository();
    run(&scratch, ALL);
    scratch.put("calls", "");
    RESULTS.iter().for_each(|built| age(&scratch, built, 3_600));
    fs::remove_dir_all(scratch.path("target/built")).unwrap();
    told(&scratch, &run(&scratch, ALL), 7, "", "");
    scratch
}

/// The program and the library are made of all crates. Here they stay as old as they were.
#[test]
fn builds_again_where_a_crate_is_newer_and_then_no_more() {
    for source in ["crates/a/src/lib.rt", "crates/a/src", "crates.txt"] {
        let scratch = built_an_hour_ago();
        age(&scratch, source, 1_800);
        let building = [WHY, PROGRAM, LIBRARY].concat();
        let calls = "rt run unloop\nrt lib exports\n";
        told(&scratch, &run(&scratch, ALL), 7, &building, calls);
        told(&scratch, &run(&scratch, ALL), 7, "", "");
    }
}

/// What rt keeps in a crate's folder, and wrong programs, are nothing that the program is made of.
#[test]
fn builds_nothing_again_for_what_no_proof_reads() {
    let scratch = built_an_hour_ago();
    scratch.put("crates/a/out/rlib/stamp", "");
    scratch.put("crates/a/must-fail/wrong.edit", "");
    told(&scratch, &run(&scratch, ALL), 7, "", "");
}

/// The driver is made of its own sources and the library.
#[test]
fn builds_the_driver_again_where_its_sources_are_newer_and_then_no_more() {
    let usage = "rust/src/bin/unloop-files/usage.txt";
    for source in [usage, "rust/build.rs", "rust/Cargo.toml", RESULTS[1]] {
        let scratch = built_an_hour_ago();
        age(&scratch, source, 1_800);
        told(&scratch, &run(&scratch, ALL), 7, DRIVER, "cargo build\n");
        told(&scratch, &run(&scratch, ALL), 7, "", "");
    }
}

#[test]
fn builds_a_program_that_was_removed() {
    let scratch = repository();
    run(&scratch, ALL);
    scratch.put("calls", "");
    fs::remove_file(scratch.path("crates/unloop/out/unloop")).unwrap();
    let building = [WHY, PROGRAM].concat();
    told(
        &scratch,
        &run(&scratch, ALL),
        7,
        &building,
        "rt run unloop\n",
    );
    told(&scratch, &run(&scratch, ALL), 7, "", "");
}

#[test]
fn tools_that_are_missing() {
    for (tool, result, before) in [
        ("rt", "crates/unloop/out/unloop", ""),
        (
            "cargo",
            "target/driver/release/unloop-files",
            "rt run unloop\nrt lib exports\n",
        ),
    ] {
        let scratch = repository();
        fs::remove_file(scratch.path("tools").join(tool)).unwrap();
        let ended = run(&scratch, ALL);
        let lines = String::from_utf8_lossy(&ended.stderr);
        let line = format!("unloop: '{tool}', which builds {result}, is not on the PATH");
        assert_eq!(lines.lines().last(), Some(&line[..]));
        assert_eq!(ended.status.code(), Some(2));
        assert_eq!(scratch.get("calls"), before);
        assert!(ended.stdout.is_empty());
    }
}

/// The last line that a run says, which fails.
fn failure(scratch: &Scratch) -> String {
    let ended = run(scratch, ALL);
    assert_eq!(ended.status.code(), Some(2));
    assert!(ended.stdout.is_empty());
    let lines = String::from_utf8(ended.stderr).unwrap();
    lines.lines().last().unwrap().to_string()
}

#[test]
fn builds_that_fail() {
    let scratch = repository();
    scratch.put_script(
        "tools/rt",
        "#!/usr/bin/env bash\n[ $1 != version ] || exit 0\necho refused\necho why >&2\nexit 1\n",
    );
    let log = scratch.path("target/built/unloop.log");
    let line = format!(
        "unloop: 'rt run' in crates/unloop failed with status 1: see {}",
        log.display()
    );
    assert_eq!(failure(&scratch), line);
    assert_eq!(scratch.get("target/built/unloop.log"), "refused\nwhy\n");
    // Not taken for built.
    assert_eq!(failure(&scratch), line);

    // What was built before is not run once its sources are newer.
    scratch.put("crates/unloop/out/unloop", "");
    age(&scratch, "crates/unloop/out/unloop", 10_000);
    assert_eq!(failure(&scratch), line);

    fs::remove_file(scratch.path("crates/unloop/out/unloop")).unwrap();
    scratch.put_script("tools/rt", "#!/usr/bin/env bash\n");
    let result = scratch.path("crates/unloop/out/unloop");
    let line = format!(
        "unloop: 'rt run' in crates/unloop made no {}: see {}",
        result.display(),
        log.display()
    );
    assert_eq!(failure(&scratch), line);
}

/// Proves two crates, takes so long that the script looks, and then ends as it is told to.
fn slow_rt(then: &str) -> String {
    let first = "rt: chose --jobs 2 for prelude\nlogic=proved\nrt: chose --jobs 2 for netlist\nlogic=proved\nrt: chose --jobs 2 for words";
    format!("#!/usr/bin/env bash\n[ $1 != version ] || exit 0\ncat <<'SAID'\n{first}\nSAID\nsleep 2.5\n{then}")
}

/// Elsewhere than on a terminal there is a line for each quarter, and none twice.
#[test]
fn tells_how_far_it_is() {
    let scratch = repository();
    let made = "mkdir -p out; touch out/unloop; sleep 1.5; exit 3\n";
    let lines = "echo 'rt: chose --jobs 2 for unloop'; sleep 1.5\n";
    scratch.put_script("tools/rt", &slow_rt(&format!("{lines}{made}")));
    let ended = run(&scratch, ALL);
    let building = "unloop: building crates/unloop/out/unloop\n";
    let quarters = "unloop: 2 of 4 crates (N s)\nunloop: 3 of 4 crates (N s)\n";
    let begun = [WHY, building, quarters, "rt: chose --jobs 2 for unloop\n"].concat();
    let said = untimed(&ended.stderr);
    let rest = said
        .strip_prefix(&begun)
        .unwrap_or_else(|| panic!("{said}"));
    assert!(rest.starts_with("unloop: 'rt run' in crates/unloop failed with status 3: see "));
    assert_eq!(rest.lines().count(), 1, "what is proved is not told again");
    assert_eq!(ended.status.code(), Some(2));
}

/// What rt said of the crate that is not proved is shown; all that it said is kept.
#[test]
fn tells_why_it_failed() {
    let scratch = repository();
    let failing = "echo wrong >&2\necho 'rt: the library words did not build' >&2\nexit 1\n";
    scratch.put_script("tools/rt", &slow_rt(failing));
    let ended = run(&scratch, ALL);
    let log = scratch.path("target/built/unloop.log");
    let expected = [
        WHY,
        "unloop: building crates/unloop/out/unloop\nunloop: 2 of 4 crates (N s)\n",
        "rt: chose --jobs 2 for words\nwrong\nrt: the library words did not build\n",
        "unloop: 'rt run' in crates/unloop failed with status 1: see ",
        &format!("{}\n", log.display()),
    ];
    told(&scratch, &ended, 2, &expected.concat(), "");
    assert!(scratch
        .get("target/built/unloop.log")
        .starts_with("rt: chose --jobs 2 for prelude\nlogic=proved\n"));
}

/// On a terminal: one line, rewritten, with the crate that is at work.
#[test]
fn tells_the_crate_at_work_on_a_terminal() {
    let Some(script) = sought_loudly("script", "progress on a terminal") else {
        return;
    };
    let scratch = repository();
    scratch.put_script("tools/rt", &slow_rt("exit 1\n"));
    let mut command = Command::new(script);
    let command = command
        .env("PATH", scratch.path("tools"))
        .env("SHELL", found("bash"));
    let launcher = format!("'{}' --json", scratch.path("bin/unloop").display());
    let ended = ended(command.args(["-qec", &launcher, "/dev/null"]), b"");
    assert_eq!(ended.status.code(), Some(2));
    let shown = untimed(&ended.stdout);
    let at_work: Vec<&str> = shown
        .split('\r')
        .filter(|line| line.contains("crate "))
        .map(str::trim_end)
        .collect();
    assert!(at_work.len() >= 3, "{shown}");
    assert_eq!(at_work.last(), Some(&"unloop: crate 3 of 4, words (N s)"));
    assert!(!shown.contains("of 4 crates"));
}

#[test]
fn target_that_cannot_be_written() {
    let scratch = repository();
    scratch.put("target", "");
    let built = scratch.path("target/built");
    let line = format!(
        "unloop: crates/unloop/out/unloop has to be built, and {} can't be written",
        built.display()
    );
    assert_eq!(failure(&scratch), line);
}

/// With nothing built the same is said, with the same status, as by the driver; and nothing is built.
#[test]
fn arguments_are_looked_at_first() {
    let (scratch, folder) = (repository(), session::with(&[("a.net", "(in a)\n")]));
    for words in [
        &["-h"][..],
        &["--help"],
        &["--force", "--help", "--frobnicate"],
        &["--version"],
        &["--json", "-V"],
        &["--frobnicate"],
        &["a.net", "-x"],
        &["-xa.net"],
        &["--frobnicate=3"],
        &["--versio"],
        &["--json=3"],
        &["-hx"],
        &["--into"],
        &["a.net", "-o"],
        &["--sheet"],
        &["none.net"],
        &["--", "--help"],
        &["."],
        &["--verilog", "none.net"],
        &["--sheet", "none", "a.net"],
        &["--sheet", "all", "none.net"],
        &["--check=none", "a.net"],
        &["--design", "--never=none", "a.net"],
        &["--design", "none.blif"],
        &["--audit=none"],
        &["--audit", "none"],
        &["--store=none"],
        &["a\n\x1b.net"],
    ] {
        let mut command = Command::new(scratch.path("bin/unloop"));
        let command = command.env_clear().env("PATH", scratch.path("tools"));
        let said = ended(command.current_dir(folder.path(".")).args(words), b"");
        let by_the_driver = session::run(&folder, words);
        session::told(
            said,
            by_the_driver.status.code().unwrap(),
            &String::from_utf8_lossy(&by_the_driver.stdout),
            &String::from_utf8_lossy(&by_the_driver.stderr),
        );
        assert_eq!(scratch.get("calls"), "", "{words:?}");
        assert!(!scratch.path("target").exists(), "{words:?}");
    }
}

/// Only the program is needed for a rendering, of a file or of standard input; the rest is built when it is written.
#[test]
fn a_first_rendering_needs_the_program_alone() {
    for words in [&[][..], &["-"], &["a.net"], &["--", "a.net"]] {
        let scratch = repository();
        scratch.put("a.net", "the input\n");
        let mut command = Command::new(scratch.path("bin/unloop"));
        let command = command.env_clear().env("PATH", scratch.path("tools"));
        let command = command.current_dir(scratch.path(".")).args(words);
        scratch.put("input", "the input\n");
        let input = fs::File::open(scratch.path("input")).unwrap();
        let output = fs::File::create(scratch.path("out")).unwrap();
        let ended = command.stdin(input).stdout(output).output().unwrap();
        let building = [WHY, PROGRAM, RENDERED, LIBRARY, DRIVER].concat();
        told(&scratch, &ended, 0, &building, ALL_BUILT);
        assert_eq!(scratch.get("out"), "the input\n");
        assert_eq!(scratch.get("out.then"), "the input\n", "before the library");
        told(&scratch, &run(&scratch, ALL), 7, "", "");
    }
}

/// Makes a driver that finds fault with what it is given, which it keeps.
const STRICT_CARGO: &str = r#"#!/usr/bin/env bash
echo "cargo $1" >> calls
mkdir -p target/driver/release
cat > target/driver/release/unloop-files <<'DRIVER'
#!/usr/bin/env bash
cat -- "$3" > "${0%/*}/looked"
echo "unloop: $3: internal error, nothing is written: a second look found that it shows y = 1" >&2
exit 2
DRIVER
chmod +x target/driver/release/unloop-files
"#;

/// What the driver, once it is built, finds wrong with a rendering that was written before is told.
#[test]
fn a_first_rendering_is_looked_at_again() {
    let scratch = repository();
    scratch.put("a.net", "the input\n");
    let file = scratch.path("a.net").display().to_string();
    for words in [&[][..], &[&file[..]]] {
        let scratch = repository();
        scratch.put_script("tools/cargo", STRICT_CARGO);
        let ended = run(&scratch, words);
        let wrong = "unloop: the rendering that was written is wrong: it shows y = 1\n";
        let building = [WHY, PROGRAM, RENDERED, LIBRARY, DRIVER, wrong].concat();
        told(&scratch, &ended, 2, &building, ALL_BUILT);
        assert_eq!(ended.stdout, b"the input\n");
        let looked = scratch.get("target/driver/release/looked");
        assert_eq!(looked, "the input\n");
    }
}

/// What fails behind the rendering is told, and tried again with the next run; the status is the rendering's.
#[test]
fn a_library_that_fails_behind_a_rendering() {
    let scratch = repository();
    fs::remove_file(scratch.path("tools/cargo")).unwrap();
    let lacking =
        "unloop: 'cargo', which builds target/driver/release/unloop-files, is not on the PATH\n";
    let building = [WHY, PROGRAM, RENDERED, LIBRARY, lacking].concat();
    let calls = "rt run unloop\nrt lib exports\n";
    let ended = run(&scratch, &[]);
    told(&scratch, &ended, 0, &building, calls);
    assert_eq!(ended.stdout, b"the input\n");
    let ended = run(&scratch, &[]);
    told(&scratch, &ended, 0, &[RENDERED, lacking].concat(), "");
    assert_eq!(ended.stdout, b"the input\n");
}

/// What is told of a refusal, or of a rendering with never lines, needs the driver; it has the whole input too.
#[test]
fn a_report_needs_all() {
    let (refused, never) = ("(refused 2 0)\n", "(in a)\n(never (a 1))\n");
    for (words, text) in [
        (&[][..], refused),
        (&["-"], refused),
        (&["a.net"], refused),
        (&["a.net"], never),
    ] {
        let scratch = repository();
        scratch.put("a.net", text);
        let mut command = Command::new(scratch.path("bin/unloop"));
        let command = command.env_clear().env("PATH", scratch.path("tools"));
        let command = command.current_dir(scratch.path(".")).args(words);
        let input = format!("{refused}\0");
        let ended = ended(command, input.as_bytes());
        let building = [WHY, PROGRAM, LIBRARY, DRIVER].concat();
        told(&scratch, &ended, 7, &building, ALL_BUILT);
        let program = scratch.path("crates/unloop/out/unloop");
        let words: String = words.iter().map(|word| format!("{word}\n")).collect();
        let output = format!("{}\n{words}{input}", program.display());
        assert_eq!(String::from_utf8_lossy(&ended.stdout), output);
    }
}

/// What another kit made is made again, once; without a kit what is there is used.
#[test]
fn builds_again_by_another_kit() {
    let scratch = repository();
    run(&scratch, ALL);
    scratch.put("calls", "");
    scratch.put("tools/kit", "kit 2\n");
    let building = [WHY, PROGRAM, LIBRARY, DRIVER].concat();
    told(&scratch, &run(&scratch, ALL), 7, &building, ALL_BUILT);
    told(&scratch, &run(&scratch, ALL), 7, "", "");
    fs::remove_file(scratch.path("tools/rt")).unwrap();
    told(&scratch, &run(&scratch, ALL), 7, "", "");
}

#[test]
fn runs_at_once_build_once() {
    let scratch = repository();
    thread::scope(|scope| {
        let runs = [(); 3].map(|()| scope.spawn(|| run(&scratch, ALL)));
        for run in runs {
            assert_eq!(run.join().unwrap().status.code(), Some(7));
        }
    });
    assert_eq!(scratch.get("calls"), ALL_BUILT);
}

/// The program gets the file, an empty line and the input.
#[test]
fn bench_joins_the_netlist_and_the_input() {
    let scratch = repository();
    scratch.put("a.net", "(in a)\n");
    scratch.put("empty.net", "");
    let why = WHY.replace("unloop:", "bench:");
    let building = "bench: building crates/bench/out/bench\nbench: 2 crates are proved (N s)\n";
    let building = why + building;
    let bench = |file: &str| {
        let path = scratch.path(file);
        run_command(&scratch, "bin/bench", &[path.to_str().unwrap()])
    };
    let ended = bench("a.net");
    told(&scratch, &ended, 0, &building, "rt run bench\n");
    assert_eq!(ended.stdout, b"(in a)\n\nthe input\n");
    let ended = bench("empty.net");
    told(&scratch, &ended, 0, "", "");
    assert_eq!(ended.stdout, b"\nthe input\n");
}

/// A file that is cut off is all of the input: with an empty line behind it, it would be read as if it were whole.
#[test]
fn bench_on_a_netlist_that_is_cut_off() {
    let scratch = repository();
    scratch.put("cut.net", "(in a)\n(in b)");
    let path = scratch.path("cut.net");
    let ended = run_command(&scratch, "bin/bench", &[path.to_str().unwrap()]);
    assert_eq!(ended.stdout, b"(in a)\n(in b)");
}

#[test]
fn bench_on_what_is_no_netlist_file() {
    let scratch = repository();
    scratch.put("parted.net", "(in a)\n\n(out y a)\n");
    for (file, why) in [
        (
            "parted.net",
            "FILE: line 2 is empty; a netlist has no empty line",
        ),
        ("none.net", "can't read FILE"),
    ] {
        let path = scratch.path(file);
        let path = path.to_str().unwrap();
        let ended = run_command(&scratch, "bin/bench", &[path]);
        let line = format!("bench: {}\n", why.replace("FILE", path));
        told(&scratch, &ended, 2, &line, "");
    }
    let ended = run_command(&scratch, "bin/bench", &[]);
    assert_eq!(ended.status.code(), Some(2));
    let ended = run_command(&scratch, "bin/bench", &["--help"]);
    assert!(ended.status.success() && ended.stdout.starts_with(b"usage"));
}
