//! `bin/install`: what it puts under a prefix works from there, moved and through a link; it is removed again to the last file; the manual pages
//! have every option and the format.

mod prefix;

use prefix::{install, moved};
use simulator::executed::{self, ended, root, sought_loudly, told, Scratch};
use simulator::specimens::{PROGRAM_INPUT, PROGRAM_OUTPUT};
use std::fs;
use std::os::unix::fs::symlink;
use std::path::Path;
use std::process::{Command, Output};

fn text(path: &str) -> String {
    fs::read_to_string(root().join(path)).unwrap_or_else(|why| panic!("{path}: {why}"))
}

/// Runs one of the installed commands in the folder of the prefix.
fn installed(scratch: &Scratch, path: &str, words: &[&str], input: &str) -> Output {
    let mut command = Command::new(scratch.path(path));
    ended(
        command.current_dir(scratch.path(".")).args(words),
        input.as_bytes(),
    )
}

#[test]
fn what_is_installed_works() {
    let scratch = moved();
    scratch.put("x.net", PROGRAM_INPUT);
    symlink("moved/bin/unloop", scratch.path("linked")).unwrap();
    for path in ["moved/bin/unloop", "linked"] {
        told(
            installed(&scratch, path, &["x.net"], ""),
            0,
            PROGRAM_OUTPUT,
            "",
        );
    }
    let help = installed(&scratch, "linked", &["-h"], "").stdout;
    speaks_for_itself(&String::from_utf8(help).unwrap());
    for (path, ours) in [
        ("man/man1/unloop.1", "docs/unloop.1"),
        ("man/man5/unloop-netlist.5", "docs/unloop-netlist.5"),
        ("unloop/gates.genlib", "catalogue/gates.genlib"),
    ] {
        assert_eq!(scratch.get(&format!("moved/share/{path}")), text(ours));
    }
}

/// The installed command's help speaks of `unloop`, of no file that is not installed, and of nothing that is built.
fn speaks_for_itself(help: &str) {
    assert!(help.starts_with("usage: unloop "), "{help}");
    assert!(help.contains("gates.genlib"));
    for word in [
        "bin/",
        "catalogue",
        "target",
        " rt ",
        "built",
        "build",
        "crates",
    ] {
        assert!(!help.contains(word), "{word}");
    }
}

#[test]
fn bench() {
    let scratch = moved();
    scratch.put("x.net", "(in a)\n(gate p (not a))\n(out y p)\n");
    symlink("moved/bin/unloop-bench", scratch.path("linked")).unwrap();
    for path in ["moved/bin/unloop-bench", "linked"] {
        let output = installed(&scratch, path, &["x.net"], "(set (a 1))\n");
        assert_eq!(output.stdout, b"(show (y 0))\n");
        assert!(output.status.success());
        let help = installed(&scratch, path, &["-h"], "").stdout;
        assert!(help.starts_with(b"usage: unloop-bench FILE.net\n"));
        told(
            installed(&scratch, path, &["gone.net"], ""),
            2,
            "",
            "unloop-bench: can't read gone.net\n",
        );
    }
}

/// Compiles the C program of the tests with these words behind it, and runs it where the loader finds the shared library or not.
fn compiled(scratch: &Scratch, words: &str, loader: &str) {
    let script = format!(
        "eval gcc -std=c99 -Wall -Werror '\"$1\"' {words} -o smoke && LD_LIBRARY_PATH={loader} ./smoke"
    );
    let mut shell = Command::new("sh");
    shell
        .args(["-c", &script, "sh"])
        .arg(root().join("tests/c/smoke.c"));
    let output = ended(shell.current_dir(scratch.path(".")), b"");
    assert!(output.status.success(), "{words}: {output:?}");
    fs::remove_file(scratch.path("smoke")).unwrap();
}

#[test]
fn libraries() {
    let scratch = moved();
    compiled(&scratch, "-Imoved/include moved/lib/libunloop.a", "");
    compiled(&scratch, "-Imoved/include -Lmoved/lib -l:libunloop.a", "");
    compiled(
        &scratch,
        "-Imoved/include -Lmoved/lib -lunloop",
        "moved/lib",
    );
    if sought_loudly("pkg-config", "unloop.pc").is_some() {
        let found = "$(PKG_CONFIG_PATH=moved/lib/pkgconfig pkg-config --cflags --libs unloop)";
        compiled(&scratch, found, "moved/lib");
        let absolute = found.replace("=moved", "=\"$PWD/moved\"");
        compiled(&scratch, &absolute, "moved/lib");
    }
}

/// The shared library shows the header's functions and nothing else, under a name that says which header.
#[test]
fn symbols() {
    let scratch = moved();
    let library = scratch.path("moved/lib/libunloop.so.1");
    assert_eq!(
        fs::read_link(scratch.path("moved/lib/libunloop.so")).unwrap(),
        Path::new("libunloop.so.1")
    );
    let answered = |tool: &str, words: &[&str]| {
        let output = ended(Command::new(tool).args(words).arg(&library), b"");
        assert!(output.status.success(), "{output:?}");
        String::from_utf8(output.stdout).unwrap()
    };
    let shown = answered("nm", &["-D", "--defined-only", "--format=posix"]);
    let mut shown: Vec<&str> = shown.lines().filter_map(|l| l.split(' ').next()).collect();
    shown.sort_unstable();
    let header = text("include/unloop.h");
    let declared = header.lines().filter_map(|line| {
        let (kind, rest) = line.split_once(' ')?;
        let (name, _) = rest.split_once('(')?;
        let ours = kind.starts_with("unloop_") && name.starts_with("unloop_");
        ours.then_some(name)
    });
    let mut declared: Vec<&str> = declared.collect();
    declared.sort_unstable();
    assert!(declared.len() >= 17);
    assert_eq!(shown, declared);
    let dynamic = answered("readelf", &["-d"]);
    assert!(dynamic.contains("soname: [libunloop.so.1]"), "{dynamic}");
}

/// One version: the command, pkg-config's file and the header tell that of rust/Cargo.toml (called.rs asks Python).
#[test]
fn version() {
    let version = executed::version();
    let scratch = moved();
    let shown = installed(&scratch, "moved/bin/unloop", &["--version"], "");
    told(shown, 0, &format!("unloop {version}\n"), "");
    let pc = scratch.get("moved/lib/pkgconfig/unloop.pc");
    assert!(pc.contains(&format!("\nVersion: {version}\n")), "{pc}");
    let header = scratch.get("moved/include/unloop.h");
    assert!(header.contains(&format!("\n#define UNLOOP_VERSION \"{version}\"\n")));
}

#[test]
fn bad_usage() {
    let scratch = Scratch::new();
    for words in [
        &[][..],
        &["a", "b"],
        &["-x"],
        &[""],
        &["--uninstall"],
        &["--uninstall", "a", "b"],
        &["--uninstall", ""],
    ] {
        let output = install(&scratch, words);
        assert_eq!(output.status.code(), Some(2), "{words:?}");
        assert!(output.stderr.starts_with(b"usage: bin/install PREFIX\n"));
    }
    assert_eq!(scratch.names("."), [""; 0]);
}

/// What is installed is told by the help: each file by its path below the prefix, by a folder that ends with a slash, or by its name beside another.
#[test]
fn help_tells_every_file() {
    let scratch = moved();
    let help = String::from_utf8(install(&scratch, &["--help"]).stdout).unwrap();
    let told = |path: &str| {
        let folders = path.match_indices('/').map(|(end, _)| &path[..=end]);
        let mut ways = folders.chain([path]).map(|part| format!("PREFIX/{part} "));
        let completion = path.strip_prefix("share/").unwrap_or(path);
        let beside = format!(" {} ", path.rsplit('/').next().unwrap_or(path));
        ways.any(|way| help.contains(&way)) || help.contains(completion) || help.contains(&beside)
    };
    let list = scratch.get("moved/share/unloop/installed");
    let files = list.lines().filter(|line| !line.starts_with("folder "));
    let files: Vec<&str> = files.filter_map(|line| line.split(' ').nth(1)).collect();
    assert!(files.len() >= 18, "{files:?}");
    for file in files {
        assert!(told(file), "{file}");
    }
}

/// All paths below a folder, sorted.
fn all_below(folder: &Path) -> Vec<String> {
    let mut command = Command::new("find");
    let output = ended(command.current_dir(folder).arg("."), b"");
    let listed = String::from_utf8(output.stdout).unwrap();
    let mut paths: Vec<String> = listed.lines().map(str::to_string).collect();
    paths.sort();
    paths
}

/// Nothing stays of what was installed; all that was there stays, and what was changed since.
#[test]
fn uninstalled() {
    let scratch = Scratch::new();
    let gone = |prefix: &str| format!("what was installed in {prefix} is removed\n");
    install(&scratch, &["new/prefix"]);
    let output = install(&scratch, &["--uninstall", "new/prefix"]);
    told(output, 0, &gone("new/prefix"), "");
    assert_eq!(scratch.names("new"), [""; 0]);

    scratch.put("old/bin/theirs", "");
    scratch.put("old/share/man/man1/theirs.1", "");
    let before = all_below(&scratch.path("old"));
    install(&scratch, &["old"]);
    install(&scratch, &["old"]); // twice is as once
    scratch.put(
        "old/share/unloop/python/__pycache__/unloop.cpython-1.pyc",
        "",
    );
    fs::rename(scratch.path("old"), scratch.path("elsewhere")).unwrap();
    let output = install(&scratch, &["--uninstall", "elsewhere"]);
    told(output, 0, &gone("elsewhere"), "");
    assert_eq!(all_below(&scratch.path("elsewhere")), before);

    install(&scratch, &["old"]);
    scratch.put("old/bin/unloop", "another command");
    scratch.put("old/share/unloop/mine", "");
    let output = install(&scratch, &["--uninstall", "old"]);
    let left = "install: old/bin/unloop was changed since it was installed, and is left\n";
    told(output, 1, "", left);
    let files = ["./bin/unloop", "./share/unloop/mine"];
    let mut expected = vec![".", "./bin", "./share", "./share/unloop"];
    expected.extend(files);
    expected.sort_unstable();
    assert_eq!(all_below(&scratch.path("old")), expected);
    let output = install(&scratch, &["--uninstall", "old"]);
    let nothing = "install: old has no share/unloop/installed: nothing was installed there\n";
    told(output, 2, "", nothing);
}

/// What an earlier version put and this one doesn't goes when this one is installed; a list that leads out of the prefix is refused.
#[test]
fn lists() {
    let scratch = Scratch::new();
    install(&scratch, &["prefix"]);
    let list = "prefix/share/unloop/installed";
    let empty = "e3b0c44298fc1c149afbf4c8996fb92427ae41e4649b934ca495991b7852b855";
    scratch.put("prefix/bin/unloop-old", "");
    scratch.put(list, scratch.get(list) + empty + " bin/unloop-old\n");
    assert!(install(&scratch, &["prefix"]).status.success());
    assert_eq!(scratch.names("prefix/bin"), ["unloop", "unloop-bench"]);
    scratch.put("mine", "");
    for place in ["../mine", "bin/../../mine", "/etc/passwd"] {
        scratch.put(list, format!("{empty} {place}\n"));
        let output = install(&scratch, &["--uninstall", "prefix"]);
        let refused = format!("install: {list} is no list of bin/install: it has {place}\n");
        told(output, 2, "", &refused);
    }
    assert_eq!(scratch.get("mine"), "");
    assert_eq!(scratch.names("prefix/bin"), ["unloop", "unloop-bench"]);
}

/// A prefix that can't be written is told, and what was put before that is known to the list.
#[test]
fn half_installed() {
    let scratch = Scratch::new();
    scratch.put("prefix/lib", "no folder");
    let output = install(&scratch, &["prefix"]);
    assert_eq!(output.status.code(), Some(2), "{output:?}");
    let told = String::from_utf8(output.stderr).unwrap();
    assert!(told.ends_with("install: can't make prefix/lib\n"), "{told}");
    install(&scratch, &["--uninstall", "prefix"]);
    assert_eq!(all_below(&scratch.path("prefix")), [".", "./lib"]);
}

/// Every option of the usage text, and every refusal that the command can tell of.
#[test]
fn manual_page() {
    let page = text("docs/unloop.1").replace('\\', "");
    let usage = text("rust/src/bin/unloop-files/usage.txt");
    let lines = usage.lines().filter(|line| line.starts_with("  -"));
    let names = lines.flat_map(|line| {
        let words = line.split_whitespace();
        words.take_while(|word| word.starts_with('-'))
    });
    let options: Vec<&str> = names.map(|name| name.trim_end_matches(',')).collect();
    assert!(options.len() >= 18, "{options:?}");
    for option in options {
        assert!(page.contains(option), "{option}");
    }
    for refusal in [1, 2, 3, 4, 5, 8, 9, 10, 12] {
        let word = unloop::Refusal::from_parts(refusal, 0).unwrap().word();
        assert!(page.contains(&format!("\n{refusal}\t{word}\t")), "{word}");
    }
}

/// The part of a text between two others.
fn between<'a>(text: &'a str, before: &str, behind: &str) -> &'a str {
    let (_, rest) = text.split_once(before).expect(before);
    rest.split_once(behind).expect(behind).0
}

/// The format's page has the specification's grammar and limits, the header's layout, and examples that are as the command writes them.
#[test]
fn format_page() {
    let page = text("docs/unloop-netlist.5");
    let specification = text("docs/SPECIFICATION.md");
    let grammar = between(&specification, "or nothing.\n\n", "\n\n### 1.1");
    let grammar: Vec<&str> = grammar.lines().map(str::trim_start).collect();
    let ours = between(&page, ".nf\n.RS\n", "\n.RE");
    let ours: Vec<&str> = ours.lines().map(str::trim_start).collect();
    assert!(grammar.len() >= 13);
    assert_eq!(ours, grammar);
    use unloop::limits::{GATES, INPUTS, NEVERS, OUTPUTS, TEXT_BYTES};
    let limits = format!(
        "at most {TEXT_BYTES} bytes, {INPUTS} inputs, {NEVERS} never lines, {GATES} gates and {OUTPUTS} outputs"
    );
    assert!(page.contains(&limits), "{limits}");
    let header = text("include/unloop.h");
    for (before, behind) in [("block is ", " words"), ("kinds: ", ";")] {
        let told = between(&header, before, behind);
        assert!(page.contains(told), "{told}");
    }
    let example = between(&page, ".SH EXAMPLE\n.nf\n.RS\n", ".RE");
    let scratch = moved();
    scratch.put("smallest.net", example);
    let run = |words: &[&str]| {
        let output = installed(&scratch, "moved/bin/unloop", words, "");
        String::from_utf8(output.stdout).unwrap()
    };
    assert_eq!(run(&["--cover", "smallest.net"]), "always\n");
    let table = between(&page, "truth word.\n.PP\n.nf\n.RS\n", ".RE");
    assert_eq!(run(&["--cells", "smallest.net"]), table);
}

/// The pages are shown without a warning of the formatter.
#[test]
fn pages_are_shown() {
    if sought_loudly("man", "the manual pages").is_none() {
        return;
    }
    let scratch = moved();
    for (page, heading) in [
        ("man1/unloop.1", "REFUSALS"),
        ("man5/unloop-netlist.5", "THE TABLE OF CELLS"),
    ] {
        let mut man = Command::new("man");
        let man = man.args(["--warnings", "-E", "UTF-8", "-P", "cat", "-l"]);
        let output = ended(
            man.arg(scratch.path(&format!("moved/share/man/{page}"))),
            b"",
        );
        assert!(
            output.status.success() && output.stderr.is_empty(),
            "{output:?}"
        );
        let shown = String::from_utf8(output.stdout).unwrap();
        assert!(shown.lines().any(|line| line == heading), "{shown}");
    }
}
