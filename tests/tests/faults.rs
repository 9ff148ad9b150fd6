//! Faults around the command: ended at any moment, a full disk, a file system without hard links, what an ordinary user may not read or write,
//! names that are not UTF-8, and symbolic links. Nothing is ever half-written under a final name, and what fails is told.

mod session;

use session::{run, told, with};
use simulator::executed::{ended, root, Scratch};
use simulator::generate::{typical, Loops, Random};
use simulator::specimens::{PROGRAM_INPUT, PROGRAM_OUTPUT};
use simulator::write;
use std::collections::BTreeMap;
use std::ffi::OsStr;
use std::fs::{self, Permissions};
use std::os::unix::ffi::OsStrExt;
use std::os::unix::fs::{symlink, MetadataExt, PermissionsExt};
use std::os::unix::process::ExitStatusExt;
use std::path::Path;
use std::process::{Command, Output};

const WIRE: &str = "(in a)\n(out y a)\n";

/// The driver and the program in a folder of the test, where every user may run them.
fn copied(scratch: &Scratch) {
    run(scratch, &["--version"]); // built
    fs::set_permissions(scratch.path("."), Permissions::from_mode(0o755)).unwrap();
    for (file, name) in [
        ("target/driver/release/unloop-files", "run/unloop-files"),
        ("crates/unloop/out/unloop", "run/unloop"),
    ] {
        let mut install = Command::new("install");
        let install = install.args(["-D", "-m", "755"]).arg(root().join(file));
        assert!(install.arg(scratch.path(name)).status().unwrap().success());
    }
}

/// A command that runs in the folder of the test.
fn there(scratch: &Scratch, words: &[&str]) -> Command {
    let mut command = Command::new(words[0]);
    command.args(&words[1..]).current_dir(scratch.path("."));
    command
}

/// The copied driver, by an ordinary user: by `nobody` where this is root, who may read and write everything.
fn by_a_user(scratch: &Scratch, words: &[&str]) -> Output {
    let driver = ["run/unloop-files", "run/unloop"];
    let nobody = [
        "setpriv",
        "--reuid=65534",
        "--regid=65534",
        "--clear-groups",
    ];
    let is_root = fs::metadata("/proc/self").unwrap().uid() == 0;
    let user = if is_root { &nobody[..] } else { &[] };
    ended(&mut there(scratch, &[user, &driver, words].concat()), b"")
}

fn set_mode(scratch: &Scratch, name: &str, mode: u32) {
    fs::set_permissions(scratch.path(name), Permissions::from_mode(mode)).unwrap();
}

/// The driver with calls of the C library that fail, or at one of which it ends.
fn faulty(scratch: &Scratch, fault: &str, words: &[&str]) -> Output {
    let library = scratch.path("run/interposed.so");
    if !library.exists() {
        copied(scratch);
        let mut gcc = Command::new("gcc");
        let gcc = gcc
            .args(["-shared", "-fPIC", "-Wall", "-Werror", "-o"])
            .arg(&library);
        let source = root().join("tests/tests/faults/interposed.c");
        assert!(gcc.arg(source).arg("-ldl").status().unwrap().success());
    }
    let driver = ["run/unloop-files", "run/unloop"];
    let mut command = there(scratch, &[&driver, words].concat());
    // Its path is told from this folder on: the folder's own has a space.
    let command = command
        .env("LD_PRELOAD", "./run/interposed.so")
        .env("UNLOOP_FAULT", fault);
    // Drawings are made by another program, where it is there.
    let command = command
        .env("UNLOOP_NOTES", scratch.path("run/notes"))
        .env("PATH", "");
    ended(command, b"")
}

/// The files of a folder, and of those below it, that are not the command's own for the while, with their contents.
fn contents(folder: &Path) -> BTreeMap<Vec<u8>, Vec<u8>> {
    let Ok(entries) = fs::read_dir(folder) else {
        return BTreeMap::new();
    };
    let entries = entries.map(|entry| entry.unwrap());
    let named = entries.map(|entry| (entry.file_name().as_bytes().to_vec(), entry.path()));
    let named = named.filter(|(name, _)| !name.starts_with(b".unloop-"));
    let mut found = BTreeMap::new();
    for (name, path) in named {
        if path.is_dir() {
            let inside = contents(&path).into_iter();
            found.extend(inside.map(|(file, text)| ([&name[..], b"/", &file].concat(), text)));
        } else {
            found.insert(name, fs::read(path).unwrap());
        }
    }
    found
}

/// A typical netlist of so many thousand bytes or more, and its rendering, which is as long.
fn long_netlist(seed: u64) -> (String, String) {
    let block = typical(&mut Random::new(seed), Loops::None);
    let text = write(&block.to_words(), usize::MAX).1;
    let rendering = simulator::unloop(&text);
    let string = |bytes| String::from_utf8(bytes).unwrap();
    (string(text), string(rendering))
}

/// Runs the command again and again, ended one call later each time, until it isn't ended any more. Each time the folder `d` has, under each name,
/// what was there before or what is there at the end, as a whole; and a run behind it makes all of it whole. How often it was ended.
fn ended_anywhere(files: &[(&str, &str)], words: &[&str]) -> usize {
    let scratch = Scratch::new();
    let prepare = || {
        let _ = fs::remove_dir_all(scratch.path("d"));
        files
            .iter()
            .for_each(|(name, text)| scratch.put(name, text));
        contents(&scratch.path("d"))
    };
    let old = prepare();
    assert_eq!(faulty(&scratch, "", words).status.signal(), None);
    let new = contents(&scratch.path("d"));
    assert_ne!(old, new);
    for moment in 1.. {
        prepare();
        let ended = faulty(&scratch, &format!("end {moment}"), words);
        let found = contents(&scratch.path("d"));
        for (name, content) in &found {
            let whole = [old.get(name), new.get(name)].contains(&Some(content));
            assert!(whole, "{moment}: {}", name.escape_ascii());
        }
        if ended.status.signal().is_none() {
            assert!(found == new);
            return moment - 1;
        }
        assert_eq!(ended.status.signal(), Some(9));
        let again = faulty(&scratch, "", &[words, &["--force"][..]].concat());
        assert_eq!(again.status.code(), Some(0), "{again:?}");
        assert!(contents(&scratch.path("d")) == new);
    }
    unreachable!("it ends")
}

const FILES: [&str; 3] = ["a.net", "b.net", "c.net"];

/// The same with the three files, of which two are long, and with others that stand there before.
fn ended_anywhere_with(old: &[(&str, &str)], words: &[&str]) -> usize {
    let (long, longer) = (long_netlist(1).0, long_netlist(2).0);
    let files = [PROGRAM_INPUT, &long, &longer];
    let files: Vec<(&str, &str)> = FILES.into_iter().zip(files).collect();
    ended_anywhere(&[&files, old].concat(), &[words, &FILES].concat())
}

#[test]
fn ended_at_any_moment_into_a_folder() {
    let moments = ended_anywhere_with(&[], &["--into", "d"]);
    assert!(moments >= 13, "{moments}");
    let old = [("d/a.net", WIRE), ("d/c.net", WIRE)];
    let moments = ended_anywhere_with(&old, &["--into", "d", "--force"]);
    assert!(moments >= 9, "{moments}");
}

#[test]
fn ended_at_any_moment_of_exports_into_a_folder() {
    for form in ["--verilog", "--blif", "--cells"] {
        let moments = ended_anywhere_with(&[], &["--into", "d", form]);
        assert!(moments >= 13, "{moments}");
    }
}

#[test]
fn ended_at_any_moment_of_storing() {
    let (long, longer) = (long_netlist(1).0, long_netlist(2).0);
    let files = [
        ("d/a.net", PROGRAM_INPUT),
        ("d/b.net", &long),
        ("d/b.out", "(refused 9 0)\n"),
        ("d/c.net", &longer),
    ];
    let moments = ended_anywhere(&files, &["--store", "d"]);
    assert!(moments >= 15, "{moments}");
}

#[test]
fn ended_at_any_moment_of_a_page() {
    let moments = ended_anywhere_with(&[], &["--page", "d"]);
    assert!(moments >= 20, "{moments}");
}

/// What a run that was ended leaves behind is in nobody's way.
#[test]
fn what_an_ended_run_leaves_behind() {
    let scratch = with(&[("d/a.net", PROGRAM_INPUT), ("d/.unloop-1-0", "(in")]);
    assert!(run(&scratch, &["--store", "d"]).status.success());
    assert!(run(&scratch, &["--audit", "d"]).status.success());
    assert_eq!(
        scratch.names("d"),
        [".unloop-1-0", "a.cover", "a.net", "a.out"]
    );
}

/// Where hard links are missing, and where no renaming is known either that replaces nothing: what is there is still not replaced.
#[test]
fn file_systems_without_hard_links() {
    for (fault, noted) in [("links", "linkat\n"), ("neither", "linkat\nrenameat2\n")] {
        let scratch = with(&[("a.net", PROGRAM_INPUT), ("w.net", WIRE)]);
        let summary = "1/1 a.net: rendered\n1 file: 1 rendered, 0 refused\n";
        told(
            faulty(&scratch, fault, &["--into", "d", "a.net"]),
            0,
            "",
            summary,
        );
        assert_eq!(scratch.get("d/a.net"), PROGRAM_OUTPUT);
        assert_eq!(scratch.get("run/notes"), noted);
        scratch.put("d/a.net", "kept");
        symlink("nowhere", scratch.path("d/w.net")).unwrap();
        let errors = "unloop: d/a.net: exists already (--force replaces it)\n1/2 a.net: error\n\
                      unloop: d/w.net: exists already (--force replaces it)\n2/2 w.net: error\n\
                      2 files: 0 rendered, 0 refused, 2 errors\n";
        told(
            faulty(&scratch, fault, &["--into", "d", "a.net", "w.net"]),
            2,
            "",
            errors,
        );
        assert_eq!(scratch.get("d/a.net"), "kept");
        assert_eq!(
            fs::read_link(scratch.path("d/w.net")).unwrap(),
            Path::new("nowhere")
        );
        assert_eq!(scratch.names("d"), ["a.net", "w.net"]);
        assert_eq!(
            faulty(&scratch, fault, &["--page", "p", "a.net"])
                .status
                .code(),
            Some(0)
        );
        assert_eq!(
            faulty(&scratch, fault, &["--page", "p", "a.net"])
                .status
                .code(),
            Some(2)
        );
        assert_eq!(scratch.names("p").len(), 5); // index, style, script, the page, and the files beside it
    }
}

/// Runs a script of a shell on a folder `d` that takes little: a file system of 12 KiB of its own, mounted where only the script sees it, or, where
/// that is not allowed, no file of more than 1 KiB. Then `d` is copied to `seen`. What it says where there is no room.
fn on_a_full_disk(scratch: &Scratch, script: &str) -> (Output, &'static str) {
    let seen = format!("{script}; status=$?; cp -r d seen 2>run/copying; exit $status");
    let mounted = format!("mount -t tmpfs -o size=12k none d && cp -r before/. d && ({seen})");
    let own = ["unshare", "-rm", "sh", "-c"];
    let allowed = [&own[..], &["mount -t tmpfs none d"]].concat();
    fs::create_dir_all(scratch.path("d")).unwrap();
    fs::create_dir_all(scratch.path("before")).unwrap();
    copied(scratch);
    if ended(&mut there(scratch, &allowed), b"").status.success() {
        let words = [&own[..], &[&mounted]].concat();
        return (
            ended(&mut there(scratch, &words), b""),
            "No space left on device",
        );
    }
    eprintln!(
        "no file system may be mounted here: a limit on the length of files stands for a full disk"
    );
    let limited = format!("cp -r before/. d; trap '' XFSZ; ulimit -f 1; {seen}");
    let words = ["bash", "-c", &limited];
    (ended(&mut there(scratch, &words), b""), "File too large")
}

const DRIVER: &str = "run/unloop-files run/unloop";

#[test]
fn a_full_disk() {
    let long: Vec<(String, String)> = (10..16).map(long_netlist).collect();
    let names: Vec<String> = (0..long.len())
        .map(|number| format!("{number}.net"))
        .collect();
    assert!(long.iter().all(|(_, rendering)| rendering.len() > 1_024));
    let whole: usize = long.iter().map(|(_, rendering)| rendering.len()).sum();
    assert!(whole > 12 << 10);
    let filled = |folder: &str| {
        let scratch = Scratch::new();
        let named = names.iter().zip(&long);
        named.for_each(|(name, (text, _))| scratch.put(&format!("{folder}{name}"), text));
        scratch
    };
    let scratch = filled("");
    let (ended, full) = on_a_full_disk(&scratch, &format!("{DRIVER} --into d [0-9].net"));
    let errors = String::from_utf8(ended.stderr).unwrap();
    assert_eq!(ended.status.code(), Some(2), "{errors}");
    let failed = names
        .iter()
        .filter(|name| errors.contains(&format!("unloop: d/{name}: {full}\n")));
    let failed: Vec<&String> = failed.collect();
    assert!(!failed.is_empty(), "{errors}");
    for (name, (_, rendering)) in names.iter().zip(&long) {
        let path = scratch.path(&format!("seen/{name}"));
        assert_ne!(path.exists(), failed.contains(&name), "{name}");
        assert!(!path.exists() || fs::read_to_string(path).unwrap() == *rendering);
    }
    assert_eq!(scratch.names("seen").len(), names.len() - failed.len());

    // What was stored before stays where there is no room for the new.
    let scratch = with(&[
        ("before/a.net", &long[0].0),
        ("before/a.out", "(refused 9 0)\n"),
    ]);
    let fill = "head -c 9000 /dev/zero >d/filler 2>run/filling;";
    let (ended, full) = on_a_full_disk(&scratch, &format!("{fill} {DRIVER} --store d"));
    let errors = String::from_utf8(ended.stderr).unwrap();
    assert!(
        errors.starts_with("unloop: d/a.") && errors.ends_with(&format!(": {full}\n")),
        "{errors}"
    );
    assert_eq!(ended.status.code(), Some(2));
    assert_eq!(scratch.get("seen/a.out"), "(refused 9 0)\n");
    assert_eq!(scratch.names("seen"), ["a.net", "a.out", "filler"]);

    let scratch = filled("");
    let (ended, full) = on_a_full_disk(&scratch, &format!("{DRIVER} --page d [0-9].net"));
    let errors = String::from_utf8(ended.stderr).unwrap();
    assert!(errors.contains(&format!(": {full}\n")), "{errors}");
    assert_eq!(ended.status.code(), Some(2));
    assert!(scratch
        .names("seen")
        .iter()
        .all(|name| !name.starts_with('.')));
}

#[test]
fn files_that_a_user_may_not_read() {
    let scratch = with(&[
        ("a.net", PROGRAM_INPUT),
        ("no.net", WIRE),
        ("d/b.net", WIRE),
        ("d/b.out", WIRE),
    ]);
    copied(&scratch);
    ["no.net", "d/b.out"]
        .iter()
        .for_each(|name| set_mode(&scratch, name, 0));
    let errors = "unloop: no.net: Permission denied\n1/2 no.net: error\n2/2 a.net: rendered\n\
                  2 files: 1 rendered, 0 refused, 1 error\n";
    told(
        by_a_user(&scratch, &["no.net", "a.net"]),
        2,
        PROGRAM_OUTPUT,
        errors,
    );
    let denied = "unloop: no.net: Permission denied\n";
    for option in ["--verilog", "--blif", "--cells", "--cover"] {
        told(by_a_user(&scratch, &[option, "no.net"]), 2, "", denied);
    }
    told(
        by_a_user(&scratch, &["--check", "no.net", "a.net"]),
        2,
        "",
        denied,
    );
    set_mode(&scratch, "d", 0o777);
    let stored = by_a_user(&scratch, &["--store", "d"]);
    let summary = "1 entry: 0 stored, 0 as before, 1 error\n";
    told(stored, 2, summary, "unloop: d/b.out: Permission denied\n");
    assert_eq!(scratch.names("d"), ["b.net", "b.out"]);
    set_mode(&scratch, "d", 0o711);
    let errors = "unloop: d: Permission denied\n";
    told(by_a_user(&scratch, &["--store", "d"]), 2, "", errors);
}

#[test]
fn targets_that_a_user_may_not_write() {
    let (into, stored) = (("d/x", "kept"), ("s/a.net", PROGRAM_INPUT));
    let old = [("s/a.out", WIRE), ("o", "kept"), ("e/f", "")];
    let scratch = with(&[&[("a.net", PROGRAM_INPUT), into, stored][..], &old].concat());
    copied(&scratch);
    for folder in ["d", "s", "e"] {
        set_mode(&scratch, folder, 0o555);
    }
    set_mode(&scratch, "o", 0o444);
    let errors = "unloop: d/a.net: Permission denied\n1/1 a.net: error\n1 file: 0 rendered, 0 refused, 1 error\n";
    told(
        by_a_user(&scratch, &["--into", "d", "a.net"]),
        2,
        "",
        errors,
    );
    told(
        by_a_user(&scratch, &["--into", "d", "--force", "a.net"]),
        2,
        "",
        errors,
    );
    let errors = "unloop: e/new: Permission denied\n";
    told(
        by_a_user(&scratch, &["--into", "e/new", "a.net"]),
        2,
        "",
        errors,
    );
    let errors = "unloop: d/index.html: Permission denied\n";
    told(
        by_a_user(&scratch, &["--page", "d", "a.net"]),
        2,
        "",
        errors,
    );
    let errors = "unloop: o: Permission denied\n";
    told(by_a_user(&scratch, &["-o", "o", "a.net"]), 2, "", errors);
    let ended = by_a_user(&scratch, &["--store", "s"]);
    assert_eq!(ended.status.code(), Some(2));
    let errors = String::from_utf8(ended.stderr).unwrap();
    assert_eq!(errors, "unloop: s/a.out: Permission denied\n");
    for (name, content) in [("d/x", "kept"), ("o", "kept"), ("s/a.out", WIRE)] {
        assert_eq!(scratch.get(name), content);
    }
    assert_eq!(scratch.names("d"), ["x"]);
    assert_eq!(scratch.names("s"), ["a.net", "a.out"]);
    // Who may write in a folder may replace what is in it, a file that may not be written too.
    let scratch = with(&[("a.net", PROGRAM_INPUT), ("d/a.net", WIRE)]);
    copied(&scratch);
    set_mode(&scratch, "d/a.net", 0o444);
    set_mode(&scratch, "d", 0o777);
    let ended = by_a_user(&scratch, &["--into", "d", "--force", "a.net"]);
    assert_eq!(ended.status.code(), Some(0));
    assert_eq!(scratch.get("d/a.net"), PROGRAM_OUTPUT);
}

/// Every way to write, from and to names that are no UTF-8: the bytes stay, and what is told has a mark in their place.
#[test]
fn names_that_are_not_utf8() {
    let scratch = with(&[("x", PROGRAM_INPUT)]);
    run(&scratch, &["--version"]); // built
    let (name, folder) = (
        OsStr::from_bytes(b"n\xff\xfe.net"),
        OsStr::from_bytes(b"d\xc3"),
    );
    let at = |part: &[u8]| scratch.path(".").join(OsStr::from_bytes(part));
    fs::rename(scratch.path("x"), at(b"n\xff\xfe.net")).unwrap();
    let command = || session::command(&scratch);
    let into = ended(command().arg("--into").arg(folder).arg(name), b"");
    let progress = "1/1 n\u{fffd}\u{fffd}.net: rendered\n1 file: 1 rendered, 0 refused\n";
    told(into, 0, "", progress);
    let read = |path: &[u8]| fs::read_to_string(at(path)).unwrap();
    assert_eq!(read(b"d\xc3/n\xff\xfe.net"), PROGRAM_OUTPUT);
    told(
        ended(
            command()
                .arg("-o")
                .arg(OsStr::from_bytes(b"o\xff"))
                .arg(name),
            b"",
        ),
        0,
        "",
        "",
    );
    assert_eq!(read(b"o\xff"), PROGRAM_OUTPUT);
    for (option, ending) in [("--verilog", "v"), ("--blif", "blif"), ("--cells", "cells")] {
        told(
            ended(
                command().args([option, "--into"]).arg(folder).arg(name),
                b"",
            ),
            0,
            "",
            "",
        );
        let text = read(&[b"d\xc3/n\xff\xfe.", ending.as_bytes()].concat());
        assert!(
            text.contains("rendering of n\u{fffd}\u{fffd}.net"),
            "{text}"
        );
    }
    let json = ended(command().arg("--json").arg(name), b"");
    assert_eq!(json.status.code(), Some(0));
    assert!(String::from_utf8(json.stdout)
        .unwrap()
        .contains("\"n\u{fffd}\u{fffd}.net\""));
    let page = ended(
        command()
            .arg("--page")
            .arg(OsStr::from_bytes(b"p\xff"))
            .arg(name),
        b"",
    );
    assert_eq!(page.status.code(), Some(0), "{page:?}");
    assert!(read(b"p\xff/n__.html").contains("n\u{fffd}\u{fffd}"));
    fs::create_dir(scratch.path("s")).unwrap();
    fs::rename(at(b"n\xff\xfe.net"), at(b"s/n\xff\xfe.net")).unwrap();
    let stored = ended(command().args(["--store", "s"]), b"");
    assert_eq!(stored.status.code(), Some(0), "{stored:?}");
    assert_eq!(read(b"s/n\xff\xfe.out"), PROGRAM_OUTPUT);
    let audited = ended(command().args(["--audit", "s"]), b"");
    assert_eq!(audited.status.code(), Some(0), "{audited:?}");
    assert_eq!(contents(&scratch.path("s")).len(), 3);
}

/// What is read is what a link leads to; a name that is a link is replaced, and what it leads to is not.
#[test]
fn symbolic_links() {
    let scratch = with(&[
        ("a.net", PROGRAM_INPUT),
        ("real/x", ""),
        ("kept", "kept"),
        ("s/x", ""),
    ]);
    let link = |to: &str, name: &str| symlink(to, scratch.path(name)).unwrap();
    let status = |words: &[&str]| run(&scratch, words).status.code();
    link("a.net", "l.net");
    link("real", "d");
    link("nowhere", "gone");
    assert_eq!(status(&["--into", "d", "l.net"]), Some(0));
    assert_eq!(scratch.get("real/l.net"), PROGRAM_OUTPUT);
    told(
        run(&scratch, &["--into", "gone", "l.net"]),
        2,
        "",
        "unloop: gone: File exists\n",
    );
    for (folder, files) in [("d", vec!["l.net", "x"]), ("gone", vec![])] {
        let found = contents(&scratch.path(folder));
        assert!(found
            .into_keys()
            .eq(files.iter().map(|name| name.as_bytes().to_vec())));
    }
    // An entry whose original and facts are links.
    link("../a.net", "s/e.net");
    link("../kept", "s/e.out");
    link("nowhere", "s/e.cover");
    assert_eq!(status(&["--store", "s", "--force"]), Some(0));
    assert_eq!(scratch.get("s/e.out"), PROGRAM_OUTPUT);
    assert_eq!(scratch.get("s/e.cover"), "always\n");
    for (name, content) in [("kept", "kept"), ("a.net", PROGRAM_INPUT)] {
        assert_eq!(scratch.get(name), content);
    }
    assert!(fs::read_link(scratch.path("s/e.net")).is_ok());
    assert!(fs::read_link(scratch.path("s/e.out")).is_err());
    // A page whose index is a link.
    fs::create_dir(scratch.path("p")).unwrap();
    link("../kept", "p/index.html");
    assert_eq!(status(&["--page", "p", "a.net"]), Some(2));
    assert_eq!(scratch.names("p"), ["index.html"]);
    assert_eq!(status(&["--page", "p", "--force", "a.net"]), Some(0));
    assert_eq!(scratch.get("kept"), "kept");
    // Standard output's file goes where its link leads, as a shell's does, but to no FILE.
    link("kept", "o");
    assert_eq!(status(&["-o", "o", "a.net"]), Some(0));
    assert_eq!(scratch.get("kept"), PROGRAM_OUTPUT);
    assert_eq!(status(&["-o", "l.net", "a.net"]), Some(2));
    assert_eq!(scratch.get("a.net"), PROGRAM_INPUT);
}
