//! The cases that the fuzzer kept (tests/fuzz, tests/corpus): the library against the simulator on each.

use simulator::compare::cases::{compare_case, operation_of, OPERATIONS};
use simulator::compare::tally::{print_compared, Operation, Tally};
use simulator::executed::{ended, root, Scratch};
use simulator::generate::Report;
use std::fs;
use std::process::Command;

/// The cases with their names.
fn cases() -> Vec<(String, Vec<u8>)> {
    let entries = fs::read_dir(root().join("tests/corpus")).expect("a folder");
    let case = |entry: fs::DirEntry| {
        let name = entry.file_name().to_string_lossy().into_owned();
        (name, fs::read(entry.path()).expect("a case"))
    };
    entries
        .map(|entry| case(entry.expect("an entry")))
        .collect()
}

#[test]
fn every_case_is_answered_as_by_the_simulator() {
    let cases = cases();
    for (name, case) in &cases {
        let _report = Report(|| format!("tests/corpus/{name}"));
        compare_case(case);
    }
    print_compared();
    for &operation in OPERATIONS {
        let of_it = |(_, case): &&(String, Vec<u8>)| operation_of(case) == Some(operation);
        assert!(cases.iter().filter(of_it).count() > 0, "{operation:?}");
    }
    // A text above the greatest length would be longer than all cases together may be; the programs answer nothing here.
    let unseen = Tally::so_far().unseen().into_iter();
    let programs = [Operation::Program, Operation::Bench].map(|program| format!("{program:?} "));
    let is_expected = |number: &String| {
        number == "Read 1" || programs.iter().any(|program| number.starts_with(program))
    };
    let unseen: Vec<String> = unseen.filter(|number| !is_expected(number)).collect();
    assert!(unseen.is_empty(), "never answered: {unseen:?}");
}

/// So that the repository stays small.
#[test]
fn the_corpus_is_small() {
    let bytes: usize = cases().iter().map(|(_, case)| case.len()).sum();
    assert!((10_000..200_000).contains(&bytes), "{bytes}");
}

/// A machine without clang does not pass for one where nothing was found.
#[test]
fn without_clang_nothing_is_fuzzed() {
    let scratch = Scratch::new();
    let tools = scratch.put_tools("tools", &["bash", "dirname"]);
    let mut command = Command::new(root().join("tests/fuzz"));
    let output = ended(command.arg("1").env("PATH", tools), b"");
    assert_eq!(output.status.code(), Some(2), "{output:?}");
    let told = String::from_utf8_lossy(&output.stderr);
    assert!(told.contains("NOTHING WAS FUZZED"), "{told}");
}
