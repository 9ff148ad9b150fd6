//! What the installed completions offer: every option of the usage text, folders and files behind those that need one. bash is asked itself, zsh and
//! fish where they are installed.

mod prefix;

use prefix::moved;
use simulator::executed::{ended, root, sought_loudly, Scratch};
use std::fs;
use std::process::Command;

/// The long options of the usage text, sorted.
fn options() -> Vec<String> {
    let usage = fs::read_to_string(root().join("rust/src/bin/unloop-files/usage.txt")).unwrap();
    let lines = usage.lines().filter(|line| line.starts_with("  -"));
    let words = lines.flat_map(|line| line.split_whitespace().take(2).map(str::to_string));
    let mut options: Vec<String> = words
        .filter(|word| word.len() > 2 && word.starts_with("--"))
        .collect();
    options.sort();
    options
}

/// A prefix beside a folder and two files to complete.
fn completed() -> Scratch {
    let scratch = moved();
    scratch.put("given/inner/x", "");
    scratch.put("given/in file", "");
    scratch
}

fn answered(scratch: &Scratch, shell: &str, script: &str, words: &[&str]) -> String {
    let mut command = Command::new(shell);
    let command = command.args(["-c", script, shell]).args(words);
    let output = ended(command.current_dir(scratch.path("given")), b"");
    let errors = String::from_utf8_lossy(&output.stderr);
    assert!(output.status.success() && errors.is_empty(), "{errors}");
    String::from_utf8(output.stdout).unwrap()
}

/// The lines of an answer, sorted.
fn sorted(answer: &str) -> Vec<&str> {
    let mut lines: Vec<&str> = answer.lines().collect();
    lines.sort_unstable();
    lines
}

/// What bash offers where the last of these words is being written.
fn offered_by_bash(scratch: &Scratch, words: &[&str]) -> String {
    let script = "source ../moved/share/bash-completion/completions/unloop
        compopt() { :; } # there is no completion at work
        COMP_WORDS=(unloop \"$@\") COMP_CWORD=$#
        _unloop
        ((${#COMPREPLY[@]} == 0)) || printf '%s\\n' \"${COMPREPLY[@]}\"";
    answered(scratch, "bash", script, words)
}

#[test]
fn bash() {
    let scratch = completed();
    let offered = |words: &[&str]| offered_by_bash(&scratch, words);
    assert!(options().len() >= 20);
    assert_eq!(sorted(&offered(&["--"])), options());
    assert_eq!(offered(&["x.net", "--fr"]), "--from-blif\n");
    assert_eq!(sorted(&offered(&["-"])).len(), options().len() + 3);
    for before in [&["--into"][..], &["--page"], &["--store"], &["--into", "="]] {
        let words = [before, &["in"]].concat();
        assert_eq!(offered(&words), "inner\n", "{before:?}");
    }
    assert_eq!(offered(&["--into", "="]), "inner\n");
    for before in [
        &["--check"][..],
        &["-o"],
        &["--sheet", "="],
        &["x.net"],
        &[],
    ] {
        let words = [before, &["in"]].concat();
        assert_eq!(sorted(&offered(&words)), ["in file", "inner"], "{before:?}");
    }
    assert_eq!(offered(&["--model", "in"]), "");
    assert_eq!(offered(&["--", "--into"]), "");
    let spoken =
        "source ../moved/share/bash-completion/completions/unloop; complete -p unloop unloop-bench";
    let spoken = answered(&scratch, "bash", spoken, &[]);
    assert_eq!(
        spoken,
        "complete -F _unloop unloop\ncomplete -f unloop-bench\n"
    );
}

/// A zsh on a terminal of its own, where each of some lines is typed with a tabulator behind it and sent: writes what the command was given.
const ON_A_TERMINAL: &str = r#"
    zmodload zsh/zpty
    zpty shell zsh -f -i
    until_shown() { zpty -r -m shell said "*$1*" && print -r -- "$said" }
    zpty -w shell "PS1= PS2= fpath=(../moved/share/zsh/site-functions \$fpath); autoload -Uz compinit; compinit -u -D"
    zpty -w shell "unloop() { print -r -- \"<\${(j:|:)@}>\" }; print rea''dy"
    until_shown ready >/dev/null
    for written; do
      zpty -w shell "unloop $written"$'\t'
      [[ $(until_shown '<*>') =~ '<(.*)>' ]] && print -r -- $match[1]
    done
    zpty -d shell
"#;

/// What stands behind options is offered by zsh's own completion.
#[test]
fn zsh() {
    if sought_loudly("zsh", "the completions for zsh").is_none() {
        return;
    }
    let scratch = completed();
    let cases = [
        ("--from", "--from-blif"),
        ("--vers", "--version"),
        ("--into inn", "--into|inner"),
        ("--sheet=in\\ f", "--sheet=in file"),
        ("--model in", "--model|in"),
        ("-o in\\ f", "-o|in file"),
        ("in\\ f", "in file"),
    ];
    let shown = answered(
        &scratch,
        "zsh",
        ON_A_TERMINAL,
        &cases.map(|(written, _)| written),
    );
    let shown: Vec<&str> = shown.lines().collect();
    assert_eq!(shown, cases.map(|(_, completed)| completed));
}

/// The completions for zsh have every option.
#[test]
fn zsh_has_all() {
    if sought_loudly("zsh", "the completions for zsh").is_none() {
        return;
    }
    let scratch = completed();
    let listed =
        "_arguments() { print -l -- \"$@\" }; source ../moved/share/zsh/site-functions/_unloop";
    let listed = answered(&scratch, "zsh", listed, &[]);
    for option in options() {
        let told = listed.lines().any(|line| {
            let spec = line.rsplit_once(")--").map_or(line, |(_, rest)| rest);
            let name = spec.trim_start_matches("--").split(['[', '=']).next();
            name == option.strip_prefix("--")
        });
        assert!(told, "{option}");
    }
}

#[test]
fn fish() {
    if sought_loudly("fish", "the completions for fish").is_none() {
        return;
    }
    let scratch = completed();
    let offered = |written: &str| {
        let script = "source ../moved/share/fish/vendor_completions.d/unloop.fish; complete -C \"unloop $argv[2]\"";
        answered(&scratch, "fish", script, &[written])
    };
    let all = offered("--");
    let names = all.lines().filter_map(|line| line.split('\t').next());
    let mut names: Vec<&str> = names.collect();
    names.sort_unstable();
    assert_eq!(names, options());
    assert!(all.contains("--quiet\twith --audit: tell what is lost, and the summary\n"));
    let only = |written: &str| {
        let answer = offered(written);
        let names = answer.lines().filter_map(|line| line.split('\t').next());
        names.map(str::to_string).collect::<Vec<String>>()
    };
    assert_eq!(only("--into in"), ["inner/"]);
    assert_eq!(only("--sheet in"), ["in file", "inner/"]);
    assert_eq!(only("-o in"), ["in file", "inner/"]);
    assert_eq!(only("--model in"), [""; 0]);
}
