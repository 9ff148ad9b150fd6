//! `tests/probes` on small objects, assembled here: a stack probe behind other code of its function is refused, whatever writes r11 there.

use simulator::executed::{ended, root, Scratch};
use std::process::{Command, Output};

/// What a function with a frame of eight pages begins with.
const PROBE: &str = "
        mov %rsp, %r11
        sub $0x8000, %r11
    1:  sub $0x1000, %rsp
        movq $0, (%rsp)
        cmp %r11, %rsp
        jne 1b
";

/// Assembles a function `f` of these lines, `PROBE` standing for the probe, and looks at it.
fn looked_at(lines: &str) -> Output {
    let scratch = Scratch::new();
    let lines = lines.replace("PROBE", PROBE);
    scratch.put("f.s", format!(".globl f\nf:\n{lines}\n"));
    let mut assembler = Command::new("as");
    let assembler = assembler.arg(scratch.path("f.s")).arg("-o");
    let assembled = ended(assembler.arg(scratch.path("f.o")), b"");
    assert!(assembled.status.success(), "{assembled:?}");
    ended(probes().arg(scratch.path("f.o")), b"")
}

fn probes() -> Command {
    Command::new(root().join("tests/probes"))
}

/// It is refused, and the message names the function and what stands before the probe.
fn refused(lines: &str, before: &str) {
    let output = looked_at(lines);
    assert_eq!(output.status.code(), Some(1), "{output:?}");
    let told = String::from_utf8(output.stderr).expect("text");
    let expected = format!("f.o: <f>: the stack is probed behind `{before}");
    assert!(told.contains(&expected), "{told}");
}

#[test]
fn a_probe_that_only_pushes_stand_before_passes() {
    for lines in [
        "PROBE \n add $0x8000, %rsp \n ret",
        "endbr64 \n push %rbp \n push %r15 \n PROBE \n mov %rdi, %r11 \n ret",
    ] {
        let output = looked_at(lines);
        assert_eq!(output.status.code(), Some(0), "{output:?}");
        assert!(output.stderr.is_empty(), "{output:?}");
    }
}

/// objdump writes a comment behind such a load: the name that is read.
#[test]
fn a_load_relative_to_rip_is_refused() {
    let lines =
        "push %rbp \n mov kept(%rip), %r11 \n PROBE \n mov %r11, %rax \n ret \n kept: .quad 7";
    refused(lines, "mov 0x");
}

#[test]
fn a_byte_of_r11_set_by_a_test_is_refused() {
    let lines = "push %rbp \n test %rdi, %rdi \n sete %r11b \n PROBE \n movzbl %r11b, %eax \n ret";
    refused(lines, "test %rdi,%rdi");
    refused(
        "sete %r11b \n PROBE \n movzbl %r11b, %eax \n ret",
        "sete %r11b",
    );
}

#[test]
fn a_block_textually_behind_the_probe_is_refused() {
    let lines = "
            push %rbp
            jmp 3f
        2:  PROBE
            mov %r11, %rax
            ret
        3:  mov %rdi, %r11
            jmp 2b";
    refused(lines, "jmp");
}

#[test]
fn no_probe_at_all_is_told() {
    let output = looked_at("mov %rdi, %rax \n ret");
    assert_eq!(output.status.code(), Some(1), "{output:?}");
}

/// Also where one of several files cannot be read.
#[test]
fn a_file_that_cannot_be_read_is_told() {
    let scratch = Scratch::new();
    scratch.put("text", "no object");
    for name in ["missing", "text"] {
        let output = ended(probes().arg(scratch.path(name)), b"");
        assert_eq!(output.status.code(), Some(1), "{output:?}");
    }
}

#[test]
fn without_objdump_it_fails() {
    let scratch = Scratch::new();
    let tools = scratch.put_tools("tools", &["awk", "bash", "dirname"]);
    let output = ended(probes().env("PATH", tools), b"");
    assert_eq!(output.status.code(), Some(1), "{output:?}");
    let told = "tests/probes: there is no objdump, so nothing can be looked at\n";
    assert_eq!(String::from_utf8_lossy(&output.stderr), told);
}
