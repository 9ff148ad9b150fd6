//! `bin/unloop --shrink`: other orders of a block's gates, held to Render and Compare, and what becomes of the results of a stand-in for ABC.

mod mapper;
mod session;

use session::{run, told, with};
use simulator::block::Block as Simulated;
use simulator::executed::{root, Scratch};
use simulator::generate::{
    about_1024_copies, for_blocks, for_typical_blocks, Random, Report, Size,
};
use simulator::render::copied;
use std::fs;
use std::process::Output;
use unloop::orders::{reordered, Rule};
use unloop::{Block, Refusal};

fn catalogue(name: &str) -> String {
    fs::read_to_string(root().join("catalogue").join(name)).unwrap()
}

/// The driver with nothing on its PATH but a stand-in for ABC, if one is given.
fn shrink(scratch: &Scratch, abc: Option<&str>, words: &[&str]) -> Output {
    mapper::run_with(scratch, abc.map(|script| ("yosys-abc", script)), words)
}

/// A block in the order that is found renders to as many gates as are told, by the library and the simulator, and is accepted.
#[test]
fn orders_render_as_they_say() {
    let (mut smaller, mut rendered) = (0, 0);
    let mut judge = |words: &[u16]| {
        let block = Block::from_words(words).unwrap();
        let _report = Report(|| block.write());
        let found = reordered(&block);
        assert_eq!(
            copied(&Simulated::from_words(found.block.words()))
                .gates
                .len(),
            found.gates
        );
        let before = copied(&Simulated::from_words(words)).gates.len();
        assert_eq!(found.gates < before, !found.loops.is_empty());
        let saved = found
            .loops
            .iter()
            .map(|order| order.gates.len() * (order.before - order.passes));
        assert_eq!(before - found.gates, saved.sum::<usize>());
        smaller += usize::from(found.gates < before);
        if let Ok(rendering) = found.block.render() {
            assert_eq!(rendering.gates(), found.gates);
            assert_eq!(block.compare(&rendering), Ok(None));
            rendered += 1;
        }
    };
    for_blocks(0..2_000, Size::SMALL, |_, _, words| judge(words));
    for_typical_blocks(0..20, |_, _, words| judge(words));
    println!("{smaller} smaller, {rendered} rendered");
    assert!(smaller > 200 && rendered > 1_000, "{smaller} {rendered}");
}

/// The same block gives the same order in every run, and a straight one needs none.
#[test]
fn orders_are_the_same_in_every_run() {
    for_blocks(0..200, Size::MIDDLE, |_, block, words| {
        let read = Block::from_words(words).unwrap();
        let found = reordered(&read);
        assert_eq!(found, reordered(&read));
        if block.is_straight() {
            assert_eq!((found.block, found.loops.len()), (read, 0));
        }
    });
}

/// Blocks about the limit: what is refused with 8 is rendered where an order fits.
#[test]
fn orders_of_swollen_blocks() {
    let mut fit = 0;
    for seed in 0..40 {
        let block = about_1024_copies(&mut Random::new(seed));
        let read = Block::from_words(block.to_words()).unwrap();
        if read.render() == Err(Refusal::TooManyCopies) {
            let found = reordered(&read);
            let rendered = found.block.render();
            assert_eq!(rendered == Err(Refusal::TooManyCopies), found.gates > 1_024);
            fit += usize::from(rendered.is_ok());
        }
    }
    println!("{fit} fit in another order");
}

/// The sizes that are told of the catalogue, each by the rule that found it, without ABC.
#[test]
fn orders_of_the_catalogue() {
    let scratch = with(&[]);
    let missing = "unloop: ABC is not on the PATH (as abc, berkeley-abc, yosys-abc; Debian has it as berkeley-abc): \
                   only other orders of the gate lines are tried\n";
    for (name, gates, before, by) in [
        (
            "scaler",
            41,
            "56 in the rendering",
            "a loop of 15 gates in 2 passes and not 3, in postorder from to_add0",
        ),
        (
            "four-functions",
            32,
            "60 in the rendering",
            "a loop of 14 gates in 2 passes and not 4, in postorder from f2",
        ),
        (
            "ring-backwards",
            33,
            "refused as it stands",
            "a loop of 33 gates in 1 pass and not 33, in postorder from g0",
        ),
    ] {
        let file = format!("{name}.net");
        scratch.put(&file, catalogue(&file));
        let ended = shrink(&scratch, None, &["--shrink", &file]);
        let order = "another order of the gate lines";
        let errors = format!("{missing}{file}: {gates} gate lines, {before}, accepted; by {order}\n{file}: {gates} by {order}: {by}\n");
        assert_eq!(String::from_utf8(ended.stderr).unwrap(), errors);
        let output = String::from_utf8(ended.stdout).unwrap();
        assert_eq!(output.matches("(gate ").count(), gates);
        scratch.put("theirs", output);
        told(
            run(&scratch, &["--check", "theirs", &file]),
            0,
            "theirs: accepted\n",
            "",
        );
    }
    let ring = Block::read(catalogue("ring-backwards.net")).unwrap();
    assert_eq!(
        reordered(&ring).loops[0].rule,
        Rule::Postorder { entered: 0 }
    );
}

const NETLIST: &str =
    "(in a)\n(in b)\n(never (b 0))\n(gate p (and a q))\n(gate q (or b p))\n(out y q)\n(out z p)\n";
const EXCLUDING: &str = "n.net: settled settings: 2 of 2, 2 excluded\n";
const MAPPED: &str = "strash; ifraig; dc2; dc2; dc2; map -a";
/// The rendering, whose order is the best.
const OWN: &str = "(in a)\n(in b)\n(never (b 0))\n(gate _0 (or b 0))\n(gate _1 (and a _0))\n(out y _0)\n(out z _1)\n";

/// How the stand-in answers: with a model of these lines.
fn model(lines: &str) -> String {
    format!("printf '.model m\\n.inputs a b\\n.outputs y z\\n{lines}.end\\n' > out.blif\n")
}

/// A right result is written with the original's never lines; the tool got the library, and what never comes as what it need not care for.
#[test]
fn shrunk() {
    let scratch = with(&[("n.net", NETLIST)]);
    let right = model(".names b y\\n1 1\\n.gate and2 a=a b=b O=z\\n");
    let abc = format!(
        "/bin/cat gates.genlib care.blif >> '{0}'\necho \"$@\" >> '{0}'\n{right}",
        scratch.path("log").display()
    );
    let output = "(in a)\n(in b)\n(never (b 0))\n(gate _0 (and a b))\n(out y b)\n(out z _0)\n";
    let errors = format!("n.net: 1 gate line, 4 in the rendering, accepted; by ABC, {MAPPED}\n\
                          n.net: 2 by another order of the gate lines: a loop of 2 gates in 1 pass and not 2, in postorder from p\n{EXCLUDING}");
    told(
        shrink(&scratch, Some(&abc), &["--shrink", "n.net"]),
        0,
        output,
        &errors,
    );
    let (log, library) = (scratch.get("log"), catalogue("gates.genlib"));
    let care = ".model care\n.inputs a b\n.outputs _care\n.names a b _care\n-0 0\n.end\n";
    let call =
        format!("-q read_blif in.blif; read_library gates.genlib; {MAPPED}; write_blif out.blif\n");
    assert!(log.starts_with(&format!("{library}{care}{call}")), "{log}");
    assert_eq!(log.matches(&library).count(), 10);
}

/// A tool that lies is not believed, one that breaks is no harm.
#[test]
fn nothing_is_written_that_is_not_accepted() {
    let scratch = with(&[("n.net", NETLIST)]);
    let taken =
        "n.net: 2 gate lines, 4 in the rendering, accepted; by another order of the gate lines\n";
    for (abc, why) in [
        (
            model(".names b y\\n1 1\\n.names z\\n"),
            "ABC's result is not accepted",
        ),
        ("exit 3\n".to_string(), "ABC wrote nothing (exit status: 3)"),
        (
            model(".names b y\\n1 1\\n.latch a z\\n"),
            "ABC's result, line 6: .latch: z keeps a value, and a netlist has no latches",
        ),
        (
            model(".names z y\\n1 1\\n.names y z\\n1 1\\n"),
            "ABC's result is not accepted",
        ),
        (
            model("").replace(".outputs y z", ".outputs y"),
            "ABC's result, line 4: nothing drives y",
        ),
    ] {
        let ended = shrink(&scratch, Some(&abc), &["--shrink", "n.net"]);
        let errors = String::from_utf8(ended.stderr).unwrap();
        assert_eq!(String::from_utf8(ended.stdout).unwrap(), OWN, "{errors}");
        assert_eq!(ended.status.code(), Some(0));
        let order = "n.net: 2 by another order of the gate lines: a loop of 2 gates in 1 pass and not 2, in postorder from p\n";
        let failures = format!("n.net: not taken: {why} (10 scripts)\n");
        assert_eq!(errors, format!("{taken}{order}{failures}{EXCLUDING}"));
    }
}

/// What no order helps is refused as ever, and so is what isn't settled.
#[test]
fn refused() {
    let ring = simulator::specimens::reversed_ring(33, 32);
    let unsettled = format!("(in a)\n{ring}(gate p (or a p))\n(out y g0)\n(out z p)\n");
    let scratch = with(&[
        ("8.net", &unsettled),
        ("9.net", "(gate p (not p))\n(out y p)\n"),
    ]);
    let missing = "unloop: ABC is not on the PATH (as abc, berkeley-abc, yosys-abc; Debian has it as berkeley-abc): ";
    for (option, instead) in [
        (
            "--shrink",
            "only other orders of the gate lines are tried\n",
        ),
        ("--fit", "the cells are those of the rendering\n"),
    ] {
        let ended = shrink(&scratch, None, &[option, "8.net", "9.net"]);
        let errors = format!("{missing}{instead}8.net: swollen: 1090 gates in the rendering, 66 more than 1024\n  \
                              not settled with a = 0: z undefined\n  p waits for itself\n  settles with a = 1\n\
                              9.net: undecided\n  not settled: y undefined\n  p waits for itself\n  settles under no setting\n");
        told(ended, 1, "", &errors);
        let ended = shrink(&scratch, None, &[option, "--json", "8.net", "gone"]);
        let output = String::from_utf8(ended.stdout).unwrap();
        assert!(
            output.starts_with("{\"file\":\"8.net\",\"number\":8,\"word\":\"swollen\","),
            "{output}"
        );
        assert!(
            output.ends_with("{\"file\":\"gone\",\"error\":\"gone: No such file or directory\"}\n"),
            "{output}"
        );
        assert_eq!(ended.status.code(), Some(2));
    }
}

/// Into a folder under the file's own name, and as JSON.
#[test]
fn into_a_folder_and_as_json() {
    let scratch = with(&[("n.net", NETLIST)]);
    let ended = shrink(
        &scratch,
        None,
        &["--shrink", "--into", "out", "--json", "n.net"],
    );
    let object = "{\"file\":\"n.net\",\"accepted\":true,\"gates\":2,\"before\":4,\"ordered\":2,\
                  \"loops\":[\"a loop of 2 gates in 1 pass and not 2, in postorder from p\"],\
                  \"by\":\"another order of the gate lines\",\"not_taken\":[],";
    let output = String::from_utf8(ended.stdout).unwrap();
    assert!(output.starts_with(object), "{output}");
    assert_eq!(scratch.get("out/n.net"), OWN);
    let ended = shrink(&scratch, None, &["--shrink", "--into", ".", "n.net"]);
    let errors = String::from_utf8(ended.stderr).unwrap();
    assert!(
        errors.ends_with("unloop: ./n.net: is one of the FILEs, and isn't overwritten\n"),
        "{errors}"
    );
    assert_eq!(scratch.get("n.net"), NETLIST);
}
