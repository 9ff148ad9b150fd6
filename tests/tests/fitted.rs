//! `bin/unloop --check-cells` and `--fit`: what is said of tables of cells that were made elsewhere, and what becomes of those that a mapper
//! makes: here a stand-in for ABC, which is right, wrong or broken. The real one is run by tests/synthesis.

mod mapper;
mod session;

use session::{run, told, with};
use simulator::executed::{netlists, Scratch};
use simulator::generate::{for_blocks, for_typical_blocks, order, Random, Report, Size};
use std::fs;
use std::process::Output;
use unloop::{blif, cells_of_blif, module_name, Block, CellTable, Refusal};

const LOOPED: &str =
    "(in a)\n(in b)\n(gate p (and a q))\n(gate q (or b p))\n(out y q)\n(out z p)\n";

/// What is said of a table for the loop above, which settles where a is 0 or b is 1.
#[track_caller]
fn checked(table: &str, status: i32, output: &str, errors: &str) {
    let scratch = with(&[("ours.net", LOOPED), ("t.cells", table)]);
    let words = ["--check-cells", "t.cells", "ours.net"];
    told(run(&scratch, &words), status, output, errors);
}

#[test]
fn tables_are_accepted_by_their_names() {
    let accepted = "t.cells: accepted\n";
    checked(
        "# inputs 2 a b\n# outputs 2\n# output y 1\n# output z 0\n",
        0,
        accepted,
        "",
    );
    let turned = "# inputs 2 b a\n0 1 65534 65534 34952\n# outputs 2\n# output z 2\n# output y 0\n";
    checked(turned, 0, accepted, "");
    let unnamed = "# inputs 2\n# outputs 2\n# output z 0\n# output y 1\n";
    checked(unnamed, 0, accepted, "");
    let other = "t.cells: not accepted\n  y is 0, not 1 with a = 0, b = 1\n";
    let swapped = "# inputs 2 b a\n# outputs 2\n# output z 0\n# output y 1\n";
    checked(swapped, 1, other, "");
}

#[test]
fn strangers_and_what_is_no_table() {
    let strangers = |interface: &str| {
        format!(
            "t.cells: strangers\n  it has      {interface}\n  but must be pins a, b; ports y, z\n"
        )
    };
    for (table, interface) in [
        (
            "# inputs 2 a c\n# outputs 2\n# output y 1\n# output z 0\n",
            "pins a, c; ports y, z",
        ),
        (
            "# inputs 3 a b c\n# outputs 2\n# output y 1\n# output z 0\n",
            "pins a, b, c; ports y, z",
        ),
        (
            "# inputs 2 a a\n# outputs 2\n# output y 1\n# output z 0\n",
            "pins a, a; ports y, z",
        ),
        (
            "# inputs 2 a b\n# outputs 1\n# output y 1\n",
            "pins a, b; ports y",
        ),
        (
            "# inputs 2 a b\n# outputs 2\n# output y 1\n# output y 0\n",
            "pins a, b; ports y, y",
        ),
        (
            "# inputs 2 a b\n0 1 0 0 0\n1 0 0 0 0\n",
            "pins a, b; ports _0, _1",
        ),
    ] {
        checked(table, 1, "", &strangers(interface));
    }
    checked("# inputs 2 a b\n2 0 0 0 0\n", 1, "", "t.cells: torn\n");
    let error = "unloop: t.cells:2: not a word of 16 bits: x\n";
    checked("# inputs 2 a b\nx\n", 2, "", error);
    let error = "unloop: t.cells: no line '# inputs NUMBER NAME ...'\n";
    checked("", 2, "", error);
}

#[test]
fn checks_as_json_and_bad_usage() {
    let wrong = "# inputs 2 a b\n# outputs 2\n# output y 0\n# output z 0\n";
    let scratch = with(&[
        ("ours.net", LOOPED),
        ("t.cells", wrong),
        ("torn.cells", "# inputs 2 a b\n2 0 0 0 0\n"),
        ("bad.net", "(in _a)\n"),
    ]);
    let object = "{\"file\":\"t.cells\",\"original\":\"ours.net\",\"accepted\":false,\"setting\":{\"a\":0,\"b\":1},\"output\":\"y\",\
                  \"shown\":\"0\",\"expected\":\"1\",\"excluded\":0}\n";
    let words = ["--json", "--check-cells=t.cells", "ours.net"];
    told(run(&scratch, &words), 1, object, "");
    let object =
        "{\"file\":\"torn.cells\",\"original\":\"ours.net\",\"number\":6,\"word\":\"torn\"}\n";
    let words = ["--json", "--check-cells", "torn.cells", "ours.net"];
    told(run(&scratch, &words), 1, object, "torn.cells: torn\n");
    let words = ["--check-cells", "t.cells", "bad.net"];
    let report = "bad.net:1:5: form: expected a letter\n(in _a)\n    ^\n";
    told(run(&scratch, &words), 1, "", report);
    let error = "unloop: --check-cells TABLE needs one FILE and no other option (see --help)\n";
    for words in [
        &["--check-cells", "t.cells"][..],
        &["--check-cells", "t.cells", "--fit", "ours.net"],
    ] {
        told(run(&scratch, words), 2, "", error);
    }
    let words = ["--check-cells", "gone", "ours.net"];
    let error = "unloop: gone: No such file or directory\n";
    told(run(&scratch, &words), 2, "", error);
}

/// The table with its first output inverted by one cell more.
fn spoiled(table: &CellTable) -> CellTable {
    let text = table.written(&module_name("m"), &[]);
    let (port, node) = &table.outputs()[0];
    let inverter = format!("{node} 65534 65534 65534 21845\n# outputs ");
    let text = text.replacen("# outputs ", &inverter, 1);
    let shown = table.inputs().len() + table.count();
    let old = format!("# output {port} {node}\n");
    CellTable::read(&text.replacen(&old, &format!("# output {port} {shown}\n"), 1)).unwrap()
}

/// A spoiled table is caught for each entry of the catalogue that has cells, by the command.
#[test]
fn spoiled_tables_of_the_catalogue() {
    let mut caught = 0;
    for path in netlists() {
        let block = Block::read(fs::read(&path).unwrap());
        let Ok(rendering) = block.and_then(|block| block.render()) else {
            continue;
        };
        let table = CellTable::of(&rendering).unwrap();
        let text = |table: &CellTable| table.written(&module_name("m"), &[]);
        let scratch = Scratch::new();
        scratch.put("right.cells", text(&table));
        scratch.put("spoiled.cells", text(&spoiled(&table)));
        let path = path.to_str().unwrap();
        let ended = run(&scratch, &["--check-cells", "right.cells", path]);
        assert_eq!(ended.status.code(), Some(0), "{path}");
        let ended = run(&scratch, &["--check-cells", "spoiled.cells", path]);
        let output = String::from_utf8(ended.stdout).unwrap();
        assert_eq!(ended.status.code(), Some(1), "{path}");
        assert!(
            output.starts_with("spoiled.cells: not accepted\n"),
            "{output}"
        );
        caught += 1;
    }
    assert!(caught >= 14, "{caught}");
}

/// The same table with its inputs and ports in other orders.
fn shuffled(random: &mut Random, table: &CellTable) -> CellTable {
    let (n, k) = (table.inputs().len(), table.outputs().len());
    let (pins, ports) = (order(random, n), order(random, k));
    let moved = |node: usize| pins.get(node).map_or(node, |&pin| pin.into());
    let mut names = vec![""; n];
    for (name, &pin) in table.inputs().iter().zip(&pins) {
        names[usize::from(pin)] = name;
    }
    let mut text = format!("# inputs {n} {}\n", names.join(" "));
    for cell in table.cells().words().chunks(5) {
        let operands = cell[..4].iter().map(|&word| moved(word.into()).to_string());
        let operands: Vec<String> = operands.collect();
        text += &format!("{} {}\n", operands.join(" "), cell[4]);
    }
    text += &format!("# outputs {k}\n");
    for &port in &ports {
        let (name, node) = &table.outputs()[usize::from(port)];
        text += &format!("# output {name} {}\n", moved(*node));
    }
    CellTable::read(&text).unwrap()
}

/// Of 1,000 generated tables and more: accepted in every order of pins and ports, and caught where an output is inverted.
#[test]
fn spoiled_tables_of_generated_blocks() {
    let (mut caught, mut vacuous) = (0, 0);
    let mut judge = |random: &mut Random, words: &[u16]| {
        let block = Block::from_words(words).unwrap();
        let Ok(rendering) = block.render() else {
            return;
        };
        let _report = Report(|| rendering.write());
        let table = CellTable::of(&rendering).unwrap();
        assert_eq!(block.compare_table(&table), Ok(None));
        let turned = shuffled(random, &table);
        assert_eq!(block.compare_table(&turned), Ok(None));
        if block.outputs() == 0 {
            return;
        }
        // Where no setting comes nothing is compared.
        let Some(lowest) = (0..1 << block.inputs()).find(|&setting| {
            !block
                .never_lines()
                .iter()
                .any(|never| never.agrees(setting))
        }) else {
            vacuous += 1;
            return;
        };
        for table in [&table, &turned] {
            let spoiled = spoiled(table);
            let found = block.compare_table(&spoiled).unwrap().unwrap();
            let (port, _) = &spoiled.outputs()[0];
            assert_eq!(&block.output_names()[found.output], port);
            assert_eq!(found.setting, lowest);
        }
        caught += 1;
    };
    for_blocks(0..4_000, Size::SMALL, |random, _, words| {
        judge(random, words)
    });
    for_typical_blocks(0..100, |random, _, words| judge(random, words));
    println!("{caught} caught, {vacuous} without a setting");
    assert!(caught >= 1_000, "{caught}");
}

/// The tables of a rendering's own model are cells again, as many at most, and accepted.
#[test]
fn cells_of_models() {
    let mut made = 0;
    for_blocks(0..3_000, Size::SMALL, |_, _, words| {
        let block = Block::from_words(words).unwrap();
        let Ok(rendering) = block.render() else {
            return;
        };
        let module = module_name("m");
        let model = blif(&rendering, &module);
        let _report = Report(|| model.clone());
        let table = cells_of_blif(&model, &rendering, &module).unwrap();
        assert_eq!(block.compare_table(&table), Ok(None));
        assert!(table.count() <= rendering.gates() + block.outputs());
        made += 1;
    });
    assert!(made >= 1_000, "{made}");
}

/// What a mapper may write, and what it may not.
#[test]
fn models_that_are_no_cells() {
    let block = Block::read("(in a)\n(in b)\n(gate p (nor a b))\n(out y p)\n(out a p)\n").unwrap();
    let cells = |lines: &str| {
        let model = format!(".model m\n.inputs b a\n.outputs y a__output\n{lines}.end\n");
        let table = cells_of_blif(&model, &block, &module_name("m"));
        table.map_err(|error| error.to_string())
    };
    let alias = ".names y a__output\n1 1\n";
    let table = cells(&format!(".names b a y\n00 1\n{alias}")).unwrap();
    assert_eq!(table.cells().words(), [1, 0, 65_534, 65_534, 0x1111]);
    assert_eq!(block.compare_table(&table), Ok(None));
    // Lines in any order, a constant behind an alias, an operand that is one, rows for 0, and one cell for two equal tables.
    let odd = ".names n y\n1 1\n.names n2 a__output\n1 1\n.names one\n1\n.names a b one n\n1-1 0\n-11 0\n.names a b one n2\n1-1 0\n-11 0\n";
    let table = cells(odd).unwrap();
    assert_eq!(table.cells().words(), [0, 1, 65_535, 65_534, 0x1F1F]);
    assert_eq!(block.compare_table(&table), Ok(None));
    let constant = cells(".names y\n1\n.names a__output\n").unwrap();
    assert_eq!(constant.count(), 2);
    let differs = block.compare_table(&constant).unwrap().unwrap();
    assert_eq!((differs.setting, differs.output), (0, 1));
    for (lines, why) in [
        (
            ".names x y\n1 1\n.names y x\n1 1\n.names a__output\n",
            "4: y reads itself",
        ),
        (".names x y\n1 1\n.names a__output\n", "7: nothing drives x"),
        (".names a y\n1 1\n", "6: nothing drives a__output"),
        (
            ".names a a a b b y\n11111 1\n",
            "4: a table of 5 operands, and a cell has 4",
        ),
        (
            ".names y\n.names y\n.names a__output\n",
            "5: y is driven twice",
        ),
    ] {
        let told = cells(lines).map(|_| ());
        // A ring is told at the line where the search meets it again.
        let line = |told: &str| told.split_once(": ").map(|(_, why)| why.to_string());
        assert_eq!(told.map_err(|told| line(&told)), Err(line(why)), "{lines}");
    }
    let model = ".model m\n.inputs a b\n.outputs x\n.names x\n.end\n";
    let missing = cells_of_blif(model, &block, &module_name("m"));
    assert_eq!(missing.unwrap_err().reason, "there is no net y");
    assert!(cells_of_blif("", &block, &module_name("m")).is_err());
}

/// The driver with nothing on its PATH but a stand-in for ABC, if one is given.
fn fit(scratch: &Scratch, abc: Option<&str>, words: &[&str]) -> Output {
    mapper::run_with(scratch, abc.map(|script| ("abc", script)), words)
}

/// The output is b where something is settled, and nothing is where a is 1 and b is 0, which never comes.
const NETLIST: &str =
    "(in a)\n(in b)\n(never (a 1) (b 0))\n(gate p (and a q))\n(gate q (or b p))\n(out y q)\n(out z p)\n";
/// How the stand-in answers: with a model of these tables.
fn model(tables: &str) -> String {
    format!("printf '.model m\\n.inputs a b\\n.outputs y z\\n{tables}.end\\n' > out.blif\n")
}
/// A right result: y is b, and z one cell.
const RIGHT: &str = ".names b y\\n1 1\\n.names a b z\\n11 1\\n";
/// One that is wrong where both pins are 1, and looks smaller.
const WRONG: &str = ".names b y\\n1 1\\n.names z\\n";
const FIRST: &str = "strash; ifraig; dch; if -K 4";
const EXCLUDING: &str = "n.net: settled settings: 3 of 3, 1 excluded\n";

/// The table of the netlist with these comments and cells.
fn table(count: usize, by: &str, cells: &str, nodes: [usize; 2]) -> String {
    let cells_counted = if count == 1 {
        "1 cell".to_string()
    } else {
        format!("{count} cells")
    };
    format!(
        "# cells n {count}\n# cells for n.net, by unloop\n# {cells_counted}, 4 in the rendering, accepted by CompareCells; by {by}\n\
         # never a = 1, b = 0\n# inputs 2 a b\n{cells}# outputs 2\n# output y {}\n# output z {}\n",
        nodes[0], nodes[1]
    )
}

/// The rendering's own cells.
fn own() -> String {
    let cells = "# _0 lookup 1\n0 65534 65534 65534 34952\n# _1 lookup 2\n1 2 65534 65534 61166\n\
                 # _2 lookup 2\n0 3 65534 65534 34952\n# _3 lookup 2\n1 4 65534 65534 61166\n";
    table(4, "the rendering as it is", cells, [5, 4])
}

/// A right result becomes a table; the mapper got the rendering, and what never comes as what it need not care for.
#[test]
fn fitted() {
    let scratch = with(&[("n.net", NETLIST)]);
    let log = scratch.path("log");
    let abc = format!(
        "echo \"$@\" >> '{0}'\n/bin/cat in.blif care.blif >> '{0}'\n{1}",
        log.display(),
        model(RIGHT)
    );
    let by = format!("ABC, {FIRST}");
    let output = table(1, &by, "# _0 lookup 2\n0 1 65534 65534 34952\n", [1, 2]);
    let errors = format!("n.net: 1 cell, 4 in the rendering, accepted; by {by}\n{EXCLUDING}");
    told(
        fit(&scratch, Some(&abc), &["--fit", "n.net"]),
        0,
        &output,
        &errors,
    );
    let log = scratch.get("log");
    let call = format!("-q read_blif in.blif; {FIRST}; write_blif out.blif\n");
    assert!(log.starts_with(&call), "{log}");
    let rendering = Block::read(NETLIST).unwrap().render().unwrap();
    let sent = blif(&rendering, &module_name("rendering"));
    let care = ".model care\n.inputs a b\n.outputs _care\n.names a b _care\n10 0\n.end\n";
    let calls = log.matches(&format!("{sent}{care}")).count();
    // Five scripts, and each once more with what need not be cared for.
    assert_eq!(
        (calls, log.matches("care_set care.blif; mfs").count()),
        (10, 10),
        "{log}"
    );
    scratch.put("fitted.cells", &output);
    let words = ["--check-cells", "fitted.cells", "n.net"];
    let accepted = "fitted.cells: accepted\n  settled settings: 3 of 3, 1 excluded\n";
    told(run(&scratch, &words), 0, accepted, "");
}

/// A mapper that lies is not believed, one that breaks is no harm; in their place stand the rendering's own cells, which are accepted too.
#[test]
fn nothing_is_written_that_is_not_accepted() {
    let scratch = with(&[("n.net", NETLIST)]);
    let taken = "n.net: 4 cells, 4 in the rendering, accepted; by the rendering as it is\n";
    for (abc, why) in [
        (model(WRONG), "ABC's result is not accepted"),
        ("exit 3\n".to_string(), "ABC wrote nothing (exit status: 3)"),
        (
            "echo x >&2\n".to_string(),
            "ABC wrote nothing (exit status: 0) x",
        ),
        (
            model(RIGHT) + "exit 1\n",
            "ABC wrote nothing (exit status: 1)",
        ),
        (
            "echo nonsense > out.blif\n".to_string(),
            "ABC's result, line 1: nonsense outside of a model",
        ),
        (
            model(".names y z\\n1 1\\n"),
            "ABC's result, line 6: nothing drives y",
        ),
    ] {
        let ended = fit(&scratch, Some(&abc), &["--fit", "n.net"]);
        let errors = String::from_utf8(ended.stderr).unwrap();
        assert_eq!(String::from_utf8(ended.stdout).unwrap(), own(), "{errors}");
        assert_eq!(ended.status.code(), Some(0));
        assert!(
            errors.starts_with(taken) && errors.ends_with(EXCLUDING),
            "{errors}"
        );
        let failures = format!("n.net: not taken: {why} (10 scripts)\n");
        assert_eq!(errors, format!("{taken}{failures}{EXCLUDING}"));
    }
    // A file that can't be started.
    let ended = fit(&scratch, Some("#\0"), &["--fit", "n.net"]);
    assert_eq!(ended.stdout, own().into_bytes());
}

/// Of several results the smallest that is accepted is taken.
#[test]
fn the_smallest_is_taken() {
    let scratch = with(&[("n.net", NETLIST)]);
    let larger = ".names b x\\n0 1\\n.names x y\\n0 1\\n.names a b z\\n11 1\\n";
    let abc = format!(
        "case $2 in *lutpack*care_set*) {} ;; *dc2*) {} ;; *) {} ;; esac\n",
        model(RIGHT).trim(),
        model(WRONG).trim(),
        model(larger).trim()
    );
    let ended = fit(&scratch, Some(&abc), &["--fit", "--json", "n.net"]);
    let object = String::from_utf8(ended.stdout).unwrap();
    let head = "{\"file\":\"n.net\",\"accepted\":true,\"cells\":1,\"before\":4,\"by\":\"ABC, strash; ifraig; dch; if -K 4 -a; mfs2 -a -L 20; lutpack";
    assert!(object.starts_with(head), "{object}");
    assert!(
        object.ends_with("# output z 2\\n\",\"excluded\":1}\n"),
        "{object}"
    );
    assert!(
        object.contains("[\"ABC's result is not accepted (2 scripts)\"]"),
        "{object}"
    );
}

/// Without ABC that is said, with how to get it, and the rendering's own cells are written.
#[test]
fn without_abc() {
    let scratch = with(&[
        ("n.net", NETLIST),
        ("l.net", "(gate p (not p))\n(out y p)\n"),
    ]);
    let missing = "unloop: ABC is not on the PATH (as abc, berkeley-abc, yosys-abc; Debian has it as berkeley-abc): \
                   the cells are those of the rendering\n";
    let taken = format!(
        "n.net: 4 cells, 4 in the rendering, accepted; by the rendering as it is\n{EXCLUDING}"
    );
    let refused = "l.net: undecided\n  not settled: y undefined\n  p waits for itself\n  settles under no setting\n";
    let ended = fit(&scratch, None, &["--fit", "n.net", "l.net"]);
    told(ended, 1, &own(), &format!("{missing}{taken}{refused}"));
    // Into a folder, beside reports as JSON; what is there is not replaced without a word.
    let ended = fit(
        &scratch,
        None,
        &["--into", "out", "--fit", "n.net", "l.net"],
    );
    told(ended, 1, "", &format!("{missing}{taken}{refused}"));
    assert_eq!(scratch.names("out"), ["n.cells"]);
    assert_eq!(scratch.get("out/n.cells"), own());
    let ended = fit(&scratch, None, &["--fit", "--into", "out", "n.net"]);
    let exists = "unloop: out/n.cells: exists already (--force replaces it)\n";
    told(ended, 2, "", &format!("{missing}{exists}"));
    let ended = fit(
        &scratch,
        None,
        &["--fit", "--into", "out", "--force", "--json", "n.net"],
    );
    let output = String::from_utf8(ended.stdout).unwrap();
    assert!(
        output.starts_with("{\"file\":\"n.net\",\"accepted\":true,\"cells\":4,"),
        "{output}"
    );
    let words = ["--fit", "-o", "x", "--into", "out", "n.net"];
    let error = "unloop: --into DIR without --json writes nothing to standard output, so -o has no use (see --help)\n";
    told(run(&scratch, &words), 2, "", error);
    let error = "unloop: --fit and --cells don't go together (see --help)\n";
    told(run(&scratch, &["--fit", "--cells", "n.net"]), 2, "", error);
}

/// Cells over other inputs are no table of the block's.
#[test]
fn cells_over_other_inputs() {
    let block = Block::read("(in a)\n(out y a)\n").unwrap();
    let table = CellTable::read("# inputs 2\n# outputs 1\n# output y 0\n").unwrap();
    assert_eq!(block.compare_table(&table), Err(Refusal::InterfaceMismatch));
}
