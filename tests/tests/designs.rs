//! Designs of any size with their loops taken out: held to a separately written simulator of whole models, and line by line to the original.

mod session;

use session::{run, told, with};
use simulator::circuit::Circuit;
use simulator::executed::Scratch;
use simulator::generate::designs::{design, Design, Planted, TAKEN_OUT};
use simulator::generate::{Random, Report};
use simulator::values::UNDEFINED;
use std::collections::HashMap;

/// A design's text without its loops, and how many were taken out; those that can't be stay.
fn straightened(text: &str, promises: &str) -> (String, usize) {
    let design = unloop::design::Design::read(text, None).expect("a design");
    let promises = design.promises(promises).expect("promises");
    let pieces: Vec<_> = (0..design.loops().len())
        .map(|number| design.taken_out(number, &promises).ok())
        .collect();
    let taken = pieces.iter().flatten().count();
    (design.written(&pieces), taken)
}

/// Settings of the nets that are set from outside, undefined ones among them where these are wanted.
fn setting<'a>(
    random: &mut Random,
    circuit: &'a Circuit,
    with_undefined: bool,
) -> HashMap<&'a str, u8> {
    let values = if with_undefined {
        &[0, 1, UNDEFINED][..]
    } else {
        &[0, 1]
    };
    let free = circuit.free.iter();
    free.map(|name| (&name[..], random.pick(values))).collect()
}

/// Both show the same at every net that both have, under settings of 0s and 1s; with undefined nets at least nothing else. Tells how many
/// values were compared.
fn assert_same(
    random: &mut Random,
    before: &Circuit,
    after: &Circuit,
    settings: usize,
    is_whole: bool,
) -> usize {
    assert_eq!(
        (&before.inputs, &before.outputs),
        (&after.inputs, &after.outputs)
    );
    let mut compared = 0;
    for number in 0..settings {
        let undefined = number % 4 == 3;
        let setting = setting(random, before, undefined);
        let (old, new) = (before.settled(&setting), after.settled(&setting));
        let is_same = |old: u8, new: u8| {
            let either = old == UNDEFINED || new == UNDEFINED;
            old == new || (undefined || !is_whole) && either
        };
        for (name, &net) in before.named() {
            if let Some(&there) = after.named().get(name) {
                assert!(
                    is_same(old[net], new[there]),
                    "{name}: {} {}",
                    old[net],
                    new[there]
                );
                compared += 1;
            }
        }
        let (old, new) = (before.seen(&old), after.seen(&new));
        assert_eq!(old.len(), new.len());
        assert!(old.iter().zip(&new).all(|(&old, &new)| is_same(old, new)));
    }
    compared
}

/// Every line that is of no loop stands there as it stood, in order; what is between them takes the place of loops.
fn assert_kept(design: &Design, before: &str, after: &str) {
    let mut kept = design.kept(before).into_iter().peekable();
    for line in after.lines() {
        let is_new =
            line.starts_with("# unloop ") || line.starts_with(".names ") || !line.starts_with('.');
        match kept.next_if_eq(&line) {
            Some(_) => {}
            None => assert!(
                is_new,
                "{line} is not of the design; next is {:?}",
                kept.peek()
            ),
        }
    }
    assert_eq!(kept.next(), None);
}

fn shapes(random: &mut Random, of: &[Planted], count: usize) -> Vec<Planted> {
    (0..count).map(|_| random.pick(of)).collect()
}

fn planted(shapes: &[Planted]) -> usize {
    shapes.iter().map(|shape| shape.loops()).sum()
}

/// All loops of designs of 1,000 gates are taken out, and what is left shows what it showed.
#[test]
fn small_designs() {
    let (mut taken, mut values) = (0, 0);
    for seed in 0..40 {
        let mut random = Random::new(seed);
        let shapes = shapes(&mut random, &TAKEN_OUT, 8);
        let made = design(&mut random, 1_000, &shapes);
        let text = made.text(&mut random);
        let _report = Report(|| format!("seed {seed}, {shapes:?}"));
        let (straight, count) = straightened(&text, &made.promises.join("\n"));
        assert_eq!(count, planted(&shapes));
        taken += count;
        assert_kept(&made, &text, &straight);
        let (before, after) = (Circuit::of(&text), Circuit::of(&straight));
        assert!(before.has_loop() && !after.has_loop());
        values += assert_same(&mut random, &before, &after, 32, true);
    }
    assert!(taken > 320 && values > 1_000_000, "{taken} {values}");
}

/// The same of 10,000 and 100,000 gates.
#[test]
fn large_designs() {
    for (gates, loops) in [(10_000, 40), (100_000, 200)] {
        let mut random = Random::new(gates as u64);
        let shapes = shapes(&mut random, &TAKEN_OUT, loops);
        let made = design(&mut random, gates, &shapes);
        let text = made.text(&mut random);
        let (straight, count) = straightened(&text, &made.promises.join("\n"));
        assert_eq!(count, planted(&shapes));
        assert_kept(&made, &text, &straight);
        let (before, after) = (Circuit::of(&text), Circuit::of(&straight));
        assert!(before.has_loop() && !after.has_loop());
        assert_same(&mut random, &before, &after, 12, true);
    }
}

/// Loops that can't be taken out stay line by line, and the others are taken out all the same.
#[test]
fn loops_that_stay() {
    for seed in 0..20 {
        let mut random = Random::new(seed);
        let all = [&TAKEN_OUT[..], &[Planted::Latch, Planted::Wide]].concat();
        let shapes = shapes(&mut random, &all, 10);
        let made = design(&mut random, 1_000, &shapes);
        let text = made.text(&mut random);
        let _report = Report(|| format!("seed {seed}, {shapes:?}"));
        let (straight, count) = straightened(&text, &made.promises.join("\n"));
        let stay = shapes
            .iter()
            .filter(|shape| [Planted::Latch, Planted::Wide].contains(shape));
        assert_eq!(count + stay.clone().count(), planted(&shapes));
        let (before, after) = (Circuit::of(&text), Circuit::of(&straight));
        assert_eq!(after.has_loop(), stay.count() > 0);
        assert_same(&mut random, &before, &after, 16, false);
    }
}

/// A loop of two gates, a latch by mistake, a register, remarks, and lines that go on.
const SMALL: &str = "# a small design\n.model top\n.inputs s a b clk\n.outputs y z\n.names s q p\n11 1\n# between them\n\
    .names s \\\n p q # the or\n1- 1\n\n-1 1\n.cname the_or\n.names q n\n0 1\n.latch n r re clk 0\n.names r a y\n11 1\n\
    .names a b z k\n1-- 1\n-11 1\n.names k z\n1 1\n.end\n# behind it\n";

/// What is told of its second loop.
const UNDECIDED: &str = "small.blif:19: the loop of k, z: undecided\n  not settled with a = 0, b = 1: z undefined\n  k waits for itself\n  \
    settles with a = 1\n  settles with b = 0\n  it reads from outside a, b\n";

/// What is told of it at the head of the file.
const FIRST_TOLD: &str = "# unloop 1: the loop of p, q: 2 lines became 4 gates\n";

/// What takes the first loop's place; the remark on it goes with it, and the comments and the empty line stay.
const FIRST_TAKEN: &str = "# a small design\n.model top\n.inputs s a b clk\n.outputs y z\n\
    .names s unloop_1_0\n- 0\n.names s unloop_1_0 unloop_1_1\n00 0\n\
    .names s unloop_1_1 unloop_1_2\n11 1\n.names s unloop_1_2 q\n00 0\n# between them\n\n.names q n\n0 1\n.latch n r re clk 0\n\
    .names r a y\n11 1\n";

/// The design, a promise that its second loop needs, and a file that is there.
fn small() -> Scratch {
    with(&[
        ("small.blif", SMALL),
        ("never", "b = 1, a = 0\n"),
        ("out", "before"),
    ])
}

/// Nothing is written where one loop is refused, not even the file of -o; with --partial the others are gone.
#[test]
fn a_refused_design() {
    let scratch = small();
    let summary = "small.blif: 6 gates, 2 loops: 1 taken out, 1 refused\n";
    let refused = format!("{UNDECIDED}{summary}");
    told(run(&scratch, &["--design", "small.blif"]), 1, "", &refused);
    let words = ["--design", "small.blif", "-o", "out"];
    told(run(&scratch, &words), 1, "", &refused);
    assert_eq!(scratch.get("out"), "before");
    let rest = ".names a b z k\n1-- 1\n-11 1\n.names k z\n1 1\n.end\n# behind it\n";
    let partial = format!("{FIRST_TOLD}{FIRST_TAKEN}{rest}");
    let words = ["--design", "--partial", "small.blif"];
    told(run(&scratch, &words), 1, &partial, &refused);
}

/// With a promise both are gone; in what is written nothing is left to do, and lines end as they did.
#[test]
fn a_design_on_a_promise() {
    let scratch = small();
    let told_second =
        "# unloop 2: the loop of k, z: 2 lines became 4 gates\n# unloop 2: rests on never b = 1, a = 0\n";
    let second = ".names a unloop_2_0\n- 0\n.names a unloop_2_0 unloop_2_1\n00 0\n.names b unloop_2_1 unloop_2_2\n11 1\n\
        .names a unloop_2_2 z\n00 0\n.end\n# behind it\n";
    let straight = format!("{FIRST_TOLD}{told_second}{FIRST_TAKEN}{second}");
    let summary = "small.blif: 6 gates, 2 loops: 2 taken out (1 on promises), 0 refused\n";
    let words = ["--design", "--never=never", "small.blif"];
    told(run(&scratch, &words), 0, &straight, summary);
    let words = ["--design", "small.blif", "--never", "never", "-oout"];
    told(run(&scratch, &words), 0, "", summary);
    assert_eq!(scratch.get("out"), straight);
    let nothing = "out: 10 gates, 0 loops: 0 taken out, 0 refused\n";
    told(run(&scratch, &["--design", "out"]), 0, &straight, nothing);
    scratch.put("small.blif", SMALL.replace('\n', "\r\n"));
    let straight = straight.replace('\n', "\r\n");
    let words = ["--design", "--never=never", "small.blif"];
    told(run(&scratch, &words), 0, &straight, summary);
}

#[test]
fn designs_as_json() {
    let scratch = with(&[("small.blif", SMALL)]);
    let first = r#"{"file":"small.blif","model":"top","line":5,"nets":["p","q"],"boundary":["s"],"ports":["q"],"word":"rendered","rendering_gates":4,"rests_on":[]}"#;
    let second = r#"{"file":"small.blif","model":"top","line":19,"nets":["k","z"],"boundary":["a","b"],"ports":["z"],"word":"undecided","number":9,"setting":{"a":0,"b":1},"undefined":["z"],"waits":["k"],"cover":[{"a":1},{"b":0}]}"#;
    let whole = r#"{"file":"small.blif","gates":6,"loops":2,"taken_out":1,"placed":[],"not_in_the_file":[],"rests_on":[]}"#;
    let errors = format!("{UNDECIDED}small.blif: 6 gates, 2 loops: 1 taken out, 1 refused\n");
    let objects = format!("{first}\n{second}\n{whole}\n");
    told(
        run(&scratch, &["--design", "--json", "small.blif"]),
        1,
        &objects,
        &errors,
    );
    let ended = run(&scratch, &["--design", "--json", "--partial", "small.blif"]);
    assert!(String::from_utf8_lossy(&ended.stdout)
        .contains(r##","rests_on":[],"written":"# unloop 1: the loop of p, q"##));
}

/// Promises through buffers and inverters, promises that say nothing of a loop, and texts that are none.
#[test]
fn promises_about_nets() {
    let text = ".model m\n.inputs e d\n.outputs q w\n.names e off\n0 1\n.names off also\n1 1\n.names off d q q\n01- 1\n1-1 1\n.names e w\n1 1\n.end\n";
    let scratch = with(&[("m.blif", text)]);
    let tried = |promise: &str, status: i32, errors: &str| {
        scratch.put("never", promise);
        let ended = run(&scratch, &["--design", "m.blif", "--never", "never"]);
        let (text, lines) = (
            String::from_utf8_lossy(&ended.stdout),
            String::from_utf8_lossy(&ended.stderr),
        );
        assert_eq!(
            (ended.status.code(), &lines[..]),
            (Some(status), errors),
            "{promise}"
        );
        text.into_owned()
    };
    let taken = "m.blif: 4 gates, 1 loop: 1 taken out (1 on promises), 0 refused\n";
    for promise in [
        "e = 0",
        "off = 1",
        "also = 1 # through a buffer",
        "\n  also=1",
    ] {
        let straight = tried(promise, 0, taken);
        assert!(
            straight.contains("# unloop 1: rests on never "),
            "{straight}"
        );
        assert!(!Circuit::of(&straight).has_loop());
    }
    let undecided = "m.blif:8: the loop of q: undecided\n  not settled with e = 0, d = 0: q undefined\n  q waits for itself\n  \
        settles with e = 1\n  it reads from outside e, d\n";
    let refused = "m.blif: 4 gates, 1 loop: 0 taken out, 1 refused\n";
    for promise in ["e = 0, w = 0, off = 0", "q = 1"] {
        let unused = format!("m.blif: no loop needs the promise of line 1: never {promise}\n");
        assert_eq!(
            tried(promise, 1, &format!("{undecided}{unused}{refused}")),
            ""
        );
    }
    let warned = "m.blif:8: warning: promises exclude all that can come to the loop of q, so nothing is said of it\n";
    tried("e = 0\ne = 1\n", 0, &format!("{warned}{taken}"));
    for (promise, error) in [
        ("e = 0\nf = 1", "never:2: no net is named f"),
        ("e", "never:1: not PIN = 0 or PIN = 1: e"),
        ("e = 2", "never:1: not PIN = 0 or PIN = 1: e = 2"),
        ("e = 0, e = 0", "never:1: e is given twice"),
    ] {
        tried(promise, 2, &format!("unloop: {error}\n"));
    }
}

/// A loop through instances has these put in place; a loop inside of an instance is taken out in its model, once; the rest stays.
#[test]
fn loops_through_instances() {
    let text = ".model top\n.inputs s a c\n.outputs y z w\n.subckt unit i=a l=f sel=s o=g\n.subckt unit i=ng l=a sel=s o=f\n\
        .names g ng\n0 1\n.subckt tail x=f y=y\n.subckt tail x=g y=z\n.subckt clocked d=f c=c q=w\n.end\n\
        .model unit # a mux with a register and a part of its own\n.inputs i l sel\n.outputs o\n.subckt pick sel=sel p=i q=l o=m\n\
        .names m k o\n1- 1\n-1 1\n.subckt clocked d=m c=sel q=k0\n.names k0 k\n.end\n\
        .model pick\n.inputs sel p q\n.outputs o\n.names sel p q o\n11- 1\n0-1 1\n.end\n\
        .model clocked\n.inputs d c\n.outputs q\n.latch d q re c 0\n.end\n\
        .model tail\n.inputs x\n.outputs y\n.names x q p\n11 1\n.names x p q\n1- 1\n-1 1\n.names q y\n0 1\n.end\n";
    let scratch = with(&[("h.blif", text)]);
    let ended = run(&scratch, &["--design", "h.blif"]);
    let errors = "h.blif: a loop passes through unit.1, pick.2, unit.4, pick.5: put in place\nh.blif: 10 gates, 2 loops: 2 taken out, 0 refused\n";
    assert_eq!(String::from_utf8_lossy(&ended.stderr), errors);
    let straight = String::from_utf8_lossy(&ended.stdout).into_owned();
    for stays in [
        ".subckt tail x=f y=y\n.subckt tail x=g y=z\n.subckt clocked d=f c=c q=w\n.end\n.model unit # a mux",
        "\n.subckt clocked d=unit.1.m c=s q=unit.1.k0\n",
        ".names x p q\n",
    ] {
        assert_eq!(straight.matches(stays).count(), usize::from(stays != ".names x p q\n"), "{stays}\n{straight}");
    }
    let (before, after) = (Circuit::of(text), Circuit::of(&straight));
    assert!(before.has_loop() && !after.has_loop());
    let mut random = Random::new(7);
    for _ in 0..200 {
        let values: HashMap<&str, u8> = ["s", "a", "c"]
            .map(|net| (net, random.pick(&[0, 1])))
            .into();
        let (old, new) = (before.settled(&values), after.settled(&values));
        for net in ["f", "g", "y", "z"] {
            assert_eq!(
                old[before.named()[net]],
                new[after.named()[net]],
                "{net} {values:?}\n{straight}"
            );
            assert_ne!(old[before.named()[net]], UNDEFINED);
        }
    }
}

/// What can't be read, what stays unknown, and words that don't go together.
#[test]
fn designs_that_are_not_read() {
    let body = |lines: &str| format!(".model m\n.inputs s\n.outputs y\n{lines}\n.end\n");
    for (lines, error) in [
        (".names s y\n1 1\n.names s y\n0 1", "6: y is driven twice"),
        (".latch s y\n.names s y\n1 1", "5: y is driven twice"),
        (".latch t y", "4: nothing drives t"),
        (".names t y\n1 1", "4: nothing drives t"),
        (".gate other a=s O=y", "4: other is no cell of the library"),
        (
            ".mlatch D d=s q=y c",
            "4: .mlatch is not read: a model has .names, .gate and .subckt lines",
        ),
        (
            ".subckt m s=s y=y",
            "1: m holds itself, or a model that does",
        ),
    ] {
        let told = unloop::design::Design::read(&body(lines), None).map(|_| ());
        assert_eq!(
            told.map_err(|error| error.to_string()),
            Err(error.to_string()),
            "{lines}"
        );
    }
    let ram = body(".subckt ram d=q e=s o=p\n.names p q q\n11 1\n.names q y\n1 1");
    let scratch = with(&[("ram.blif", &ram), ("never", "")]);
    let errors = "ram.blif:5: the loop of q: undecided\n  not settled with p = 1: q undefined\n  q waits for itself\n  settles with p = 0\n  \
        it reads from outside p\nram.blif: not in the file, so that a loop through it is not seen: ram\n\
        ram.blif: 2 gates, 1 loop: 0 taken out, 1 refused\n";
    told(run(&scratch, &["--design", "ram.blif"]), 1, "", errors);
    let usage: &[(&[&str], &str)] = &[
        (
            &["--design", "ram.blif", "ram.blif"],
            "--design takes one FILE (see --help)",
        ),
        (
            &["--design", "--cover", "ram.blif"],
            "--design and --cover don't go together (see --help)",
        ),
        (
            &["--never", "never", "ram.blif"],
            "--never NEVERS needs --design (see --help)",
        ),
        (
            &["--partial", "ram.blif"],
            "--partial needs --design (see --help)",
        ),
        (
            &["--design", "--force", "ram.blif"],
            "--design doesn't go with --force or --json (see --help)",
        ),
        (
            &["--design", "--names", "n", "ram.blif"],
            "--names NAMES needs --from-blif, --verilog or --blif (see --help)",
        ),
        (
            &["--design", "ram.blif", "-o", "ram.blif"],
            "ram.blif: is one of the FILEs, and isn't overwritten",
        ),
        (
            &["--design", "ram.blif", "--never", "none"],
            "none: No such file or directory",
        ),
        (
            &["--design", "ram.blif", "--model", "n"],
            "ram.blif:1: no model is called n; there is m",
        ),
    ];
    for (words, error) in usage {
        told(run(&scratch, words), 2, "", &format!("unloop: {error}\n"));
    }
}

/// A loop that nothing reads is gone, however it is.
#[test]
fn loops_that_nothing_reads() {
    let text = ".model m\n.inputs a\n.outputs y\n.names p p\n0 1\n.names a y\n0 1\n.end\n";
    let straight = "# unloop 1: the loop of p: 1 lines became 0 gates\n.model m\n.inputs a\n.outputs y\n.names a y\n0 1\n.end\n";
    assert_eq!(straightened(text, ""), (straight.to_string(), 1));
}

/// A row of gates in a loop, all of which read s; the first of them are outputs.
fn row(gates: usize) -> String {
    let outputs: String = (0..gates.min(40)).map(|gate| format!("g{gate} ")).collect();
    let rows = |gate: usize| if gate == 1 { "1- 1\n-1" } else { "11" };
    let line = |gate: usize| {
        let before = (gate + gates - 1) % gates;
        format!(".names s g{before} g{gate}\n{} 1\n", rows(gate))
    };
    let lines: String = (0..gates).map(line).collect();
    format!(".model m\n.inputs s\n.outputs {outputs}\n{lines}.end\n")
}

/// More nets or gates than a block has, and a rendering that is too large: told with the numbers.
#[test]
fn loops_that_are_too_large() {
    let nets: Vec<String> = (0..13).map(|number| format!("i{number}")).collect();
    let names = nets.join(" ");
    let wide = format!(
        ".model m\n.inputs {names}\n.outputs y\n.names {names} y y\n{} 1\n.end\n",
        "1".repeat(14)
    );
    let scratch = with(&[
        ("wide.blif", &wide),
        ("long.blif", &row(2_000)),
        ("half.blif", &row(700)),
    ]);
    let errors = format!(
        "wide.blif:4: the loop of y reads 13 nets from outside, and a block may have 12 inputs\n  it reads from outside {}\n\
         wide.blif: 1 gate, 1 loop: 0 taken out, 1 refused\n",
        nets.join(", ")
    );
    told(run(&scratch, &["--design", "wide.blif"]), 1, "", &errors);
    let errors = "long.blif:4: the loop of g0, g1, g2, g3 and 1996 more is too large for a netlist: it has 2000 gates, and may have 1024\n  \
        it reads from outside s\nlong.blif: 2000 gates, 1 loop: 0 taken out, 1 refused\n";
    told(run(&scratch, &["--design", "long.blif"]), 1, "", errors);
    let ended = run(&scratch, &["--design", "half.blif"]);
    let errors = String::from_utf8_lossy(&ended.stderr);
    let swollen = "swollen: 1400 gates in the rendering, 376 more than 1024\n";
    assert!(errors.contains(swollen), "{errors}");
}

/// Forty ports are rendered sixteen at a time, and take no more gates than one rendering.
#[test]
fn ports_in_turns() {
    let text = row(40);
    let (straight, taken) = straightened(&text, "");
    let (before, after) = (Circuit::of(&text), Circuit::of(&straight));
    assert!(taken == 1 && !after.has_loop());
    assert_same(&mut Random::new(1), &before, &after, 8, true);
    assert!(straight.matches(".names ").count() <= 81, "{straight}");
}

/// A ring of seats of which one begins, as a decoder of some pins says: undecided by itself, or with more nets than a block has, but not with
/// the decoder; and with one that can say that nobody begins, refused.
#[test]
fn boundaries_that_are_moved_outwards() {
    let ring = |pins: usize, first: usize| {
        let seats = 1 << pins;
        let names: Vec<String> = (0..pins).map(|pin| format!("p{pin}")).collect();
        let mut text = format!(".model m\n.inputs {}\n.outputs t0\n", names.join(" "));
        for seat in 0..seats {
            let (row, before) = (format!("{seat:0pins$b}"), (seat + seats - 1) % seats);
            let rows = if seat < first {
                String::new()
            } else {
                format!("{row} 1\n")
            };
            text += &format!(".names {} b{seat}\n{rows}", names.join(" "));
            text += &format!(
                ".names b{seat} p{} t{before} t{seat}\n1-- 1\n-11 1\n",
                seat % pins
            );
        }
        text + ".end\n"
    };
    for (pins, copies) in [(2, 4), (3, 8), (4, 16)] {
        let text = ring(pins, 0);
        let (straight, taken) = straightened(&text, "");
        let told = format!(", with copies of {copies} that it reads, became ");
        assert!(taken == 1 && straight.contains(&told), "{straight}");
        let (before, after) = (Circuit::of(&text), Circuit::of(&straight));
        assert!(!after.has_loop());
        assert_same(&mut Random::new(pins as u64), &before, &after, 64, true);
        let decodes = |line: &&str| line.starts_with(".names p") && line.contains(" b");
        let decoder: Vec<&str> = text.lines().filter(decodes).collect();
        assert!(decoder.iter().all(|line| straight.contains(line)));
    }
    assert_eq!(straightened(&ring(2, 4), "").1, 0);
}
