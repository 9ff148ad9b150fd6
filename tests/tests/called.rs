//! The installed Python module: its answers are the Rust package's, on the catalogue, on spoiled texts and on spoiled words; its own examples hold;
//! its types are right. And what docs/CALLING.md prints goes as it is printed.

mod prefix;

use prefix::moved;
use simulator::executed::{ended, netlists, root, sought_loudly, version, Scratch};
use std::fmt::Display;
use std::fs;
use std::process::Command;
use unloop::{raw, Assignment, Block, Cells, Disagreement, Refusal, Value};

/// Python with the installed module, in a folder that holds nothing else of ours.
fn python(scratch: &Scratch) -> Option<Command> {
    let mut python = Command::new(sought_loudly("python3", "the Python module")?);
    let module = scratch.path("moved/share/unloop/python");
    python.env("PYTHONPATH", module).env_remove("UNLOOP_SHARED");
    python.current_dir(scratch.path("."));
    Some(python)
}

fn listed<T: Display>(elements: impl IntoIterator<Item = T>) -> String {
    let words: Vec<String> = elements.into_iter().map(|one| one.to_string()).collect();
    words.join(" ")
}

fn shown(values: &[Value]) -> String {
    let letter = |value: &Value| ['0', '1', 'u'][*value as usize];
    values.iter().map(letter).collect()
}

fn masks(assignments: &[Assignment]) -> String {
    listed(
        assignments
            .iter()
            .map(|one| format!("{}:{}", one.fixed, one.ones)),
    )
}

fn lowest(found: Option<Disagreement>) -> String {
    match found {
        Some(found) => format!("{}:{}", found.setting, found.output),
        None => "accepted".to_string(),
    }
}

fn told(answer: Result<String, Refusal>) -> String {
    answer.unwrap_or_else(|refusal| {
        let detail = refusal.place().or(refusal.setting()).unwrap_or(0);
        format!("refused {} {detail}", refusal.number())
    })
}

fn line(block: &Block) -> String {
    block.write().replace('\n', "/")
}

/// Some settings of a block, one with every input undefined and one that has too many values.
fn settings(block: &Block) -> Vec<Vec<Value>> {
    let last = (1 << block.inputs()) - 1;
    let mut numbers = vec![0, last / 2, last];
    numbers.dedup();
    let mut settings: Vec<Vec<Value>> = numbers
        .iter()
        .map(|&number| block.setting(number).unwrap())
        .collect();
    settings.push(vec![Value::Undefined; block.inputs()]);
    settings.push(vec![Value::One; block.inputs() + 1]);
    settings
}

fn sheet(block: &Block) -> String {
    let mut asked = vec![Assignment::default()];
    for node in 0..=block.inputs() {
        for ones in [0, 1 << node] {
            let fixed = 1 << node;
            asked.push(Assignment { fixed, ones });
        }
    }
    asked.push(Assignment { fixed: 0, ones: 1 });
    let row = |row: Result<Vec<Value>, Refusal>| match row {
        Ok(values) => format!("/{}", shown(&values)),
        Err(_) => "refused".to_string(),
    };
    listed(block.sheet(&asked).into_iter().map(row))
}

/// Run on bytes, since cells have no undefined value in the Rust package.
fn run(cells: &Cells, setting: &[Value]) -> String {
    let bytes: Vec<u8> = setting.iter().map(|&value| value as u8).collect();
    let mut values = vec![0; cells.words().len()];
    let ran = raw::run(cells.inputs(), cells.words(), &bytes, &mut values).done();
    told(ran.map(|ran| values[..ran.count].iter().map(u8::to_string).collect()))
}

fn of_straight(block: &Block, straight: &Block, say: &mut impl FnMut(&str, String)) {
    let cells = straight.cells().unwrap();
    say("cells", listed(cells.words()));
    say("compare", told(block.compare(straight).map(lowest)));
    let words = straight.words();
    let nodes = words[words.len() - 5 * straight.outputs()..].chunks(5);
    let nodes: Vec<usize> = nodes.map(|output| output[4].into()).collect();
    let compared =
        |cells: &Cells, shown: &[usize]| told(block.compare_cells(cells, shown).map(lowest));
    for shown in [&nodes[..], &vec![0; block.outputs()], &[]] {
        say("compare_cells", compared(&cells, shown));
    }
    let wider = Cells::from_words(block.inputs() + 1, []);
    let wider = wider.map(|wider| compared(&wider, &nodes));
    say("compare_cells", told(wider));
    for setting in settings(block) {
        say("run", run(&cells, &setting));
    }
}

fn of_block(block: &Block, say: &mut impl FnMut(&str, String)) {
    say("words", listed(block.words()));
    say("write", line(block));
    let [inputs, outputs] = [block.input_names(), block.output_names()].map(listed);
    say(
        "names",
        format!("{inputs} : {outputs} : {}", masks(&block.never_lines())),
    );
    say(
        "counts",
        listed([block.inputs(), block.gates(), block.outputs()]),
    );
    let verdict = block.verdict();
    let other = verdict.lowest_unsettled;
    let other = other.map_or("None".to_string(), |other| other.to_string());
    say("verdict", format!("{} {other}", verdict.settled));
    say("cover", masks(&block.cover()));
    let groups = block.groups();
    say(
        "groups",
        format!("{} : {}", groups.count, listed(groups.of_gates)),
    );
    say("sheet", sheet(block));
    let gathered = block.gather();
    let (order, stored) = (listed(&gathered.order), listed(gathered.block.words()));
    say("gather", format!("{order} : {stored}"));
    of_others(block, say);
    let rendered = block.render();
    say("render", words(rendered.clone()));
    if let Ok(straight) = rendered {
        of_straight(block, &straight, say);
    }
}

fn words(made: Result<Block, Refusal>) -> String {
    told(made.map(|block| listed(block.words())))
}

/// What a looped block, an order or a setting may be refused for.
fn of_others(block: &Block, say: &mut impl FnMut(&str, String)) {
    say("scatter", words(block.scatter(&vec![0; block.gates() + 1])));
    say("bring", words(Block::bring(block.words())));
    let cells = block.cells();
    say("cells", told(cells.map(|cells| listed(cells.words()))));
    say("compare", told(block.compare(block).map(lowest)));
    for setting in settings(block) {
        let settled = block.settle(&setting);
        let settled = settled.map(|found| format!("{} {}", found.rounds, shown(&found.values)));
        say("settle", told(settled));
        let swept = block.pass(&setting);
        say("pass", told(swept.map(|values| shown(&values))));
    }
}

fn of_text(text: &[u8], say: &mut impl FnMut(&str, String)) {
    let (start, length) = raw::line(text, text.len() / 2);
    say("line", format!("{start} {length}"));
    let block = match Block::read(text) {
        Ok(block) => block,
        Err(refusal) => return say("read", told(Err(refusal))),
    };
    of_block(&block, say);
    for place in (0..block.words().len()).step_by(5) {
        let mut words = block.words().to_vec();
        words[place] ^= 1;
        say(
            "torn",
            told(Block::try_from(words).map(|block| line(&block))),
        );
    }
}

/// What tests/python/answers.py says of these files, by the Rust package.
fn expected() -> Vec<String> {
    let mut answers = Vec::new();
    let mut say = |name: &str, answer: String| answers.push(format!("{name} {answer}"));
    for path in netlists() {
        let text = fs::read(path).unwrap();
        of_text(&text, &mut say);
        of_text(&text[..text.len() / 2], &mut say);
        for place in (0..text.len()).step_by(9) {
            let mut spoiled = text.clone();
            spoiled[place] ^= 8;
            of_text(&spoiled, &mut say);
        }
    }
    answers
}

#[test]
fn python_answers_what_rust_answers() {
    let scratch = moved();
    let Some(mut python) = python(&scratch) else {
        return;
    };
    python.arg(root().join("tests/python/answers.py"));
    let output = ended(python.args(netlists()), b"");
    let errors = String::from_utf8_lossy(&output.stderr);
    assert!(output.status.success() && errors.is_empty(), "{errors}");
    let answers = String::from_utf8(output.stdout).unwrap();
    let expected = expected();
    assert!(expected.len() > 2_000);
    for (answer, expected) in answers.lines().zip(&expected) {
        assert_eq!(answer, expected);
    }
    assert_eq!(answers.lines().count(), expected.len());
}

/// The module's own examples, its version, and that it says which library it lacks.
#[test]
fn python_examples() {
    let scratch = moved();
    let run = |words: &[&str], library: Option<&str>| {
        let mut python = python(&scratch)?;
        if let Some(library) = library {
            python.env("UNLOOP_SHARED", library);
        }
        Some(ended(python.args(words), b""))
    };
    let doctest = "import doctest, unloop; failed, tried = doctest.testmod(unloop); print(unloop.__version__, failed, tried > 10)";
    let Some(output) = run(&["-c", doctest], None) else {
        return;
    };
    let told = String::from_utf8(output.stdout).unwrap();
    assert_eq!(told, format!("{} 0 True\n", version()));
    let output = run(&["-c", "import unloop"], Some("/gone.so")).unwrap();
    assert!(String::from_utf8_lossy(&output.stderr).contains("/gone.so: cannot open"));
}

#[test]
fn python_types() {
    let Some(mypy) = sought_loudly("mypy", "the types of the Python module") else {
        return;
    };
    let scratch = moved();
    let mut mypy = Command::new(mypy);
    mypy.args([
        "--strict",
        "--cache-dir=cache",
        "moved/share/unloop/python/unloop.py",
    ]);
    let output = ended(mypy.current_dir(scratch.path(".")), b"");
    assert!(output.status.success(), "{output:?}");
}

/// The indented lines of docs/CALLING.md behind a line that has these words, up to the next line of prose.
fn printed(before: &str) -> String {
    let calling = fs::read_to_string(root().join("docs/CALLING.md")).unwrap();
    let (_, rest) = calling.split_once(before).expect(before);
    let lines = rest.lines().skip(2);
    let lines = lines.map_while(|line| line.strip_prefix("    ").or(line.is_empty().then_some("")));
    lines.map(|line| format!("{line}\n")).collect()
}

/// The installation beside the first netlist of README.
fn beside_the_first() -> Scratch {
    let scratch = moved();
    let readme = fs::read_to_string(root().join("README.md")).unwrap();
    let (_, rest) = readme.split_once("Save this as `first.net`:\n\n").unwrap();
    let (first, _) = rest.split_once("\n\n").unwrap();
    scratch.put("first.net", first.replace("    ", "") + "\n");
    scratch
}

#[test]
fn c_as_printed() {
    if sought_loudly("pkg-config", "the program of docs/CALLING.md").is_none() {
        return;
    }
    let scratch = beside_the_first();
    let printed = printed("With this as my.c:").replace("PREFIX", "moved");
    let (program, lines) = printed.split_once("$ export").unwrap();
    scratch.put("my.c", program);
    let lines = format!("$ export{lines}");
    let (commands, answer): (Vec<&str>, Vec<&str>) =
        lines.lines().partition(|line| line.starts_with("$ "));
    let script = commands.join("\n").replace("$ export", "export");
    let script = script.replace("\n$ ", "\n");
    let mut shell = Command::new("sh");
    let shell = shell.args(["-e", "-c", &script]);
    let output = ended(shell.current_dir(scratch.path(".")), b"");
    let told = format!("{}\n", answer.join("\n").trim_end());
    assert_eq!(String::from_utf8_lossy(&output.stdout), told, "{output:?}");
    assert!(output.status.success() && told.contains("2 settings"));
}

#[test]
fn python_as_printed() {
    let scratch = beside_the_first();
    let Some(mut python) = python(&scratch) else {
        return;
    };
    let printed = printed("system's loader):");
    let (setting, session) = printed.split_once("$ python3\n").unwrap();
    assert_eq!(setting, "$ export PYTHONPATH=PREFIX/share/unloop/python\n");
    assert!(session.matches(">>> ").count() >= 8);
    scratch.put("session", session);
    let output = ended(python.args(["-m", "doctest", "session"]), b"");
    assert!(
        output.status.success() && output.stdout.is_empty(),
        "{output:?}"
    );
}
