//! `bin/unloop --json`: one object a file in one line, read by a small parser of this file and held to the simulator.

mod session;

use session::{command, run, told, with};
use simulator::block::Block;
use simulator::executed::{ended, netlists, Scratch};
use simulator::groups::loops;
use simulator::values::Network;
use simulator::{cover, read, unloop};
use std::fs;

#[derive(Debug, Clone, PartialEq)]
enum Json {
    Bool(bool),
    Number(usize),
    Text(String),
    List(Vec<Json>),
    Object(Vec<(String, Json)>),
}

impl Json {
    /// The value of a line, which is nothing else.
    fn of(line: &str) -> Json {
        let mut rest = line;
        let value = value(&mut rest);
        assert_eq!(rest, "", "{line}");
        value
    }

    fn field(&self, name: &str) -> Option<&Json> {
        let Json::Object(fields) = self else {
            panic!("{self:?}")
        };
        fields
            .iter()
            .find(|(field, _)| field == name)
            .map(|(_, value)| value)
    }

    fn number(&self, name: &str) -> usize {
        match self.field(name) {
            Some(Json::Number(number)) => *number,
            other => panic!("{name}: {other:?}"),
        }
    }

    fn text(&self, name: &str) -> &str {
        match self.field(name) {
            Some(Json::Text(text)) => text,
            other => panic!("{name}: {other:?}"),
        }
    }
}

fn eat(rest: &mut &str, word: &str) -> bool {
    match rest.strip_prefix(word) {
        Some(behind) => {
            *rest = behind;
            true
        }
        None => false,
    }
}

fn value(rest: &mut &str) -> Json {
    if eat(rest, "[") {
        return Json::List(list(rest, "]", value));
    }
    if eat(rest, "{") {
        return Json::Object(list(rest, "}", |rest| {
            let name = text(rest);
            assert!(eat(rest, ":"));
            (name, value(rest))
        }));
    }
    if rest.starts_with('"') {
        return Json::Text(text(rest));
    }
    for (word, value) in [("true", true), ("false", false)] {
        if eat(rest, word) {
            return Json::Bool(value);
        }
    }
    let end = rest
        .find(|c: char| !c.is_ascii_digit())
        .unwrap_or(rest.len());
    let (digits, behind) = rest.split_at(end);
    *rest = behind;
    Json::Number(digits.parse().expect("a number"))
}

fn list<T>(rest: &mut &str, end: &str, item: impl Fn(&mut &str) -> T) -> Vec<T> {
    let mut items = Vec::new();
    while !eat(rest, end) {
        assert!(items.is_empty() || eat(rest, ","));
        items.push(item(rest));
    }
    items
}

fn text(rest: &mut &str) -> String {
    assert!(eat(rest, "\""), "{rest}");
    let mut text = String::new();
    loop {
        let next = rest.chars().next().expect("an end");
        *rest = &rest[next.len_utf8()..];
        match next {
            '"' => return text,
            '\\' if eat(rest, "n") => text.push('\n'),
            '\\' if eat(rest, "u") => {
                let (digits, behind) = rest.split_at(4);
                text.push(char::from_u32(u32::from_str_radix(digits, 16).unwrap()).unwrap());
                *rest = behind;
            }
            '\\' => {
                text.push(rest.chars().next().expect("one more"));
                *rest = &rest[1..];
            }
            other => text.push(other),
        }
    }
}

/// The pins that an entry's two masks fix, in the order of the inputs.
fn pins(names: &[String], fixed: u16, ones: u16) -> Json {
    let fixed = (0..names.len()).filter(|i| fixed >> i & 1 == 1);
    Json::Object(
        fixed
            .map(|i| (names[i].clone(), Json::Number((ones >> i & 1).into())))
            .collect(),
    )
}

/// The fields of a text that can be read, by the simulator.
fn same_block(object: &Json, words: &[u16]) {
    let block = Block::from_words(words);
    let network = Network::new(&block);
    let texts =
        |list: Vec<&String>| Json::List(list.into_iter().cloned().map(Json::Text).collect());
    assert_eq!(
        object.field("inputs"),
        Some(&texts(block.inputs.iter().collect()))
    );
    assert_eq!(
        object.field("outputs"),
        Some(&texts(
            block.outputs.iter().map(|output| &output.port).collect()
        ))
    );
    assert_eq!(object.number("gates"), block.gates.len());
    assert_eq!(object.number("loops"), loops(&block).len());
    let come = block
        .excluded_settings()
        .iter()
        .filter(|&&excluded| !excluded)
        .count();
    assert_eq!(object.number("settings"), come);
    assert_eq!(object.number("excluded"), (1 << block.inputs.len()) - come);
    assert_eq!(object.field("warning"), None);
    let settled = network
        .counted_settings()
        .iter()
        .filter(|&&counted| counted)
        .count();
    assert_eq!(object.number("settled"), settled);
    let entries = cover(words, usize::MAX).1;
    let entries = entries
        .chunks(2)
        .map(|entry| pins(&block.inputs, entry[0], entry[1]));
    assert_eq!(object.field("cover"), Some(&Json::List(entries.collect())));
}

/// The setting and the undefined outputs of 9, and of 8 where there are some, by the simulator.
fn same_setting(object: &Json, words: &[u16], setting: usize) {
    let block = Block::from_words(words);
    assert_eq!(
        object.field("setting"),
        Some(&pins(&block.inputs, u16::MAX, setting as u16))
    );
    let bytes = simulator::values::setting_bytes(setting, block.inputs.len());
    let shown = Network::new(&block).shown(&bytes);
    let undefined = block
        .outputs
        .iter()
        .zip(shown)
        .filter(|(_, value)| *value == 2);
    let undefined = undefined.map(|(output, _)| Json::Text(output.port.clone()));
    assert_eq!(
        object.field("undefined"),
        Some(&Json::List(undefined.collect()))
    );
    let waits = object.field("waits");
    assert!(matches!(waits, Some(Json::List(gates)) if !gates.is_empty()));
}

#[test]
fn catalogue() {
    let (scratch, paths) = (Scratch::new(), netlists());
    let ended = ended(command(&scratch).arg("--json").args(&paths), b"");
    assert_eq!(ended.status.code(), Some(1));
    let output = String::from_utf8(ended.stdout).unwrap();
    assert_eq!(output.lines().count(), paths.len());
    for (line, path) in output.lines().zip(&paths) {
        let (object, text) = (Json::of(line), fs::read(path).unwrap());
        assert_eq!(object.text("file"), path.to_str().unwrap());
        let (answer, words) = read(&text, usize::MAX);
        if answer.number == 0 {
            same_block(&object, &words);
        } else {
            assert_eq!(
                (object.number("number"), object.number("place")),
                (answer.number, answer.detail)
            );
            let before = &text[..answer.detail];
            let start = before
                .iter()
                .rposition(|&byte| byte == b'\n')
                .map_or(0, |lf| lf + 1);
            let row = 1 + before.iter().filter(|&&byte| byte == b'\n').count();
            assert_eq!(
                (object.number("line"), object.number("column")),
                (row, 1 + answer.detail - start)
            );
        }
        let written = String::from_utf8(unloop(&text)).unwrap();
        match written
            .strip_prefix("(refused 9 ")
            .and_then(|rest| rest.strip_suffix(")\n"))
        {
            Some(setting) => same_setting(&object, &words, setting.parse().unwrap()),
            None if written.starts_with("(refused ") => assert_eq!(object.field("rendering"), None),
            None => {
                assert_eq!(
                    (object.number("number"), object.text("word")),
                    (0, "rendered")
                );
                assert_eq!(object.text("rendering"), written);
                assert_eq!(
                    object.number("rendering_gates"),
                    written.matches("(gate ").count()
                );
            }
        }
    }
}

/// 8 comes before 9 and does not hide it; that every setting is excluded is a warning.
#[test]
fn unsettled_and_excluded() {
    let ring = simulator::specimens::reversed_ring(33, 32);
    let swollen = format!("(in a)\n{ring}(gate p (or a p))\n(out y g0)\n(out z p)\n");
    let sound = format!("{ring}(out y g0)\n");
    let vacuous = "(in a)\n(never (a 0))\n(never (a 1))\n(gate p (not p))\n(out y p)\n";
    let scratch = with(&[("8", &swollen), ("s", &sound), ("n", vacuous)]);
    let output = String::from_utf8(run(&scratch, &["--json", "8", "s", "n"]).stdout).unwrap();
    let objects: Vec<Json> = output.lines().map(Json::of).collect();
    let numbers: Vec<usize> = objects
        .iter()
        .map(|object| object.number("number"))
        .collect();
    assert_eq!(numbers, [8, 8, 0]);
    let words = read(swollen.as_bytes(), usize::MAX).1;
    same_setting(&objects[0], &words, 0);
    same_block(&objects[0], &words);
    assert_eq!(
        (objects[1].field("setting"), objects[1].field("waits")),
        (None, None)
    );
    assert_eq!(
        (objects[2].number("settings"), objects[2].number("excluded")),
        (0, 2)
    );
    let warning = "all 2 settings are promised never to come, so nothing is said of any output";
    assert_eq!(objects[2].text("warning"), warning);
}

#[test]
fn checks_and_errors() {
    let scratch = with(&[
        ("a\"b", "(in a)\n(in b)\n(out y a)\n"),
        ("c", "(in a)\n(in b)\n(out y b)\n"),
        ("d", "(in a"),
        ("e", "(in a)\n"),
    ]);
    let object = "{\"file\":\"c\",\"original\":\"a\\\"b\",\"accepted\":false,\"setting\":{\"a\":1,\"b\":0},\"output\":\"y\",\
                  \"shown\":\"0\",\"expected\":\"1\",\"excluded\":0}\n";
    told(
        run(&scratch, &["--check", "c", "--json", "a\"b"]),
        1,
        object,
        "",
    );
    let object = "{\"file\":\"c\",\"original\":\"c\",\"accepted\":true,\"excluded\":0}\n";
    told(
        run(&scratch, &["--json", "--check", "c", "c"]),
        0,
        object,
        "",
    );
    let object =
        "{\"file\":\"d\",\"number\":2,\"word\":\"form\",\"place\":5,\"line\":1,\"column\":6,\
                  \"hint\":\"expected a letter, a digit, _ or )\"}\n";
    let report = "d:1:6: form: expected a letter, a digit, _ or )\n(in a\n     ^\n";
    told(
        run(&scratch, &["--json", "--check", "d", "c"]),
        1,
        object,
        report,
    );
    let object =
        "{\"file\":\"e\",\"original\":\"c\",\"number\":12,\"word\":\"strangers\",\"excluded\":0}\n";
    let report =
        "e: strangers\n  it has      pins a; ports none\n  but must be pins a, b; ports y\n";
    told(
        run(&scratch, &["--json", "--check", "e", "c"]),
        1,
        object,
        report,
    );
    let object = "{\"file\":\"gone\",\"error\":\"gone: No such file or directory\"}\n";
    told(
        run(&scratch, &["--json", "gone"]),
        2,
        object,
        "unloop: gone: No such file or directory\n",
    );
}
