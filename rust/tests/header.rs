//! The package has the header's numbers, names, rooms, layout, functions and version, and the version of Rust that docs/CALLING.md tells; the Python
//! module has the same version, rooms, functions and refusals.

use unloop::{limits, Kind, Refusal};

const HEADER: &str = include_str!("../../include/unloop.h");
const RAW: &str = include_str!("../src/raw.rs");
const CALLING: &str = include_str!("../../docs/CALLING.md");
const PYTHON: &str = include_str!("../../python/unloop.py");

/// The constants of one of the header's enums, in order, without their prefix.
fn constants(name: &str) -> Vec<(String, usize)> {
    let (_, rest) = HEADER.split_once(&format!("enum {name} {{")).unwrap();
    let (body, _) = rest.split_once("};").unwrap();
    let lines = body.lines().filter_map(|line| line.split_once(" = "));
    let constant = |(name, rest): (&str, &str)| {
        let digits = rest.split(|c: char| !c.is_ascii_digit()).next().unwrap();
        let name = name.trim().strip_prefix("UNLOOP_").unwrap();
        (name.to_string(), digits.parse().unwrap())
    };
    lines.map(constant).collect()
}

/// `NotSettled { setting: 0 }` as `NOT_SETTLED`.
fn constant_name(refusal: Refusal) -> String {
    let shown = format!("{refusal:?}");
    let mut name = String::new();
    for letter in shown.split(' ').next().unwrap().chars() {
        if letter.is_uppercase() && !name.is_empty() {
            name.push('_');
        }
        name.push(letter.to_ascii_uppercase());
    }
    name
}

#[test]
fn refusals() {
    let all = (1..).map_while(|number| Refusal::from_parts(number, 0));
    let named = all.map(|refusal| (constant_name(refusal), refusal.number()));
    let done = ("DONE".to_string(), 0);
    let expected: Vec<_> = std::iter::once(done).chain(named).collect();
    assert_eq!(constants("unloop_refusal"), expected);
}

#[test]
fn rooms() {
    let rooms = [
        ("BLOCK_WORDS", limits::BLOCK_WORDS),
        ("TEXT_BYTES", limits::TEXT_BYTES),
        ("WRITTEN_BYTES", limits::WRITTEN_BYTES),
        ("GATES", limits::GATES),
        ("COVER_WORDS", limits::COVER_WORDS),
        ("CELLS_WORDS", limits::CELLS_WORDS),
    ];
    let rooms = rooms.map(|(name, room)| (name.to_string(), room));
    assert_eq!(constants("unloop_room"), rooms);
}

/// The words behind each `before` of a text, up to the bracket behind them, sorted.
fn names<'a>(text: &'a str, before: &str) -> Vec<&'a str> {
    let parts = text.split(before).skip(1);
    let mut names: Vec<&str> = parts
        .filter_map(|part| part.split_once('('))
        .map(|(name, _)| name)
        .collect();
    names.sort_unstable();
    names
}

/// What the library has for a test alone is declared in neither.
#[test]
fn functions() {
    let declared = names(HEADER, "\nunloop_reply unloop_");
    let declared = [declared, names(HEADER, "\nunloop_span unloop_")].concat();
    let (_, ours) = RAW.split_once("extern \"C\" {").unwrap();
    let mut expected = declared.clone();
    expected.sort_unstable();
    assert_eq!(names(ours, "    fn unloop_"), expected);
    assert_eq!(names(ours, "\npub fn "), expected);
    assert!(declared.len() == 17 && !HEADER.contains("certified"));
}

#[test]
fn version() {
    let version = env!("CARGO_PKG_VERSION");
    assert!(HEADER.contains(&format!("\n#define UNLOOP_VERSION \"{version}\"\n")));
    for (part, number) in [
        ("MAJOR", env!("CARGO_PKG_VERSION_MAJOR")),
        ("MINOR", env!("CARGO_PKG_VERSION_MINOR")),
        ("PATCH", env!("CARGO_PKG_VERSION_PATCH")),
    ] {
        let macro_ = format!("\n#define UNLOOP_VERSION_{part} {number}\n");
        assert!(HEADER.contains(&macro_), "{macro_}");
    }
}

#[test]
fn layout() {
    let words = format!(
        "{} + {} n + {} l + {} m + {} k words",
        limits::HEAD_WORDS,
        limits::NAME_WORDS,
        limits::NEVER_WORDS,
        limits::GATE_WORDS,
        limits::OUTPUT_WORDS
    );
    assert!(HEADER.contains(&words), "{words}");
    let kinds = Kind::ALL.iter().enumerate();
    let kinds: Vec<String> = kinds
        .map(|(number, kind)| format!("{number} {}", kind.word()))
        .collect();
    let kinds = format!("kinds: {};", kinds.join(", "));
    assert!(HEADER.contains(&kinds), "{kinds}");
}

#[test]
fn version_of_rust() {
    let told = format!("From Rust ({} or newer)", env!("CARGO_PKG_RUST_VERSION"));
    assert!(CALLING.contains(&told), "{told}");
}

#[test]
fn python_module() {
    let has = |line: &str| assert!(PYTHON.contains(line), "{line}");
    has(&format!(
        "\n__version__ = \"{}\"\n",
        env!("CARGO_PKG_VERSION")
    ));
    for (name, room) in constants("unloop_room") {
        if !["TEXT_BYTES", "GATES"].contains(&&name[..]) {
            has(&format!("\n_{name} = {room}\n"));
        }
    }
    let told = 77_777;
    for refusal in (1..).map_while(|number| Refusal::from_parts(number, told)) {
        let message = refusal.to_string().replace(&told.to_string(), "{}");
        let (number, word) = (refusal.number(), refusal.word());
        has(&format!("\n    {number}: (\"{word}\", \"{message}\"),\n"));
    }
    for function in names(HEADER, "\nunloop_reply unloop_") {
        has(&format!("\"{function}\""));
    }
}
