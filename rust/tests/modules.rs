//! What the package gives stands in one of two modules, the proved wrapper or the tested tools, and is found at its root too.

const ROOT: &str = include_str!("../src/lib.rs");
const PROVED: &str = include_str!("../src/proved.rs");
const TOOLS: &str = include_str!("../src/tools.rs");

/// The modules of the package that one of the two takes something from.
fn sources(module: &str) -> Vec<&str> {
    let uses = module.lines().filter_map(|line| {
        let path = line.strip_prefix("pub use crate::")?;
        Some(path.trim_end_matches(';'))
    });
    let names = uses.flat_map(|path| match path.strip_prefix('{') {
        Some(list) => list.trim_end_matches('}').split(", ").collect(),
        None => vec![path.split("::").next().unwrap_or_default()],
    });
    names.collect()
}

/// Every public module, and no module twice. What a private one gives is reached through one of the two alone, as the next test has it.
#[test]
fn each_is_proved_or_a_tool() {
    let found = [sources(PROVED), sources(TOOLS)].concat();
    let modules = ROOT
        .lines()
        .filter_map(|line| line.strip_prefix("pub mod "));
    let modules = modules.map(|module| module.trim_end_matches(';'));
    for module in modules.filter(|module| !["proved", "tools"].contains(module)) {
        assert!(found.contains(&module), "{module} is in none of the two");
    }
    assert!(found.len() > 20);
    for module in &found {
        let times = found.iter().filter(|other| *other == module).count();
        assert_eq!(times, 1, "{module}");
    }
}

#[test]
fn the_root_gives_both() {
    let uses: Vec<&str> = ROOT
        .lines()
        .filter(|line| line.starts_with("pub use "))
        .collect();
    assert_eq!(uses, ["pub use proved::*;", "pub use tools::*;"]);
    for (module, word) in [(PROVED, "proved"), (TOOLS, "tested, not proved")] {
        assert!(module.starts_with("//!") && module.contains(word));
    }
}

/// The standard traits do what the methods of the same meaning do.
#[test]
fn standard_traits() {
    use unloop::{Block, Refusal};
    for text in [
        "",
        "(in a)\n(gate p (or a p))\n(out y p)\n",
        "(in a",
        "(in a)\n(in a)\n",
    ] {
        let read = Block::read(text);
        assert_eq!(text.parse::<Block>(), read);
        let Ok(block) = read else { continue };
        assert_eq!(block.to_string(), block.write());
        assert_eq!(Block::try_from(block.words().to_vec()), Ok(block));
    }
    assert_eq!(
        Block::try_from(vec![1, 0, 0, 0]),
        Err(Refusal::MalformedBlock)
    );
}
