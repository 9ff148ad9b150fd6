//! The table of all gates in the source is what the program that makes it prints.

use simulator::executed::root;
use simulator::gate_table::lines;
use std::fs;

#[test]
fn stands_in_the_source() {
    let source = fs::read_to_string(root().join("crates/graph_simulation/src/table.rt")).unwrap();
    let from = source.find("const ENTRIES").expect("no table");
    let rest = &source[from..];
    let end = rest.find("\";\n").expect("no end of the table") + 3;
    assert_eq!(rest[..end], lines());
}
