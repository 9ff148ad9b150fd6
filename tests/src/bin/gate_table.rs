//! Prints the constant of crates/graph_simulation/src/table.rt.

fn main() {
    print!("{}", simulator::gate_table::lines());
}
