//! BLIF models as other tools write them: tables of any form, loops, aliases, constants, comments, joined lines, names of every kind.

use super::Random;

/// Names that are a netlist's, and names that are none.
const NAMES: [&str; 24] = [
    "a[0]",
    "a[1]",
    "a[12]",
    "1GAT",
    "22",
    "sample_rate_select",
    "sample_rate_other",
    "sample_r",
    "SELECT",
    "select",
    "_0",
    "_1",
    "$abc$12$new_n3",
    "\\q.r",
    "new_n123456",
    "n1gat",
    "a_0",
    "x",
    "y__output",
    "x__output",
    "inputs",
    "reg",
    "é",
    "_zero",
];

/// A model, with how many inputs it has.
pub fn model(random: &mut Random) -> (String, usize) {
    let count = random.between(2, 14);
    let mut names: Vec<String> = NAMES.iter().map(|name| name.to_string()).collect();
    names.extend((0..8).map(|number| format!("n{number}")));
    let order = random.permutation(names.len());
    let nets: Vec<&str> = order[..count]
        .iter()
        .map(|&name| &names[name][..])
        .collect();
    let inputs = random.between(0, 4.min(count - 1));
    let mut outputs: Vec<&str> = random
        .permutation(count)
        .into_iter()
        .map(|net| nets[net])
        .collect();
    outputs.truncate(random.between(0, 5));
    let mut lines = vec!["# made by no tool".to_string(), ".model a.b".to_string()];
    lines.push(list(random, ".inputs", &nets[..inputs]));
    lines.push(list(random, ".outputs", &outputs));
    for place in random.permutation(count - inputs) {
        lines.push(table(random, &nets, nets[inputs + place]));
    }
    lines.push(".end".to_string());
    (lines.join("\n") + "\n", inputs)
}

/// A line, which now and then goes on in the next, or has a comment.
fn list(random: &mut Random, word: &str, names: &[&str]) -> String {
    let mut line = word.to_string();
    for name in names {
        line += random.pick(&[" ", "  ", "\t", " \\\n", " \\\n  "]);
        line += name;
    }
    line + random.pick(&["", "", " ", " # .names", "#"])
}

/// A table that drives a net.
fn table(random: &mut Random, nets: &[&str], output: &str) -> String {
    let columns = random.pick(&[0, 1, 1, 2, 2, 3, 3, 4, 5, 7]);
    let mut names: Vec<&str> = (0..columns).map(|_| random.pick(nets)).collect();
    names.push(output);
    let shown = random.pick(&["1", "1", "0"]);
    let rows = match random.below(8) {
        0 => Vec::new(),
        1 if columns > 1 => parities(columns, random.chance(50)),
        _ => (0..random.between(1, if columns == 0 { 1 } else { 6 }))
            .map(|_| {
                (0..columns)
                    .map(|_| random.pick(&['0', '1', '-']))
                    .collect()
            })
            .collect(),
    };
    let mut text = list(random, ".names", &names);
    for row in rows {
        text += &format!("\n{row} {shown}");
    }
    text
}

/// All rows with an odd number of ones, or with an even one.
fn parities(columns: usize, odd: bool) -> Vec<String> {
    let rows = (0..1_usize << columns).filter(|row| (row.count_ones() % 2 == 1) == odd);
    rows.map(|row| format!("{row:0columns$b}")).collect()
}
