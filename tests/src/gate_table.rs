//! The table of all gates as crates/graph_simulation/src/table.rt has it, from a statement of the three-valued rule that is read off the definedness
//! of a result: a gate is 0 or 1 exactly when every way to put 0 or 1 for the undefined operands gives that.

/// The kinds in the order of their numbers.
const KINDS: [&str; 7] = ["not", "and", "or", "nand", "nor", "xor", "xnor"];

const UNDEFINED: u8 = 2;
const ABSENT: u8 = 3;

/// The constant's lines, from its first to its last.
pub fn lines() -> String {
    let parts: Vec<String> = (0..KINDS.len()).map(part).collect();
    format!(
        "const ENTRIES: [u8; GATE_ENTRIES] = *b\"\\\n{}\";\n",
        parts.join("\\\n\n")
    )
}

/// Sixteen rows of sixteen entries.
fn part(kind: usize) -> String {
    let row = |row: usize| {
        let entries = (0..16).map(|column| entry(kind, 16 * row + column));
        let bytes: String = entries.map(|entry| format!("\\x{entry:02x}")).collect();
        format!("    {bytes}")
    };
    (0..16).map(row).collect::<Vec<_>>().join("\\\n")
}

/// The entry of a kind at the operands' codes, the first one at weight 1.
fn entry(kind: usize, codes: usize) -> u8 {
    let codes = [1, 4, 16, 64].map(|weight| (codes / weight % 4) as u8);
    let count = codes.iter().take_while(|&&code| code != ABSENT).count();
    let (operands, behind) = codes.split_at(count);
    let has_count = match KINDS[kind] {
        "not" => count == 1,
        _ => count >= 2,
    };
    if !has_count || behind.iter().any(|&code| code != ABSENT) {
        return ABSENT;
    }
    value(kind, operands)
}

fn value(kind: usize, operands: &[u8]) -> u8 {
    let Some(undefined) = operands.iter().position(|&code| code == UNDEFINED) else {
        return u8::from(holds(kind, operands));
    };
    let [at_0, at_1] = [0, 1].map(|bit| {
        let mut operands = operands.to_vec();
        operands[undefined] = bit;
        value(kind, &operands)
    });
    if at_0 == at_1 {
        at_0
    } else {
        UNDEFINED
    }
}

/// Whether a gate with these operands, each 0 or 1, is 1.
fn holds(kind: usize, operands: &[u8]) -> bool {
    let ones = operands.iter().filter(|&&code| code == 1).count();
    match KINDS[kind] {
        "not" | "nor" => ones == 0,
        "and" => ones == operands.len(),
        "or" => ones > 0,
        "nand" => ones < operands.len(),
        "xor" => ones % 2 == 1,
        _ => ones % 2 == 0,
    }
}
