//! The stored block: its rules, and its parts.

pub const ZERO: u16 = 65_534;
pub const ONE: u16 = 65_535;

/// Words that keep every rule.
pub struct Block<'a> {
    /// The inputs and the gates.
    pub n: usize,
    pub m: usize,
    /// All words before the gates: the counts, the names and the never lines.
    pub head: &'a [u16],
    pub gates: &'a [[u16; 5]],
    pub outputs: &'a [[u16; 5]],
}

impl<'a> Block<'a> {
    /// The block, or nothing where the words break a rule.
    pub fn of(words: &'a [u16]) -> Option<Block<'a>> {
        let counts = words.first_chunk::<4>()?;
        let [n, m, k, l] = counts.map(usize::from);
        let crowded = n > 12 || m > 1_024 || k > 16 || l > 8;
        let before = 4 + 4 * n + 2 * l;
        if crowded || words.len() != before + 5 * m + 5 * k {
            return None;
        }
        let (head, rest) = words.split_at(before);
        let (gates, outputs) = rest.as_chunks().0.split_at(m);
        let block = Block {
            n,
            m,
            head,
            gates,
            outputs,
        };
        block.is_legal().then_some(block)
    }

    fn is_legal(&self) -> bool {
        let nodes = self.n + self.m;
        let ports = || self.outputs.iter().map(|output| name(&output[..4]));
        let legal =
            |never: &[u16; 2]| (1..1 << self.n).contains(&never[0]) && never[1] & !never[0] == 0;
        are_names(self.names())
            && are_names(ports())
            && self.nevers().iter().all(legal)
            && self.gates.iter().all(|gate| is_gate(gate, nodes))
            && self.shown().all(|node| node < nodes)
    }

    /// The names of the inputs.
    pub fn names(&self) -> impl Iterator<Item = u64> + Clone + 'a {
        self.head[4..4 + 4 * self.n].chunks_exact(4).map(name)
    }

    /// The two masks of each never line.
    pub fn nevers(&self) -> &'a [[u16; 2]] {
        self.head[4 + 4 * self.n..].as_chunks().0
    }

    /// The node that each output shows.
    pub fn shown(&self) -> impl Iterator<Item = usize> + 'a {
        self.outputs.iter().map(|output| usize::from(output[4]))
    }

    /// Whether each gate reads lower gates only.
    pub fn is_straight(&self) -> bool {
        let reads_lower = |(node, gate): (usize, &[u16; 5])| {
            let mut operands = gate[1..].iter().take(usize::from(gate[0] / 8));
            operands.all(|&word| word >= ZERO || usize::from(word) < node)
        };
        (self.n..).zip(self.gates).all(reads_lower)
    }
}

/// Kinds 0 to 6: `not` takes one operand, the others two to four. Unused operand words are 0.
fn is_gate(gate: &[u16; 5], nodes: usize) -> bool {
    let (kind, count) = (gate[0] % 8, gate[0] / 8);
    let counted = match kind {
        0 => count == 1,
        _ => kind < 7 && (2..=4).contains(&count),
    };
    let is_operand = |(number, &word): (u16, &u16)| match number < count {
        true => word >= ZERO || usize::from(word) < nodes,
        false => word == 0,
    };
    counted && (0..).zip(&gate[1..]).all(is_operand)
}

/// The eight bytes of a stored name as a number, the first byte lowest.
pub fn name(words: &[u16]) -> u64 {
    let bits = |name: u64, &word: &u16| name << 16 | u64::from(word);
    words.iter().rev().fold(0, bits)
}

fn are_names(names: impl Iterator<Item = u64> + Clone) -> bool {
    let once = |(number, name): (usize, u64)| names.clone().take(number).all(|n| n != name);
    names.clone().all(is_name) && names.clone().enumerate().all(once)
}

fn is_name(name: u64) -> bool {
    let bytes = name.to_le_bytes();
    let length = bytes.iter().position(|&b| b == 0).unwrap_or(8);
    let (used, unused) = bytes.split_at(length);
    used.first().is_some_and(u8::is_ascii_lowercase)
        && used.iter().all(|&b| is_name_byte(b))
        && unused.iter().all(|&b| b == 0)
}

pub fn is_name_byte(byte: u8) -> bool {
    matches!(byte, b'a'..=b'z' | b'0'..=b'9' | b'_')
}
