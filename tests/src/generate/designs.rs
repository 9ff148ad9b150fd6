//! BLIF designs of any size with planted loops of many shapes, and what is known of each: its lines, and whether it can be taken out. Outside of
//! the loops every line reads only nets that stand before it, so that no other loop is there.

use super::Random;
use std::collections::HashSet;

/// The shapes of loops.
#[derive(Debug, Clone, Copy, PartialEq, Eq)]
pub enum Planted {
    /// Two units in both orders, by a select.
    SharedUnits,
    /// The same where one bit goes its own way, so that it is a loop which the other reads.
    Linked,
    /// A ring of requests that passes a token on from the start; undecided where nobody starts and nobody asks, which never comes.
    Arbiter,
    /// A ring of `and` and `or` gates that one net breaks either way.
    Ring,
    /// Many rings in each other, broken by the same net, with many ports.
    Nested,
    /// A latch that nobody meant: keeps its value where it is not enabled.
    Latch,
    /// A ring that reads more nets than a block has inputs.
    Wide,
}

pub const TAKEN_OUT: [Planted; 5] = [
    Planted::SharedUnits,
    Planted::Linked,
    Planted::Arbiter,
    Planted::Ring,
    Planted::Nested,
];

impl Planted {
    /// How many loops it is.
    pub fn loops(self) -> usize {
        1 + usize::from(self == Planted::Linked)
    }
}

/// A design, and what was planted.
#[derive(Default)]
pub struct Design {
    lines: Vec<String>,
    /// The lines of the loops, by their places.
    pub in_loops: HashSet<usize>,
    /// Nets that anything may read.
    nets: Vec<String>,
    pub loops: Vec<Planted>,
    /// What holds of its nets, for the arbiters.
    pub promises: Vec<String>,
    /// How many of the nets are inputs.
    inputs: usize,
    next: usize,
}

/// A design of about so many gates with these loops in it.
pub fn design(random: &mut Random, gates: usize, loops: &[Planted]) -> Design {
    let inputs = 16 + gates / 500;
    let mut design = Design {
        nets: (0..inputs).map(|input| format!("in[{input}]")).collect(),
        inputs,
        ..Design::default()
    };
    let each = gates / (loops.len() + 1);
    for shape in loops {
        design.plain(random, each);
        design.plant(random, *shape);
    }
    design.plain(random, each);
    design
}

impl Design {
    /// The text; the outputs are the last nets.
    pub fn text(&self, random: &mut Random) -> String {
        let (head, tail) = (self.head(random), ".end\n");
        format!("{head}{}\n{tail}", self.lines.join("\n"))
    }

    fn head(&self, random: &mut Random) -> String {
        let inputs: Vec<&str> = self.nets[..self.inputs]
            .iter()
            .map(|net| &net[..])
            .collect();
        let mut outputs: Vec<&str> = Vec::new();
        for _ in 0..self.inputs {
            let net = &self.nets[self.nets.len() - 1 - random.below(self.nets.len() / 2)];
            if !outputs.contains(&&net[..]) {
                outputs.push(net);
            }
        }
        format!(
            ".model design\n.inputs {}\n.outputs {}\n",
            inputs.join(" "),
            outputs.join(" \\\n")
        )
    }

    /// The text's lines that are of no loop, in order.
    pub fn kept<'a>(&self, text: &'a str) -> Vec<&'a str> {
        let all: Vec<&str> = text.lines().collect();
        let own: usize = self.lines.iter().map(|line| line.lines().count()).sum();
        let head = all.len() - own - 1;
        let mut kept: Vec<&str> = all[..head].to_vec();
        let mut at = head;
        for (place, line) in self.lines.iter().enumerate() {
            let next = at + line.lines().count();
            if !self.in_loops.contains(&place) {
                kept.extend(&all[at..next]);
            }
            at = next;
        }
        kept.extend(&all[at..]);
        kept
    }

    fn fresh(&mut self, stem: &str) -> String {
        self.next += 1;
        format!("{stem}{}", self.next)
    }

    fn read(&self, random: &mut Random) -> String {
        // Mostly nets that are near, so that the design is deep.
        let count = self.nets.len();
        let back = if random.chance(80) {
            count.min(300)
        } else {
            count
        };
        self.nets[count - 1 - random.below(back)].clone()
    }

    fn put(&mut self, line: String, in_loop: bool) {
        if in_loop {
            self.in_loops.insert(self.lines.len());
        }
        self.lines.push(line);
    }

    /// Gates of no loop: tables, cells, buffers, inverters, constants, and now and then a latch or a comment.
    fn plain(&mut self, random: &mut Random, count: usize) {
        for _ in 0..count {
            let net = self.fresh("n");
            let (a, b, c) = (self.read(random), self.read(random), self.read(random));
            let line = match random.below(40) {
                0 => format!(".names {net}\n1"),
                1 => format!("# a remark\n.names {net}"),
                2 => format!(".latch {a} {net} re in[0] 0"),
                3 | 4 => format!(".names {a} {net}\n1 1"),
                5..=8 => format!(".names {a} {net}\n0 1"),
                9..=13 => format!(".gate nand2 a={a} b={b} O={net}"),
                14 => format!(".gate xor3 a={a} b={b} c={c} O={net}"),
                15..=20 => format!(".names {a} {b} {net}\n01 1\n10 1"),
                21..=24 => format!(".names {a} {b} \\\n  {c} {net} # a mux\n11- 1\n0-1 1"),
                25..=31 => format!(".names {a} {b} {net}\n1- 1\n-1 1"),
                _ => format!(".names {a} {b} {net}\n11 1"),
            };
            self.put(line, false);
            self.nets.push(net);
        }
    }

    fn plant(&mut self, random: &mut Random, shape: Planted) {
        self.loops.push(shape);
        match shape {
            Planted::SharedUnits => self.shared_units(random, true),
            Planted::Linked => self.shared_units(random, false),
            Planted::Arbiter => self.arbiter(random),
            Planted::Ring => {
                let count = 2 * random.between(1, 12);
                self.ring(random, count, 1)
            }
            Planted::Nested => {
                let count = 2 * random.between(4, 24);
                self.ring(random, count, 3)
            }
            Planted::Latch => self.latch(random),
            Planted::Wide => self.wide(random),
        }
    }

    /// sel ? f(g(x)) : g(f(x)), two bits wide, where f and g mix the two bits with further nets.
    fn shared_units(&mut self, random: &mut Random, is_mixed: bool) {
        let sel = self.read(random);
        let x = [self.read(random), self.read(random)];
        let [fi, fo, gi, go] =
            ["fi", "fo", "gi", "go"].map(|stem| [self.fresh(stem), self.fresh(stem)]);
        for bit in 0..2 {
            self.mux([&sel, &go[bit], &x[bit], &fi[bit]], true);
            self.mux([&sel, &x[bit], &fo[bit], &gi[bit]], true);
        }
        let k = self.read(random);
        let other = if is_mixed { &fi[0] } else { &k };
        let lines = [
            format!(".names {} {} {}\n01 1\n10 1", fi[0], fi[1], fo[0]),
            format!(".gate nand2 a={} b={other} O={}", fi[1], fo[1]),
            format!(".names {} {} {k} {}\n1-1 1\n-10 1", gi[0], gi[1], go[0]),
            format!(".names {} {}\n0 1", gi[1], go[1]),
        ];
        lines.into_iter().for_each(|line| self.put(line, true));
        for bit in 0..2 {
            let net = self.fresh("n");
            self.mux([&sel, &fo[bit], &go[bit], &net], false);
            self.nets.push(net);
        }
    }

    /// The second net where the first is 1, and else the third, is the last.
    fn mux(&mut self, nets: [&String; 4], in_loop: bool) {
        let nets = nets.map(|net| &net[..]).join(" ");
        self.put(format!(".names {nets}\n11- 1\n0-1 1"), in_loop);
    }

    /// Four seats; the start is decoded from two nets, so exactly one seat starts.
    fn arbiter(&mut self, random: &mut Random) {
        let (high, low) = (self.read(random), self.read(random));
        let start: Vec<String> = (0..4).map(|_| self.fresh("st")).collect();
        // The decoder reads the same net twice where both are one: the start is then seat 0 or seat 3.
        for (seat, net) in start.iter().enumerate() {
            self.put(format!(".names {high} {low} {net}\n{seat:02b} 1"), false);
        }
        let asks: Vec<String> = (0..4).map(|_| self.read(random)).collect();
        let turn: Vec<String> = (0..4).map(|_| self.fresh("turn")).collect();
        for seat in 0..4 {
            let before = (seat + 3) % 4;
            self.put(
                format!(
                    ".names {} {} {} {}\n1-- 1\n-10 1",
                    start[seat], turn[before], asks[before], turn[seat]
                ),
                true,
            );
            let grant = self.fresh("n");
            self.put(
                format!(".names {} {} {grant}\n11 1", turn[seat], asks[seat]),
                false,
            );
            self.nets.push(grant);
        }
        let pairs: Vec<String> = start.iter().map(|net| format!("{net} = 0")).collect();
        self.promises.push(pairs.join(", "));
        self.nets.extend(start);
    }

    /// Gates by turns `and` and `or`: each reads the breaking net, some of the gates of the other kind, and perhaps a further net.
    fn ring(&mut self, random: &mut Random, count: usize, reads: usize) {
        let breaks = self.read(random);
        let further: Vec<String> = (0..random.below(6)).map(|_| self.read(random)).collect();
        let gates: Vec<String> = (0..count).map(|_| self.fresh("r")).collect();
        for gate in 0..count {
            let mut read = vec![breaks.clone(), gates[(gate + count - 1) % count].clone()];
            for _ in 1..reads {
                let other = 2 * random.below(count / 2) + (gate + 1) % 2;
                read.push(gates[other].clone());
            }
            if !further.is_empty() && random.chance(50) {
                read.push(further[random.below(further.len())].clone());
            }
            let columns = read.len();
            let (digit, shown) = if gate % 2 == 0 { ("1", 1) } else { ("0", 0) };
            self.put(
                format!(
                    ".names {} {}\n{} {shown}",
                    read.join(" "),
                    gates[gate],
                    digit.repeat(columns)
                ),
                true,
            );
        }
        for gate in gates {
            if random.chance(if reads == 1 { 20 } else { 60 }) {
                self.nets.push(gate);
            }
        }
    }

    fn latch(&mut self, random: &mut Random) {
        let enable = format!("in[{}]", random.below(self.inputs));
        let (value, kept) = (self.read(random), self.fresh("kept"));
        self.put(
            format!(".names {enable} {value} {kept} {kept}\n11- 1\n0-1 1"),
            true,
        );
        self.shown(kept);
    }

    fn wide(&mut self, random: &mut Random) {
        let (wide, back) = (self.fresh("wide"), self.fresh("back"));
        let mut read: Vec<String> = Vec::new();
        while read.len() < 13 {
            let net = format!("in[{}]", random.below(self.inputs));
            if !read.contains(&net) {
                read.push(net);
            }
        }
        self.put(
            format!(
                ".names {} {back} {wide}\n{} 1",
                read.join(" "),
                "1".repeat(14)
            ),
            true,
        );
        self.put(
            format!(".names {wide} {} {back}\n-1 1\n1- 1", read[0]),
            true,
        );
        self.shown(wide);
    }

    /// A net that something reads in any case.
    fn shown(&mut self, net: String) {
        let reads = self.fresh("n");
        self.put(format!(".names {net} {reads}\n0 1"), false);
        self.nets.extend([net, reads]);
    }
}
