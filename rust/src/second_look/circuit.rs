//! A circuit as a reader finds it: pins, never lines, gates and ports, all by their nets.

use super::cursor::key_of;
use super::nets::{Label, Net, Nets, ONE, ZERO};

const MOST_READS: usize = 4;

/// What a gate computes of what it reads.
#[derive(Debug, Clone, Copy, PartialEq, Eq)]
pub enum Function {
    /// Inverted where the flag is set; of one operand the two are a buffer and an inverter.
    And(bool),
    Or(bool),
    Xor(bool),
    /// Bit b is the value where operand i is bit i of b.
    Table(u16),
}

/// The table of `xor` over four operands, whose beginnings are those over fewer.
const PARITY: u16 = 0x6996;

/// The words that netlists and Verilog have for gates, as keys.
const NOT: u64 = key_of(b"not");
const AND: u64 = key_of(b"and");
const NAND: u64 = key_of(b"nand");
const OR: u64 = key_of(b"or");
const NOR: u64 = key_of(b"nor");
const XOR: u64 = key_of(b"xor");
const XNOR: u64 = key_of(b"xnor");

impl Function {
    /// By its word's key; `not` has one operand, the others two to four.
    #[inline]
    pub fn of_word(key: u64, operands: usize) -> Option<Function> {
        let function = match key {
            NOT => return (operands == 1).then_some(Function::And(true)),
            AND => Function::And(false),
            NAND => Function::And(true),
            OR => Function::Or(false),
            NOR => Function::Or(true),
            XOR => Function::Xor(false),
            XNOR => Function::Xor(true),
            _ => return None,
        };
        (2..=MOST_READS).contains(&operands).then_some(function)
    }

    /// By its table over so many operands: most are one of the kinds above, which take less time.
    pub fn of_table(table: u16, operands: usize) -> Function {
        let rows = 1 << operands;
        let all = u16::MAX >> (16 - rows);
        let (table, last) = (table & all, 1 << (rows - 1));
        match table {
            _ if table == last => Function::And(false),
            _ if table == all ^ last => Function::And(true),
            _ if table == all ^ 1 => Function::Or(false),
            1 => Function::Or(true),
            _ if table == PARITY & all => Function::Xor(false),
            _ if table == !PARITY & all => Function::Xor(true),
            _ => Function::Table(table),
        }
    }
}

#[derive(Debug, Clone, Copy)]
pub struct Gate {
    pub function: Function,
    /// The net that it drives.
    pub net: Net,
    /// Where it reads fewer than four, the last are the constant that changes nothing.
    pub reads: [Net; MOST_READS],
    /// Whether it reads more than two.
    pub wide: bool,
}

/// What a gate reads, in order: so many nets, and behind them the constant 0.
#[derive(Debug, Clone, Copy)]
pub struct Reads {
    pub list: [Net; MOST_READS],
    pub count: usize,
}

impl Reads {
    /// A list to be filled, in which nothing stands.
    pub const NONE: [Net; MOST_READS] = [ZERO; MOST_READS];

    /// All four, the last of which are the constant that changes nothing.
    #[inline(always)]
    fn filled(mut self, function: Function) -> [Net; MOST_READS] {
        if let Function::And(_) = function {
            for place in 1..MOST_READS {
                if place >= self.count {
                    self.list[place] = ONE;
                }
            }
            if self.count == 0 {
                self.list[0] = ONE;
            }
        }
        self.list
    }
}

/// Pins that are never at these values together: by masks, pin i has weight 2^i.
#[derive(Debug, Clone, Copy, PartialEq, Eq)]
pub struct Never {
    pub fixed: u32,
    pub ones: u32,
}

#[derive(Debug, Default)]
pub struct Circuit {
    pub nets: Nets,
    pub pins: Vec<Net>,
    pub nevers: Vec<Never>,
    pub gates: Vec<Gate>,
    /// Each port, and the net that it shows.
    pub ports: Vec<(Label, Net)>,
    /// Whether a gate reads what is not driven above it.
    pub loops: bool,
    /// The first net that is driven a second time.
    twice: Option<Net>,
}

impl Circuit {
    /// Nothing yet, in the room that there is.
    pub fn begin(&mut self) {
        self.nets.begin();
        self.pins.clear();
        self.nevers.clear();
        self.gates.clear();
        self.ports.clear();
        (self.loops, self.twice) = (false, None);
    }

    /// Notes a net that a gate drives, or a setting.
    #[inline(always)]
    pub fn drive(&mut self, net: Net) {
        if self.nets.drive(net) {
            self.twice.get_or_insert(net);
        }
    }

    #[inline(always)]
    pub fn push(&mut self, function: Function, net: Net, reads: Reads) {
        let (reads, wide) = (reads.filled(function), reads.count > 2);
        let driven = |place: usize| self.nets.is_driven(reads[place]);
        if !(driven(0) && driven(1) && (!wide || driven(2) && driven(3))) {
            self.loops = true;
            reads.iter().for_each(|&read| self.nets.read(read));
        }
        self.drive(net);
        self.gates.push(Gate {
            function,
            net,
            reads,
            wide,
        });
    }

    pub fn push_pin(&mut self, pin: Net) {
        self.drive(pin);
        self.pins.push(pin);
    }

    /// Nothing, if each net that is read or shown is driven, none is twice and, where there may be no loops, each gate reads only what is
    /// driven above it.
    pub fn whole(&self, text: &[u8], loops: bool) -> Result<(), String> {
        let mut shown = self.ports.iter().map(|&(_, net)| net);
        let shown = shown.find(|&net| !self.nets.is_driven(net));
        let name = |net: Net| self.nets.label(net).told(text);
        match (self.twice, self.nets.open().or(shown)) {
            _ if u32::try_from(text.len()).is_err() => Err("it is too long".to_string()),
            (Some(net), _) => Err(format!("{} is driven twice", name(net))),
            (None, Some(net)) => Err(format!("nothing drives {}", name(net))),
            _ if !loops && self.loops => Err("a gate reads itself or one below it".to_string()),
            _ => Ok(()),
        }
    }
}
