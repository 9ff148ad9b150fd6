//! The three-valued simulation, 64 settings to a word: every gate begins undefined and is evaluated again until none changes.

use super::circuit::{Circuit, Function, Gate, Never};
use super::nets::{Net, ONE, ZERO};
use super::order::Order;
use super::Shown;

/// More pins than a netlist may have, and few enough to try every setting.
pub const MOST_PINS: usize = 16;
pub const LANES: usize = 64;

/// In lane s of a pin's word stands its value under the s-th of 64 settings, for the pins that change within them.
const PATTERNS: [u64; 6] = [
    0xAAAA_AAAA_AAAA_AAAA,
    0xCCCC_CCCC_CCCC_CCCC,
    0xF0F0_F0F0_F0F0_F0F0,
    0xFF00_FF00_FF00_FF00,
    0xFFFF_0000_FFFF_0000,
    0xFFFF_FFFF_0000_0000,
];

/// A node's values: in which lanes it may be 1, and in which it is 1; it is undefined where it may be 1 and is not.
#[derive(Debug, Clone, Copy, PartialEq, Eq)]
#[repr(align(16))]
pub struct Values {
    may: u64,
    one: u64,
}

const UNDEFINED: Values = Values {
    may: u64::MAX,
    one: 0,
};

impl Values {
    fn of(one: u64) -> Values {
        Values { may: one, one }
    }

    fn inverted(self, inverted: bool) -> Values {
        match inverted {
            true => Values {
                may: !self.one,
                one: !self.may,
            },
            false => self,
        }
    }

    fn and(self, other: Values) -> Values {
        Values {
            may: self.may & other.may,
            one: self.one & other.one,
        }
    }

    fn or(self, other: Values) -> Values {
        Values {
            may: self.may | other.may,
            one: self.one | other.one,
        }
    }

    fn xor(self, other: Values) -> Values {
        Values {
            may: self.may & !other.one | !self.one & other.may,
            one: self.one & !other.may | !self.may & other.one,
        }
    }

    /// The lanes in which two differ.
    pub fn differ(self, other: Values) -> u64 {
        self.may ^ other.may | self.one ^ other.one
    }

    pub fn lane(self, lane: u32) -> Shown {
        match (self.may >> lane & 1, self.one >> lane & 1) {
            (0, _) => Shown::Zero,
            (_, 1) => Shown::One,
            _ => Shown::Undefined,
        }
    }
}

/// A pin's values under the 64 settings from `first` on, a multiple of 64.
fn pin_values(pin: usize, first: usize) -> Values {
    Values::of(match PATTERNS.get(pin) {
        Some(&pattern) => pattern,
        None if first >> pin & 1 == 1 => u64::MAX,
        None => 0,
    })
}

/// The lanes of settings that there are and that no never line excludes.
pub fn settings_that_come(pins: usize, first: usize, nevers: &[Never]) -> u64 {
    let there = match pins < PATTERNS.len() {
        true => (1 << (1 << pins)) - 1,
        false => u64::MAX,
    };
    let excluded = |never: &Never| {
        let fixed = (0..pins).filter(|pin| never.fixed >> pin & 1 == 1);
        fixed.fold(u64::MAX, |lanes, pin| {
            let values = pin_values(pin, first).inverted(never.ones >> pin & 1 == 0);
            lanes & values.one
        })
    };
    nevers
        .iter()
        .fold(there, |lanes, never| lanes & !excluded(never))
}

/// The values of a circuit's nets under 64 settings.
#[derive(Debug, Default)]
pub struct Simulation {
    values: Vec<Values>,
    /// What the nets that close loops had before the last sweep.
    before: Vec<Values>,
}

impl Simulation {
    /// For so many nets, in the room that there is.
    pub fn begin(&mut self, nets: usize) {
        self.values.clear();
        self.values.resize(nets, UNDEFINED);
        self.values[ZERO as usize] = Values::of(0);
        self.values[ONE as usize] = Values::of(u64::MAX);
    }

    pub fn value(&self, net: Net) -> Values {
        self.values[net as usize]
    }

    /// Puts the pins to the 64 settings from `first` on.
    pub fn set(&mut self, circuit: &Circuit, first: usize) {
        for (pin, &net) in circuit.pins.iter().enumerate() {
            self.values[net as usize] = pin_values(pin, first);
        }
    }

    /// The settled values of gates with loops. The nets that close them are all that a sweep reads of the one before it, so nothing changes
    /// any more as soon as these do not.
    pub fn settle(&mut self, order: &Order) {
        let [before, within, behind] = order.parts();
        self.sweep(before);
        self.before.clear();
        self.before.resize(order.closing.len(), UNDEFINED);
        let values = &mut self.values;
        let closing = order.closing.iter();
        closing.for_each(|&net| values[net as usize] = UNDEFINED);
        loop {
            self.sweep(within);
            let mut changed = 0;
            for (&net, before) in order.closing.iter().zip(&mut self.before) {
                changed |= before.differ(self.values[net as usize]);
                *before = self.values[net as usize];
            }
            if changed == 0 {
                break;
            }
        }
        self.sweep(behind);
    }

    /// Evaluates these gates once, in their order.
    pub fn sweep(&mut self, gates: &[Gate]) {
        for gate in gates {
            self.values[gate.net as usize] = evaluated(gate, &self.values);
        }
    }
}

/// A gate's values from those of what it reads.
#[inline(always)]
fn evaluated(gate: &Gate, values: &[Values]) -> Values {
    let value = |operand: usize| values[gate.reads[operand] as usize];
    let of = |rule: fn(Values, Values) -> Values, inverted: bool| {
        let two = rule(value(0), value(1));
        let all = match gate.wide {
            true => rule(rule(two, value(2)), value(3)),
            false => two,
        };
        all.inverted(inverted)
    };
    match gate.function {
        Function::And(inverted) => of(Values::and, inverted),
        Function::Or(inverted) => of(Values::or, inverted),
        Function::Xor(inverted) => of(Values::xor, inverted),
        Function::Table(table) => by_table(table, [value(0), value(1), value(2), value(3)]),
    }
}

/// A row may be met where no operand has the other value; the value is 1 where only rows of 1 may be met.
fn by_table(table: u16, reads: [Values; 4]) -> Values {
    let (mut may_be_zero, mut may_be_one) = (0, 0);
    for row in 0..16 {
        let can = |(operand, value): (usize, &Values)| match row >> operand & 1 {
            0 => !value.one,
            _ => value.may,
        };
        let reads = reads.iter().enumerate().map(can);
        let met = reads.fold(u64::MAX, |met, can| met & can);
        match table >> row & 1 {
            0 => may_be_zero |= met,
            _ => may_be_one |= met,
        }
    }
    Values {
        may: may_be_one,
        one: !may_be_zero,
    }
}
