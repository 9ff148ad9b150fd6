//! Three-valued gates under 64 settings at a time, for what is told beside the proved operations.

use crate::{Kind, Value};

/// The settings of a word.
pub const LANES: usize = 64;

/// What is known of a value under each of 64 settings; neither bit: undefined.
#[derive(Clone, Copy, PartialEq, Eq, Default)]
pub struct Lanes {
    pub zero: u64,
    pub one: u64,
}

impl Lanes {
    pub fn of(ones: u64) -> Lanes {
        Lanes {
            zero: !ones,
            one: ones,
        }
    }

    fn inverted(self) -> Lanes {
        Lanes {
            zero: self.one,
            one: self.zero,
        }
    }

    fn and(self, other: Lanes) -> Lanes {
        Lanes {
            zero: self.zero | other.zero,
            one: self.one & other.one,
        }
    }

    fn xor(self, other: Lanes) -> Lanes {
        Lanes {
            zero: self.zero & other.zero | self.one & other.one,
            one: self.zero & other.one | self.one & other.zero,
        }
    }
}

/// The same value under all of them.
impl From<Value> for Lanes {
    fn from(value: Value) -> Lanes {
        match value {
            Value::Zero => Lanes::of(0),
            Value::One => Lanes::of(u64::MAX),
            Value::Undefined => Lanes::default(),
        }
    }
}

/// What a gate of a kind is where its operands are these.
pub fn evaluated(kind: Kind, operands: impl Iterator<Item = Lanes> + Clone) -> Lanes {
    let all = operands.clone().fold(Lanes::of(u64::MAX), Lanes::and);
    let none = operands
        .clone()
        .map(Lanes::inverted)
        .fold(Lanes::of(u64::MAX), Lanes::and);
    let odd = operands.fold(Lanes::of(0), Lanes::xor);
    match kind {
        Kind::And => all,
        Kind::Nand | Kind::Not => all.inverted(),
        Kind::Or => none.inverted(),
        Kind::Nor => none,
        Kind::Xor => odd,
        Kind::Xnor => odd.inverted(),
    }
}
