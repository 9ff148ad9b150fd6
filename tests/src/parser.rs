//! The netlist text as a tree, by recursive descent. Knows nothing of the recogniser.

use crate::block::Kind;
use crate::limits::{DEPTH, NAME_BYTES, OPERANDS};

/// A name and the offset of its first byte.
#[derive(Debug, Clone, PartialEq, Eq)]
pub struct Name {
    pub place: usize,
    pub text: String,
}

/// An expression, known by the offset of its closing bracket.
#[derive(Debug, Clone, PartialEq, Eq)]
pub struct Expression {
    pub kind: Kind,
    pub operands: Vec<Operand>,
    pub close: usize,
}

/// An operand as written.
#[derive(Debug, Clone, PartialEq, Eq)]
pub enum Operand {
    Constant(bool),
    Name(Name),
    Inner(Expression),
}

/// A whole text: its inputs, its never lines as names with values, its gate lines, and its outputs as port and node.
#[derive(Debug, Clone, PartialEq, Eq, Default)]
pub struct Netlist {
    pub inputs: Vec<Name>,
    pub nevers: Vec<Vec<(Name, bool)>>,
    pub gates: Vec<(Name, Expression)>,
    pub outputs: Vec<(Name, Name)>,
}

/// The tree of a text of the grammar, or none.
pub fn parse(text: &[u8]) -> Option<Netlist> {
    let mut cursor = Cursor { text, place: 0 };
    let mut netlist = Netlist::default();
    while cursor.eat("(in ") {
        netlist.inputs.push(cursor.outside_name()?);
        cursor.demand(")\n")?;
    }
    while cursor.eat("(never ") {
        netlist.nevers.push(cursor.pairs()?);
        cursor.demand(")\n")?;
    }
    while cursor.eat("(gate ") {
        let name = cursor.name()?;
        cursor.demand(" ")?;
        netlist.gates.push((name, cursor.expression(1)?));
        cursor.demand(")\n")?;
    }
    while cursor.eat("(out ") {
        let port = cursor.outside_name()?;
        cursor.demand(" ")?;
        netlist.outputs.push((port, cursor.name()?));
        cursor.demand(")\n")?;
    }
    (cursor.place == text.len()).then_some(netlist)
}

struct Cursor<'a> {
    text: &'a [u8],
    place: usize,
}

impl Cursor<'_> {
    fn rest(&self) -> &[u8] {
        &self.text[self.place..]
    }

    /// Moves past `expected` where it is next.
    fn eat(&mut self, expected: &str) -> bool {
        let found = self.rest().starts_with(expected.as_bytes());
        if found {
            self.place += expected.len();
        }
        found
    }

    fn demand(&mut self, expected: &str) -> Option<()> {
        self.eat(expected).then_some(())
    }

    /// A name of an input or a port.
    fn outside_name(&mut self) -> Option<Name> {
        self.name().filter(|name| !name.text.starts_with('_'))
    }

    fn name(&mut self) -> Option<Name> {
        let legal = |b: &u8| b.is_ascii_lowercase() || b.is_ascii_digit() || *b == b'_';
        let place = self.place;
        let bytes = self.rest().iter().copied().take_while(legal);
        let text: String = bytes.map(char::from).collect();
        self.place += text.len();
        let digit_first = text.starts_with(|c: char| c.is_ascii_digit());
        let good = (1..=NAME_BYTES).contains(&text.len()) && !digit_first;
        good.then_some(Name { place, text })
    }

    /// Pairs with a space between two.
    fn pairs(&mut self) -> Option<Vec<(Name, bool)>> {
        let mut pairs = vec![self.pair()?];
        while self.eat(" ") {
            pairs.push(self.pair()?);
        }
        Some(pairs)
    }

    fn pair(&mut self) -> Option<(Name, bool)> {
        self.demand("(")?;
        let name = self.name()?;
        let value = self.eat(" 1)");
        if !value {
            self.demand(" 0)")?;
        }
        Some((name, value))
    }

    fn expression(&mut self, depth: usize) -> Option<Expression> {
        if depth > DEPTH {
            return None;
        }
        self.demand("(")?;
        let mut kinds = Kind::ALL.into_iter();
        let kind = kinds.find(|kind| self.eat(kind.keyword()))?;
        self.demand(" ")?;
        let mut operands = vec![self.operand(depth)?];
        while self.eat(" ") {
            operands.push(self.operand(depth)?);
        }
        let close = self.place;
        self.demand(")")?;
        let legal = match kind {
            Kind::Not => operands.len() == 1,
            _ => (2..=OPERANDS).contains(&operands.len()),
        };
        legal.then_some(Expression {
            kind,
            operands,
            close,
        })
    }

    fn operand(&mut self, depth: usize) -> Option<Operand> {
        if self.eat("0") {
            return Some(Operand::Constant(false));
        }
        if self.eat("1") {
            return Some(Operand::Constant(true));
        }
        match self.rest().first()? {
            b'(' => self.expression(depth + 1).map(Operand::Inner),
            _ => self.name().map(Operand::Name),
        }
    }
}
