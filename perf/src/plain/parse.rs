//! Recursive descent over the bytes of a text, into a few lists that grow as a whole.

use super::block::{is_name_byte, ONE, ZERO};
use super::gate::Kind;

/// The bytes of a name as a number, the first byte lowest, and its place.
#[derive(Clone, Copy)]
pub struct Name {
    pub bytes: u64,
    pub place: usize,
}

#[derive(Clone, Copy)]
enum Operand {
    Named(Name),
    Word(u16),
}

#[derive(Default)]
pub struct Netlist {
    pub inputs: Vec<Name>,
    /// The names and values of all never lines, and where each line ends among them.
    pub pairs: Vec<(Name, bool)>,
    pub nevers: Vec<usize>,
    /// The words of the gates, by closing bracket; 0 where a name is read.
    pub gates: Vec<u16>,
    /// The names that are read, each with the place of its word.
    pub reads: Vec<(Name, usize)>,
    /// The gate lines' names and gates.
    pub named: Vec<(Name, usize)>,
    pub outputs: Vec<(Name, Name)>,
}

/// Fails with the place of the first byte that can't stand there.
pub struct Parser<'a> {
    text: &'a [u8],
    place: usize,
    pub netlist: Netlist,
}

#[derive(PartialEq, PartialOrd)]
enum Section {
    Inputs,
    Nevers,
    Gates,
    Outputs,
}

impl<'a> Parser<'a> {
    pub fn new(text: &'a [u8]) -> Parser<'a> {
        Parser {
            text,
            place: 0,
            netlist: Netlist::default(),
        }
    }

    fn peek(&self) -> Option<u8> {
        self.text.get(self.place).copied()
    }

    fn expect(&mut self, bytes: &[u8]) -> Result<(), usize> {
        let rest = &self.text[self.place..];
        if rest.starts_with(bytes) {
            self.place += bytes.len();
            return Ok(());
        }
        let same = rest.iter().zip(bytes).take_while(|(a, b)| a == b);
        Err(self.place + same.count())
    }

    pub fn lines(&mut self) -> Result<(), usize> {
        let mut section = Section::Inputs;
        while self.place < self.text.len() {
            self.expect(b"(")?;
            match self.peek() {
                Some(b'i') if section == Section::Inputs => self.input()?,
                Some(b'n') if section <= Section::Nevers => {
                    section = Section::Nevers;
                    self.never()?;
                }
                Some(b'g') if section != Section::Outputs => {
                    section = Section::Gates;
                    self.gate_line()?;
                }
                Some(b'o') => {
                    section = Section::Outputs;
                    self.output()?;
                }
                _ => return Err(self.place),
            }
            self.expect(b")\n")?;
        }
        Ok(())
    }

    fn input(&mut self) -> Result<(), usize> {
        self.expect(b"in ")?;
        let name = self.name(false)?;
        self.netlist.inputs.push(name);
        Ok(())
    }

    fn never(&mut self) -> Result<(), usize> {
        self.expect(b"never ")?;
        self.pair()?;
        while self.peek() == Some(b' ') {
            self.place += 1;
            self.pair()?;
        }
        self.netlist.nevers.push(self.netlist.pairs.len());
        Ok(())
    }

    fn pair(&mut self) -> Result<(), usize> {
        self.expect(b"(")?;
        let name = self.name(true)?;
        self.expect(b" ")?;
        let Some(value @ (b'0' | b'1')) = self.peek() else {
            return Err(self.place);
        };
        self.place += 1;
        self.expect(b")")?;
        self.netlist.pairs.push((name, value == b'1'));
        Ok(())
    }

    fn gate_line(&mut self) -> Result<(), usize> {
        self.expect(b"gate ")?;
        let name = self.name(true)?;
        self.expect(b" ")?;
        let gate = self.expression(1)?;
        self.netlist.named.push((name, gate));
        Ok(())
    }

    fn output(&mut self) -> Result<(), usize> {
        self.expect(b"out ")?;
        let port = self.name(false)?;
        self.expect(b" ")?;
        let shown = self.name(true)?;
        self.netlist.outputs.push((port, shown));
        Ok(())
    }

    /// The next name, which may start with `_` or not.
    fn name(&mut self, underscore: bool) -> Result<Name, usize> {
        let place = self.place;
        match self.peek() {
            Some(b'a'..=b'z') => {}
            Some(b'_') if underscore => {}
            _ => return Err(place),
        }
        let rest = self.text[place..].iter().take(8);
        let (mut bytes, mut length) = (0, 0);
        for &byte in rest.take_while(|&&byte| is_name_byte(byte)) {
            bytes |= u64::from(byte) << (8 * length);
            length += 1;
        }
        self.place += length;
        Ok(Name { bytes, place })
    }

    /// The gate number of an expression.
    fn expression(&mut self, depth: usize) -> Result<usize, usize> {
        self.expect(b"(")?;
        let kind = self.kind()?;
        let mut operands = [Operand::Word(0); 4];
        let mut count = 0;
        loop {
            operands[count] = self.operand(depth)?;
            count += 1;
            match self.peek() {
                Some(b' ') if kind != Kind::Not && count < 4 => self.place += 1,
                Some(b')') if kind == Kind::Not || count > 1 => break,
                _ => return Err(self.place),
            }
        }
        self.place += 1;
        let Netlist { gates, reads, .. } = &mut self.netlist;
        gates.push(kind as u16 + 8 * count as u16);
        for operand in operands {
            if let Operand::Named(name) = operand {
                reads.push((name, gates.len()));
            }
            gates.push(match operand {
                Operand::Named(_) => 0,
                Operand::Word(word) => word,
            });
        }
        Ok(gates.len() / 5 - 1)
    }

    /// A kind and the space behind it.
    fn kind(&mut self) -> Result<Kind, usize> {
        let (kind, rest): (Kind, &[u8]) = match self.text[self.place..] {
            [b'a', ..] => (Kind::And, b"and "),
            [b'o', ..] => (Kind::Or, b"or "),
            [b'x', b'n', ..] => (Kind::Xnor, b"xnor "),
            [b'x', ..] => (Kind::Xor, b"xor "),
            [b'n', b'a', ..] => (Kind::Nand, b"nand "),
            [b'n', b'o', b't', ..] => (Kind::Not, b"not "),
            // Where this is cut off or bad, it is so at the same place for `not`.
            _ => (Kind::Nor, b"nor "),
        };
        self.expect(rest)?;
        Ok(kind)
    }

    fn operand(&mut self, depth: usize) -> Result<Operand, usize> {
        match self.peek() {
            Some(digit @ (b'0' | b'1')) => {
                self.place += 1;
                Ok(Operand::Word(if digit == b'1' { ONE } else { ZERO }))
            }
            Some(b'(') if depth < 8 => {
                let gate = self.expression(depth + 1)?;
                Ok(Operand::Word((self.netlist.inputs.len() + gate) as u16))
            }
            _ => self.name(true).map(Operand::Named),
        }
    }
}
