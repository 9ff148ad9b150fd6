//! A reader of netlist texts, by the grammar of docs/SPECIFICATION.md 1.

use super::circuit::{Circuit, Function, Never, Reads};
use super::cursor::{Cursor, Letters};
use super::nets::{Label, Net, ONE, ZERO};

const NAME_BYTES: usize = 8;
const DEPTH: usize = 8;
/// What names and words are made of.
static LETTERS: Letters =
    Letters::of(&[(b'0', b'9'), (b'_', b'_'), (b'a', b'z')]).named(NAME_BYTES);

/// Reads a text; `loops`: whether a gate may read itself or a gate below it.
pub fn read(text: &[u8], loops: bool, circuit: &mut Circuit) -> Result<(), String> {
    let mut reader = Reader {
        text: Cursor::of(text),
        circuit,
    };
    let mut part = 0;
    while !reader.text.is_at_end() {
        let began = reader.text.place();
        let found = reader.line().filter(|&found| found >= part);
        part = found.ok_or_else(|| {
            let line = reader.text.line_of(began);
            format!("line {line} is no line of a netlist, or out of its place")
        })?;
    }
    let ports = &circuit.ports;
    let twice = |(index, (port, _)): &(usize, &(Label, Net))| {
        let name = port.bytes(text);
        let mut before = ports[..*index].iter();
        before.any(|(other, _)| other.bytes(text) == name)
    };
    if let Some((_, (port, _))) = ports.iter().enumerate().find(twice) {
        return Err(format!("the port {} stands there twice", port.told(text)));
    }
    circuit.whole(text, loops)
}

struct Reader<'a> {
    text: Cursor<'a>,
    circuit: &'a mut Circuit,
}

impl Reader<'_> {
    /// Takes a line, and tells in which of the four parts of a text it stands.
    fn line(&mut self) -> Option<usize> {
        let part = if self.text.takes(b"(gate ") {
            let net = self.net()?;
            self.text.must(b" (")?;
            self.expression(net, 1)?;
            2
        } else if self.text.takes(b"(in ") {
            self.plain()?;
            let pin = self.net()?;
            self.circuit.push_pin(pin);
            0
        } else if self.text.takes(b"(never") {
            let never = self.never()?;
            self.circuit.nevers.push(never);
            1
        } else {
            self.text.must(b"(out ")?;
            self.plain()?;
            let port = self.text.name(&LETTERS)?;
            let port = Label::before(&self.text, port);
            self.text.must(b" ")?;
            let shown = self.net()?;
            self.circuit.ports.push((port, shown));
            3
        };
        self.text.must(b")\n")?;
        Some(part)
    }

    /// The pairs of a never line.
    fn never(&mut self) -> Option<Never> {
        let mut never = Never { fixed: 0, ones: 0 };
        while self.text.takes(b" (") {
            let net = self.net()?;
            let pin = self.circuit.pins.iter().position(|&pin| pin == net)?;
            let bit = 1_u32
                .checked_shl(pin as u32)
                .filter(|bit| never.fixed & bit == 0)?;
            never.fixed |= bit;
            if self.text.takes(b" 1)") {
                never.ones |= bit;
            } else {
                self.text.must(b" 0)")?;
            }
        }
        (never.fixed != 0).then_some(never)
    }

    /// An expression behind its bracket: a gate that drives this net; its inner ones come before it.
    #[inline(always)]
    fn expression(&mut self, net: Net, depth: usize) -> Option<()> {
        let mut text = self.text;
        let (word, length) = text.key(&LETTERS)?;
        text.pass(length);
        let (mut list, mut count) = (Reads::NONE, 0);
        while text.takes(b" ") {
            *list.get_mut(count)? = match self.circuit.nets.known(text, &LETTERS) {
                Some((net, length)) => {
                    text.pass(length);
                    net
                }
                None => {
                    self.text = text;
                    let net = self.other_operand(depth)?;
                    text = self.text;
                    net
                }
            };
            count += 1;
        }
        text.must(b")")?;
        self.text = text;
        let function = Function::of_word(word, count)?;
        self.circuit.push(function, net, Reads { list, count });
        Some(())
    }

    /// An operand that is an expression, a constant, or a name that may be new.
    #[inline(never)]
    fn other_operand(&mut self, depth: usize) -> Option<Net> {
        match self.text.next()? {
            b'(' => {
                self.text.pass(1);
                self.inner(depth)
            }
            b'0' => self.text.must(b"0").map(|()| ZERO),
            b'1' => self.text.must(b"1").map(|()| ONE),
            _ => self.net(),
        }
    }

    /// An operand that is an expression, behind its bracket.
    fn inner(&mut self, depth: usize) -> Option<Net> {
        let net = self.circuit.nets.unnamed();
        (depth < DEPTH).then(|| self.expression(net, depth + 1))??;
        Some(net)
    }

    /// Nothing, if the name that stands here may be an input's or a port's.
    fn plain(&self) -> Option<()> {
        (self.text.next() != Some(b'_')).then_some(())
    }

    #[inline(always)]
    fn net(&mut self) -> Option<Net> {
        self.circuit.nets.take(&mut self.text, &LETTERS)
    }
}
