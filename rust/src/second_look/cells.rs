//! A reader of tables of lookup cells: five decimal words a cell, each cell on a line of its own, and the comments that tell pins and ports.

use super::circuit::{Circuit, Function, Reads};
use super::cursor::{Cursor, Letters, ONES};
use super::nets::{Label, Net, ONE, ZERO};

/// What names are made of.
static LETTERS: Letters = Letters::of(&[(b'!', 254)]);

/// The operand words of the constants, of which most cells have the first, with the blank behind it.
const CONSTANT_ZERO: &[u8; 6] = b"65534 ";
const CONSTANT_ONE: u32 = 65_535;

/// Reads a table; a cell reads pins, constants and cells before it.
pub fn read(text: &[u8], circuit: &mut Circuit) -> Result<(), String> {
    let mut table = Table {
        text: Cursor::of(text),
        circuit,
        inputs: false,
        outputs: None,
    };
    while !table.text.is_at_end() {
        let began = table.text.place();
        let taken = match table.text.takes(b"# ") {
            true => table.comment(),
            false => table.cell(),
        };
        taken.ok_or_else(|| {
            let line = table.text.line_of(began);
            format!("line {line} is no line of such a table, or out of its place")
        })?;
    }
    let (inputs, outputs, ports) = (table.inputs, table.outputs, circuit.ports.len());
    match outputs.filter(|_| inputs) {
        Some(count) if count as usize == ports => circuit.whole(text, false),
        Some(count) => Err(format!("{count} outputs are told, and {ports} follow")),
        None => Err("it does not tell its inputs or its outputs".to_string()),
    }
}

/// Pins and cells are the nets behind the constants, in order.
struct Table<'a> {
    text: Cursor<'a>,
    circuit: &'a mut Circuit,
    /// Whether the pins were told.
    inputs: bool,
    /// How many ports were told to follow.
    outputs: Option<u32>,
}

impl Table<'_> {
    /// Takes a comment: one that tells pins or ports, or any other.
    fn comment(&mut self) -> Option<()> {
        if !matches!(self.text.next(), Some(b'i' | b'o')) {
            self.text.pass_line();
            return Some(());
        }
        if self.text.takes(b"inputs ") {
            let (count, new) = (
                number(&mut self.text)?,
                !std::mem::replace(&mut self.inputs, true),
            );
            while self.text.takes(b" ") {
                let pin = self.circuit.nets.take(&mut self.text, &LETTERS)?;
                self.circuit.push_pin(pin);
            }
            (new && self.net(count).is_none()).then_some(())?;
            (count as usize == self.circuit.pins.len()).then_some(())?;
        } else if self.text.takes(b"outputs ") {
            let count = number(&mut self.text)?;
            self.outputs.replace(count).is_none().then_some(())?;
        } else if self.text.takes(b"output ") {
            self.outputs?;
            self.port()?;
        } else {
            self.text.pass_line();
            return Some(());
        }
        self.text.must(b"\n")
    }

    /// Takes a port's name, which no port before it has, and the number of what it shows.
    fn port(&mut self) -> Option<()> {
        let (name, text) = (self.text.name(&LETTERS)?, self.text.text());
        let port = Label::before(&self.text, name);
        self.text.must(b" ")?;
        let number = number(&mut self.text)?;
        let net = self.net(number)?;
        let mut known = self.circuit.ports.iter();
        known
            .all(|(known, _)| known.bytes(text) != name)
            .then_some(())?;
        self.circuit.ports.push((port, net));
        Some(())
    }

    /// Takes a cell: four operands and the truth word. Of the last operands that are the constant 0 only rows with a 0 are met.
    fn cell(&mut self) -> Option<()> {
        (self.inputs && self.outputs.is_none()).then_some(())?;
        let mut text = self.text;
        let mut operand = || match text.takes(CONSTANT_ZERO) {
            true => Some(ZERO),
            false => {
                let net = match number(&mut text)? {
                    CONSTANT_ONE => ONE,
                    number => self.net(number)?,
                };
                text.must(b" ").map(|()| net)
            }
        };
        let list = [operand()?, operand()?, operand()?, operand()?];
        let last = list.iter().rposition(|&net| net != ZERO);
        let count = last.map_or(0, |last| last + 1);
        let table = u16::try_from(number(&mut text)?).ok()?;
        text.must(b"\n")?;
        self.text = text;
        let net = self.circuit.nets.unnamed();
        let function = Function::of_table(table, count);
        self.circuit.push(function, net, Reads { list, count });
        Some(())
    }

    /// The net of a pin or a cell, if there is one of this number by now.
    fn net(&self, number: u32) -> Option<Net> {
        let net = number + ONE + 1;
        ((net as usize) < self.circuit.nets.count()).then_some(net)
    }
}

/// A decimal number of at most six digits.
#[inline(always)]
fn number(text: &mut Cursor) -> Option<u32> {
    let digits = text.eight() ^ (ONES * u64::from(b'0'));
    // A byte's highest bit is set where it is more than 9.
    let others = ((digits & (ONES * 0x7F)) + ONES * 0x76) | digits;
    let length = (others & ONES << 7).trailing_zeros() / 8;
    (1..=6).contains(&length).then_some(())?;
    text.pass(length as usize);
    // With zeros before them eight digits, of which pairs, then fours, then all become one number.
    let pairs = (digits << (64 - 8 * length)).wrapping_mul(10 << 8 | 1) >> 8;
    let fours = (pairs & 0x00FF_00FF_00FF_00FF).wrapping_mul(100 << 16 | 1) >> 16;
    let all = (fours & 0x0000_FFFF_0000_FFFF).wrapping_mul(10_000 << 32 | 1) >> 32;
    Some(all as u32)
}
