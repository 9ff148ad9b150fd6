//! A reader of BLIF models as they are written here: one model of `.names` tables, each of whose rows fixes all of its at most four inputs.

use super::circuit::{Circuit, Function, Reads};
use super::cursor::{key_of, Cursor, Letters, ONES};
use super::nets::Net;

/// What names are made of: all but blanks and what begins a comment.
static LETTERS: Letters = Letters::of(&[(b'!', b'"'), (b'$', 254)]);

/// Rows over none to four inputs.
static ROWS: [Row; 5] = [
    Row::like(b"0\n", 0),
    Row::like(b"0 0\n", 1),
    Row::like(b"00 0\n", 2),
    Row::like(b"000 0\n", 3),
    Row::like(b"0000 0\n", 4),
];

/// How a row is written: a digit for each of its inputs, and behind a blank the value; without inputs the value alone.
struct Row {
    /// A row of zeros, as a key.
    zeros: u64,
    /// The bits of the row that are no digit's lowest, and so are those of a row of zeros.
    fixed: u64,
    /// The lowest bits of the inputs' digits.
    inputs: u64,
    /// Where the lowest bit of the value's digit stands.
    value: u32,
    length: usize,
}

impl Row {
    const fn like(zeros: &[u8], inputs: u32) -> Row {
        let length = zeros.len();
        let value = 8 * (length as u32 - 2);
        let inputs = ONES & ((1 << (8 * inputs)) - 1);
        Row {
            zeros: key_of(zeros),
            fixed: ((1 << (8 * length)) - 1) & !inputs & !(1 << value),
            inputs,
            value,
            length,
        }
    }

    /// Takes such a row: its inputs as bits, the first the lowest, and its value.
    #[inline(always)]
    fn take(&self, text: &mut Cursor) -> Option<(u64, u64)> {
        let differs = text.eight() ^ self.zeros;
        (differs & self.fixed == 0).then_some(())?;
        text.pass(self.length);
        // Bits 0, 8, 16 and 24 come to stand as bits 24 to 27.
        let inputs = (differs & self.inputs).wrapping_mul(1 << 24 | 1 << 17 | 1 << 10 | 1 << 3);
        Some((inputs >> 24 & 0xF, differs >> self.value & 1))
    }
}

/// Reads a model; `loops`: whether a table may read its own net or one that is driven below it.
pub fn read(text: &[u8], loops: bool, circuit: &mut Circuit) -> Result<(), String> {
    let mut model = Model {
        text: Cursor::of(text),
        circuit,
        part: Part::Before,
        inputs: false,
        outputs: false,
    };
    while !model.text.is_at_end() {
        let taken = model.line();
        taken.ok_or_else(|| {
            let line = model.text.line_of(model.text.place());
            format!("line {line} is no line of such a model, or out of its place")
        })?;
    }
    match model.part {
        Part::Behind => circuit.whole(text, loops),
        _ => Err("the model has no end".to_string()),
    }
}

/// Where a line stands.
#[derive(Clone, Copy, PartialEq, Eq)]
enum Part {
    Before,
    Model,
    Behind,
}

struct Model<'a> {
    text: Cursor<'a>,
    circuit: &'a mut Circuit,
    part: Part,
    /// Whether these were told.
    inputs: bool,
    outputs: bool,
}

impl Model<'_> {
    /// Takes a line, and with the first line of a table its rows.
    fn line(&mut self) -> Option<()> {
        let body = self.part == Part::Model;
        if self.text.takes(b".names ") {
            body.then(|| self.table())?
        } else if self.text.takes(b".inputs") {
            let new = body && !std::mem::replace(&mut self.inputs, true);
            while let Some(pin) = self.next() {
                self.circuit.push_pin(pin);
            }
            new.then(|| self.end_line())?
        } else if self.text.takes(b".outputs") {
            let new = body && !std::mem::replace(&mut self.outputs, true);
            while let Some(net) = self.next() {
                let label = self.circuit.nets.label(net);
                self.circuit.ports.push((label, net));
            }
            new.then(|| self.end_line())?
        } else if self.text.takes(b".model ") {
            let new = self.part == Part::Before && self.text.name(&LETTERS).is_some();
            self.part = Part::Model;
            new.then(|| self.end_line())?
        } else if self.text.takes(b".end") {
            self.part = Part::Behind;
            body.then(|| self.end_line())?
        } else {
            self.end_line()
        }
    }

    /// A table: its inputs and its net, and then the rows.
    fn table(&mut self) -> Option<()> {
        let (mut text, nets) = (self.text, &mut self.circuit.nets);
        let (mut list, mut count) = (Reads::NONE, 0);
        let mut net = nets.take(&mut text, &LETTERS)?;
        while text.takes(b" ") {
            *list.get_mut(count)? = net;
            count += 1;
            net = nets.take(&mut text, &LETTERS)?;
        }
        text.must(b"\n")?;
        // All rows have the same value, and where none is met it is the other one; a table without rows is 0.
        let (form, mut rows, mut values) = (&ROWS[count], 0, 0);
        while let Some(b'0' | b'1') = text.next() {
            let (row, value) = form.take(&mut text)?;
            rows |= 1 << row;
            values |= 1 << value;
        }
        let table = match values {
            0b00 | 0b10 => rows,
            0b01 => !rows,
            _ => return None,
        };
        self.text = text;
        let function = Function::of_table(table, count);
        self.circuit.push(function, net, Reads { list, count });
        Some(())
    }

    /// The net of the next word of the line, if there is one.
    fn next(&mut self) -> Option<Net> {
        let nets = &mut self.circuit.nets;
        self.text
            .takes(b" ")
            .then(|| nets.take(&mut self.text, &LETTERS))?
    }

    /// Goes past the end of the line, and a comment before it.
    fn end_line(&mut self) -> Option<()> {
        if self.text.takes(b"\n") {
            return Some(());
        }
        self.text.must(b"#")?;
        self.text.pass_line();
        Some(())
    }
}
