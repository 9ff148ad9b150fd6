//! A reader of Verilog modules as they are written here: declarations of ports and wires, gates of Verilog's own, and assignments of a net.

use super::circuit::{Circuit, Function, Reads};
use super::cursor::{key_of, Cursor, Letters};
use super::nets::{Net, ONE, ZERO};
use std::ops::Range;

/// What words and numbers are made of.
static WORDS: Letters = Letters::of(&[(b'0', b'9'), (b'A', b'Z'), (b'_', b'_'), (b'a', b'z')]);
/// What names are made of, and what those are that are escaped.
static LETTERS: Letters =
    Letters::of(&[(b'0', b'9'), (b'A', b'Z'), (b'_', b'_'), (b'a', b'z')]).named(usize::MAX);
static ESCAPED: Letters = Letters::of(&[(b'!', 254)]);

/// Words that begin a statement, as keys.
const INPUT: u64 = key_of(b"input");
const OUTPUT: u64 = key_of(b"output");
const WIRE: u64 = key_of(b"wire");
const ASSIGN: u64 = key_of(b"assign");

/// Reads a module; `loops`: whether a gate may read its own net or one that is driven below it.
pub fn read(
    text: &[u8],
    loops: bool,
    circuit: &mut Circuit,
    room: &mut Room,
) -> Result<(), String> {
    room.listed.clear();
    room.declared.clear();
    let mut module = Module {
        text: Cursor::of(text),
        room,
        circuit,
    };
    module.whole().ok_or_else(|| {
        let line = module.text.line_of(module.text.place());
        format!("what stands in line {line} is no part of such a module")
    })?;
    module.ports(loops)
}

/// What a name is declared as.
#[derive(Clone, Copy, PartialEq, Eq)]
enum Role {
    Input,
    Output,
    Wire,
}

/// A declaration: as what, and the nets, of which a vector has one for each bit. Names are nets by themselves, so a vector has others.
#[derive(Clone, Copy)]
struct Declared {
    role: Role,
    first: Net,
    width: Option<u16>,
}

impl Declared {
    fn nets(self) -> Range<Net> {
        self.first..self.first + Net::from(self.width.unwrap_or(1))
    }
}

/// What a module declares, in room that stays from one to the next.
#[derive(Default)]
pub struct Room {
    listed: Vec<Net>,
    /// By the number of the name.
    declared: Vec<Option<Declared>>,
}

struct Module<'a> {
    text: Cursor<'a>,
    room: &'a mut Room,
    circuit: &'a mut Circuit,
}

impl Module<'_> {
    /// Takes the whole module, a statement a line.
    fn whole(&mut self) -> Option<()> {
        while self.text.takes(b"//") {
            self.text.pass_line();
        }
        self.text.must(b"module ")?;
        self.name()?;
        self.text.must(b" (")?;
        if !self.text.takes(b");\n") {
            self.list(|module| {
                let name = module.name()?;
                module.room.listed.push(name);
                Some(())
            })?;
            self.text.must(b");\n")?;
        }
        while self.text.takes(b"  ") {
            let (word, length) = self.text.key(&WORDS)?;
            self.text.pass(length);
            match word {
                INPUT => self.declaration(Role::Input)?,
                OUTPUT => self.declaration(Role::Output)?,
                WIRE => self.declaration(Role::Wire)?,
                ASSIGN => self.assignment()?,
                _ => self.gate(word)?,
            }
            self.text.must(b";\n")?;
        }
        self.text.must(b"endmodule\n")?;
        self.text.is_at_end().then_some(())
    }

    fn assignment(&mut self) -> Option<()> {
        self.text.must(b" ")?;
        let net = self.net()?;
        self.text.must(b" = ")?;
        let (mut list, count) = (Reads::NONE, 1);
        list[0] = self.operand()?;
        let function = Function::And(false);
        self.circuit.push(function, net, Reads { list, count });
        Some(())
    }

    /// A gate: behind its word its net and what it reads.
    #[inline(always)]
    fn gate(&mut self, word: u64) -> Option<()> {
        self.text.must(b" (")?;
        let net = self.net()?;
        let mut text = self.text;
        let (mut list, mut count) = (Reads::NONE, 0);
        while text.takes(b", ") {
            // What a name of a driven net leads to is declared, and no vector.
            let nets = &self.circuit.nets;
            let known = nets.known(text, &LETTERS);
            *list.get_mut(count)? = match known.filter(|&(net, _)| nets.is_driven(net)) {
                Some((net, length)) => {
                    text.pass(length);
                    net
                }
                None => {
                    self.text = text;
                    let net = self.operand()?;
                    text = self.text;
                    net
                }
            };
            count += 1;
        }
        text.must(b")")?;
        self.text = text;
        let function = Function::of_word(word, count)?;
        self.circuit.push(function, net, Reads { list, count });
        Some(())
    }

    /// Names behind `input`, `output` or `wire`; a vector has its range before the name.
    fn declaration(&mut self, role: Role) -> Option<()> {
        self.text.must(b" ")?;
        let mut width = None;
        if self.text.takes(b"[") {
            width = Some(self.number()?.checked_add(1)?);
            self.text.must(b":0] ")?;
        }
        self.list(|module| module.declare(role, width))
    }

    /// A name that is declared, with a net for each bit of a vector.
    #[inline(always)]
    fn declare(&mut self, role: Role, width: Option<u16>) -> Option<()> {
        let name = self.name()?;
        let first = match width {
            None => name,
            Some(width) => self.circuit.nets.bits(name, width),
        };
        let new = Declared { role, first, width };
        if role == Role::Input {
            new.nets().for_each(|net| self.circuit.drive(net));
        }
        let declared = &mut self.room.declared;
        if declared.len() <= name as usize {
            declared.resize(2 * self.circuit.nets.count(), None);
        }
        let known = declared[name as usize].replace(new);
        known.is_none().then_some(())
    }

    /// Parts with commas between them.
    #[inline(always)]
    fn list(&mut self, mut part: impl FnMut(&mut Self) -> Option<()>) -> Option<()> {
        part(self)?;
        while self.text.takes(b", ") {
            part(self)?;
        }
        Some(())
    }

    #[inline(never)]
    fn operand(&mut self) -> Option<Net> {
        if self.text.next() != Some(b'1') {
            return self.net();
        }
        let one = self.text.takes(b"1'b1");
        (one || self.text.takes(b"1'b0")).then_some(if one { ONE } else { ZERO })
    }

    /// A net that is declared: a name's, or a bit of a vector.
    #[inline(always)]
    fn net(&mut self) -> Option<Net> {
        let name = self.name()? as usize;
        let Declared { first, width, .. } = (*self.room.declared.get(name)?)?;
        let Some(width) = width else {
            return Some(first);
        };
        self.text.must(b"[")?;
        let bit = self.number().filter(|&bit| bit < width)?;
        self.text.must(b"]")?;
        Some(first + Net::from(bit))
    }

    /// A name, escaped or not.
    #[inline(always)]
    fn name(&mut self) -> Option<Net> {
        match self.text.takes(b"\\") {
            true => self.escaped(),
            false => self.circuit.nets.take(&mut self.text, &LETTERS),
        }
    }

    /// A name behind the sign that escapes it, and before the blank that ends it. Its bytes are its key where it may stand there without.
    fn escaped(&mut self) -> Option<Net> {
        let name = self.text.name(&ESCAPED)?;
        let plain = name.iter().all(|byte| LETTERS.has(*byte)) && LETTERS.may_be(name);
        let short = plain && name.len() <= 8;
        let net = self.circuit.nets.named(&self.text, name, short)?;
        self.text.must(b" ")?;
        Some(net)
    }

    fn number(&mut self) -> Option<u16> {
        let digits = std::str::from_utf8(self.text.name(&WORDS)?).ok()?;
        digits.parse().ok()
    }

    /// The ports in the order in which the module lists them, the bits of a vector from 0 on.
    fn ports(self, loops: bool) -> Result<(), String> {
        let (circuit, text) = (self.circuit, self.text.text());
        let Room { listed, declared } = self.room;
        for &mut name in listed {
            let named = declared.get_mut(name as usize).and_then(Option::take);
            let Some(port) = named.filter(|declared| declared.role != Role::Wire) else {
                let name = circuit.nets.label(name).told(text);
                return Err(format!("{name} is declared as no port, or listed twice"));
            };
            match port.role {
                Role::Input => circuit.pins.extend(port.nets()),
                _ => {
                    let named = port.nets().map(|net| (circuit.nets.label(net), net));
                    circuit.ports.extend(named);
                }
            }
        }
        let mut left = declared.iter().flatten();
        if left.any(|declared| declared.role != Role::Wire) {
            return Err("a port is declared that is not listed".to_string());
        }
        circuit.whole(text, loops)
    }
}
