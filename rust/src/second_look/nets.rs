//! The nets of a text by number, so that a name is looked up once where it stands.

use super::cursor::{key_of, Cursor, Letters};
use std::borrow::Cow;
use std::mem::replace;

/// A net's number. The first two are the constants', which no name leads to.
pub type Net = u32;

pub const ZERO: Net = 0;
pub const ONE: Net = 1;

/// A name by its place in the text, or a bit of a vector of this name.
#[derive(Debug, Clone, Copy, Default)]
pub struct Label {
    start: u32,
    length: u32,
    bit: Option<u16>,
}

impl Label {
    /// Of the name that the cursor has just gone past.
    pub fn before(text: &Cursor, name: &[u8]) -> Label {
        Label::at(text.place() - name.len(), name.len())
    }

    /// Of the name of this length at a place; a circuit of a text that is longer than these numbers tell is not whole.
    fn at(start: usize, length: usize) -> Label {
        Label {
            start: start as u32,
            length: length as u32,
            bit: None,
        }
    }

    /// In the text that it was found in.
    pub fn bytes<'a>(&self, text: &'a [u8]) -> Cow<'a, [u8]> {
        let name = &text[self.start as usize..][..self.length as usize];
        match self.bit {
            None => Cow::Borrowed(name),
            Some(bit) => Cow::Owned([name, format!("[{bit}]").as_bytes()].concat()),
        }
    }

    pub fn told(&self, text: &[u8]) -> String {
        String::from_utf8_lossy(&self.bytes(text)).into_owned()
    }
}

/// What is known of a net by now.
#[derive(Debug, Clone, Copy, PartialEq, Eq)]
enum State {
    New,
    /// Read, and not driven.
    Open,
    Driven,
}

/// A table with open addressing.
#[derive(Debug)]
pub struct Nets {
    /// By number; constants and inner gates have no label.
    known: Vec<(Label, State)>,
    /// How many are open.
    open: usize,
    /// Nets by their keys.
    slots: Box<[Slot; SLOTS]>,
    /// The number of this text, from 1 on. What stands in slots of other texts counts for nothing, so that no slot is ever cleared.
    text: u32,
}

/// Two for each net that a text may have: far more than a block's 1,024 gates need.
const SLOTS: usize = 1 << SLOT_BITS;
const SLOT_BITS: u32 = 12;

/// A net by its key, in the text of this number.
#[derive(Debug, Clone, Copy, Default)]
struct Slot {
    key: u64,
    net: Net,
    text: u32,
}

impl Default for Nets {
    fn default() -> Nets {
        Nets {
            known: Vec::new(),
            open: 0,
            slots: Box::new([Slot::default(); SLOTS]),
            text: 0,
        }
    }
}

/// The key of a long name, which others may have too: the first byte of no short name's is 0.
fn long_key(name: &[u8]) -> u64 {
    let with = |key: u64, byte: &u8| key.rotate_left(8) ^ u64::from(*byte);
    name.iter().fold(0, with) << 8 | 1 << 63
}

/// Where the search for a key begins: a place that depends on all of its bits.
#[inline(always)]
fn slot_of(key: u64) -> usize {
    (key.wrapping_mul(0x9E37_79B9_7F4A_7C15) >> (u64::BITS - SLOT_BITS)) as usize
}

impl Nets {
    /// The constants alone, in the room that there is.
    pub fn begin(&mut self) {
        self.known.clear();
        self.known.resize(2, (Label::default(), State::Driven));
        self.open = 0;
        self.text = self.text.checked_add(1).unwrap_or_else(|| {
            self.slots.fill(Slot::default());
            1
        });
    }

    /// The net of the name that stands here. A short name that is known is legal, so that only new ones are looked at byte by byte.
    #[inline(always)]
    pub fn take(&mut self, text: &mut Cursor, letters: &Letters) -> Option<Net> {
        let (net, length) = match text.key(letters) {
            Some((key, length)) => match self.find(key) {
                (_, Some(net)) => (net, length),
                (slot, None) if letters.are_all(key, length) => {
                    (self.put(text.place(), slot, key, length)?, length)
                }
                _ => self.take_any(*text, letters)?,
            },
            None => self.take_any(*text, letters)?,
        };
        text.pass(length);
        Some(net)
    }

    /// The net of the short name that stands here, if it is known, and the name's length.
    #[inline(always)]
    pub fn known(&self, text: Cursor, letters: &Letters) -> Option<(Net, usize)> {
        let (key, length) = text.key(letters)?;
        let (_, net) = self.find(key);
        Some((net?, length))
    }

    /// The net of a short key, or the slot where it would be put.
    #[inline(always)]
    fn find(&self, key: u64) -> (usize, Option<Net>) {
        let mut slot = slot_of(key);
        loop {
            let known = &self.slots[slot];
            if known.text != self.text {
                return (slot, None);
            }
            if known.key == key {
                return (slot, Some(known.net));
            }
            slot = (slot + 1) % SLOTS;
        }
    }

    /// The net of a name of any length that stands here, and its length.
    #[inline(never)]
    fn take_any(&mut self, mut text: Cursor, letters: &Letters) -> Option<(Net, usize)> {
        let name = text.name(letters)?;
        Some((self.named(&text, name, name.len() <= 8)?, name.len()))
    }

    /// Puts the name of this length at a place into a slot, by its key. None where half of the slots may be taken.
    #[inline(never)]
    fn put(&mut self, start: usize, slot: usize, key: u64, length: usize) -> Option<Net> {
        (self.known.len() < SLOTS / 2).then_some(())?;
        let net = self.further(Label::at(start, length));
        let text = self.text;
        self.slots[slot] = Slot { key, net, text };
        Some(net)
    }

    /// The net of the name that the cursor has just gone past; `short`: whether its bytes are its key, which only a name is found by that
    /// stands there as it is.
    pub fn named(&mut self, text: &Cursor, name: &[u8], short: bool) -> Option<Net> {
        let whole = text.text();
        let is_it = |net: Net| short || self.label(net).bytes(whole) == name;
        let key = if short { key_of(name) } else { long_key(name) };
        let mut slot = slot_of(key);
        loop {
            let known = self.slots[slot];
            if known.text != self.text {
                return self.put(text.place() - name.len(), slot, key, name.len());
            }
            if known.key == key && is_it(known.net) {
                return Some(known.net);
            }
            slot = (slot + 1) % SLOTS;
        }
    }

    /// Nets that no name leads to, the bits of a vector; the first of them.
    #[inline(never)]
    pub fn bits(&mut self, vector: Net, width: u16) -> Net {
        let (first, name) = (self.known.len() as Net, self.label(vector));
        for bit in 0..width {
            let bit = Some(bit);
            self.further(Label { bit, ..name });
        }
        first
    }

    /// A net that has no name at all.
    pub fn unnamed(&mut self) -> Net {
        self.further(Label::default())
    }

    fn further(&mut self, label: Label) -> Net {
        self.known.push((label, State::New));
        self.known.len() as Net - 1
    }

    pub fn label(&self, net: Net) -> Label {
        self.known[net as usize].0
    }

    pub fn count(&self) -> usize {
        self.known.len()
    }

    #[inline(always)]
    pub fn is_driven(&self, net: Net) -> bool {
        self.known[net as usize].1 == State::Driven
    }

    /// Notes that a gate reads it.
    pub fn read(&mut self, net: Net) {
        let state = &mut self.known[net as usize].1;
        if *state == State::New {
            *state = State::Open;
            self.open += 1;
        }
    }

    /// Notes that something drives it; whether something did already.
    #[inline(always)]
    pub fn drive(&mut self, net: Net) -> bool {
        let state = replace(&mut self.known[net as usize].1, State::Driven);
        self.open -= usize::from(state == State::Open);
        state == State::Driven
    }

    /// One that is read and not driven.
    pub fn open(&self) -> Option<Net> {
        let mut nets = self.known.iter();
        let open = nets.position(|(_, state)| *state == State::Open);
        open.filter(|_| self.open > 0).map(|net| net as Net)
    }
}
