//! A second look at what leaves the command: a rendering, a Verilog module, a BLIF model or a table of cells is read back from its text and
//! evaluated, under every setting that may come, against the original's own three-valued simulation. Nothing of the proved library is called
//! here, and no reader or writer of this package: what both sides get wrong in the same way would not be seen.

mod blif;
mod cells;
mod circuit;
mod cursor;
mod difference;
mod interface;
mod netlist;
mod nets;
mod order;
mod original;
mod simulation;
mod verilog;

pub use difference::{Difference, Shown};

use circuit::Circuit;
use interface::Read;
use order::Order;
use original::Original;
use simulation::Simulation;
use std::cell::RefCell;

/// What a text is written in.
#[derive(Debug, Clone, Copy, PartialEq, Eq)]
pub enum Language {
    Netlist,
    Verilog,
    Blif,
    Cells,
}

/// What a written text is to be: its language, whether it may have loops as an original has, and the names of pins and ports that it is to
/// have in the place of the original's, as pairs of the original's name and the other.
#[derive(Debug, Clone, Copy)]
pub struct Form<'a> {
    pub language: Language,
    pub loops: bool,
    pub pins: &'a [(String, String)],
    pub ports: &'a [(String, String)],
}

impl Form<'_> {
    /// A text without loops in this language, with the original's names.
    pub const fn rendering(language: Language) -> Form<'static> {
        Form {
            language,
            loops: false,
            pins: &[],
            ports: &[],
        }
    }
}

/// Whether a written text says what the original says: it has the form, the original's pins and ports in their order and, as a netlist, its
/// never lines; and under every setting that no never line excludes each port shows the original's value, undefined where that is undefined.
/// A text with some 2,000 nets, twice as many as a block's gates, is not read.
///
/// ```
/// # use unloop::second_look::{agrees, Form, Language};
/// let original = b"(in s)\n(gate p (and s q))\n(gate q (or s p))\n(out y q)\n";
/// let form = Form::rendering(Language::Netlist);
/// assert!(agrees(original, b"(in s)\n(gate _0 (and s 1))\n(out y _0)\n", form).is_ok());
/// let wrong = agrees(original, b"(in s)\n(gate _0 (or s 1))\n(out y _0)\n", form).unwrap_err();
/// assert_eq!(wrong.to_string(), "with s = 0 it shows y = 1, and the original simulated again shows y = 0");
/// ```
pub fn agrees(original: &[u8], written: &[u8], form: Form) -> Result<(), Difference> {
    ROOMS.with_borrow_mut(|rooms| rooms.agree(original, written, form))
}

thread_local! {
    static ROOMS: RefCell<Rooms> = RefCell::default();
}

/// What a look fills, which stays from one text to the next: so nothing is allocated for each, and an original that several texts are made of
/// is read and simulated once.
#[derive(Default)]
struct Rooms {
    original: Original,
    written: Circuit,
    order: Order,
    simulation: Simulation,
    module: verilog::Room,
}

impl Rooms {
    fn agree(&mut self, original: &[u8], written: &[u8], form: Form) -> Result<(), Difference> {
        self.original.read(original, &mut self.simulation)?;
        let circuit = &mut self.written;
        circuit.begin();
        read(written, form, circuit, &mut self.module).map_err(Difference::Unreadable)?;
        let theirs = Read {
            circuit,
            text: written,
        };
        interface::same(self.original.as_read(), theirs, form)?;
        let rooms = (&mut self.simulation, &mut self.order);
        self.original.shows_the_same(&self.written, rooms)
    }
}

fn read(
    written: &[u8],
    form: Form,
    circuit: &mut Circuit,
    module: &mut verilog::Room,
) -> Result<(), String> {
    match form.language {
        Language::Netlist => netlist::read(written, form.loops, circuit),
        Language::Verilog => verilog::read(written, form.loops, circuit, module),
        Language::Blif => blif::read(written, form.loops, circuit),
        Language::Cells => cells::read(written, circuit),
    }
}
