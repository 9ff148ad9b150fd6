//! Whether a written circuit has the original's pins and ports, in their order, and its never lines.

use super::circuit::{Circuit, Never};
use super::nets::Label;
use super::{Difference, Form, Language};
use std::borrow::Cow;

/// What a port that has a pin's name gets behind it in languages where both are nets.
const SUFFIX: &[u8] = b"__output";

/// A circuit and the text that it was read from.
pub struct Read<'a> {
    pub circuit: &'a Circuit,
    pub text: &'a [u8],
}

/// They are the same, by the names that the form asks for.
pub fn same(ours: Read, theirs: Read, form: Form) -> Result<(), Difference> {
    let suffixed = matches!(form.language, Language::Verilog | Language::Blif);
    let port_is = |written: &[u8], name: &[u8]| match written.strip_prefix(name) {
        Some(rest) => {
            rest.is_empty() || suffixed && rest.chunks(SUFFIX.len()).all(|part| part == SUFFIX)
        }
        None => false,
    };
    let sides = (ours.pins(), theirs.pins());
    same_names("pins", sides, form.pins, |written, name| written == name)?;
    let sides = (ours.ports(), theirs.ports());
    same_names("ports", sides, form.ports, port_is)?;
    if form.language == Language::Netlist && ours.circuit.nevers != theirs.circuit.nevers {
        return Err(Difference::Interface {
            what: "never lines",
            written: theirs.never_lines(),
            original: ours.never_lines(),
        });
    }
    Ok(())
}

/// Each of our names, or the one that is asked for in its place, is their name at the same place.
fn same_names<'a>(
    what: &'static str,
    (ours, theirs): (Names<'a, impl Labels>, Names<'a, impl Labels>),
    pairs: &[(String, String)],
    is: impl Fn(&[u8], &[u8]) -> bool,
) -> Result<(), Difference> {
    let asked = |name: Cow<'a, [u8]>| {
        let pair = pairs.iter().find(|(ours, _)| ours.as_bytes() == &name[..]);
        pair.map_or(name, |(_, other)| other.clone().into_bytes().into())
    };
    let mut both = ours.all().map(asked).zip(theirs.all());
    if ours.count() == theirs.count() && both.all(|(name, written)| is(&written, &name)) {
        return Ok(());
    }
    Err(Difference::Interface {
        what,
        written: listed(theirs.all()),
        original: listed(ours.all().map(asked)),
    })
}

/// Labels in order, as often as they are asked for.
trait Labels: Iterator<Item = Label> + Clone {}
impl<I: Iterator<Item = Label> + Clone> Labels for I {}

/// Names of a text.
struct Names<'a, I> {
    labels: I,
    text: &'a [u8],
}

impl<'a, I: Labels> Names<'a, I> {
    fn count(&self) -> usize {
        self.labels.clone().count()
    }

    fn all(&self) -> impl Iterator<Item = Cow<'a, [u8]>> {
        let text = self.text;
        self.labels.clone().map(move |label| label.bytes(text))
    }
}

impl<'a> Read<'a> {
    fn pins(&self) -> Names<'a, impl Labels + 'a> {
        let circuit = self.circuit;
        let pins = circuit.pins.iter();
        Names {
            labels: pins.map(|&pin| circuit.nets.label(pin)),
            text: self.text,
        }
    }

    fn ports(&self) -> Names<'a, impl Labels + 'a> {
        Names {
            labels: self.circuit.ports.iter().map(|&(port, _)| port),
            text: self.text,
        }
    }

    /// As `a = 1, b = 0 | c = 1`.
    fn never_lines(&self) -> String {
        let line = |never: &Never| {
            let fixed = self.pins().all().enumerate();
            let fixed = fixed.filter(|(pin, _)| never.fixed >> pin & 1 == 1);
            let fixed = fixed.map(|(pin, name)| {
                let name = String::from_utf8_lossy(&name);
                format!("{name} = {}", never.ones >> pin & 1)
            });
            fixed.collect::<Vec<String>>().join(", ")
        };
        let lines = self.circuit.nevers.iter().map(line);
        listed(lines.map(|line| line.into_bytes().into()))
    }
}

fn listed<'a>(names: impl Iterator<Item = Cow<'a, [u8]>>) -> String {
    let names: Vec<Cow<[u8]>> = names.collect();
    match names.is_empty() {
        true => "none".to_string(),
        false => String::from_utf8_lossy(&names.join(&b' ')).into_owned(),
    }
}
