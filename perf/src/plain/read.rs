//! Read: the text parsed, then its names looked up.

use super::names::Names;
use super::parse::{Name, Netlist, Parser};
use super::{handed_over, refused};
use unloop::raw::Reply;

/// Text to block; count: words.
pub fn read(text: &[u8], block: &mut [u16]) -> Reply {
    match words_of(text) {
        Ok(words) => handed_over(&words, words.len(), block),
        Err((number, detail)) => refused(number, detail),
    }
}

/// A refusal's number and detail.
type Refusal = (usize, usize);

fn words_of(text: &[u8]) -> Result<Vec<u16>, Refusal> {
    if text.len() > 61_440 {
        return Err((1, 0));
    }
    let mut parser = Parser::new(text);
    parser.lines().map_err(|place| (2, place))?;
    let netlist = parser.netlist;
    let crowded = netlist.inputs.len() > 12
        || netlist.nevers.len() > 8
        || netlist.gates.len() > 5 * 1_024
        || netlist.outputs.len() > 16;
    if crowded {
        return Err((3, 0));
    }
    let declared = netlist.declared();
    let again = declared.as_ref().err().copied();
    if let Some(place) = again.into_iter().chain(netlist.given_again()).min() {
        return Err((4, place));
    }
    let nodes = declared.map_err(|place| (4, place))?;
    netlist.words(&nodes).map_err(|place| (5, place))
}

impl Netlist {
    /// The node of each name, or the place of the first name or port declared again.
    fn declared(&self) -> Result<Names, usize> {
        let n = self.inputs.len();
        let mut nodes = Names::with_room(n + self.named.len());
        let inputs = self.inputs.iter().zip(0..);
        let gates = self.named.iter().map(|(name, gate)| (name, n + gate));
        for (name, node) in inputs.chain(gates) {
            if !nodes.insert(name.bytes, node as u16) {
                return Err(name.place);
            }
        }
        match first_again(self.outputs.iter().map(|(port, _)| port)) {
            Some(place) => Err(place),
            None => Ok(nodes),
        }
    }

    /// The pairs of each never line.
    fn nevers(&self) -> impl Iterator<Item = &[(Name, bool)]> {
        let mut start = 0;
        self.nevers.iter().map(move |&end| {
            let pairs = &self.pairs[start..end];
            start = end;
            pairs
        })
    }

    /// The place of the first name that its never line has given already.
    fn given_again(&self) -> Option<usize> {
        let mut lines = self.nevers();
        lines.find_map(|pairs| first_again(pairs.iter().map(|(name, _)| name)))
    }

    /// The two masks of each never line, or the place of the first name that is no input's.
    fn masks(&self, nodes: &Names) -> Result<Vec<u16>, usize> {
        let mut masks = Vec::with_capacity(2 * self.nevers.len());
        for pairs in self.nevers() {
            let (mut fixed, mut ones) = (0, 0);
            for (name, value) in pairs {
                match nodes.get(name.bytes) {
                    Some(node) if usize::from(node) < self.inputs.len() => {
                        fixed |= 1 << node;
                        ones |= u16::from(*value) << node;
                    }
                    _ => return Err(name.place),
                }
            }
            masks.extend([fixed, ones]);
        }
        Ok(masks)
    }

    /// The stored block, or the earliest place of a name that isn't declared.
    fn words(&self, nodes: &Names) -> Result<Vec<u16>, usize> {
        let mut unknown = usize::MAX;
        let mut node = |name: &Name| {
            nodes.get(name.bytes).unwrap_or_else(|| {
                unknown = unknown.min(name.place);
                0
            })
        };
        let [k, l] = [self.outputs.len(), self.nevers.len()];
        let counts = [self.inputs.len(), self.gates.len() / 5, k, l];
        let mut words = Vec::with_capacity(5_268);
        words.extend(counts.map(|count| count as u16));
        words.extend(self.inputs.iter().flat_map(|input| name_words(input.bytes)));
        words.extend(self.masks(nodes)?);
        let first = words.len();
        words.extend_from_slice(&self.gates);
        for (name, place) in &self.reads {
            words[first + place] = node(name);
        }
        for (port, shown) in &self.outputs {
            words.extend(name_words(port.bytes));
            words.push(node(shown));
        }
        match unknown {
            usize::MAX => Ok(words),
            place => Err(place),
        }
    }
}

/// The place of the first name that stands before it too.
fn first_again<'a>(names: impl ExactSizeIterator<Item = &'a Name>) -> Option<usize> {
    let mut seen = Names::with_room(names.len());
    let mut names = names.filter(|name| !seen.insert(name.bytes, 0));
    names.next().map(|name| name.place)
}

fn name_words(name: u64) -> [u16; 4] {
    [0, 16, 32, 48].map(|shift| (name >> shift) as u16)
}
