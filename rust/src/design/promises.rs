//! Promises about the nets of a design: lines such as `sel_a = 1, sel_b = 1`, each of which says that its nets never have these values at once.
//! A promise counts for the loops of whose boundary all its nets are, or are through buffers and inverters.

use super::cut::Cut;
use super::whole::Whole;
use super::wiring::Source;
use super::Design;
use crate::blif_model::Net;
use crate::PinsError;
use std::collections::{BTreeMap, HashMap};
use std::fmt;

/// A promise and the line that it stands on.
#[derive(Debug, Clone, PartialEq, Eq)]
pub struct Promise {
    pub line: usize,
    /// As `sel_a = 1, sel_b = 1`.
    pub text: String,
    /// By model of the design that has all its nets: these nets and their values.
    nets: BTreeMap<usize, Vec<(Net, bool)>>,
}

#[derive(Debug, Clone, Default, PartialEq, Eq)]
pub struct Promises(pub Vec<Promise>);

/// Why a text is no list of promises: the line, from 1, and what is wrong with it.
#[derive(Debug, Clone, PartialEq, Eq)]
pub struct PromiseError {
    pub line: usize,
    pub reason: String,
}

impl fmt::Display for PromiseError {
    fn fmt(&self, f: &mut fmt::Formatter<'_>) -> fmt::Result {
        write!(f, "{}: {}", self.line, self.reason)
    }
}

impl std::error::Error for PromiseError {}

/// A promise about a loop: the inputs of the loop's block that are never at these values at once.
pub struct Allowed<'a> {
    pub promise: usize,
    pub text: &'a str,
    pub pins: Vec<(usize, bool)>,
}

impl Design<'_> {
    /// The promises of a text, one a line; what stands behind a `#` is a comment.
    ///
    /// ```
    /// # use unloop::design::Design;
    /// let design = Design::read(".model m\n.inputs a b\n.outputs a\n.end\n", None).unwrap();
    /// assert_eq!(design.promises("a=1, b = 0 # of the decoder\n\n").unwrap().0[0].text, "a = 1, b = 0");
    /// assert_eq!(design.promises("\na = 1, c = 1\n").unwrap_err().to_string(), "2: no net is named c");
    /// ```
    pub fn promises(&self, text: &str) -> Result<Promises, PromiseError> {
        let mut promises = Vec::new();
        let mut named: Option<Vec<HashMap<&str, Net>>> = None;
        for (line, number) in text.lines().zip(1..) {
            let code = line.split('#').next().unwrap_or("").trim();
            if code.is_empty() {
                continue;
            }
            let named = named.get_or_insert_with(|| self.models.iter().map(names).collect());
            let wrong = |reason: String| PromiseError {
                line: number,
                reason,
            };
            let pairs = pairs(code).map_err(|error| wrong(error.to_string()))?;
            let nets = nets(&pairs, named);
            if nets.is_empty() {
                let known = |name: &str| named.iter().any(|names| names.contains_key(name));
                let unknown = pairs.iter().find(|(name, _)| !known(name));
                return Err(wrong(match unknown {
                    Some((name, _)) => format!("no net is named {name}"),
                    None => "no model has all of these nets".to_string(),
                }));
            }
            let told = pairs
                .iter()
                .map(|(name, value)| format!("{name} = {}", u8::from(*value)));
            promises.push(Promise {
                line: number,
                text: told.collect::<Vec<String>>().join(", "),
                nets,
            });
        }
        Ok(Promises(promises))
    }
}

/// The nets of a model by name.
fn names(whole: &Whole) -> HashMap<&str, Net> {
    let nets = whole.model.nets.iter().zip(0..);
    nets.map(|(name, net)| (&name[..], net)).collect()
}

/// The names and values of a line.
fn pairs(line: &str) -> Result<Vec<(&str, bool)>, PinsError> {
    let mut pairs: Vec<(&str, bool)> = Vec::new();
    for part in line.split(',') {
        let wrong = || PinsError::NotAPair(part.trim().to_string());
        let (name, value) = part.rsplit_once('=').ok_or_else(wrong)?;
        let value = match value.trim() {
            "0" => false,
            "1" => true,
            _ => return Err(wrong()),
        };
        let name = name.trim();
        if pairs.iter().any(|(other, _)| *other == name) {
            return Err(PinsError::Twice(name.to_string()));
        }
        pairs.push((name, value));
    }
    Ok(pairs)
}

/// By model that has all the names, their nets.
fn nets(pairs: &[(&str, bool)], named: &[HashMap<&str, Net>]) -> BTreeMap<usize, Vec<(Net, bool)>> {
    let found = named.iter().enumerate().filter_map(|(model, names)| {
        let nets = pairs
            .iter()
            .map(|(name, value)| Some((*names.get(name)?, *value)));
        Some((model, nets.collect::<Option<Vec<(Net, bool)>>>()?))
    });
    found.collect()
}

impl Promises {
    /// The promises that say something of a loop's boundary.
    pub(super) fn about(&self, model: usize, whole: &Whole, cut: &Cut) -> Vec<Allowed<'_>> {
        let promises = self.0.iter().enumerate();
        let about = promises.filter_map(|(number, promise)| {
            Some(Allowed {
                promise: number,
                text: &promise.text,
                pins: pins(promise.nets.get(&model)?, whole, cut)?,
            })
        });
        about.collect()
    }
}

/// The values at the boundary that a promise excludes; nothing where it is about other nets, or can't come true anyway.
fn pins(nets: &[(Net, bool)], whole: &Whole, cut: &Cut) -> Option<Vec<(usize, bool)>> {
    let mut pins: Vec<(usize, bool)> = Vec::new();
    for &(net, value) in nets {
        let (source, value) = match whole.sources[net] {
            Source::Constant(constant) if constant == value => continue,
            Source::Constant(_) => return None,
            Source::Net { net, inverted } => (net, value != inverted),
        };
        let place = cut.boundary.iter().position(|&net| net == source)?;
        match pins.iter().find(|(other, _)| *other == place) {
            Some((_, other)) if *other != value => return None,
            Some(_) => {}
            None => pins.push((place, value)),
        }
    }
    (!pins.is_empty()).then_some(pins)
}
