//! What a model's pins, ports and gates were called before they got names that a netlist may have, as a text that is written and read back:
//! `model NAME`, and `in`, `out` or `gate` with the netlist's name and the model's, one a line. What is called the same in both has no line.

use std::collections::HashSet;
use std::fmt;
use std::str::FromStr;

/// A netlist's name and the other.
type Pair = (String, String);

/// Names that were changed.
#[derive(Debug, Clone, Default, PartialEq, Eq)]
pub struct Names {
    /// What the model is called.
    pub model: Option<String>,
    pub inputs: Vec<Pair>,
    pub ports: Vec<Pair>,
    pub gates: Vec<Pair>,
}

/// Why a text doesn't tell names: the line, from 1, and what is wrong with it.
#[derive(Debug, Clone, PartialEq, Eq)]
pub struct NamesError {
    pub line: usize,
    pub reason: String,
}

impl fmt::Display for NamesError {
    fn fmt(&self, f: &mut fmt::Formatter<'_>) -> fmt::Result {
        write!(f, "{}: {}", self.line, self.reason)
    }
}

impl std::error::Error for NamesError {}

impl fmt::Display for Names {
    fn fmt(&self, f: &mut fmt::Formatter<'_>) -> fmt::Result {
        if let Some(model) = &self.model {
            writeln!(f, "model {model}")?;
        }
        for (word, pairs) in [
            ("in", &self.inputs),
            ("out", &self.ports),
            ("gate", &self.gates),
        ] {
            for (name, other) in pairs {
                writeln!(f, "{word} {name} {other}")?;
            }
        }
        Ok(())
    }
}

impl FromStr for Names {
    type Err = NamesError;

    /// ```
    /// # use unloop::Names;
    /// let names: Names = "# made by hand\nmodel top\nin a_0 a[0]\nout y Y\n".parse().unwrap();
    /// assert_eq!(names.input("a_0"), Some("a[0]"));
    /// assert_eq!(names.to_string(), "model top\nin a_0 a[0]\nout y Y\n");
    /// assert_eq!("in a\n".parse::<Names>().unwrap_err().to_string(), "1: not 'model NAME', or 'in', 'out' or 'gate' with two names");
    /// ```
    fn from_str(text: &str) -> Result<Names, NamesError> {
        let mut names = Names::default();
        let mut seen = HashSet::new();
        for (line, number) in text.lines().zip(1..) {
            let wrong = |reason: String| {
                let line = number;
                Err(NamesError { line, reason })
            };
            let code = line.split('#').next().unwrap_or("");
            let words: Vec<&str> = code.split_whitespace().collect();
            let (list, name, other) = match words[..] {
                [] => continue,
                ["model", name] if names.model.is_none() => {
                    names.model = Some(name.to_string());
                    continue;
                }
                ["in", name, other] => (&mut names.inputs, name, other),
                ["out", name, other] => (&mut names.ports, name, other),
                ["gate", name, other] => (&mut names.gates, name, other),
                _ => {
                    let form = "not 'model NAME', or 'in', 'out' or 'gate' with two names";
                    return wrong(form.to_string());
                }
            };
            for (side, name) in [("to", name), ("from", other)] {
                if !seen.insert((side, words[0].to_string(), name.to_string())) {
                    return wrong(format!("{name} stands there twice"));
                }
            }
            list.push((name.to_string(), other.to_string()));
        }
        Ok(names)
    }
}

impl Names {
    /// What the model calls an input, where that is not the netlist's name.
    pub fn input(&self, name: &str) -> Option<&str> {
        other(&self.inputs, name)
    }

    /// Of a port.
    pub fn port(&self, name: &str) -> Option<&str> {
        other(&self.ports, name)
    }

    /// Of a gate.
    pub fn gate(&self, name: &str) -> Option<&str> {
        other(&self.gates, name)
    }
}

fn other<'a>(pairs: &'a [Pair], name: &str) -> Option<&'a str> {
    let pair = pairs.iter().find(|(ours, _)| ours == name);
    pair.map(|(_, other)| &other[..])
}
