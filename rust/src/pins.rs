//! Assignments by the names of the pins, as reports and stored covers have them.

use crate::limits::INPUTS;
use crate::Assignment;
use std::fmt;

/// Why a line is no assignment of the pins.
#[derive(Debug, Clone, PartialEq, Eq)]
#[non_exhaustive]
pub enum PinsError {
    /// This part of the line is not `PIN = 0` or `PIN = 1`.
    NotAPair(String),
    /// No input has this name.
    UnknownPin(String),
    /// This pin stands there before.
    Twice(String),
    /// There are more names than a block has inputs.
    TooManyNames(usize),
}

impl fmt::Display for PinsError {
    fn fmt(&self, f: &mut fmt::Formatter<'_>) -> fmt::Result {
        match self {
            PinsError::NotAPair(part) => write!(f, "not PIN = 0 or PIN = 1: {part}"),
            PinsError::UnknownPin(pin) => write!(f, "no input is named {pin}"),
            PinsError::Twice(pin) => write!(f, "{pin} is given twice"),
            PinsError::TooManyNames(count) => write!(f, "{count} names for {INPUTS} inputs"),
        }
    }
}

impl std::error::Error for PinsError {}

impl Assignment {
    /// The pins that it fixes, as `a = 1, b = 0`, by the names of a block's inputs; one that has no name there is left out.
    pub fn pins(self, names: &[String]) -> String {
        let shown = names.iter().enumerate().filter_map(|(input, name)| {
            let value = self.value(input)?;
            Some(format!("{name} = {}", u8::from(value)))
        });
        shown.collect::<Vec<String>>().join(", ")
    }

    /// The line `never a = 1, b = 1` that says of a setting which agrees with it that it never comes.
    pub fn never_line(self, names: &[String]) -> String {
        format!("never {}", self.pins(names))
    }

    /// The assignment of a line such as `a = 1, b = 0`, or what is wrong with it; an empty line fixes nothing.
    ///
    /// ```
    /// # use unloop::{Assignment, PinsError};
    /// let names = ["a".to_string(), "b".to_string()];
    /// assert_eq!(Assignment::from_pins("b = 1", &names), Ok(Assignment { fixed: 2, ones: 2 }));
    /// let unknown = Assignment::from_pins("c = 1", &names).unwrap_err();
    /// assert_eq!(unknown, PinsError::UnknownPin("c".to_string()));
    /// assert_eq!(unknown.to_string(), "no input is named c");
    /// ```
    pub fn from_pins(line: &str, names: &[String]) -> Result<Assignment, PinsError> {
        if names.len() > INPUTS {
            return Err(PinsError::TooManyNames(names.len()));
        }
        let place = |pin: &str| names.iter().position(|name| name == pin).map(Some);
        let (found, _) = Assignment::placed(line, place)?;
        Ok(found)
    }

    /// The same where a name may be that of a pin which is gone (`Some(None)`), and these names.
    pub(crate) fn placed(
        line: &str,
        place: impl Fn(&str) -> Option<Option<usize>>,
    ) -> Result<(Assignment, Vec<&str>), PinsError> {
        let (mut found, mut gone) = (Assignment::default(), Vec::new());
        if line.trim().is_empty() {
            return Ok((found, gone));
        }
        for part in line.split(',') {
            let wrong = || PinsError::NotAPair(part.trim().to_string());
            let (pin, value) = part.split_once('=').ok_or_else(wrong)?;
            let (pin, value) = (pin.trim(), value.trim());
            let value = match value {
                "0" => 0,
                "1" => 1,
                _ => return Err(wrong()),
            };
            let twice = || PinsError::Twice(pin.to_string());
            match place(pin).ok_or_else(|| PinsError::UnknownPin(pin.to_string()))? {
                None if gone.contains(&pin) => return Err(twice()),
                None => gone.push(pin),
                Some(input) if found.value(input).is_some() => return Err(twice()),
                Some(input) => {
                    found.fixed |= 1 << input;
                    found.ones |= value << input;
                }
            }
        }
        Ok((found, gone))
    }
}
