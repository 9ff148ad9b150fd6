//! What a second look finds, in words.

use std::fmt;

/// A port's value.
#[derive(Debug, Clone, Copy, PartialEq, Eq)]
pub enum Shown {
    Zero,
    One,
    Undefined,
}

impl fmt::Display for Shown {
    fn fmt(&self, f: &mut fmt::Formatter<'_>) -> fmt::Result {
        f.write_str(match self {
            Shown::Zero => "0",
            Shown::One => "1",
            Shown::Undefined => "undefined",
        })
    }
}

/// Why a written text does not say what the original says.
#[derive(Debug, Clone, PartialEq, Eq)]
pub enum Difference {
    /// The original can't be read here, though it was read elsewhere.
    Original(String),
    /// The text is not of its form, or has a loop where it may have none.
    Unreadable(String),
    /// It has other pins, ports or never lines.
    Interface {
        what: &'static str,
        written: String,
        original: String,
    },
    /// Every setting of so many pins can't be tried.
    TooManyPins(usize),
    /// A port shows another value under a setting that may come.
    Value {
        setting: Vec<(String, bool)>,
        port: String,
        written: Shown,
        original: Shown,
    },
}

impl fmt::Display for Difference {
    fn fmt(&self, f: &mut fmt::Formatter<'_>) -> fmt::Result {
        match self {
            Difference::Original(why) => write!(f, "the original can't be read again: {why}"),
            Difference::Unreadable(why) => write!(f, "it can't be read back: {why}"),
            Difference::Interface {
                what,
                written,
                original,
            } => write!(f, "its {what} are {written}, and the original's {original}"),
            Difference::TooManyPins(pins) => write!(f, "it has {pins} pins, too many to try"),
            Difference::Value {
                setting,
                port,
                written,
                original,
            } => {
                let pins = setting.iter();
                let pins = pins.map(|(pin, value)| format!("{pin} = {}", u8::from(*value)));
                let pins: Vec<String> = pins.collect();
                if !pins.is_empty() {
                    write!(f, "with {} ", pins.join(", "))?;
                }
                write!(
                    f,
                    "it shows {port} = {written}, and the original simulated again shows "
                )?;
                write!(f, "{port} = {original}")
            }
        }
    }
}

impl std::error::Error for Difference {}
