//! The three values.

/// The value of an input or a gate. As a number it is the library's code.
#[derive(Debug, Clone, Copy, PartialEq, Eq, Hash)]
#[repr(u8)]
pub enum Value {
    Zero = 0,
    One = 1,
    Undefined = 2,
}

impl Value {
    /// The value of a code that the library gave.
    pub(crate) fn of_code(code: u8) -> Value {
        match code {
            0 => Value::Zero,
            1 => Value::One,
            _ => Value::Undefined,
        }
    }
}

impl From<bool> for Value {
    fn from(value: bool) -> Value {
        Value::of_code(value.into())
    }
}
