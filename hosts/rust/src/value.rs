//! Kinds and values.

use std::fmt;

/// The kind of a value.
#[derive(Clone, Copy, Debug, PartialEq, Eq, Hash)]
pub enum Kind {
    /// 0: no bytes.
    Group = 0,
    /// 1: a number of hundredths of a millimetre.
    Measure = 1,
    /// 2: 1 to 16 bytes, each 32 to 126.
    Text = 2,
}

impl Kind {
    /// The kind's number.
    #[must_use]
    pub const fn number(self) -> u32 {
        self as u32
    }
}

impl fmt::Display for Kind {
    /// Its name, as in `measure`.
    fn fmt(&self, out: &mut fmt::Formatter<'_>) -> fmt::Result {
        out.pad(match self {
            Kind::Group => "group",
            Kind::Measure => "measure",
            Kind::Text => "text",
        })
    }
}

/// The value of an element.
#[derive(Clone, Copy, Debug, PartialEq, Eq, Hash)]
pub enum Value<'a> {
    /// A group has no value of its own.
    Group,
    /// Hundredths of a millimetre.
    Measure(i32),
    /// A text. One that is empty, over 16 bytes long or not of bytes 32 to 126 is refused by 5.
    Text(&'a str),
}

impl From<i32> for Value<'_> {
    fn from(hundredths: i32) -> Self {
        Value::Measure(hundredths)
    }
}

impl<'a> From<&'a str> for Value<'a> {
    fn from(text: &'a str) -> Self {
        Value::Text(text)
    }
}

impl fmt::Display for Value<'_> {
    /// As in a listing: a dash, a number of hundredths, a text as it is.
    fn fmt(&self, out: &mut fmt::Formatter<'_>) -> fmt::Result {
        match self {
            Value::Group => out.pad("-"),
            Value::Measure(hundredths) => hundredths.fmt(out),
            Value::Text(text) => out.pad(text),
        }
    }
}

impl Value<'_> {
    /// The value's kind.
    #[must_use]
    pub const fn kind(&self) -> Kind {
        match self {
            Value::Group => Kind::Group,
            Value::Measure(_) => Kind::Measure,
            Value::Text(_) => Kind::Text,
        }
    }

    /// Hands the value's bytes to a function.
    pub(crate) fn with_bytes<R>(&self, take: impl FnOnce(&[u8]) -> R) -> R {
        match self {
            Value::Group => take(&[]),
            Value::Measure(hundredths) => take(&hundredths.to_le_bytes()),
            Value::Text(text) => take(text.as_bytes()),
        }
    }
}
