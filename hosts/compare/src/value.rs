//! Values and their kinds.

/// The kind number of a group.
pub const GROUP: u32 = 0;
/// The kind number of a measure.
pub const MEASURE: u32 = 1;
/// The kind number of a text.
pub const TEXT: u32 = 2;
/// The most bytes of a value.
pub const LONGEST: usize = 16;

/// An element's value.
#[derive(Clone, Copy, PartialEq, Eq, Debug)]
pub enum Value<'a> {
    Group,
    Measure(i32),
    Text(&'a [u8]),
}

impl<'a> Value<'a> {
    /// Reads a value of this kind; nothing if its length or its bytes are not as the kind demands.
    pub fn read(kind: u32, bytes: &'a [u8]) -> Option<Value<'a>> {
        match (kind, bytes.len()) {
            (GROUP, 0) => Some(Value::Group),
            (MEASURE, 4) => bytes.try_into().ok().map(|four| Value::Measure(i32::from_le_bytes(four))),
            (TEXT, 1..=LONGEST) if bytes.iter().all(is_printable) => Some(Value::Text(bytes)),
            _ => None,
        }
    }
}

/// Whether a text may hold this byte.
pub fn is_printable(byte: &u8) -> bool {
    (32..=126).contains(byte)
}
