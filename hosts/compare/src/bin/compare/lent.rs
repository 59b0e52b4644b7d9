//! Bytes lent to a call, with guard bytes around them.

/// The guard bytes on each side.
const GUARD: usize = 64;
/// What a guard byte holds.
const MARK: u8 = 0xa5;

/// Bytes between two guards, beginning at any alignment.
pub struct Lent {
    bytes: Vec<u8>,
    start: usize,
    length: usize,
}

impl Lent {
    /// A copy of these bytes, this far from an even address.
    pub fn new(from: &[u8], shift: usize) -> Lent {
        let start = GUARD + shift;
        let mut bytes = vec![MARK; start + from.len() + GUARD];
        bytes[start..start + from.len()].copy_from_slice(from);
        Lent { bytes, start, length: from.len() }
    }

    /// The lent bytes.
    pub fn bytes(&self) -> &[u8] {
        &self.bytes[self.start..self.start + self.length]
    }

    /// The lent bytes, to be written.
    pub fn bytes_mut(&mut self) -> &mut [u8] {
        &mut self.bytes[self.start..self.start + self.length]
    }

    /// Whether no guard byte was written.
    pub fn guards_stand(&self) -> bool {
        let behind = self.start + self.length;
        self.bytes[..self.start].iter().chain(&self.bytes[behind..]).all(|byte| *byte == MARK)
    }
}
