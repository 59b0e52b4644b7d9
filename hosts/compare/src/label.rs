//! Labels and dominance.

/// How many labels there are.
pub const LABELS: u8 = 32;

/// Whether this number is a label.
pub fn is_label(number: u8) -> bool {
    number < LABELS
}

/// Whether the first label dominates the second: its level is at least the other's and its compartments include them.
pub fn dominates(high: u8, low: u8) -> bool {
    high / 8 >= low / 8 && (low % 8) & !(high % 8) == 0
}
