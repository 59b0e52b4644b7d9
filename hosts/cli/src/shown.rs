//! How labels, numbers and measures are shown to people.

use dossier::Label;

/// A label's number and words, as in `16 (house)`.
pub fn named(label: Label) -> String {
    format!("{label} ({})", label.words())
}

/// Hundredths of a millimetre in millimetres, with two decimals.
pub fn millimetres(hundredths: i32) -> String {
    let sign = if hundredths < 0 { "-" } else { "" };
    let size = hundredths.unsigned_abs();
    format!("{sign}{}.{:02}", size / 100, size % 100)
}

/// A count with its noun.
pub fn counted(count: usize, noun: &str) -> String {
    if count == 1 { format!("1 {noun}") } else { format!("{count} {noun}s") }
}

#[cfg(test)]
mod tests {
    use super::*;

    #[test]
    fn millimetres_have_two_decimals() {
        for (hundredths, text) in [
            (0, "0.00"),
            (5, "0.05"),
            (-5, "-0.05"),
            (7200, "72.00"),
            (-150, "-1.50"),
            (i32::MIN, "-21474836.48"),
            (i32::MAX, "21474836.47"),
        ] {
            assert_eq!(millimetres(hundredths), text);
        }
    }
}
