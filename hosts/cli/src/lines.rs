//! An input that comes in pieces, taken apart into lines.

use crate::script::LINE_BYTES_MAX;

/// What is begun of a line. At most one byte more is kept than a line may have, which is enough to tell that it is too long.
#[derive(Default)]
pub struct Lines {
    begun: Vec<u8>,
}

impl Lines {
    /// Takes in a piece: each line that ends in it is handed over, without its end.
    pub fn take(&mut self, mut piece: &[u8], mut each: impl FnMut(&[u8])) {
        while let Some(end) = piece.iter().position(|byte| *byte == b'\n') {
            if self.begun.is_empty() {
                each(&piece[..end]);
            } else {
                self.keep(&piece[..end]);
                each(&self.begun);
                self.begun.clear();
            }
            piece = &piece[end + 1..];
        }
        self.keep(piece);
    }

    /// At the end of the input: a last line without an end is handed over.
    pub fn finish(&mut self, mut each: impl FnMut(&[u8])) {
        if !self.begun.is_empty() {
            each(&self.begun);
            self.begun.clear();
        }
    }

    /// Keeps what comes of a line, as far as it matters.
    fn keep(&mut self, bytes: &[u8]) {
        let room = (LINE_BYTES_MAX + 1).saturating_sub(self.begun.len());
        self.begun.extend_from_slice(&bytes[..bytes.len().min(room)]);
    }
}

#[cfg(test)]
mod tests {
    use super::*;

    /// The lines of an input cut into pieces of this length.
    fn lines(input: &[u8], length: usize) -> Vec<Vec<u8>> {
        let (mut lines, mut found) = (Lines::default(), Vec::new());
        for piece in input.chunks(length) {
            lines.take(piece, |line| found.push(line.to_vec()));
        }
        lines.finish(|line| found.push(line.to_vec()));
        found
    }

    #[test]
    fn however_it_is_cut_the_lines_are_the_same() {
        for length in 1..9 {
            assert_eq!(lines(b"a\n\nbcd\ne", length), [b"a".to_vec(), vec![], b"bcd".to_vec(), b"e".to_vec()]);
            assert_eq!(lines(b"a\n", length), [b"a"]);
            assert_eq!(lines(b"\n", length), [b""]);
            assert!(lines(b"", length).is_empty());
        }
    }

    #[test]
    fn a_long_line_stays_too_long() {
        for length in [1, 100, 257, 1000, 4000] {
            let found = lines(&[vec![b'x'; 3000], b"\ny\n".to_vec()].concat(), length);
            assert_eq!(found.len(), 2);
            assert!(found[0].len() > LINE_BYTES_MAX && found[1] == b"y");
        }
    }
}
