//! Paths, as the calls take them.

use std::cmp::{Ordering, Reverse};
use std::fmt;
use std::iter::FusedIterator;
use std::slice::ChunksExact;
use std::str::FromStr;

use crate::label::Label;
use crate::STEP_BYTES;

/// A path: steps of a name and a label. A path that the calls do not allow can be built too; they refuse it by 4.
///
/// Paths are in path order, that of a view's lines: step by step, by name from low to high, then by level from high to low, then by
/// compartments from low to high; a prefix comes before its extensions.
#[derive(Clone, Default, PartialEq, Eq, Hash)]
pub struct Path(Vec<u8>);

impl Path {
    /// The root: no step.
    #[must_use]
    pub fn root() -> Path {
        Path(Vec::new())
    }

    /// The path with one more step.
    #[must_use]
    pub fn child(&self, name: u16, label: Label) -> Path {
        let mut path = self.clone();
        path.push(name, label);
        path
    }

    /// Whether it is the root.
    #[must_use]
    pub fn is_root(&self) -> bool {
        self.0.is_empty()
    }

    /// The name and the label of its last step; the root has none.
    #[must_use]
    pub fn last(&self) -> Option<(u16, Label)> {
        self.steps().next_back()
    }

    /// Whether its first steps are those of another path.
    #[must_use]
    pub fn starts_with(&self, other: &Path) -> bool {
        self.0.starts_with(&other.0)
    }

    /// The path without its last step; the root has none.
    #[must_use]
    pub fn parent(&self) -> Option<Path> {
        self.depth().checked_sub(1).map(|depth| self.prefix(depth))
    }

    /// Three bytes a step: the name, lowest byte first, then the label.
    #[must_use]
    pub fn as_bytes(&self) -> &[u8] {
        &self.0
    }

    /// How many steps it has.
    #[must_use]
    pub fn depth(&self) -> usize {
        self.0.len() / STEP_BYTES
    }

    /// The names and labels of its steps, from the root on.
    pub fn steps(&self) -> Steps<'_> {
        Steps(self.0.chunks_exact(STEP_BYTES))
    }

    /// The path of its first steps, at most this many.
    #[must_use]
    pub fn prefix(&self, depth: usize) -> Path {
        Path(self.0[..self.0.len().min(STEP_BYTES.saturating_mul(depth))].to_vec())
    }

    /// Keeps the first steps, at most this many.
    pub(crate) fn cut(&mut self, depth: usize) {
        self.0.truncate(STEP_BYTES.saturating_mul(depth));
    }

    /// Adds a step.
    pub fn push(&mut self, name: u16, label: Label) {
        let [low, high] = name.to_le_bytes();
        self.0.extend([low, high, label.into()]);
    }
}

/// The steps of a path.
#[derive(Clone, Debug)]
#[must_use]
pub struct Steps<'a>(ChunksExact<'a, u8>);

impl Iterator for Steps<'_> {
    type Item = (u16, Label);

    fn next(&mut self) -> Option<(u16, Label)> {
        self.0.next().and_then(read_step)
    }

    fn size_hint(&self) -> (usize, Option<usize>) {
        self.0.size_hint()
    }
}

impl DoubleEndedIterator for Steps<'_> {
    fn next_back(&mut self) -> Option<(u16, Label)> {
        self.0.next_back().and_then(read_step)
    }
}

impl ExactSizeIterator for Steps<'_> {}

impl FusedIterator for Steps<'_> {}

/// The name and the label of a step's bytes.
fn read_step(bytes: &[u8]) -> Option<(u16, Label)> {
    let &[low, high, label] = bytes else { return None };
    Some((u16::from_le_bytes([low, high]), Label::from_number(label.into())?))
}

/// By what a step is ordered.
fn step_key((name, label): (u16, Label)) -> (u16, Reverse<u8>, u8) {
    let number = u8::from(label);
    (name, Reverse(number / 8), number % 8)
}

impl Ord for Path {
    fn cmp(&self, other: &Path) -> Ordering {
        self.steps().map(step_key).cmp(other.steps().map(step_key))
    }
}

impl PartialOrd for Path {
    fn partial_cmp(&self, other: &Path) -> Option<Ordering> {
        Some(self.cmp(other))
    }
}

impl<'a> IntoIterator for &'a Path {
    type Item = (u16, Label);
    type IntoIter = Steps<'a>;

    fn into_iter(self) -> Steps<'a> {
        self.steps()
    }
}

impl Extend<(u16, Label)> for Path {
    fn extend<I: IntoIterator<Item = (u16, Label)>>(&mut self, steps: I) {
        for (name, label) in steps {
            self.push(name, label);
        }
    }
}

impl FromIterator<(u16, Label)> for Path {
    fn from_iter<I: IntoIterator<Item = (u16, Label)>>(steps: I) -> Path {
        let mut path = Path::root();
        path.extend(steps);
        path
    }
}

impl<const N: usize> From<[(u16, Label); N]> for Path {
    fn from(steps: [(u16, Label); N]) -> Path {
        Path::from_iter(steps)
    }
}

impl From<Path> for Vec<u8> {
    fn from(path: Path) -> Vec<u8> {
        path.0
    }
}

impl AsRef<[u8]> for Path {
    fn as_ref(&self) -> &[u8] {
        self.as_bytes()
    }
}

impl TryFrom<Vec<u8>> for Path {
    type Error = NoPath;

    /// The path of these bytes, three a step; labels over 31 are none.
    fn try_from(bytes: Vec<u8>) -> Result<Path, NoPath> {
        let (steps, rest) = bytes.as_chunks::<STEP_BYTES>();
        if rest.is_empty() && steps.iter().all(|step| read_step(step).is_some()) {
            return Ok(Path(bytes));
        }
        Err(NoPath { given: format!("{bytes:?}") })
    }
}

impl TryFrom<&[u8]> for Path {
    type Error = NoPath;

    fn try_from(bytes: &[u8]) -> Result<Path, NoPath> {
        bytes.to_vec().try_into()
    }
}

impl fmt::Debug for Path {
    fn fmt(&self, out: &mut fmt::Formatter<'_>) -> fmt::Result {
        write!(out, "Path({self})")
    }
}

impl fmt::Display for Path {
    /// As in a script: steps `NAME:LABEL` parted by `/`, a lone `/` for the root.
    fn fmt(&self, out: &mut fmt::Formatter<'_>) -> fmt::Result {
        let steps: Vec<String> = self.steps().map(|(name, label)| format!("{name}:{label}")).collect();
        out.pad(if steps.is_empty() { "/".to_owned() } else { steps.join("/") }.as_str())
    }
}

/// What is no path: a text or bytes.
#[derive(Clone, Debug, PartialEq, Eq)]
pub struct NoPath {
    given: String,
}

impl fmt::Display for NoPath {
    fn fmt(&self, out: &mut fmt::Formatter<'_>) -> fmt::Result {
        let rule = "/ or steps NAME:LABEL parted by /, as 10:0/20:16, with names up to 65535 and labels up to 31";
        write!(out, "'{}' is no path: a path is {rule}", self.given)
    }
}

impl std::error::Error for NoPath {}

impl FromStr for Path {
    type Err = NoPath;

    /// Reads a path as in a script; it may begin with `/`, and a label may be in words, as in `/10:open/20:house+sizing`.
    fn from_str(text: &str) -> Result<Path, NoPath> {
        if text == "/" {
            return Ok(Path::root());
        }
        let steps = text.strip_prefix('/').unwrap_or(text).split('/').map(step_of);
        steps.collect::<Option<Path>>().ok_or_else(|| NoPath { given: text.to_owned() })
    }
}

/// The step of a text.
fn step_of(text: &str) -> Option<(u16, Label)> {
    let (name, label) = text.split_once(':')?;
    Some((number_of(name)?.try_into().ok()?, label.parse().ok()?))
}

/// A number in decimal, without a sign or leading zeros.
pub(crate) fn number_of(text: &str) -> Option<u32> {
    let is_plain = text == "0" || !text.starts_with(['0', '+']);
    text.parse().ok().filter(|_| is_plain)
}

#[cfg(test)]
mod tests {
    use super::*;
    use crate::label::Level;

    #[test]
    fn a_step_is_three_bytes() {
        let path = Path::root().child(258, Label::new(Level::Open, &[])).child(10, Label::new(Level::House, &[]));
        assert_eq!(path.as_bytes(), [2, 1, 0, 10, 0, 16]);
        assert_eq!(Path::root().as_bytes(), []);
    }

    #[test]
    fn a_path_is_read_as_it_is_shown() {
        for text in ["/", "1:0", "10:0/20:16", "0:31", "65535:31/1:31/1:31/1:31/1:31/1:31/1:31"] {
            assert_eq!(text.parse::<Path>().map(|path| path.to_string()), Ok(text.to_string()));
        }
        let path: Path = "/10:open/20:house+sizing".parse().expect("a path");
        assert_eq!(path.as_bytes(), [10, 0, 0, 20, 0, 17]);
        assert_eq!((path.depth(), path.prefix(1).to_string(), path.prefix(9)), (2, "10:0".to_string(), path.clone()));
        assert_eq!(format!("{path:?} {path:>11} {:<2}.", Path::root()), "Path(10:0/20:17)  10:0/20:17 / .");
        assert_eq!(path.steps().map(|(name, label)| (name, label.number())).collect::<Vec<_>>(), [(10, 0), (20, 17)]);
    }

    #[test]
    fn a_path_is_made_of_steps_and_of_bytes() {
        let (open, house) = (Label::new(Level::Open, &[]), Label::new(Level::House, &[]));
        let path = Path::from([(258, open), (10, house)]);
        assert_eq!(path, Path::root().child(258, open).child(10, house));
        assert_eq!((path.steps().len(), path.parent(), Path::root().parent()), (2, Some(Path::from([(258, open)])), None));
        assert_eq!((path.last(), Path::root().last(), path.steps().next_back()), (Some((10, house)), None, Some((10, house))));
        assert_eq!((path.is_root(), Path::root().is_root()), (false, true));
        let (style, other) = (Path::from([(258, open)]), Path::from([(258, house)]));
        assert!(path.starts_with(&style) && path.starts_with(&path) && path.starts_with(&Path::root()));
        assert!(!path.starts_with(&other) && !style.starts_with(&path));
        assert_eq!(path.into_iter().collect::<Path>(), path);
        assert_eq!(Path::try_from(&[2, 1, 0, 10, 0, 16][..]), Ok(path.clone()));
        assert_eq!(Vec::from(path), [2, 1, 0, 10, 0, 16]);
        for bytes in [&[2, 1][..], &[2, 1, 32], &[2, 1, 0, 7], &[2, 1, 255, 1, 0, 0]] {
            assert_eq!(Path::try_from(bytes), Err(NoPath { given: format!("{bytes:?}") }));
        }
    }

    #[test]
    fn what_is_no_path_is_not_read() {
        for text in
            ["", "10", "10:", ":0", "10:0/", "//10:0", "/10:0/", "10:32", "65536:0", "010:0", "10:0//20:0", "10:0 ", "//", "+1:0"]
        {
            assert_eq!(text.parse::<Path>(), Err(NoPath { given: text.to_owned() }));
        }
        let rule = "/ or steps NAME:LABEL parted by /, as 10:0/20:16, with names up to 65535 and labels up to 31";
        assert_eq!("10".parse::<Path>().unwrap_err().to_string(), format!("'10' is no path: a path is {rule}"));
    }
}
