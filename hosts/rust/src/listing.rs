//! What a view listed, read line by line.

use std::borrow::Cow;
use std::fmt;
use std::iter::FusedIterator;
use std::str;

use crate::answer::Error;
use crate::label::Label;
use crate::path::Path;
use crate::value::{Kind, Value};

/// What a view wrote, into bytes of its own or into the output that it was lent.
#[derive(Clone, PartialEq, Eq)]
#[must_use]
pub struct View<'a> {
    listing: Cow<'a, [u8]>,
    subject: Label,
    path: Path,
}

impl<'a> View<'a> {
    /// A subject's view of a path, with this listing.
    pub(crate) fn new(listing: Cow<'a, [u8]>, subject: Label, path: &Path) -> View<'a> {
        View { listing, subject, path: path.clone() }
    }

    /// The bytes written: the printed view, its first line included.
    #[must_use]
    pub fn listing(&self) -> &[u8] {
        &self.listing
    }

    /// The bytes written, to be kept.
    #[must_use]
    pub fn into_listing(self) -> Vec<u8> {
        self.listing.into_owned()
    }

    /// Who viewed.
    #[must_use]
    pub fn subject(&self) -> Label {
        self.subject
    }

    /// The path that was viewed.
    #[must_use]
    pub fn path(&self) -> &Path {
        &self.path
    }

    /// How many elements are listed.
    #[must_use]
    pub fn len(&self) -> usize {
        self.listing.split(|byte| *byte == b'\n').count().saturating_sub(2)
    }

    /// Whether none is.
    #[must_use]
    pub fn is_empty(&self) -> bool {
        self.len() == 0
    }

    /// The elements listed, in path order.
    pub fn lines(&self) -> Lines<'_> {
        let (_, rest) = split_line(&self.listing);
        Lines { rest, before: self.path.clone() }
    }
}

impl fmt::Debug for View<'_> {
    /// The subject, the path and the listing as a text.
    fn fmt(&self, out: &mut fmt::Formatter<'_>) -> fmt::Result {
        let View { subject, path, .. } = self;
        out.debug_struct("View").field("subject", subject).field("path", path).field("listing", &self.to_string()).finish()
    }
}

impl fmt::Display for View<'_> {
    /// The listing.
    fn fmt(&self, out: &mut fmt::Formatter<'_>) -> fmt::Result {
        out.write_str(&String::from_utf8_lossy(&self.listing))
    }
}

impl<'v> IntoIterator for &'v View<'_> {
    type Item = Result<Line<'v>, Error>;
    type IntoIter = Lines<'v>;

    fn into_iter(self) -> Lines<'v> {
        self.lines()
    }
}

/// The lines of a view behind its first. A line that does not read as one is an [`Error::Unreadable`], and the last.
#[derive(Clone, Debug)]
#[must_use]
pub struct Lines<'v> {
    rest: &'v [u8],
    /// The path of the line before, or the one that was viewed.
    before: Path,
}

impl<'v> Iterator for Lines<'v> {
    type Item = Result<Line<'v>, Error>;

    fn next(&mut self) -> Option<Self::Item> {
        if self.rest.is_empty() {
            return None;
        }
        let (line, rest) = split_line(self.rest);
        let read = line.and_then(|line| read_line(line, &mut self.before));
        self.rest = if read.is_some() { rest } else { &[] };
        Some(read.ok_or(Error::Unreadable))
    }
}

impl FusedIterator for Lines<'_> {}

/// An element listed.
#[derive(Clone, Debug, PartialEq, Eq, Hash)]
#[non_exhaustive]
pub struct Line<'v> {
    /// Its path, from the root on.
    pub path: Path,
    /// The name of its last step.
    pub name: u16,
    /// Its label.
    pub label: Label,
    /// Whether it is live, and with which value.
    pub mark: Mark<'v>,
}

impl<'v> Line<'v> {
    /// How many steps its path has.
    #[must_use]
    pub fn depth(&self) -> usize {
        self.path.depth()
    }

    /// Whether the element is live.
    #[must_use]
    pub fn is_live(&self) -> bool {
        self.mark != Mark::Removed
    }

    /// The value of a live element.
    #[must_use]
    pub fn value(&self) -> Option<Value<'v>> {
        match self.mark {
            Mark::Live(value) => Some(value),
            Mark::Removed => None,
        }
    }

    /// The kind of a live element.
    #[must_use]
    pub fn kind(&self) -> Option<Kind> {
        self.value().map(|value| value.kind())
    }
}

/// Whether an element is live or removed.
#[derive(Clone, Copy, Debug, PartialEq, Eq, Hash)]
pub enum Mark<'v> {
    /// Live, with a value.
    Live(Value<'v>),
    /// Removed: something live still stands below it.
    Removed,
}

/// The first line, without its end, if it has one, and what is behind it.
fn split_line(bytes: &[u8]) -> (Option<&[u8]>, &[u8]) {
    let end = bytes.iter().position(|byte| *byte == b'\n');
    match end.map(|end| bytes.split_at(end)) {
        Some((line, [_, rest @ ..])) => (Some(line), rest),
        _ => (None, &[]),
    }
}

/// A line of six fields, if it is one and may stand behind that of the path before it: the steps above it are that path's first.
/// The path before becomes the line's.
fn read_line<'v>(line: &'v [u8], before: &mut Path) -> Option<Line<'v>> {
    let mut fields = str::from_utf8(line).ok()?.split('\t');
    let above = fields.next()?.parse::<usize>().ok()?.checked_sub(1).filter(|above| *above <= before.depth())?;
    let name = fields.next()?.parse().ok()?;
    let label = fields.next()?.parse::<u32>().ok()?.try_into().ok()?;
    let mark = read_mark(fields.next()?, fields.next()?, fields.next()?)?;
    if fields.next().is_some() {
        return None;
    }
    before.cut(above);
    before.push(name, label);
    Some(Line { path: before.clone(), name, label, mark })
}

/// The fields of the mark, the kind and the value.
fn read_mark<'v>(mark: &str, kind: &str, value: &'v str) -> Option<Mark<'v>> {
    match (mark, kind, value) {
        ("R", "-", "-") => Some(Mark::Removed),
        ("P", "G", "-") => Some(Mark::Live(Value::Group)),
        ("P", "M", number) => number.parse().ok().map(Value::Measure).map(Mark::Live),
        ("P", "T", text) => Some(Mark::Live(Value::Text(text))),
        _ => None,
    }
}

#[cfg(test)]
mod tests {
    use super::*;

    /// The view of a path with a listing.
    fn view<'a>(path: &str, listing: &'a str) -> View<'a> {
        View::new(listing.as_bytes().into(), Label::from_number(16).expect("a label"), &path.parse().expect("a path"))
    }

    /// What a line of a listing says, in words.
    fn told(line: Result<Line, Error>) -> String {
        line.map_or_else(|error| error.to_string(), |line| format!("{} {:?} {:?}", line.path, line.kind(), line.value()))
    }

    #[test]
    fn the_first_line_is_not_listed() {
        let (none, one) = (view("/", "VIEW\t16\t0\n"), view("/", "VIEW\t16\t1\n1\t10\t0\tP\tG\t-\n"));
        assert_eq!((none.lines().count(), none.len(), none.is_empty()), (0, 0, true));
        assert_eq!((one.lines().count(), one.len(), one.is_empty()), (1, 1, false));
    }

    #[test]
    fn a_text_is_never_mistaken() {
        let listed = view("1:31/2:31/3:31/4:31/5:31/65535:31", "VIEW\t0\t1\n6\t65535\t31\tP\tT\t-\n");
        let line = listed.lines().next().expect("a line").expect("that reads");
        assert_eq!((line.depth(), line.name, line.label.number()), (6, 65535, 31));
        assert_eq!((line.value(), line.kind(), line.is_live()), (Some(Value::Text("-")), Some(Kind::Text), true));
    }

    #[test]
    fn a_removed_element_has_no_value() {
        let listed = view("/", "VIEW\t16\t1\n1\t10\t0\tR\t-\t-\n");
        let line = listed.lines().next().expect("a line").expect("that reads");
        assert_eq!((line.value(), line.kind(), line.is_live()), (None, None, false));
    }

    #[test]
    fn a_line_has_its_whole_path() {
        let lines = "2\t20\t0\tR\t-\t-\n3\t30\t16\tP\tM\t-150\n4\t1\t16\tP\tG\t-\n3\t31\t16\tP\tT\tA\n";
        let listed = view("10:0/20:0", &format!("VIEW\t16\t4\n{lines}")).into_iter().map(told).collect::<Vec<_>>();
        let expected = [
            "10:0/20:0 None None",
            "10:0/20:0/30:16 Some(Measure) Some(Measure(-150))",
            "10:0/20:0/30:16/1:16 Some(Group) Some(Group)",
            "10:0/20:0/31:16 Some(Text) Some(Text(\"A\"))",
        ];
        assert_eq!(listed, expected);
    }

    #[test]
    fn what_is_no_line_is_unreadable_and_the_last() {
        for line in [
            "",
            "1\t10\t0\tP\tG",
            "1\t10\t32\tP\tG\t-",
            "1\t65536\t0\tP\tG\t-",
            "1\t10\t0\tR\tG\t-",
            "1\t10\t0\tR\t-\tx",
            "1\t10\t0\tP\tG\tx",
            "1\t10\t0\tP\tM\tx",
            "1\t10\t0\tP\tG\t-\t7",
            "0\t10\t0\tP\tG\t-",
            "2\t10\t0\tP\tG\t-",
        ] {
            let listing = format!("VIEW\t0\t2\n{line}\n1\t10\t0\tP\tG\t-\n");
            assert_eq!(view("/", &listing).lines().collect::<Vec<_>>(), [Err(Error::Unreadable)], "{line}");
        }
        let unended = view("/", "VIEW\t0\t1\n1\t10\t0\tP\tG\t-");
        assert_eq!(unended.lines().collect::<Vec<_>>(), [Err(Error::Unreadable)]);
    }

    #[test]
    fn a_view_is_shown_as_its_listing() {
        let listing = "VIEW\t16\t1\n1\t10\t0\tR\t-\t-\n";
        assert_eq!(view("/", listing).to_string(), listing);
        assert_eq!(view("/", listing).into_listing(), listing.as_bytes());
        let shown = r#"View { subject: Label(16), path: Path(/), listing: "VIEW\t16\t1\n1\t10\t0\tR\t-\t-\n" }"#;
        assert_eq!(format!("{:?}", view("/", listing)), shown);
    }
}
