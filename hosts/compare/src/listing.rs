//! The printed view.
use crate::partition::{Slot, dominated};
use crate::path::Path;
use crate::value::Value;

/// A live element of a view.
pub struct Live<'a> {
    pub path: Path,
    pub slot: Slot<'a>,
}

/// The printed view of the path and everything below it; nothing if the path is not in view.
pub fn listing(store: &[u8], subject: u8, path: &Path) -> Option<Vec<u8>> {
    let live = live_below(store, subject, path)?;
    let lines = lines(&live, path);
    let mut text = Vec::with_capacity(16 + 32 * lines);
    text.extend_from_slice(b"VIEW");
    put_number(&mut text, subject.into());
    put_number(&mut text, lines as u32);
    text.push(b'\n');
    put_lines(&mut text, &live, path);
    Some(text)
}

/// The live elements in view that are the path or extend it, in path order; nothing if the path is not in view.
pub fn live_below<'a>(store: &'a [u8], subject: u8, path: &Path) -> Option<Vec<Live<'a>>> {
    let mut live = Vec::new();
    for part in dominated(store, subject) {
        live.extend(part.below(path).1.map(|slot| Live { path: slot.path(), slot }));
    }
    live.sort_by_key(|live| live.path);
    (path.depth() == 0 || !live.is_empty()).then_some(live)
}

/// The depth of the first beginning of this path that is not listed yet: one more than it shares with the path
/// before. The first path's beginnings shorter than the call's path are not listed.
fn first_new(before: Option<&Live>, path: &Path, top: &Path) -> usize {
    match before {
        Some(before) => before.path.shared(path) + 1,
        None => top.depth().max(1),
    }
}

/// Each live element with the depth of its first beginning that is new.
pub fn with_first_new<'a, 'b>(live: &'b [Live<'a>], top: &'b Path) -> impl Iterator<Item = (usize, &'b Live<'a>)> {
    let before = std::iter::once(None).chain(live.iter().map(Some));
    before.zip(live).map(|(before, element)| (first_new(before, &element.path, top), element))
}

/// How many lines follow the first.
fn lines(live: &[Live], top: &Path) -> usize {
    with_first_new(live, top).map(|(first, element)| element.path.depth() + 1 - first).sum()
}

/// Writes the lines after the first: for each live element the removed beginnings that are new, then itself.
fn put_lines(text: &mut Vec<u8>, live: &[Live], top: &Path) {
    for (first, element) in with_first_new(live, top) {
        for depth in first..element.path.depth() {
            put_step(text, &element.path, depth);
            text.extend_from_slice(b"\tR\t-\t-\n");
        }
        put_step(text, &element.path, element.path.depth());
        put_value(text, element.slot);
    }
}

/// Writes a line's depth, name and label.
fn put_step(text: &mut Vec<u8>, path: &Path, depth: usize) {
    let step = path.steps()[depth - 1];
    text.push(b'0' + depth as u8);
    put_number(text, step.name.into());
    put_number(text, step.label.into());
}

/// Writes the rest of a live element's line.
fn put_value(text: &mut Vec<u8>, slot: Slot) {
    match slot.value() {
        Some(Value::Measure(number)) => put_measure(text, number),
        Some(Value::Text(bytes)) => {
            text.extend_from_slice(b"\tP\tT\t");
            text.extend_from_slice(bytes);
        }
        Some(Value::Group) | None => text.extend_from_slice(b"\tP\tG\t-"),
    }
    text.push(b'\n');
}

/// Writes a live measure's mark, kind and number.
fn put_measure(text: &mut Vec<u8>, number: i32) {
    text.extend_from_slice(b"\tP\tM\t");
    if number < 0 {
        text.push(b'-');
    }
    put_decimal(text, number.unsigned_abs());
}

/// Writes a tab and a number.
fn put_number(text: &mut Vec<u8>, number: u32) {
    text.push(b'\t');
    put_decimal(text, number);
}

/// Writes a number in decimal.
pub fn put_decimal(text: &mut Vec<u8>, number: u32) {
    text.extend_from_slice(decimal(number, &mut [0; 10]));
}

/// A number's decimal digits, laid at the end of these bytes.
pub fn decimal(mut number: u32, digits: &mut [u8; 10]) -> &[u8] {
    let mut at = digits.len();
    loop {
        at -= 1;
        digits[at] = b'0' + (number % 10) as u8;
        number /= 10;
        if number == 0 {
            break;
        }
    }
    &digits[at..]
}
