//! The calls and the table of refusals.
use crate::intake::{self, Element, Style};
use crate::label::{dominates, is_label};
use crate::listing;
use crate::partition::{self, SLOT, SLOTS, STORE, dominated, partition};
use crate::path::Path;
use crate::value::{GROUP, Value};
use crate::xml;

/// What every call but a grade answers: 0 or the number of its refusal, and its count.
#[derive(Clone, Copy, PartialEq, Eq, Debug)]
pub struct Answer {
    pub number: u32,
    pub count: u64,
}

/// What a grade answers: 0 or the number of its refusal, the step and the remainder.
#[derive(Clone, Copy, PartialEq, Eq, Debug)]
pub struct Grade {
    pub number: u32,
    pub step: i64,
    pub remainder: u32,
}

/// Why a call is refused, with its number.
#[derive(Clone, Copy, PartialEq, Eq, Debug)]
pub enum Refusal {
    StoreLength = 1,
    Subject = 2,
    Corruption = 3,
    Path = 4,
    Value = 5,
    OtherLabel = 6,
    Absent = 7,
    Live = 8,
    Full = 9,
    Output = 10,
    Sizes = 11,
    NoMeasure = 12,
    Form = 13,
    NotOwn = 14,
}

/// The most sizes of a grade.
const SIZES: u32 = 64;

/// The answer of a call that was done or refused.
fn answer(done: Result<usize, Refusal>) -> Answer {
    match done {
        Ok(count) => Answer { number: 0, count: count as u64 },
        Err(refusal) => Answer { number: refusal as u32, count: 0 },
    }
}

/// Lists the path and everything in view below it into the output.
pub fn view(store: &[u8], subject: u32, path: &[u8], output: &mut [u8]) -> Answer {
    answer(try_view(store, subject, path, output))
}

/// Writes the path and everything in view below it as XML into the output.
pub fn view_xml(store: &[u8], subject: u32, path: &[u8], output: &mut [u8]) -> Answer {
    answer(try_view_xml(store, subject, path, output))
}

/// Makes an element live, and the groups above it that are missing.
pub fn insert(store: &mut [u8], subject: u32, path: &[u8], kind: u32, value: &[u8]) -> Answer {
    answer(try_insert(store, subject, path, kind, value))
}

/// Gives an element another value and leaves all else, what extends it included.
pub fn update(store: &mut [u8], subject: u32, path: &[u8], kind: u32, value: &[u8]) -> Answer {
    answer(try_update(store, subject, path, kind, value))
}

/// Takes an element, and what extends it, from the subject's partition.
pub fn delete(store: &mut [u8], subject: u32, path: &[u8]) -> Answer {
    answer(try_delete(store, subject, path))
}

/// Divides what lies between two measures evenly into n sizes; the step is rounded down.
pub fn grade(store: &[u8], subject: u32, base: &[u8], top: &[u8], n: u32) -> Grade {
    match try_grade(store, subject, base, top, n) {
        Ok((step, remainder)) => Grade { number: 0, step, remainder },
        Err(refusal) => Grade { number: refusal as u32, step: 0, remainder: 0 },
    }
}

/// Takes in a style: makes all elements that a text sends live, below the parent.
pub fn insert_xml(store: &mut [u8], subject: u32, parent: &[u8], text: &[u8]) -> Answer {
    answer(try_insert_xml(store, subject, parent, text))
}

/// The view, or why it is refused.
fn try_view(store: &[u8], subject: u32, path: &[u8], output: &mut [u8]) -> Result<usize, Refusal> {
    let subject = subject_of(store, subject)?;
    let path = Path::read(path).ok_or(Refusal::Path)?;
    let listing = listing::listing(store, subject, &path).ok_or(Refusal::Absent)?;
    let written = output.get_mut(..listing.len()).ok_or(Refusal::Output)?;
    written.copy_from_slice(&listing);
    Ok(listing.len())
}

/// The view as XML, or why it is refused.
fn try_view_xml(store: &[u8], subject: u32, path: &[u8], output: &mut [u8]) -> Result<usize, Refusal> {
    let subject = subject_of(store, subject)?;
    let path = Path::read(path).ok_or(Refusal::Path)?;
    let live = listing::live_below(store, subject, &path).ok_or(Refusal::Absent)?;
    xml::write(output, subject, &live, &path).ok_or(Refusal::Output)
}

/// The insert, or why it is refused. Nothing of the subject's label extends the first group that is missing: the groups
/// and the element stand together.
fn try_insert(store: &mut [u8], subject: u32, path: &[u8], kind: u32, value: &[u8]) -> Result<usize, Refusal> {
    let subject = subject_of(store, subject)?;
    let path = element_path(path)?;
    Value::read(kind, value).ok_or(Refusal::Value)?;
    own_path(subject, &path)?;
    let own = partition(store, subject);
    let Err(at) = own.find(&path) else { return Err(Refusal::Live) };
    let seen = seen_steps(store, subject, &path, own.shared_before(at, &path))?;
    let put = path.depth() - seen;
    if own.count() + put > SLOTS {
        return Err(Refusal::Full);
    }
    let slots = (seen + 1..path.depth() + 1).map(|depth| put_in(&path, depth, kind, value));
    partition::put_slots(store, subject, at, slots);
    Ok(put - 1)
}

/// Row 7 of an insert: how many first steps of its path are in view, if all behind them bear the subject's label. These
/// come last in a path, and of them those are in view that are live: what the path shares with an element of the
/// subject tells them. If there are none, the steps before them have to be in view.
fn seen_steps(store: &[u8], subject: u8, path: &Path, shared: usize) -> Result<usize, Refusal> {
    let others = path.steps().iter().take_while(|step| step.label != subject).count();
    if shared >= others {
        Ok(shared)
    } else if is_in_view(store, subject, &path.beginning(others)) {
        Ok(others)
    } else {
        Err(Refusal::Absent)
    }
}

/// What an insert puts in at one depth of its path: the element at the path's end, a group before it.
fn put_in(path: &Path, depth: usize, kind: u32, value: &[u8]) -> [u8; SLOT] {
    if depth == path.depth() {
        partition::slot_of(path, kind as u8, value)
    } else {
        partition::slot_of(&path.beginning(depth), GROUP as u8, &[])
    }
}

/// The update, or why it is refused.
fn try_update(store: &mut [u8], subject: u32, path: &[u8], kind: u32, value: &[u8]) -> Result<usize, Refusal> {
    let subject = subject_of(store, subject)?;
    let path = element_path(path)?;
    Value::read(kind, value).ok_or(Refusal::Value)?;
    own_path(subject, &path)?;
    let at = live_at(store, subject, &path)?;
    partition::put_content(store, subject, at, &partition::content_of(kind as u8, value));
    Ok(1)
}

/// The delete, or why it is refused.
fn try_delete(store: &mut [u8], subject: u32, path: &[u8]) -> Result<usize, Refusal> {
    let subject = subject_of(store, subject)?;
    let path = element_path(path)?;
    own_path(subject, &path)?;
    let at = live_at(store, subject, &path)?;
    let taken = partition(store, subject).below(&path).1.count();
    partition::take_slots(store, subject, at, taken);
    Ok(taken)
}

/// The step and the remainder of a grade, or why it is refused.
fn try_grade(store: &[u8], subject: u32, base: &[u8], top: &[u8], n: u32) -> Result<(i64, u32), Refusal> {
    let subject = subject_of(store, subject)?;
    let base = Path::read(base).ok_or(Refusal::Path)?;
    let top = Path::read(top).ok_or(Refusal::Path)?;
    if !(1..=SIZES).contains(&n) {
        return Err(Refusal::Sizes);
    }
    let values = [value_in_view(store, subject, &base)?, value_in_view(store, subject, &top)?];
    let [Some(Value::Measure(base)), Some(Value::Measure(top))] = values else { return Err(Refusal::NoMeasure) };
    let between = i64::from(top) - i64::from(base);
    let n = i64::from(n);
    Ok((between.div_euclid(n), between.rem_euclid(n) as u32))
}

/// The XML intake, or why it is refused. Where the top element is not live nothing of the subject's label extends it:
/// the elements stand together.
fn try_insert_xml(store: &mut [u8], subject: u32, parent: &[u8], text: &[u8]) -> Result<usize, Refusal> {
    let subject = subject_of(store, subject)?;
    let parent = Path::read(parent).ok_or(Refusal::Path)?;
    let Style { count, is_own, mut elements } = intake::read(text, subject, &parent).ok_or(Refusal::Form)?;
    if !is_own {
        return Err(Refusal::NotOwn);
    }
    if !is_in_view(store, subject, &parent) {
        return Err(Refusal::Absent);
    }
    let own = partition(store, subject);
    let Err(at) = own.find(&elements[0].path) else { return Err(Refusal::Live) };
    if own.count() + count > SLOTS {
        return Err(Refusal::Full);
    }
    elements.sort_unstable_by_key(|element| element.path);
    partition::put_slots(store, subject, at, elements.iter().map(Element::slot));
    Ok(count)
}

/// Rows 1 to 3: the subject's label, if the store has the right length and its dominated partitions are well formed.
fn subject_of(store: &[u8], subject: u32) -> Result<u8, Refusal> {
    if store.len() != STORE {
        return Err(Refusal::StoreLength);
    }
    let subject = u8::try_from(subject).ok().filter(|number| is_label(*number)).ok_or(Refusal::Subject)?;
    if !dominated(store, subject).all(|part| part.is_well_formed()) {
        return Err(Refusal::Corruption);
    }
    Ok(subject)
}

/// Row 4 for an element's path, which is not the root's.
fn element_path(path: &[u8]) -> Result<Path, Refusal> {
    Path::read(path).filter(|path| path.depth() > 0).ok_or(Refusal::Path)
}

/// Row 6: the path's last label is the subject's.
fn own_path(subject: u8, path: &Path) -> Result<(), Refusal> {
    if path.label() == Some(subject) { Ok(()) } else { Err(Refusal::OtherLabel) }
}

/// Whether the path is in the subject's view; the root always is.
fn is_in_view(store: &[u8], subject: u8, path: &Path) -> bool {
    path.depth() == 0 || dominated(store, subject).any(|part| part.below(path).1.next().is_some())
}

/// Row 7 of a grade: the value at a path in the subject's view, if it is live.
fn value_in_view<'a>(store: &'a [u8], subject: u8, path: &Path) -> Result<Option<Value<'a>>, Refusal> {
    let dominated = path.label().filter(|label| dominates(subject, *label));
    match dominated.and_then(|label| partition(store, label).held(path)) {
        Some(slot) => Ok(slot.value()),
        None if is_in_view(store, subject, path) => Ok(None),
        None => Err(Refusal::Absent),
    }
}

/// Row 7 of an update and a delete: where the element stands in the subject's partition.
fn live_at(store: &[u8], subject: u8, path: &Path) -> Result<usize, Refusal> {
    partition(store, subject).find(path).map_err(|_| Refusal::Absent)
}
