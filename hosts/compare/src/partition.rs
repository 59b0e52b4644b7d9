//! The store's bytes: 32 partitions of 32 slots.
use crate::label::dominates;
use crate::path::{DEPTH, Path, Step};
use crate::value::{LONGEST, Value};
use std::cmp::Ordering;

/// The bytes of a slot.
pub const SLOT: usize = 40;
/// How many slots a partition has.
pub const SLOTS: usize = 32;
/// The bytes of a partition before its slots: the count and three zeros.
pub const HEAD: usize = 4;
/// The bytes of a partition.
pub const PARTITION: usize = HEAD + SLOTS * SLOT;
/// The bytes of a store.
pub const STORE: usize = 32 * PARTITION;

/// Where in a slot the names begin.
const NAMES: usize = 1;
/// Where in a slot the labels begin.
const LABELS: usize = 13;
/// Where in a slot the kind stands.
const KIND: usize = 19;
/// Where in a slot the value's length stands.
const LENGTH: usize = 20;
/// Where in a slot the value begins.
pub const VALUE: usize = 21;
/// The bytes of a slot's content: the kind, the value's length and the value.
pub const CONTENT: usize = VALUE + LONGEST - KIND;

/// The bytes that free slots must equal.
static ZEROS: [u8; PARTITION] = [0; PARTITION];

/// One slot's bytes.
#[derive(Clone, Copy)]
pub struct Slot<'a>(&'a [u8; SLOT]);

impl<'a> Slot<'a> {
    /// The path it holds, as it stands there. A depth over six is read as six.
    pub fn path(self) -> Path {
        Path::of(usize::from(self.0[0]).min(DEPTH), |at| self.step(at))
    }

    /// One of its six steps.
    fn step(self, at: usize) -> Step {
        let name = u16::from_le_bytes([self.0[NAMES + 2 * at], self.0[NAMES + 2 * at + 1]]);
        Step { name, label: self.0[LABELS + at] }
    }

    /// The value it holds, if that is a valid one.
    pub fn value(self) -> Option<Value<'a>> {
        let length = usize::from(self.0[LENGTH]);
        let bytes = self.0[VALUE..VALUE + LONGEST].get(..length)?;
        Value::read(u32::from(self.0[KIND]), bytes)
    }

    /// The path of the valid element of this label that it holds, if it holds one.
    fn valid_path(self, own: u8) -> Option<Path> {
        let depth = usize::from(self.0[0]);
        let valid =
            (1..=DEPTH).contains(&depth) && self.steps_end_at(depth) && self.value_ends() && self.value().is_some();
        let path = self.path();
        (valid && path.label() == Some(own) && path.is_valid()).then_some(path)
    }

    /// Whether the bytes of the steps behind this depth are zero.
    fn steps_end_at(self, depth: usize) -> bool {
        is_zero(&self.0[NAMES + 2 * depth..LABELS]) && is_zero(&self.0[LABELS + depth..KIND])
    }

    /// Whether the bytes behind the value are zero.
    fn value_ends(self) -> bool {
        self.0[VALUE..].get(usize::from(self.0[LENGTH])..).is_some_and(is_zero)
    }
}

/// A slot's bytes for an element with this path, kind and value.
pub fn slot_of(path: &Path, kind: u8, value: &[u8]) -> [u8; SLOT] {
    let mut slot = [0; SLOT];
    slot[0] = path.depth() as u8;
    for (at, step) in path.steps().iter().enumerate() {
        slot[NAMES + 2 * at..NAMES + 2 * at + 2].copy_from_slice(&step.name.to_le_bytes());
        slot[LABELS + at] = step.label;
    }
    slot[KIND..KIND + CONTENT].copy_from_slice(&content_of(kind, value));
    slot
}

/// The content's bytes of a slot for an element with this kind and value.
pub fn content_of(kind: u8, value: &[u8]) -> [u8; CONTENT] {
    let mut content = [0; CONTENT];
    content[0] = kind;
    content[LENGTH - KIND] = value.len() as u8;
    content[VALUE - KIND..][..value.len()].copy_from_slice(value);
    content
}

/// Whether all these bytes are zero, at most a partition's.
fn is_zero(bytes: &[u8]) -> bool {
    *bytes == ZEROS[..bytes.len()]
}

/// The partition of one label, lent from the store.
#[derive(Clone, Copy)]
pub struct Partition<'a> {
    own: u8,
    bytes: &'a [u8; PARTITION],
}

impl<'a> Partition<'a> {
    /// How many slots it counts, at most 32.
    pub fn count(self) -> usize {
        usize::from(self.bytes[0]).min(SLOTS)
    }

    /// The counted slots.
    pub fn slots(self) -> impl Iterator<Item = Slot<'a>> {
        self.counted().iter().map(Slot)
    }

    /// The counted slots' bytes.
    fn counted(self) -> &'a [[u8; SLOT]] {
        &self.bytes[HEAD..].as_chunks().0[..self.count()]
    }

    /// Whether it is well formed.
    pub fn is_well_formed(self) -> bool {
        self.is_well_formed_by(|before, path| before < path)
    }

    /// Whether it is well formed in the order of before.
    pub fn was_well_formed(self) -> bool {
        self.is_well_formed_by(|before, path| before.old_cmp(path) == Ordering::Less)
    }

    /// Whether it is well formed in this order, which has a beginning before its extensions, and these together.
    pub fn is_well_formed_by(self, is_before: impl FnMut(&Path, &Path) -> bool) -> bool {
        usize::from(self.bytes[0]) <= SLOTS
            && is_zero(&self.bytes[1..HEAD])
            && is_zero(&self.bytes[HEAD + SLOT * self.count()..])
            && self.elements_are_well_formed(is_before)
    }

    /// Whether the counted slots hold valid elements in rising order, each with its beginnings of the same label.
    fn elements_are_well_formed(self, mut is_before: impl FnMut(&Path, &Path) -> bool) -> bool {
        let mut before = Path::default();
        self.slots().all(|slot| {
            let Some(path) = slot.valid_path(self.own) else { return false };
            let fits = is_before(&before, &path) && self.has_parent(&before, &path);
            before = path;
            fits
        })
    }

    /// Whether the path's parent is here, if it has this label. What stands before the path is then the parent or, as
    /// the order has it, extends the parent; and the parent answers for the shorter beginnings.
    fn has_parent(self, before: &Path, path: &Path) -> bool {
        let parent = path.parent();
        parent.label() != Some(self.own) || before.extends(&parent)
    }

    /// Where the path stands, or where it would stand.
    pub fn find(self, path: &Path) -> Result<usize, usize> {
        self.counted().binary_search_by(|slot| Slot(slot).path().cmp(path))
    }

    /// How many first steps the path shares with the slot before this place; none where no slot is before it.
    pub fn shared_before(self, at: usize, path: &Path) -> usize {
        self.counted()[..at].last().map_or(0, |slot| Slot(slot).path().shared(path))
    }

    /// The slot of the path, if it stands here.
    pub fn held(self, path: &Path) -> Option<Slot<'a>> {
        self.find(path).ok().map(|at| Slot(&self.counted()[at]))
    }

    /// The slots of the path and what extends it, and where they begin.
    pub fn below(self, path: &Path) -> (usize, impl Iterator<Item = Slot<'a>>) {
        let start = self.find(path).unwrap_or_else(|at| at);
        (start, self.slots().skip(start).take_while(move |slot| slot.path().extends(path)))
    }
}

/// The partition of this label in a store of 41,088 bytes.
pub fn partition(store: &[u8], label: u8) -> Partition<'_> {
    Partition { own: label, bytes: &store.as_chunks().0[usize::from(label)] }
}

/// The partitions that this label dominates, in the order of their labels.
pub fn dominated(store: &[u8], subject: u8) -> impl Iterator<Item = Partition<'_>> {
    let parts = store.as_chunks().0;
    (0..).zip(parts).filter(move |(own, _)| dominates(subject, *own)).map(|(own, bytes)| Partition { own, bytes })
}

/// Brings the counted slots of a partition into the order of now.
pub fn sort_slots(store: &mut [u8], label: u8) {
    let count = partition(store, label).count();
    let slots = &mut partition_mut(store, label)[HEAD..].as_chunks_mut::<SLOT>().0[..count];
    let (mut paths, mut kept) = ([Path::default(); SLOTS], [[0; SLOT]; SLOTS]);
    let kept = &mut kept[..count];
    kept.copy_from_slice(slots);
    for (path, slot) in paths.iter_mut().zip(&*kept) {
        *path = Slot(slot).path();
    }
    let mut places: [u8; SLOTS] = std::array::from_fn(|at| at as u8);
    places[..count].sort_by_key(|at| &paths[usize::from(*at)]);
    for (slot, from) in slots.iter_mut().zip(places) {
        *slot = kept[usize::from(from)];
    }
}

/// The bytes of this label's partition, to be written.
fn partition_mut(store: &mut [u8], label: u8) -> &mut [u8; PARTITION] {
    &mut store.as_chunks_mut().0[usize::from(label)]
}

/// Puts slots into a partition that has room for all of them, one behind the other, from this place on.
pub fn put_slots(store: &mut [u8], label: u8, at: usize, put: impl ExactSizeIterator<Item = [u8; SLOT]>) {
    let bytes = partition_mut(store, label);
    let (count, more) = (usize::from(bytes[0]), put.len());
    let slots = bytes[HEAD..].as_chunks_mut().0;
    slots.copy_within(at..count, at + more);
    slots[at..at + more].iter_mut().zip(put).for_each(|(slot, put)| *slot = put);
    bytes[0] += more as u8;
}

/// Lays another content into the slot at this place of a partition.
pub fn put_content(store: &mut [u8], label: u8, at: usize, content: &[u8; CONTENT]) {
    let slots = partition_mut(store, label)[HEAD..].as_chunks_mut::<SLOT>().0;
    slots[at][KIND..KIND + CONTENT].copy_from_slice(content);
}

/// Takes this many slots from a partition, from this place on.
pub fn take_slots(store: &mut [u8], label: u8, at: usize, taken: usize) {
    let bytes = partition_mut(store, label);
    let count = usize::from(bytes[0]);
    let slots = bytes[HEAD..].as_chunks_mut::<SLOT>().0;
    slots.copy_within(at + taken..count, at);
    slots[count - taken..count].fill([0; SLOT]);
    bytes[0] -= taken as u8;
}
