//! Stores to begin with, and corruption.
use reference::STORE;
use reference::label::{LABELS, dominates};
use reference::partition::{HEAD, PARTITION, SLOT, SLOTS, partition, slot_of};
use reference::path::{DEPTH, Path, Step};
use reference::random::Random;
use std::collections::BTreeSet;

/// Names that are often used, so that paths meet; some differ in one byte only.
const NAMES: [u16; 10] = [1, 2, 3, 4, 255, 256, 257, 511, 512, 65535];

/// A name: mostly one that is often used.
pub fn name(random: &mut Random) -> u16 {
    if random.percent(90) { random.pick(&NAMES) } else { random.below(65536) as u16 }
}

/// A label that dominates the first and that the second dominates; the second must dominate the first.
pub fn label_between(random: &mut Random, low: u8, high: u8) -> u8 {
    let between: Vec<u8> = (0..LABELS).filter(|label| dominates(*label, low) && dominates(high, *label)).collect();
    random.pick(&between)
}

/// A valid path whose last label is this one.
pub fn valid_path(random: &mut Random, last: u8) -> Path {
    let depth = 1 + random.below(DEPTH);
    let mut steps = Vec::new();
    let mut low = 0;
    for at in 1..=depth {
        let label = if at == depth || random.percent(25) { last } else { label_between(random, low, last) };
        let label = if at < depth && random.percent(40) { low } else { label };
        steps.push(Step { name: name(random).max(1), label });
        low = label;
    }
    Path::new(&steps)
}

/// The path and its beginnings that end in the same label.
fn with_beginnings(path: &Path) -> Vec<Path> {
    let own = path.label();
    let beginnings = (1..=path.depth()).map(|depth| Path::new(&path.steps()[..depth]));
    beginnings.filter(|beginning| beginning.label() == own).collect()
}

/// Another path with the same labels, its names taken from few, so that they alone do not tell paths apart.
fn with_few_names(random: &mut Random, path: &Path) -> Path {
    let few = |step: &Step| Step { name: random.pick(&[1, 1, 1, 256]), ..*step };
    Path::new(&path.steps().iter().map(few).collect::<Vec<_>>())
}

/// Well-formed contents for a partition, with this many elements; often there are many versions of few names.
fn well_formed_set(random: &mut Random, label: u8, count: usize) -> BTreeSet<Path> {
    let has_versions = random.percent(40);
    let mut set = BTreeSet::new();
    while set.len() < count {
        let mut path = valid_path(random, label);
        if has_versions && random.percent(90) {
            path = with_few_names(random, &path);
        }
        let mut more = set.clone();
        more.extend(with_beginnings(&path));
        if more.len() <= count {
            set = more;
        }
    }
    set
}

/// A valid kind and its value's bytes.
pub fn valid_value(random: &mut Random) -> (u32, Vec<u8>) {
    match random.below(3) {
        0 => (0, Vec::new()),
        1 => (1, measure(random).to_le_bytes().to_vec()),
        _ => {
            let length = 1 + random.below(16);
            (2, (0..length).map(|_| 32 + random.below(95) as u8).collect())
        }
    }
}

/// A measure: often one at the ends of its range or with few digits.
fn measure(random: &mut Random) -> i32 {
    let any = random.bits() as i32;
    random.pick(&[0, 1, -1, 9, 10, -10, 99, -150, i32::MAX, i32::MIN, any, any, any % 1000])
}

/// Lays a random well-formed partition with this many elements into a store.
pub fn put_well_formed(random: &mut Random, store: &mut [u8], label: u8, count: usize) {
    let paths: Vec<Path> = well_formed_set(random, label, count).into_iter().collect();
    put_elements(random, store, label, &paths);
}

/// Lays a random partition with this many elements, well formed in the order of before, into a store.
pub fn put_well_formed_before(random: &mut Random, store: &mut [u8], label: u8, count: usize) {
    let mut paths: Vec<Path> = well_formed_set(random, label, count).into_iter().collect();
    paths.sort_by_key(|path| path.steps().iter().map(|step| (step.name, step.label)).collect::<Vec<_>>());
    put_elements(random, store, label, &paths);
}

/// Lays a partition with elements at these paths, in this order, into a store.
fn put_elements(random: &mut Random, store: &mut [u8], label: u8, paths: &[Path]) {
    let part = part_mut(store, label);
    part.fill(0);
    part[0] = paths.len() as u8;
    for (slot, path) in part[HEAD..].as_chunks_mut::<SLOT>().0.iter_mut().zip(paths) {
        let (kind, value) = valid_value(random);
        *slot = slot_of(path, kind as u8, &value);
    }
}

/// The bytes of a label's partition.
fn part_mut(store: &mut [u8], label: u8) -> &mut [u8] {
    let start = PARTITION * usize::from(label);
    &mut store[start..start + PARTITION]
}

/// A store to begin with: fresh, thinly filled, filled, full, of random bytes or of a wrong length.
pub fn begin(random: &mut Random) -> Vec<u8> {
    match random.below(20) {
        0..7 => vec![0; STORE],
        7..12 => filled(random, 9),
        12..15 => filled(random, SLOTS + 1),
        15..18 => full(random),
        18 => random.bytes(STORE),
        _ => wrong_length(random),
    }
}

/// A store written before the path order changed: with few elements, filled or full, often corrupted; some of its partitions
/// may be in the order of now.
pub fn written_before(random: &mut Random) -> Vec<u8> {
    let bound = random.pick(&[3, 9, SLOTS + 1, 0]);
    let mut store = filled_before(random, bound);
    for _ in 0..random.pick(&[0, 0, 0, 0, 1, 2, 4, 8]) {
        corrupt(random, &mut store);
    }
    store
}

/// A store in the order of before, but for some partitions in that of now, which hold fewer elements than this each; where it
/// is 0, they are full or lack one.
pub fn filled_before(random: &mut Random, bound: usize) -> Vec<u8> {
    let mut store = vec![0; STORE];
    for label in 0..LABELS {
        let count = if bound == 0 { SLOTS - random.below(2) } else { random.below(bound) };
        if random.percent(95) {
            put_well_formed_before(random, &mut store, label, count);
        } else {
            put_well_formed(random, &mut store, label, count);
        }
    }
    store
}

/// A store whose partitions hold fewer elements than this each.
pub fn filled(random: &mut Random, bound: usize) -> Vec<u8> {
    let mut store = vec![0; STORE];
    for label in 0..LABELS {
        let count = random.below(bound);
        put_well_formed(random, &mut store, label, count);
    }
    store
}

/// A store whose partitions are full, but for some that lack up to six elements.
fn full(random: &mut Random) -> Vec<u8> {
    let mut store = vec![0; STORE];
    for label in 0..LABELS {
        let lacking = random.pick(&[0, 0, 0, 0, 0, 1, 1, 1, 2, 3, 4, 5, 6]);
        put_well_formed(random, &mut store, label, SLOTS - lacking);
    }
    store
}

/// A store that is not 41,088 bytes long.
fn wrong_length(random: &mut Random) -> Vec<u8> {
    let any = random.below(2 * STORE);
    let length = random.pick(&[0, 1, PARTITION, STORE - PARTITION, STORE - 1, STORE + 1, 2 * STORE, any]);
    let mut store = if random.percent(50) { vec![0; length] } else { random.bytes(length) };
    if length == STORE {
        store.pop();
    }
    store
}

/// Corrupts a store of the right length: single bytes, slots, or a whole partition, which may stay well formed.
pub fn corrupt(random: &mut Random, store: &mut [u8]) {
    let label = random.below(LABELS.into()) as u8;
    match random.below(13) {
        0 => corrupt_byte(random, store),
        1..5 => corrupt_element(random, store, label),
        5 => corrupt_head(random, part_mut(store, label)),
        6 => swap_slots(random, store, label),
        7 => drop_slot(random, store, label),
        8 => {
            let count = random.below(SLOTS + 1);
            put_well_formed(random, store, label, count);
        }
        9 => copy_partition(random, store, label),
        10 => {
            let bytes = random.bytes(PARTITION);
            part_mut(store, label).copy_from_slice(&bytes);
        }
        11 => {
            let count = random.below(SLOTS + 1);
            put_well_formed_before(random, store, label, count);
        }
        _ => repeat_slot(random, store, label),
    }
}

/// Another value for a byte: near the old one, a limit, or any.
pub fn other_byte(random: &mut Random, old: u8) -> u8 {
    let (any, flipped) = (random.byte(), old ^ (1 << random.below(8)));
    let other = random.pick(&[old.wrapping_add(1), old.wrapping_sub(1), 0, 1, 31, 32, 126, 127, 255, flipped, any]);
    if other == old { flipped } else { other }
}

/// Changes any byte of the store.
fn corrupt_byte(random: &mut Random, store: &mut [u8]) {
    let at = random.below(store.len());
    store[at] = other_byte(random, store[at]);
}

/// Changes a byte of a counted slot, or of the one behind them.
fn corrupt_element(random: &mut Random, store: &mut [u8], label: u8) {
    let slot = random.below(partition(store, label).count() + 1).min(SLOTS - 1);
    let at = HEAD + SLOT * slot + random.below(SLOT);
    let part = part_mut(store, label);
    part[at] = other_byte(random, part[at]);
}

/// Changes a partition's count or one of the three bytes behind it.
fn corrupt_head(random: &mut Random, part: &mut [u8]) {
    let at = random.pick(&[0, 0, 0, 1, 2, 3]);
    part[at] = other_byte(random, part[at]);
}

/// Where a counted slot begins, and the next one, if there are two.
fn two_slots(random: &mut Random, store: &[u8], label: u8) -> Option<(usize, usize)> {
    let count = partition(store, label).count();
    let first = random.below(count.checked_sub(1).filter(|count| *count > 0)?);
    Some((HEAD + SLOT * first, HEAD + SLOT * (first + 1)))
}

/// Swaps two neighbours.
fn swap_slots(random: &mut Random, store: &mut [u8], label: u8) {
    if let Some((first, next)) = two_slots(random, store, label) {
        let (before, after) = part_mut(store, label).split_at_mut(next);
        before[first..].swap_with_slice(&mut after[..SLOT]);
    }
}

/// Makes a slot equal to the one before it.
fn repeat_slot(random: &mut Random, store: &mut [u8], label: u8) {
    if let Some((first, next)) = two_slots(random, store, label) {
        part_mut(store, label).copy_within(first..next, next);
    }
}

/// Takes one slot out, whatever extends it; the partition may miss a beginning then.
fn drop_slot(random: &mut Random, store: &mut [u8], label: u8) {
    if let Some((first, next)) = two_slots(random, store, label) {
        let part = part_mut(store, label);
        part.copy_within(next.., first);
        part[PARTITION - SLOT..].fill(0);
        part[0] -= 1;
    }
}

/// Puts another label's partition here.
fn copy_partition(random: &mut Random, store: &mut [u8], label: u8) {
    let from = PARTITION * random.below(LABELS.into());
    store.copy_within(from..from + PARTITION, PARTITION * usize::from(label));
}
