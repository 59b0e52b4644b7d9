//! The faults of the path order and of the migration to it.
use crate::faults::{foreseen, refused, with_xml};
use crate::generate::migration;
use crate::sent::Sent;
use crate::side::{Answer, Call, Name, Side, product};
use reference::STORE;
use reference::label::LABELS;
use reference::partition::{HEAD, PARTITION, SLOT, SLOTS, partition, slot_of};
use reference::path::Path;
use reference::value::GROUP;
use std::collections::BTreeSet;

/// Each fault and what it does.
pub const FAULTS: [(&str, Side); 27] = [
    ("a view has the lowest level on top", |call, store, output| with_lines(call, store, output, by_number)),
    ("a view goes by compartments before the level", |call, store, output| {
        with_lines(call, store, output, by_compartments)
    }),
    ("a view has the greatest compartments first", |call, store, output| with_lines(call, store, output, falling)),
    ("the XML has the lowest level on top", xml_by_number),
    ("an insert goes by the label's number", |call, store, output| with_own_sorted(call, store, output, by_number)),
    ("an insert goes by compartments before the level", |call, store, output| {
        with_own_sorted(call, store, output, by_compartments)
    }),
    ("a partition in the order of before is served", serves_before),
    ("a call brings partitions into the new order itself", migrates_itself),
    ("a migration moves nothing", |call, store, output| with_sorted(call, store, output, by_number)),
    ("a migration goes by compartments before the level", |call, store, output| {
        with_sorted(call, store, output, by_compartments)
    }),
    ("a migration has the greatest compartments first", |call, store, output| {
        with_sorted(call, store, output, falling)
    }),
    ("a migration goes by the first steps alone", sorts_first_steps),
    ("a migration does not move the last slot", |call, store, output| spares(call, store, output, 0, 1)),
    ("a migration does not move the first slot", |call, store, output| spares(call, store, output, 1, 0)),
    ("a migration loses a slot", loses_slot),
    ("a migration doubles a slot", doubles_slot),
    ("a migration moves the paths and leaves the values", leaves_values),
    ("a migration sorts partitions that are not well formed", sorts_broken),
    ("a migration sorts partitions that lack a parent", sorts_orphans),
    ("a migration clears partitions that are not well formed", clears_broken),
    ("a migration does not test the free bytes", spares_free_bytes),
    ("a migration ends at a partition that is not well formed", ends_early),
    ("a migration leaves out the last partition", leaves_last),
    ("the mask has the partitions that were moved", tells_moved),
    ("the mask has no partition that is in the new order", tells_broken),
    ("the mask has bit 31 - n for partition n", turns_mask),
    ("a longer store is migrated", takes_longer),
];

/// A step's place in an order: its name, then two numbers of its label.
type Place = (u16, u8, u8);

/// Where a step of this name and label comes in an order.
type Order = fn(u16, u8) -> Place;

/// The order of before: by the label's number.
fn by_number(name: u16, label: u8) -> Place {
    (name, label / 8, label % 8)
}

/// By compartments first and then by level from high to low.
fn by_compartments(name: u16, label: u8) -> Place {
    (name, label % 8, u8::MAX - label / 8)
}

/// By level from high to low and then by compartments from high to low.
fn falling(name: u16, label: u8) -> Place {
    (name, u8::MAX - label / 8, u8::MAX - label % 8)
}

/// A path's place in an order.
fn places(path: &Path, order: Order) -> Vec<Place> {
    path.steps().iter().map(|step| order(step.name, step.label)).collect()
}

/// A line of a listing with those below it.
struct Listed {
    place: Place,
    line: String,
    below: Vec<Listed>,
}

/// Reads lines of at least this depth, up to one that is less deep.
fn read_lines<'a>(
    lines: &mut std::iter::Peekable<impl Iterator<Item = &'a str>>,
    depth: usize,
    order: Order,
) -> Vec<Listed> {
    let mut read = Vec::new();
    while let Some(line) = lines.next_if(|line| field(line, 0) >= depth) {
        let place = order(field(line, 1) as u16, field(line, 2) as u8);
        let below = read_lines(lines, field(line, 0) + 1, order);
        read.push(Listed { place, line: line.to_string(), below });
    }
    read
}

/// A number in a line.
fn field(line: &str, at: usize) -> usize {
    line.split('\t').nth(at).and_then(|field| field.parse().ok()).unwrap_or(0)
}

/// Writes lines, those of one depth in their order.
fn put_lines(text: &mut String, mut lines: Vec<Listed>) {
    lines.sort_by_key(|listed| listed.place);
    for Listed { line, below, .. } in lines {
        *text += &line;
        text.push('\n');
        put_lines(text, below);
    }
}

/// Makes a call; a view lists in another order.
fn with_lines(call: &Call, store: &mut [u8], output: &mut [u8], order: Order) -> Answer {
    let answer = product(call, store, output);
    if (call.name, answer.number) == (Name::View, 0) {
        let listing = String::from_utf8_lossy(&output[..answer.count as usize]).into_owned();
        let (first, rest) = listing.split_once('\n').unwrap_or_default();
        let mut text = format!("{first}\n");
        put_lines(&mut text, read_lines(&mut rest.lines().peekable(), 1, order));
        output[..text.len()].copy_from_slice(text.as_bytes());
    }
    answer
}

/// Writes XML with siblings of one name by the label's number.
fn xml_by_number(call: &Call, store: &mut [u8], output: &mut [u8]) -> Answer {
    with_xml(call, store, output, |xml| {
        let Some((start, rest)) = xml.split_once('>') else { return xml.to_string() };
        let inside = rest.trim_end_matches("</dossier>");
        let Some(mut all) = Sent::read(format!("<e1 label=\"0\" preserve=\"\" kind=\"\">{inside}</e1>").as_bytes())
        else {
            return xml.to_string();
        };
        all.for_each(&mut |element| element.inside.sort_by_key(|sibling| (sibling.place().0, label_of(sibling))));
        let elements: Vec<Vec<u8>> = all.inside.iter().map(Sent::text).collect();
        format!("{start}>{}</dossier>", String::from_utf8_lossy(&elements.concat()))
    })
}

/// The number of an element's label.
fn label_of(element: &Sent) -> u8 {
    element.label.parse().unwrap_or(0)
}

/// The bytes of a label's partition.
fn part(store: &[u8], label: u8) -> &[u8; PARTITION] {
    &store.as_chunks().0[usize::from(label)]
}

/// The same, to be written.
fn part_mut(store: &mut [u8], label: u8) -> &mut [u8; PARTITION] {
    &mut store.as_chunks_mut().0[usize::from(label)]
}

/// Brings the slots of a partition, from one place up to another, into an order of their paths.
fn sort_slots<K: Ord>(store: &mut [u8], label: u8, from: usize, to: usize, key: impl Fn(&Path) -> K) {
    let paths: Vec<Path> = partition(store, label).slots().map(|slot| slot.path()).collect();
    let mut places: Vec<usize> = (from..to.min(paths.len())).collect();
    places.sort_by_key(|at| key(&paths[*at]));
    let old = *part(store, label);
    let slots = |bytes: &[u8; PARTITION], at: usize| -> [u8; SLOT] { bytes[HEAD..].as_chunks().0[at] };
    for (at, place) in (from..).zip(places) {
        part_mut(store, label)[HEAD..].as_chunks_mut().0[at] = slots(&old, place);
    }
}

/// Makes a call; where it puts elements in, the subject's partition gets another order.
fn with_own_sorted(call: &Call, store: &mut [u8], output: &mut [u8], order: Order) -> Answer {
    let answer = product(call, store, output);
    if (call.name, answer.number) == (Name::Insert, 0) {
        sort_slots(store, call.subject as u8, 0, SLOTS, |path| places(path, order));
    }
    answer
}

/// The number and the store of a call on a store that is migrated first.
fn after_migration(call: &Call, store: &[u8], output: &mut [u8]) -> (Answer, Vec<u8>) {
    let mut migrated = store.to_vec();
    let _ = product(&migration(), &mut migrated, &mut []);
    (product(call, &mut migrated, output), migrated)
}

/// Answers a view of partitions in the order of before as if they were in that of now.
fn serves_before(call: &Call, store: &mut [u8], output: &mut [u8]) -> Answer {
    if matches!(call.name, Name::View | Name::ViewXml) && foreseen(call, store) == 3 {
        return after_migration(call, store, output).0;
    }
    product(call, store, output)
}

/// Migrates where a call that writes would be refused by 3.
fn migrates_itself(call: &Call, store: &mut [u8], output: &mut [u8]) -> Answer {
    let is_writer = !matches!(call.name, Name::View | Name::ViewXml | Name::Grade | Name::Migrate);
    if is_writer && foreseen(call, store) == 3 {
        let (answer, migrated) = after_migration(call, store, output);
        if answer.number == 0 {
            store.copy_from_slice(&migrated);
        }
        return if answer.number == 0 { answer } else { refused(3) };
    }
    product(call, store, output)
}

/// Makes a call; what a migration leaves and answers is changed, by the store of before.
fn with_migrated(
    call: &Call,
    store: &mut [u8],
    output: &mut [u8],
    change: impl Fn(&[u8], &mut [u8], &mut Answer),
) -> Answer {
    let before = store.to_vec();
    let mut answer = product(call, store, output);
    if (call.name, answer.number) == (Name::Migrate, 0) {
        change(&before, store, &mut answer);
    }
    answer
}

/// The labels whose bit is not set.
fn taken(answer: Answer) -> impl Iterator<Item = u8> {
    (0..LABELS).filter(move |label| answer.mask >> label & 1 == 0)
}

/// The labels whose bit is set.
fn left(answer: Answer) -> impl Iterator<Item = u8> {
    (0..LABELS).filter(move |label| answer.mask >> label & 1 == 1)
}

/// The labels of the partitions that are not as they were.
fn moved(before: &[u8], after: &[u8]) -> Vec<u8> {
    (0..LABELS).filter(|label| part(before, *label) != part(after, *label)).collect()
}

/// Migrates to another order.
fn with_sorted(call: &Call, store: &mut [u8], output: &mut [u8], order: Order) -> Answer {
    with_migrated(call, store, output, |_, store, answer| {
        taken(*answer).for_each(|label| sort_slots(store, label, 0, SLOTS, |path| places(path, order)));
    })
}

/// Brings elements into the new order by their first steps, and leaves those with equal ones as they were.
fn sorts_first_steps(call: &Call, store: &mut [u8], output: &mut [u8]) -> Answer {
    with_migrated(call, store, output, |before, store, answer| {
        for label in taken(*answer) {
            *part_mut(store, label) = *part(before, label);
            sort_slots(store, label, 0, SLOTS, |path| path.steps()[0]);
        }
    })
}

/// Leaves some slots at the start and at the end of a partition where they were.
fn spares(call: &Call, store: &mut [u8], output: &mut [u8], first: usize, last: usize) -> Answer {
    with_migrated(call, store, output, |before, store, answer| {
        for label in taken(*answer) {
            *part_mut(store, label) = *part(before, label);
            let count = partition(store, label).count();
            sort_slots(store, label, first, count.saturating_sub(last), |path| *path);
        }
    })
}

/// Takes the last slot out of a partition that was moved.
fn loses_slot(call: &Call, store: &mut [u8], output: &mut [u8]) -> Answer {
    with_migrated(call, store, output, |before, store, _| {
        for label in moved(before, store) {
            let part = part_mut(store, label);
            part[0] -= 1;
            let end = HEAD + SLOT * usize::from(part[0]);
            part[end..end + SLOT].fill(0);
        }
    })
}

/// Puts the first slot of a partition that was moved over the second too.
fn doubles_slot(call: &Call, store: &mut [u8], output: &mut [u8]) -> Answer {
    with_migrated(call, store, output, |before, store, _| {
        for label in moved(before, store) {
            part_mut(store, label).copy_within(HEAD..HEAD + SLOT, HEAD + SLOT);
        }
    })
}

/// Leaves the kind and the value of each slot where they were.
fn leaves_values(call: &Call, store: &mut [u8], output: &mut [u8]) -> Answer {
    const STEPS: usize = 19;
    with_migrated(call, store, output, |before, store, _| {
        for label in moved(before, store) {
            let old = part(before, label)[HEAD..].as_chunks::<SLOT>().0;
            for (slot, old) in part_mut(store, label)[HEAD..].as_chunks_mut::<SLOT>().0.iter_mut().zip(old) {
                slot[STEPS..].copy_from_slice(&old[STEPS..]);
            }
        }
    })
}

/// Sorts the partitions whose bit is set too.
fn sorts_broken(call: &Call, store: &mut [u8], output: &mut [u8]) -> Answer {
    with_migrated(call, store, output, |_, store, answer| {
        left(*answer).for_each(|label| sort_slots(store, label, 0, SLOTS, |path| *path));
    })
}

/// Whether a partition lacks nothing but parents to be well formed in the order of before: with them it is.
fn lacks_parents(store: &[u8], label: u8) -> bool {
    let held = part(store, label)[HEAD..].as_chunks::<SLOT>().0[..partition(store, label).count()].iter().copied();
    let paths: Vec<Path> = partition(store, label).slots().map(|slot| slot.path()).collect();
    let above = paths.iter().flat_map(|path| (1..path.depth()).map(|depth| path.beginning(depth)));
    let missing: BTreeSet<Path> = above.filter(|path| path.label() == Some(label) && !paths.contains(path)).collect();
    let groups: Vec<[u8; SLOT]> = missing.iter().map(|path| slot_of(path, GROUP as u8, &[])).collect();
    let mut all: Vec<(Path, [u8; SLOT])> =
        missing.iter().copied().zip(groups).chain(paths.iter().copied().zip(held)).collect();
    all.sort_by(|one, two| one.0.old_cmp(&two.0));
    if missing.is_empty() || all.len() > SLOTS || !paths.is_sorted_by(|one, two| one.old_cmp(two).is_lt()) {
        return false;
    }
    let mut whole = store.to_vec();
    let part = part_mut(&mut whole, label);
    part[0] = all.len() as u8;
    part[HEAD..].as_chunks_mut().0.iter_mut().zip(all).for_each(|(slot, (_, put))| *slot = put);
    partition(&whole, label).was_well_formed()
}

/// Sorts partitions that lack nothing but parents, and does not tell of them.
fn sorts_orphans(call: &Call, store: &mut [u8], output: &mut [u8]) -> Answer {
    with_migrated(call, store, output, |before, store, answer| {
        for label in left(*answer).filter(|label| lacks_parents(before, *label)) {
            sort_slots(store, label, 0, SLOTS, |path| *path);
            answer.mask &= !(1 << label);
        }
    })
}

/// Makes partitions empty that are not well formed in either order.
fn clears_broken(call: &Call, store: &mut [u8], output: &mut [u8]) -> Answer {
    with_migrated(call, store, output, |_, store, answer| {
        for label in left(*answer) {
            if !partition(store, label).is_well_formed() {
                part_mut(store, label).fill(0);
            }
        }
    })
}

/// Takes a partition for well formed that is so but for its free bytes.
fn spares_free_bytes(call: &Call, store: &mut [u8], output: &mut [u8]) -> Answer {
    with_migrated(call, store, output, |before, _, answer| {
        for label in left(*answer) {
            let mut cleared = before.to_vec();
            let end = HEAD + SLOT * partition(before, label).count();
            part_mut(&mut cleared, label)[end..].fill(0);
            if partition(&cleared, label).was_well_formed() {
                answer.mask &= !(1 << label);
            }
        }
    })
}

/// Leaves all partitions behind the first whose bit is set.
fn ends_early(call: &Call, store: &mut [u8], output: &mut [u8]) -> Answer {
    with_migrated(call, store, output, |before, store, answer| {
        if let Some(first) = left(*answer).next() {
            let start = PARTITION * usize::from(first);
            store[start..].copy_from_slice(&before[start..]);
            answer.mask = 1 << first;
        }
    })
}

/// Leaves partition 31.
fn leaves_last(call: &Call, store: &mut [u8], output: &mut [u8]) -> Answer {
    with_migrated(call, store, output, |before, store, _| {
        let start = STORE - PARTITION;
        store[start..].copy_from_slice(&before[start..]);
    })
}

/// Sets the bits of the partitions that were moved, which were well formed.
fn tells_moved(call: &Call, store: &mut [u8], output: &mut [u8]) -> Answer {
    with_migrated(call, store, output, |before, store, answer| {
        answer.mask = moved(before, store).into_iter().fold(answer.mask, |mask, label| mask | 1 << label);
    })
}

/// Sets the bits of the partitions that are not well formed in the order of now after the migration.
fn tells_broken(call: &Call, store: &mut [u8], output: &mut [u8]) -> Answer {
    with_migrated(call, store, output, |_, store, answer| {
        let broken = (0..LABELS).filter(|label| !partition(store, *label).is_well_formed());
        answer.mask = broken.fold(0, |mask, label| mask | 1 << label);
    })
}

/// Turns the mask round.
fn turns_mask(call: &Call, store: &mut [u8], output: &mut [u8]) -> Answer {
    with_migrated(call, store, output, |_, _, answer| answer.mask = answer.mask.reverse_bits())
}

/// Migrates the first 41,088 bytes of a longer store.
fn takes_longer(call: &Call, store: &mut [u8], output: &mut [u8]) -> Answer {
    let length = if call.name == Name::Migrate { store.len().min(STORE) } else { store.len() };
    product(call, &mut store[..length], output)
}
