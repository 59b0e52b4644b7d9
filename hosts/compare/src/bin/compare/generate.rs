//! Random calls: most go by what the store holds, some are invalid in one or more ways.
use crate::side::{Call, Name};
use crate::stores::{label_between, name, valid_path, valid_value};
use crate::texts;
use reference::STORE;
use reference::label::{LABELS, dominates};
use reference::partition::{SLOTS, Slot, partition};
use reference::path::{DEPTH, Path, Step};
use reference::random::Random;
use reference::value::Value;

/// An output that every listing fits: 6,144 lines and the first.
const ROOMY: usize = 262_144;
/// An output that every view as XML fits too: 6,144 elements and the dossier tag.
pub const XML_ROOMY: usize = 524_288;

/// The calls, as often as each is made; the migration is made beside them.
const NAMES: [Name; 14] = [
    Name::View,
    Name::View,
    Name::ViewXml,
    Name::ViewXml,
    Name::Insert,
    Name::Insert,
    Name::Insert,
    Name::Update,
    Name::Delete,
    Name::Grade,
    Name::Grade,
    Name::InsertXml,
    Name::InsertXml,
    Name::InsertXml,
];

/// A subject and a path for him.
type Aim = (u32, Vec<u8>);

/// A random call for this store; where there is a label to prefer, inserts often take it.
pub fn call(random: &mut Random, store: &[u8], preferred: Option<u8>) -> Call {
    if random.percent(2) {
        return migration();
    }
    let name = random.pick(&NAMES);
    let (subject, path) = match name {
        Name::View | Name::ViewXml => view_aim(random, store),
        Name::Insert => insert_aim(random, store, preferred),
        Name::Update | Name::Delete => write_aim(random, store),
        Name::Grade => grade_aim(random, store),
        Name::InsertXml => return intake(random, store, preferred),
        Name::Migrate => return migration(),
    };
    let top = if name == Name::Grade { top(random, store, subject as u8, &path) } else { Vec::new() };
    let (kind, value) = valid_value(random);
    let output = match name {
        Name::ViewXml => random.pick(&[16_384, 65_536, 65_536, ROOMY, XML_ROOMY]),
        _ => random.pick(&[16_384, 16_384, 16_384, 65_536, ROOMY]),
    };
    let mut call = Call { name, subject, path, kind, value, top, n: sizes(random), text: Vec::new(), output };
    while random.percent(20) {
        spoil(random, &mut call);
    }
    call
}

/// The migration.
pub fn migration() -> Call {
    plain(Name::Migrate, 0, Vec::new())
}

/// A call with nothing but its name, its subject and its path.
pub fn plain(name: Name, subject: u32, path: Vec<u8>) -> Call {
    let (value, top, text) = (Vec::new(), Vec::new(), Vec::new());
    Call { name, subject, path, kind: 0, value, top, n: 0, text, output: 0 }
}

/// A random XML intake for this store.
fn intake(random: &mut Random, store: &[u8], preferred: Option<u8>) -> Call {
    let (subject, path, top) = intake_aim(random, store, preferred);
    let label = subject as u8;
    let held = if store.len() == STORE { partition(store, label).count() } else { 0 };
    let room = SLOTS - held;
    let few = 1 + random.below(8);
    let count = random.pick(&[1, few, few, few, few, room, room + 1, 32, 33, 40]).max(1);
    let text = texts::text(random, top, label, count, path.len() / 3);
    let mut call = Call { text, ..plain(Name::InsertXml, subject, path) };
    while random.percent(12) {
        match random.below(5) {
            0 => call.subject = odd_subject(random),
            1 => call.subject = random.below(32) as u32,
            _ => spoil_path(random, &mut call.path),
        }
    }
    call
}

/// The subject, the parent and the top element's name of an XML intake: mostly a new child of something held, now and
/// then something held, or something whose parent is missing.
fn intake_aim(random: &mut Random, store: &[u8], preferred: Option<u8>) -> (u32, Vec<u8>, u16) {
    let (subject, path) = match random.below(20) {
        0..16 => child_aim(random, store, preferred),
        16 => deep_aim(random, store, preferred),
        _ => own_aim(&beginning(random, store, 1)),
    };
    match path.split_last_chunk() {
        Some((parent, [low, high, _])) => (subject, parent.to_vec(), u16::from_le_bytes([*low, *high]).max(1)),
        None => (subject, path, 1),
    }
}

/// A delete by this label, or by the highest, of a path that no store of these tests holds.
pub fn idle_delete(random: &mut Random, label: u8) -> Call {
    let subject = random.pick(&[label, label, label, 31]);
    let path = Path::new(&[Step { name: 60_000, label: subject }; DEPTH]).bytes();
    plain(Name::Delete, subject.into(), path)
}

/// A label that dominates this one.
fn label_above(random: &mut Random, low: u8) -> u8 {
    let above: Vec<u8> = (0..LABELS).filter(|label| dominates(*label, low)).collect();
    random.pick(&above)
}

/// The path of some slot that a partition counts, if one is found.
fn held_path(random: &mut Random, store: &[u8]) -> Option<Path> {
    if store.len() != STORE {
        return None;
    }
    let parts = (0..8).map(|_| partition(store, random.below(LABELS.into()) as u8));
    let part = parts.max_by_key(|part| part.count() > 0)?;
    let at = random.below(part.count().max(1));
    part.slots().nth(at).map(|slot| slot.path())
}

/// A beginning of a held path, which may be the whole and, if allowed, the root; else a random path.
fn beginning(random: &mut Random, store: &[u8], shortest: usize) -> Path {
    let last = random.below(LABELS.into()) as u8;
    let path = held_path(random, store).unwrap_or_else(|| valid_path(random, last));
    let depth = if random.percent(50) { path.depth() } else { shortest + random.below(path.depth() + 1) };
    Path::new(&path.steps()[..depth.clamp(shortest.min(path.depth()), path.depth())])
}

/// A label near a path's end, or 0.
fn end_label(path: &Path) -> u8 {
    path.label().unwrap_or(0) % LABELS
}

/// The root, or something held below it, for a subject who dominates it mostly.
fn view_aim(random: &mut Random, store: &[u8]) -> Aim {
    let path = if random.percent(35) { Path::default() } else { beginning(random, store, 0) };
    seen_aim(random, &path)
}

/// This path, for a subject who dominates it mostly.
fn seen_aim(random: &mut Random, path: &Path) -> Aim {
    let subject = if random.percent(80) { label_above(random, end_label(path)) } else { random.below(32) as u8 };
    (subject.into(), path.bytes())
}

/// A new child of something held, or something below it whose parent is missing, or something held that may be removed,
/// or any path.
fn insert_aim(random: &mut Random, store: &[u8], preferred: Option<u8>) -> Aim {
    match random.below(12) {
        0..6 => child_aim(random, store, preferred),
        6..9 => deep_aim(random, store, preferred),
        9 | 10 => own_aim(&beginning(random, store, 1)),
        _ => {
            let label = preferred.unwrap_or_else(|| random.below(32) as u8);
            own_aim(&valid_path(random, label))
        }
    }
}

/// A new child of something held. Now and then it is too deep.
fn child_aim(random: &mut Random, store: &[u8], preferred: Option<u8>) -> Aim {
    let parent = beginning(random, store, 0);
    let subject = subject_below(random, &parent, preferred);
    let step = Path::new(&[Step { name: name(random), label: subject }]);
    (subject.into(), [parent.bytes(), step.bytes()].concat())
}

/// Something two to six steps below something held, or below the root: all of these steps have the subject's label, or
/// now and then those up to some place have one below it.
fn deep_aim(random: &mut Random, store: &[u8], preferred: Option<u8>) -> Aim {
    let held = beginning(random, store, 0);
    let above = if held.depth() + 2 > DEPTH || random.percent(25) { Path::default() } else { held };
    let subject = subject_below(random, &above, preferred);
    let more = 2 + random.below(DEPTH - 1 - above.depth());
    let others = if random.percent(20) { 1 + random.below(more - 1) } else { 0 };
    let lower = label_between(random, end_label(&above), subject);
    let mut steps = above.steps().to_vec();
    for at in 0..more {
        steps.push(Step { name: name(random).max(1), label: if at < others { lower } else { subject } });
    }
    (subject.into(), Path::new(&steps).bytes())
}

/// The subject of something new below a path: the preferred label, if it dominates the path's, or any that does.
fn subject_below(random: &mut Random, above: &Path, preferred: Option<u8>) -> u8 {
    let any = label_above(random, end_label(above));
    preferred.filter(|label| dominates(*label, end_label(above))).unwrap_or(any)
}

/// This path, for the subject of its label.
fn own_aim(path: &Path) -> Aim {
    (end_label(path).into(), path.bytes())
}

/// Something held, for the subject of its label mostly.
fn write_aim(random: &mut Random, store: &[u8]) -> Aim {
    let path = beginning(random, store, 1);
    let (own, bytes) = own_aim(&path);
    (if random.percent(90) { own } else { random.below(32) as u32 }, bytes)
}

/// The base of a grade: a measure mostly, for a subject who dominates it mostly.
fn grade_aim(random: &mut Random, store: &[u8]) -> Aim {
    let path = graded_path(random, store, 31);
    seen_aim(random, &path)
}

/// The top of a grade: now and then its base again.
fn top(random: &mut Random, store: &[u8], subject: u8, base: &[u8]) -> Vec<u8> {
    if random.percent(10) { base.to_vec() } else { graded_path(random, store, subject).bytes() }
}

/// A measure that the subject sees mostly, else one of any label, or something held, which may be removed, or the root.
fn graded_path(random: &mut Random, store: &[u8], subject: u8) -> Path {
    let highest = if random.percent(92) { subject } else { 31 };
    let measure = if random.percent(85) { measure_path(random, store, highest) } else { None };
    measure.unwrap_or_else(|| beginning(random, store, 0))
}

/// The path of some measure that a partition dominated by this label holds, if there is one.
fn measure_path(random: &mut Random, store: &[u8], subject: u8) -> Option<Path> {
    let labels = (0..LABELS).filter(|label| store.len() == STORE && dominates(subject, *label));
    let slots = labels.flat_map(|label| partition(store, label).slots());
    let measures: Vec<Slot> = slots.filter(|slot| matches!(slot.value(), Some(Value::Measure(_)))).collect();
    (!measures.is_empty()).then(|| random.pick(&measures).path())
}

/// A number of sizes, some of which no grade takes; some of these are one that it takes in their lowest byte.
fn sizes(random: &mut Random) -> u32 {
    let odd = random.pick(&[0, 1, 1, 2, 63, 64, 64, 65, 65, 128, 255, 256, 257, 320, 65_537, u32::MAX]);
    if random.percent(80) { 1 + random.below(64) as u32 } else { odd }
}

/// Makes one input of a call another, mostly an invalid one.
fn spoil(random: &mut Random, call: &mut Call) {
    match random.below(10) {
        0 => call.subject = odd_subject(random),
        1 => call.subject = random.below(32) as u32,
        2..5 => spoil_path(random, &mut call.path),
        5 => call.kind = random.pick(&[0, 1, 2, 3, 255, 256, 257, 258, 65_536, u32::MAX]),
        6 => call.value = odd_value(random),
        7 => spoil_path(random, &mut call.top),
        8 => call.n = sizes(random),
        _ => call.output = random.pick(&[0, 1, 8, 9, 10, 40, 100, 1000]),
    }
}

/// A subject that is no label, some of which are one in their lowest byte.
fn odd_subject(random: &mut Random) -> u32 {
    let low = random.below(32) as u32;
    random.pick(&[32, 33, 40, 63, 255, 256 + low, 65_536 + low, 0x8000_0000 + low, u32::MAX])
}

/// Value bytes: short, long, and with bytes that no text holds.
fn odd_value(random: &mut Random) -> Vec<u8> {
    let length = random.pick(&[0, 1, 3, 4, 5, 15, 16, 17, 32, 255, 256, 272, 5000]);
    let mut value = vec![b'A'; length];
    if let (true, true) = (random.percent(60), length > 0) {
        value[random.below(length)] = random.pick(&[0, 9, 10, 31, 32, 126, 127, 128, 255]);
    }
    value
}

/// Changes a path's bytes or their number.
fn spoil_path(random: &mut Random, path: &mut Vec<u8>) {
    match random.below(8) {
        0 => path.truncate(random.below(path.len() + 1)),
        1 => path.extend(random.bytes(1)),
        2 => path.clear(),
        3 => path.extend([1, 0, 31].repeat(random.pick(&[1, 2, 6, 100, 1000]))),
        4 => set_in_step(random, path, &[0], |_| 0),
        5 => set_in_step(random, path, &[2], Random::byte),
        6 => set_in_step(random, path, &[2], |random| random.pick(&[0, 7, 31, 32, 255])),
        _ => set_in_step(random, path, &[0, 1], |random| random.byte() % 3),
    }
}

/// Sets bytes of one step; a name whose first byte becomes 0 gets 0 for its second too.
fn set_in_step(random: &mut Random, path: &mut [u8], places: &[usize], byte: impl Fn(&mut Random) -> u8) {
    let steps = path.len() / 3;
    if steps == 0 {
        return;
    }
    let start = 3 * random.below(steps);
    for place in places {
        path[start + place] = byte(random);
    }
    if places == [0] {
        path[start + 1] = 0;
    }
}
