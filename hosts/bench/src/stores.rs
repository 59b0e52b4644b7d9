//! The stores and the script that are measured.
use reference::STORE;
use reference::label::{LABELS, dominates};
use reference::partition::{HEAD, PARTITION, SLOT, partition, slot_of};
use reference::path::{DEPTH, Path, Step};
use reference::random::Random;
use reference::value::{TEXT, Value};

/// A store with this many elements, spread evenly over the labels; a single one has the given label.
pub fn store(random: &mut Random, elements: usize, single: u8) -> Vec<u8> {
    let mut store = vec![0; STORE];
    if elements == 1 {
        fill(random, &mut store, single, 1);
    } else {
        (0..LABELS).for_each(|label| fill(random, &mut store, label, elements / usize::from(LABELS)));
    }
    store
}

/// Inserts elements of this label until there are so many of them.
fn fill(random: &mut Random, store: &mut [u8], label: u8, count: usize) {
    while partition(store, label).count() < count {
        let path = new_path(random, store, label);
        let (kind, value) = value(random);
        reference::insert(store, label.into(), &path.bytes(), kind, &value);
    }
}

/// The greatest number of elements of a label.
const FULL: usize = 32;

/// Lays a full partition of texts at these paths, in the order of before document 02's seventh request, into a store.
fn put_before(store: &mut [u8], label: u8, mut paths: Vec<Path>) {
    paths.sort_by(Path::old_cmp);
    paths.truncate(FULL);
    let part = &mut store[PARTITION * usize::from(label)..][..PARTITION];
    part[0] = FULL as u8;
    for (slot, path) in part[HEAD..].as_chunks_mut::<SLOT>().0.iter_mut().zip(paths) {
        *slot = slot_of(&path, TEXT as u8, b"SLEEVE");
    }
    assert!(partition(store, label).was_well_formed() && partition(store, label).count() == FULL);
}

/// A full store of before: in each partition there are versions of one name, of each label below its own, and about as many
/// elements below each. So those of a level stand together, and the levels change places.
pub fn versions(random: &mut Random) -> Vec<u8> {
    let mut store = vec![0; STORE];
    for label in 0..LABELS {
        let lower: Vec<u8> = (0..LABELS).filter(|low| *low != label && dominates(label, *low)).collect();
        let name = 1 + random.below(65_535) as u16;
        let mut paths = vec![Path::new(&[Step { name, label }])];
        for at in 0..FULL - 1 {
            let (version, below) =
                if lower.is_empty() { (label, at) } else { (lower[at % lower.len()], at / lower.len()) };
            paths.push(Path::new(&[Step { name, label: version }, Step { name: 1 + below as u16, label }]));
        }
        put_before(&mut store, label, paths);
    }
    store
}

/// A full store of before whose paths have one name five times and differ in the levels of these steps, which rise: in the
/// new order they come the other way round. Where there are too few such paths the last step's name differs too.
pub fn opposite(random: &mut Random) -> Vec<u8> {
    let mut store = vec![0; STORE];
    for label in 0..LABELS {
        let name = 1 + random.below(65_535) as u16;
        let below = if label % 8 == 0 { (label / 8).max(1) } else { label / 8 + 1 };
        let all = (0..4_usize.pow(5)).map(|number| (0..5).map(move |at| (number >> (2 * at) & 3) as u8));
        let rising: Vec<Vec<u8>> = all.map(Iterator::collect).filter(|levels: &Vec<u8>| levels.is_sorted()).collect();
        let levels: Vec<&Vec<u8>> = rising.iter().filter(|levels| levels[4] < below).collect();
        let last = |at: usize| Step { name: 1 + (at / levels.len()) as u16, label };
        let step = |levels: &[u8], at: usize| Step { name, label: 8 * levels[at] };
        let path = |at: usize| {
            Path::of(DEPTH, |step_at| match step_at {
                5 => last(at),
                _ => step(levels[at % levels.len()], step_at),
            })
        };
        let paths = if label == 0 {
            (0..FULL).map(|at| Path::new(&[last(at)])).collect()
        } else {
            (0..FULL).map(path).collect()
        };
        put_before(&mut store, label, paths);
    }
    store
}

/// A path of this label that nothing has yet: a child of the root, of its own label's elements or of a lower one's.
pub fn new_path(random: &mut Random, store: &[u8], label: u8) -> Path {
    let lower: Vec<u8> = (0..LABELS).filter(|low| dominates(label, *low)).collect();
    let other = random.pick(&lower);
    let from = if random.percent(60) { label } else { other };
    let parent = some_path(random, store, from).filter(|path| path.depth() < DEPTH && random.percent(80));
    let step = Step { name: 1 + random.below(65_535) as u16, label };
    Path::new(&[parent.unwrap_or_default().steps(), &[step]].concat())
}

/// A path of so many steps of this label, the first of which nothing has yet.
pub fn missing_path(random: &mut Random, store: &[u8], label: u8, depth: usize) -> Path {
    let first = Step { name: 1 + random.below(65_535) as u16, label };
    if partition(store, label).find(&Path::new(&[first])).is_ok() {
        return missing_path(random, store, label, depth);
    }
    Path::of(depth, |at| if at == 0 { first } else { Step { name: at as u16, label } })
}

/// The path of some element of this label, if there is one.
pub fn some_path(random: &mut Random, store: &[u8], label: u8) -> Option<Path> {
    let part = partition(store, label);
    part.slots().nth(random.below(part.count().max(1))).map(|slot| slot.path())
}

/// A valid kind and its value: a group, a measure or a text.
fn value(random: &mut Random) -> (u32, Vec<u8>) {
    match random.below(3) {
        0 => (0, Vec::new()),
        1 => (1, (random.bits() as i32 % 200_000).to_le_bytes().to_vec()),
        _ => (2, b"SLEEVE, LEFT CUFF"[..1 + random.below(16)].to_vec()),
    }
}

/// The text of a style with this many elements of this label, of five levels at most. Siblings are in random order.
pub fn style(random: &mut Random, label: u8, count: usize) -> Vec<u8> {
    let mut inside = vec![Vec::new(); count];
    let mut levels = vec![1];
    for at in 1..count {
        let above: Vec<usize> = (0..at).filter(|above| levels[*above] < 5).collect();
        let above = random.pick(&above);
        inside[above].push(at);
        levels.push(levels[above] + 1);
    }
    let mut names = Vec::new();
    while names.len() < count {
        let name = 1 + random.below(65_535);
        if !names.contains(&name) {
            names.push(name);
        }
    }
    element(random, label, &names, &inside, 0).into_bytes()
}

/// The element of this place with those inside it, as a text has it.
fn element(random: &mut Random, label: u8, names: &[usize], inside: &[Vec<usize>], at: usize) -> String {
    let (kind, bytes) = value(random);
    let value = match Value::read(kind, &bytes) {
        Some(Value::Measure(number)) => number.to_string(),
        _ => String::from_utf8_lossy(&bytes).into_owned(),
    };
    let (name, letter) = (names[at], ['G', 'M', 'T'][kind as usize]);
    let contents: String = inside[at].iter().map(|below| element(random, label, names, inside, *below)).collect();
    format!(r#"<e{name} label="{label}" preserve="PRESENT" kind="{letter}">{value}{contents}</e{name}>"#)
}

/// How many elements the script's store holds.
const KEPT: usize = 200;

/// A script of this many lines: inserts up to 200 elements, then views, updates, and deletes with inserts that
/// keep their number near it.
pub fn script(random: &mut Random, lines: usize) -> Vec<u8> {
    let mut runner = reference::script::Runner::new();
    let mut script = Vec::new();
    for _ in 0..lines {
        let line = line(random, runner.store());
        runner.answer(line.as_bytes(), &mut Vec::new());
        script.extend_from_slice(line.as_bytes());
        script.push(b'\n');
    }
    script
}

/// One line of the script, by what the store holds.
fn line(random: &mut Random, store: &[u8]) -> String {
    let held: usize = (0..LABELS).map(|label| partition(store, label).count()).sum();
    let label = random.below(LABELS.into()) as u8;
    let path = some_path(random, store, label);
    match (path, random.below(4)) {
        (Some(path), 0) if held >= KEPT => format!("{label}\tV\t{}", text(&path)),
        (_, 1) if held >= KEPT => format!("{label}\tV\t/"),
        (Some(path), 2) if held >= KEPT => format!("{label}\tU\t{}\tM\t{}", text(&path), random.bits() as i16),
        (Some(path), 3) if held >= KEPT => format!("{label}\tD\t{}", text(&path)),
        _ => format!("{label}\tI\t{}\tT\tSLEEVE", text(&new_path(random, store, label))),
    }
}

/// A path as a script has it.
fn text(path: &Path) -> String {
    let steps = path.steps().iter().map(|step| format!("{}:{}", step.name, step.label));
    steps.collect::<Vec<_>>().join("/")
}
