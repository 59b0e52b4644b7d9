//! The rows of the table.
use crate::measure::{Case, Times, Work, measure, median};
use crate::side::{Call, Name};
use crate::stores;
use dossier::XML_BYTES_MAX;
use reference::STORE;
use reference::label::LABELS;
use reference::partition::{PARTITION, partition};
use reference::path::Path as ElementPath;
use reference::random::Random;
use reference::value::{GROUP, MEASURE};
use std::fs::File;
use std::io;
use std::path::Path;
use std::process::Command;
use std::time::Instant;

/// The bar for the views, the even grade, XML intake, the migration and the well-formedness test.
pub const HIGH_BAR: f64 = 1.0;
/// The bar for the migration in terms of the test of all partitions.
pub const TEST_BAR: f64 = 2.0;
/// The bar for every other row.
const BAR: f64 = 1.2;
/// The lowest and the highest label.
const SUBJECTS: [u8; 2] = [0, 31];
/// How many groups an insert makes whose parent is missing.
const GROUPS: [usize; 2] = [1, 5];
/// How many elements the store of such an insert has.
const GROUP_STORE: usize = 256;
/// How many elements the texts of XML intakes have.
const TEXTS: [usize; 3] = [1, 8, 32];
/// How many elements the store of an XML intake has before the subject's are taken out.
const TEXT_STORE: usize = 256;
/// How many stores are measured in turn.
const STORES: u64 = 16;
/// An output that each measured listing fits.
const SPACE: usize = 262_144;
/// The measures of a grade and its number of sizes: a step of -150, and 5 are left.
const GRADE: ([i32; 2], u32) = ([7200, 6155], 7);

/// One row.
pub struct Row {
    pub name: String,
    pub elements: usize,
    pub times: Times,
    pub bar: f64,
}

/// A migration, and the test of all partitions on the store that it leaves.
pub struct Migrated {
    pub migration: Row,
    pub test: Times,
}

/// How a view and the well-formedness test grow with the store, for the highest label.
pub struct Growth {
    pub elements: usize,
    pub view: Times,
    pub test: Times,
}

/// A call without inputs but for its subject and its path.
fn call(name: Name, subject: u8, path: Vec<u8>) -> Call {
    let (value, top, text) = (b"SLEEVE".to_vec(), Vec::new(), Vec::new());
    Call { name, subject: subject.into(), path, kind: 2, value, top, n: GRADE.1, text, output: SPACE }
}

/// A row that is still to be measured.
struct Open {
    name: String,
    elements: usize,
    bar: f64,
    work: Work,
}

/// Measures these rows together.
fn measured(open: Vec<Open>, rounds: usize) -> Vec<Row> {
    let (heads, works): (Vec<_>, Vec<_>) =
        open.into_iter().map(|Open { name, elements, bar, work }| ((name, elements, bar), work)).unzip();
    let times = measure(&works, rounds);
    heads.into_iter().zip(times).map(|((name, elements, bar), times)| Row { name, elements, times, bar }).collect()
}

/// The random numbers of one of the stores with this many elements.
fn random_of(seed: u64, elements: usize, which: u64) -> Random {
    Random::part(Random::part(seed, elements as u64).bits(), which)
}

/// One work of all these, store by store.
fn gather(cases: impl Iterator<Item = (Call, Vec<u8>)>, number: u32) -> Work {
    Work { cases: cases.map(|(call, store)| Case { call, store }).collect(), number, whole: false }
}

/// Each call by the lowest and the highest label on stores with this many elements.
pub fn calls(seed: u64, elements: usize, rounds: usize) -> Vec<Row> {
    let mut rows = Vec::new();
    for subject in SUBJECTS {
        let store = |which| stores::store(&mut random_of(seed, elements, which), elements, subject);
        let stores: Vec<Vec<u8>> = (0..STORES).map(store).collect();
        for (name, bar, number, case) in KINDS {
            let cases = stores.iter().map(|store| case(store, subject));
            rows.push(Open { name: format!("{name} by {subject}"), elements, bar, work: gather(cases, number) });
        }
    }
    measured(rows, rounds)
}

/// Makes a case of a store and a subject.
type MakeCase = fn(&[u8], u8) -> (Call, Vec<u8>);

/// The kinds of cases: their names, bars, numbers and how they are made.
const KINDS: [(&str, f64, u32, MakeCase); 8] = [
    ("View of all", HIGH_BAR, 0, |store, subject| (call(Name::View, subject, Vec::new()), store.to_vec())),
    ("View of a path", HIGH_BAR, 0, |store, subject| (call(Name::View, subject, leaf(store, subject)), store.to_vec())),
    ("View as XML of all", HIGH_BAR, 0, xml_case),
    ("Even grade", HIGH_BAR, 0, grade_case),
    ("Insert", BAR, 0, insert_case),
    ("Update", BAR, 0, |store, subject| (call(Name::Update, subject, leaf(store, subject)), store.to_vec())),
    ("Delete", BAR, 0, |store, subject| (call(Name::Delete, subject, leaf(store, subject)), store.to_vec())),
    ("Well-formedness test (refusal 4)", HIGH_BAR, 4, test_case),
];

/// A view of all as XML, with an output that each one fits.
fn xml_case(store: &[u8], subject: u8) -> (Call, Vec<u8>) {
    (Call { output: XML_BYTES_MAX, ..call(Name::ViewXml, subject, Vec::new()) }, store.to_vec())
}

/// A grade from the first element of label 0, or the only one of the store, to one of the subject's: both are made
/// measures before.
fn grade_case(store: &[u8], subject: u8) -> (Call, Vec<u8>) {
    let mut store = store.to_vec();
    let top = leaf(&store, subject);
    let base = partition(&store, 0).slots().next().map_or_else(|| top.clone(), |slot| slot.path().bytes());
    for (path, number) in [&base, &top].into_iter().zip(GRADE.0) {
        put_value(&mut store, path, MEASURE, &number.to_le_bytes());
    }
    (Call { top, ..call(Name::Grade, subject, base) }, store)
}

/// Gives an element another value.
fn put_value(store: &mut [u8], path: &[u8], kind: u32, value: &[u8]) {
    let label = path[path.len() - 1];
    assert_eq!(reference::update(store, label.into(), path, kind, value).number, 0);
}

/// The insert of an element that the store holds: it is taken out before.
fn insert_case(store: &[u8], subject: u8) -> (Call, Vec<u8>) {
    let mut store = store.to_vec();
    let held = leaf(&store, subject);
    reference::delete(&mut store, subject.into(), &held);
    (call(Name::Insert, subject, held), store)
}

/// A view whose path is one byte long.
fn test_case(store: &[u8], subject: u8) -> (Call, Vec<u8>) {
    (Call { output: 0, ..call(Name::View, subject, vec![1]) }, store.to_vec())
}

/// The path of an element of this label, near the middle of its partition, that none of the label extends.
fn leaf(store: &[u8], label: u8) -> Vec<u8> {
    let paths: Vec<ElementPath> = partition(store, label).slots().map(|slot| slot.path()).collect();
    let is_leaf = |at: &usize| paths.get(at + 1).is_none_or(|next| !next.extends(&paths[*at]));
    let at = (paths.len() / 2..paths.len()).find(is_leaf).expect("the last path is a leaf");
    paths[at].bytes()
}

/// Inserts by the lowest and the highest label that make so many groups.
pub fn group_inserts(seed: u64, rounds: usize) -> Vec<Row> {
    let rows = GROUPS.into_iter().flat_map(|groups| {
        SUBJECTS.map(|subject| {
            let cases = (0..STORES).map(|which| {
                let random = &mut random_of(seed, GROUP_STORE, which);
                let store = stores::store(random, GROUP_STORE, subject);
                group_case(random, store, subject, groups)
            });
            let name = format!("Insert, {groups} {} made, by {subject}", if groups == 1 { "group" } else { "groups" });
            Open { name, elements: GROUP_STORE + groups + 1, bar: HIGH_BAR, work: gather(cases, 0) }
        })
    });
    measured(rows.collect(), rounds)
}

/// An insert for which so many groups are missing.
fn group_case(random: &mut Random, store: Vec<u8>, subject: u8, groups: usize) -> (Call, Vec<u8>) {
    (call(Name::Insert, subject, stores::missing_path(random, &store, subject, groups + 1).bytes()), store)
}

/// XML intakes by the lowest and the highest label, of texts with so many elements.
pub fn intakes(seed: u64, rounds: usize) -> Vec<Row> {
    let rows = TEXTS.into_iter().flat_map(|count| {
        SUBJECTS.map(|subject| {
            let cases = (0..STORES).map(|which| intake_case(seed, which, subject, count));
            let name = format!("XML intake of {count} by {subject}");
            Open { name, elements: elements_left() + count, bar: HIGH_BAR, work: gather(cases, 0) }
        })
    });
    measured(rows.collect(), rounds)
}

/// XML intakes of the longest texts that are not in form, by the lowest and the highest label: a byte is another one.
pub fn intake_refusals(seed: u64, rounds: usize) -> Vec<Row> {
    let rows = ["first", "last"].into_iter().flat_map(|place| {
        SUBJECTS.map(|subject| {
            let cases = (0..STORES).map(|which| {
                let (mut call, store) = intake_case(seed, which, subject, TEXTS[2]);
                let at = if place == "first" { 0 } else { call.text.len() - 1 };
                call.text[at] = b'x';
                (call, store)
            });
            let name = format!("Refusal 13, XML intake by {subject}: not in form at its {place} byte");
            Open { name, elements: elements_left(), bar: HIGH_BAR, work: gather(cases, 13) }
        })
    });
    measured(rows.collect(), rounds)
}

/// A store that is migrated: its words, its elements and how it is made.
type Before = (&'static str, usize, fn(&mut Random) -> Vec<u8>);

/// The stores that are migrated.
const BEFORE: [Before; 4] = [
    ("versions of one name at four levels", 1024, stores::versions),
    ("all in the opposite order", 1024, stores::opposite),
    ("nothing to move", 1024, |random| stores::store(random, 1024, 31)),
    ("empty", 0, |_| vec![0; STORE]),
];

/// The migrations, each with the test of all partitions on what it leaves; a store is laid back whole after each.
pub fn migrations(seed: u64, rounds: usize) -> Vec<Migrated> {
    let works: Vec<Work> = BEFORE.into_iter().flat_map(|before| migration_works(seed, before)).collect();
    let times = measure(&works, rounds);
    let pairs = times.as_chunks::<2>().0.iter().zip(BEFORE);
    let migrated = |(times, (name, elements, _)): (&[Times; 2], Before)| {
        let migration = Row { name: format!("Migration, {name}"), elements, times: times[0], bar: HIGH_BAR };
        Migrated { migration, test: times[1] }
    };
    pairs.map(migrated).collect()
}

/// The migration of a kind of store, and a call by the highest label on what it leaves that is refused right after the test.
fn migration_works(seed: u64, (name, elements, before): Before) -> [Work; 2] {
    let stores: Vec<Vec<u8>> = (0..STORES).map(|which| before(&mut random_of(seed, elements, which))).collect();
    let after = |store: &Vec<u8>| {
        let mut after = store.clone();
        assert_eq!(reference::migrate(&mut after).mask, 0, "{name}");
        after
    };
    let migration = Call { output: 0, ..call(Name::Migrate, 0, Vec::new()) };
    let tests = gather(stores.iter().map(|store| test_case(&after(store), 31)), 4);
    let migrations = gather(stores.iter().map(|store| (migration.clone(), store.clone())), 0);
    [migrations, tests].map(|work| Work { whole: true, ..work })
}

/// How many elements an XML intake finds in the store.
fn elements_left() -> usize {
    TEXT_STORE - TEXT_STORE / usize::from(LABELS)
}

/// An XML intake of so many elements below the first element of label 0, or the root where there is none, in a store
/// whose partition of the subject is empty.
fn intake_case(seed: u64, which: u64, subject: u8, count: usize) -> (Call, Vec<u8>) {
    let random = &mut random_of(seed, TEXT_STORE, which);
    let mut store = stores::store(random, TEXT_STORE, subject);
    store[PARTITION * usize::from(subject)..][..PARTITION].fill(0);
    let parent = partition(&store, 0).slots().next().map_or_else(Vec::new, |slot| slot.path().bytes());
    let text = stores::style(random, subject, count);
    (Call { text, ..call(Name::InsertXml, subject, parent) }, store)
}

/// A refusal that is measured: its words, the elements of its stores, its number and how a case is made.
type Refused = (&'static str, usize, u32, fn(&[u8]) -> (Call, Vec<u8>));

/// The refusals, by the highest label.
const REFUSED: [Refused; 16] = [
    ("Insert: store of another length", 256, 1, |store| (new(Name::Insert, 31), store[1..].to_vec())),
    ("Insert: subject over 31", 256, 2, |store| (Call { subject: 32, ..new(Name::Insert, 31) }, store.to_vec())),
    ("Insert: corruption of the last partition's last byte", 256, 3, corrupted_case),
    ("Insert: path not valid", 256, 4, |store| (new(Name::Insert, 32), store.to_vec())),
    ("Insert: value not valid", 256, 5, |store| (Call { kind: 3, ..new(Name::Insert, 31) }, store.to_vec())),
    ("Delete: another label", 256, 6, |store| (new(Name::Delete, 30), store.to_vec())),
    ("Insert: a missing step of another label", 256, 7, |store| {
        (call(Name::Insert, 31, vec![255, 255, 0, 255, 255, 31, 255, 255, 31]), store.to_vec())
    }),
    ("Delete: not live", 256, 7, |store| (new(Name::Delete, 31), store.to_vec())),
    ("View: not in view", 256, 7, |store| (new(Name::View, 31), store.to_vec())),
    ("Even grade: top not in view", 256, 7, |store| changed_grade(store, |call, _| call.top = vec![255, 255, 31])),
    ("Insert: live already", 256, 8, |store| (call(Name::Insert, 31, leaf(store, 31)), store.to_vec())),
    ("Insert: partition full", 1024, 9, |store| (new(Name::Insert, 31), store.to_vec())),
    ("Insert: room for the element and not for its 5 groups", 1024, 9, no_room_case),
    ("View: output too short", 256, 10, |store| (Call { output: 100, ..call(Name::View, 31, vec![]) }, store.to_vec())),
    ("Even grade: 65 sizes", 256, 11, |store| changed_grade(store, |call, _| call.n = 65)),
    ("Even grade: top a group", 256, 12, |store| {
        changed_grade(store, |call, store| put_value(store, &call.top, GROUP, &[]))
    }),
];

/// A grade by the highest label in which something is changed.
fn changed_grade(store: &[u8], change: fn(&mut Call, &mut [u8])) -> (Call, Vec<u8>) {
    let (mut call, mut store) = grade_case(store, 31);
    change(&mut call, &mut store);
    (call, store)
}

/// A call by the highest label on a path that is not in the store and ends in this label.
fn new(name: Name, label: u8) -> Call {
    call(name, 31, vec![255, 255, label])
}

/// An insert for which five groups are missing, into a partition that has room for one element more.
fn no_room_case(store: &[u8]) -> (Call, Vec<u8>) {
    let (_, store) = insert_case(store, 31);
    group_case(&mut Random::new(1), store, 31, GROUPS[1])
}

/// An insert into a store whose last byte is not zero.
fn corrupted_case(store: &[u8]) -> (Call, Vec<u8>) {
    let mut store = store.to_vec();
    store[STORE - 1] = 1;
    (new(Name::Insert, 31), store)
}

/// Each refusal.
pub fn refusals(seed: u64, rounds: usize) -> Vec<Row> {
    let refusal = |(name, elements, number, case): Refused| {
        let cases = (0..STORES).map(|which| case(&stores::store(&mut random_of(seed, elements, which), elements, 31)));
        Open { name: format!("Refusal {number}, {name}"), elements, bar: BAR, work: gather(cases, number) }
    };
    measured(REFUSED.into_iter().map(refusal).collect(), rounds)
}

/// The growth of a view and of the well-formedness test over these numbers of elements, all of which are listed.
pub fn growth(seed: u64, sizes: &[usize], rounds: usize) -> Vec<Growth> {
    let works: Vec<Work> = sizes.iter().flat_map(|elements| growth_works(seed, *elements)).collect();
    let times = measure(&works, rounds);
    let pairs = times.as_chunks::<2>().0;
    sizes
        .iter()
        .zip(pairs)
        .map(|(elements, [view, test])| Growth { elements: *elements, view: *view, test: *test })
        .collect()
}

/// A view of all and a well-formedness test by the highest label, on stores with this many elements.
fn growth_works(seed: u64, elements: usize) -> [Work; 2] {
    let store = |which| stores::store(&mut random_of(seed, elements, which), elements, 31);
    let view = gather((0..STORES).map(|which| (call(Name::View, 31, Vec::new()), store(which))), 0);
    let test = gather((0..STORES).map(|which| test_case(&store(which), 31)), 4);
    [view, test]
}

/// Both runners on a script, each from a file into a file: nanoseconds for the whole run.
pub fn runner(seed: u64, lines: usize, rounds: usize, root: &Path, scratch: &Path) -> io::Result<Row> {
    let input = scratch.join("script");
    std::fs::write(&input, stores::script(&mut Random::part(seed, 0), lines))?;
    let programs = [root.join("target/bin/runner"), root.join("hosts/compare/target/release/reference_runner")];
    let outputs = [scratch.join("product.out"), scratch.join("reference.out")];
    let mut times = [Vec::new(), Vec::new()];
    for round in 0..=rounds {
        for ((program, output), times) in programs.iter().zip(&outputs).zip(&mut times) {
            let time = run(program, &input, output)?;
            if round > 0 {
                times.push(time);
            }
        }
    }
    let [ours, theirs] = outputs.map(std::fs::read);
    assert!(ours? == theirs?, "the runners print the same");
    let [product, reference] = times.map(median);
    let name = format!("Runner, a script of {lines} lines");
    Ok(Row { name, elements: 200, times: Times { product, reference }, bar: BAR })
}

/// Runs one program from a file into a file: nanoseconds.
fn run(program: &Path, input: &Path, output: &Path) -> io::Result<f64> {
    let mut command = Command::new(program);
    command.stdin(File::open(input)?).stdout(File::create(output)?);
    let start = Instant::now();
    let status = command.status()?;
    let time = start.elapsed().as_nanos() as f64;
    if status.success() {
        Ok(time)
    } else {
        Err(io::Error::other(format!("{} ended with {status}", program.display())))
    }
}
