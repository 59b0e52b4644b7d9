//! Document 01's test cuts and examples of XML, of updates, of grades, of XML intake, of missing groups and of the
//! migration, run on the Rust program, and its well-formedness test, listing, XML, updates, grades, XML intake, inserts,
//! order and migration against plain definitions.
use reference::label::{LABELS, dominates};
use reference::partition::{HEAD, PARTITION, SLOT, partition, slot_of};
use reference::path::{DEPTH, Path, Step};
use reference::random::Random;
use reference::value::{GROUP, MEASURE, TEXT, Value};
use reference::{Migration, STORE, delete, grade, insert, insert_xml, migrate, script, update, view, view_xml};
use std::cmp::Ordering;
use std::collections::{BTreeMap, BTreeSet};

/// The bytes of a path given as names and labels.
fn path(steps: &[(u16, u8)]) -> Vec<u8> {
    steps.iter().flat_map(|(name, label)| [*name as u8, (*name >> 8) as u8, *label]).collect()
}

/// Inserts a group: the answer's number.
fn group(store: &mut [u8], subject: u32, steps: &[(u16, u8)]) -> u32 {
    insert(store, subject, &path(steps), 0, &[]).number
}

/// Inserts an element: the answer's number and count. After a refusal the store has its bytes of before.
fn inserted(store: &mut [u8], subject: u32, steps: &[(u16, u8)], kind: u32, value: &[u8]) -> (u32, u64) {
    let before = store.to_vec();
    let answer = insert(store, subject, &path(steps), kind, value);
    assert!(answer.number == 0 || store == before, "{subject} {steps:?}");
    (answer.number, answer.count)
}

/// Updates an element: the answer's number and count.
fn updated(store: &mut [u8], subject: u32, steps: &[(u16, u8)], kind: u32, value: &[u8]) -> (u32, u64) {
    let answer = update(store, subject, &path(steps), kind, value);
    (answer.number, answer.count)
}

/// What a subject sees of all, with a space for a tab and a semicolon for the end of a line.
fn seen(store: &[u8], subject: u32) -> String {
    let mut output = [0; 1000];
    let count = view(store, subject, &[], &mut output).count as usize;
    String::from_utf8_lossy(&output[..count]).replace('\t', " ").replace('\n', ";")
}

/// What the runner prints for a script.
fn run(script: &[u8]) -> String {
    let mut printed = Vec::new();
    script::run(script, &mut printed).expect("a vector takes every byte");
    String::from_utf8(printed).expect("the printed bytes are plain")
}

#[test]
fn dominance() {
    assert!(dominates(19, 17));
    assert!(!dominates(16, 9) && !dominates(9, 16));
    assert!((0..LABELS).all(|label| dominates(label, label) && dominates(31, label) && dominates(label, 0)));
}

#[test]
fn inserts_and_refusals() {
    let mut store = vec![0; STORE];
    assert_eq!(group(&mut store, 0, &[(10, 0)]), 0);
    assert_eq!(group(&mut store, 0, &[(10, 0)]), 8);
    assert_eq!(group(&mut store, 16, &[(10, 16)]), 0);
    assert_eq!(delete(&mut store, 16, &path(&[(10, 0)])).number, 6);
    assert_eq!(view(&store, 0, &path(&[(10, 16)]), &mut []).number, 7);
    assert_eq!(group(&mut store, 9, &[(10, 16), (20, 9)]), 4);
    assert_eq!(group(&mut [], 40, &[(10, 0)]), 1);
}

#[test]
fn six_steps_and_seven() {
    let mut store = vec![0; STORE];
    let steps = [(1, 0); 7];
    for depth in 1..=6 {
        assert_eq!(group(&mut store, 0, &steps[..depth]), 0);
    }
    assert_eq!(group(&mut store, 0, &steps), 4);
}

#[test]
fn a_full_partition() {
    let mut store = vec![0; STORE];
    for name in 1..=32 {
        assert_eq!(group(&mut store, 0, &[(name, 0)]), 0);
    }
    assert_eq!(group(&mut store, 0, &[(33, 0)]), 9);
    assert_eq!(group(&mut store, 1, &[(33, 1)]), 0);
    assert_eq!(delete(&mut store, 0, &path(&[(7, 0)])).count, 1);
    assert_eq!(group(&mut store, 0, &[(33, 0)]), 0);
}

#[test]
fn lengths_of_texts() {
    let mut store = vec![0; STORE];
    let number = |store: &mut [u8], name, length| insert(store, 0, &path(&[(name, 0)]), 2, &vec![b'x'; length]).number;
    assert_eq!([0, 1, 16, 17].map(|length| number(&mut store, 1 + length as u16, length)), [5, 0, 0, 5]);
}

#[test]
fn an_update_whose_parent_is_in_view_through_it_alone() {
    let mut store = vec![0; STORE];
    group(&mut store, 0, &[(1, 0)]);
    group(&mut store, 8, &[(1, 0), (2, 8)]);
    group(&mut store, 8, &[(1, 0), (2, 8), (3, 8)]);
    delete(&mut store, 0, &path(&[(1, 0)]));
    assert_eq!(updated(&mut store, 8, &[(1, 0), (2, 8)], TEXT, b"NEW"), (0, 1));
    assert_eq!(seen(&store, 8), "VIEW 8 3;1 1 0 R - -;2 2 8 P T NEW;3 3 8 P G -;");
}

#[test]
fn examples_of_updates() {
    let mut store = vec![0; STORE];
    let [piece, inside, deep] = [&[(10, 0)][..], &[(10, 0), (20, 0)], &[(10, 0), (20, 0), (30, 0)]];
    for steps in [piece, inside, deep] {
        assert_eq!(group(&mut store, 0, steps), 0);
    }
    assert_eq!(updated(&mut store, 0, piece, TEXT, b"PIECE"), (0, 1));
    assert_eq!(seen(&store, 0), "VIEW 0 3;1 10 0 P T PIECE;2 20 0 P G -;3 30 0 P G -;");
    assert_eq!(updated(&mut store, 0, inside, MEASURE, &5_i32.to_le_bytes()), (0, 1));
    assert_eq!(seen(&store, 0), "VIEW 0 3;1 10 0 P T PIECE;2 20 0 P M 5;3 30 0 P G -;");
    let before = store.clone();
    assert_eq!(updated(&mut store, 0, &[(11, 0)], GROUP, &[]), (7, 0));
    assert!(store == before);
    let answer = delete(&mut store, 0, &path(piece));
    assert_eq!((answer.number, answer.count), (0, 3));
    assert_eq!(seen(&store, 0), "VIEW 0 0;");
}

#[test]
fn an_update_keeps_what_is_below() {
    let mut store = vec![0; STORE];
    let piece = [(10, 8), (20, 8)];
    for (subject, steps) in [
        (8, &[(10, 8)][..]),
        (8, &piece),
        (8, &[(10, 8), (20, 8), (1, 8)]),
        (24, &[(10, 8), (20, 8), (1, 24)]),
        (24, &[(10, 8), (20, 8), (1, 24), (2, 24)]),
        (8, &[(10, 8), (20, 8), (9, 8)]),
        (8, &[(10, 8), (21, 8)]),
    ] {
        assert_eq!(group(&mut store, subject, steps), 0);
    }
    for (kind, value, shown) in [
        (TEXT, &b"SIXTEEN LETTERS."[..], "T SIXTEEN LETTERS."),
        (TEXT, b"X", "T X"),
        (MEASURE, &[0; 4], "M 0"),
        (GROUP, b"", "G -"),
    ] {
        assert_eq!(updated(&mut store, 8, &piece, kind, value), (0, 1));
        let top = format!("1 10 8 P G -;2 20 8 P {shown};");
        let below = ["3 1 24 P G -;4 2 24 P G -;", "3 1 8 P G -;", "3 9 8 P G -;"];
        assert_eq!(seen(&store, 8), format!("VIEW 8 5;{top}{}{}2 21 8 P G -;", below[1], below[2]));
        assert_eq!(seen(&store, 24), format!("VIEW 24 7;{top}{}2 21 8 P G -;", below.concat()));
    }
    assert_eq!(delete(&mut store, 8, &path(&piece)).count, 3);
    assert_eq!(seen(&store, 24), "VIEW 24 5;1 10 8 P G -;2 20 8 R - -;3 1 24 P G -;4 2 24 P G -;2 21 8 P G -;");
}

/// The document's script.
const SCRIPT: &[u8] = b"0\tI\t10:0\tG\t-\n16\tI\t10:0/20:16\tM\t-150\n0\tD\t10:0\n0\tV\t/\n16\tV\t/\n";

#[test]
fn the_documents_script() {
    let answers = "A\t0\t0\nA\t0\t0\nA\t0\t1\nVIEW\t0\t0\nA\t0\t9\n";
    let listing = "VIEW\t16\t2\n1\t10\t0\tR\t-\t-\n2\t20\t16\tP\tM\t-150\nA\t0\t40\n";
    assert_eq!(run(SCRIPT), [answers, listing].concat());
}

#[test]
fn a_removed_element_comes_again() {
    let script = [SCRIPT, b"0\tI\t10:0\tT\tSLEEVE\n16\tV\t10:0"].concat();
    let end = "A\t0\t0\nVIEW\t16\t2\n1\t10\t0\tP\tT\tSLEEVE\n2\t20\t16\tP\tM\t-150\nA\t0\t45\n";
    assert!(run(&script).ends_with(end), "{}", run(&script));
}

#[test]
fn an_output_that_is_just_long_enough() {
    let mut store = vec![0; STORE];
    group(&mut store, 0, &[(10, 0)]);
    insert(&mut store, 16, &path(&[(10, 0), (20, 16)]), 1, &(-150_i32).to_le_bytes());
    delete(&mut store, 0, &path(&[(10, 0)]));
    let mut output = [7; 41];
    assert_eq!(view(&store, 16, &[], &mut output[..39]).number, 10);
    assert_eq!(output, [7; 41]);
    assert_eq!(view(&store, 16, &[], &mut output).count, 40);
    assert_eq!(output[40], 7);
}

#[test]
fn lines_that_do_not_read() {
    let lines = [
        "",
        "0\tV",
        "00\tV\t/",
        "256\tV\t/",
        "0\tV\t/\t",
        "0\tI\t1:0\tM\t-0",
        "0\tI\t1:0\tG\t",
        "0\tV\t1",
        "0\tV\t//",
        "+0\tV\t/",
    ];
    for line in lines {
        assert_eq!(run(format!("{line}\n").as_bytes()), "A\t?\t0\n", "{line}");
    }
    assert_eq!(run(b""), "");
    assert_eq!(run(b"0\tI\t1:0\tM\t-2147483648\n0\tV\t/").lines().nth(2), Some("1\t1\t0\tP\tM\t-2147483648"));
}

#[test]
fn the_longest_line() {
    let line = |length: usize| format!("{:x<length$}\n", "0\tI\t1:0\tT\t");
    assert_eq!(run(line(256).as_bytes()), "A\t5\t0\n");
    assert_eq!(run(line(257).as_bytes()), "A\t?\t0\n");
}

/// A store after many random calls.
fn grown(random: &mut Random) -> Vec<u8> {
    let mut store = vec![0; STORE];
    for _ in 0..400 {
        let labels: Vec<u8> = (0..LABELS).collect();
        let mut label = 0;
        let mut steps = Vec::new();
        for _ in 0..1 + random.below(4) {
            label = random.pick(&labels.iter().copied().filter(|above| dominates(*above, label)).collect::<Vec<_>>());
            steps.push((1 + random.below(3) as u16, label));
        }
        group(&mut store, label.into(), &steps);
        if random.percent(10) {
            delete(&mut store, label.into(), &path(&steps));
        }
    }
    store
}

/// Every element's path and, in words, its value.
fn elements(store: &[u8]) -> BTreeMap<Path, String> {
    let slots = (0..LABELS).flat_map(|label| partition(store, label).slots());
    slots.map(|slot| (slot.path(), format!("{:?}", slot.value()))).collect()
}

#[test]
fn an_update_changes_one_value_alone() {
    let mut random = Random::new(7);
    let mut store = grown(&mut random);
    for _ in 0..500 {
        let mut expected = elements(&store);
        let paths: Vec<Path> = expected.keys().copied().collect();
        let path = random.pick(&paths);
        let (kind, bytes, length) = (random.below(3), [b'a' + random.below(26) as u8; 16], 1 + random.below(16));
        let value = &bytes[..[0, 4, length][kind]];
        let label = path.label().expect("an element's path");
        let answer = update(&mut store, label.into(), &path.bytes(), kind as u32, value);
        assert_eq!((answer.number, answer.count), (0, 1));
        expected.insert(path, format!("{:?}", Value::read(kind as u32, value)));
        assert_eq!(elements(&store), expected);
        assert!((0..LABELS).all(|label| partition(&store, label).is_well_formed()));
    }
}

/// The listed steps by the document's words: each dominated live path and its beginnings, once each, and if it is live.
fn listed(store: &[u8], subject: u8) -> BTreeMap<Path, bool> {
    let mut listed = BTreeMap::new();
    for label in (0..LABELS).filter(|label| dominates(subject, *label)) {
        for slot in partition(store, label).slots() {
            let steps = slot.path();
            for depth in 1..steps.depth() {
                listed.entry(Path::new(&steps.steps()[..depth])).or_insert(false);
            }
            listed.insert(steps, true);
        }
    }
    listed
}

#[test]
fn listings_hold_what_the_document_says() {
    let mut random = Random::new(5);
    for _ in 0..20 {
        let store = grown(&mut random);
        let subject = random.below(32) as u8;
        let mut output = vec![0; 262_144];
        let count = view(&store, subject.into(), &[], &mut output).count as usize;
        let text = String::from_utf8_lossy(&output[..count]);
        let lines: Vec<String> =
            text.lines().skip(1).map(|line| line.split('\t').take(4).collect::<Vec<_>>().join(" ")).collect();
        let line = |(path, live): (&Path, &bool)| {
            let Step { name, label } = path.steps()[path.depth() - 1];
            format!("{} {name} {label} {}", path.depth(), if *live { 'P' } else { 'R' })
        };
        assert_eq!(lines, listed(&store, subject).iter().map(line).collect::<Vec<_>>());
    }
}

/// The view as XML, in an output of this length: the number, and what is written.
fn xml(store: &[u8], subject: u32, steps: &[(u16, u8)], length: usize) -> (u32, String) {
    let mut output = vec![7; length + 1];
    let answer = view_xml(store, subject, &path(steps), &mut output[..length]);
    let (written, rest) = output.split_at(answer.count as usize);
    assert!(rest.iter().all(|byte| *byte == 7), "bytes behind the XML");
    (answer.number, String::from_utf8_lossy(written).into_owned())
}

/// The store of the examples of XML.
fn with_xml_examples() -> Vec<u8> {
    let mut store = vec![0; STORE];
    group(&mut store, 0, &[(10, 0)]);
    insert(&mut store, 16, &path(&[(10, 0), (20, 16)]), 1, &(-150_i32).to_le_bytes());
    insert(&mut store, 16, &path(&[(10, 0), (20, 16), (5, 16)]), 2, b"a<b & \"c\">d");
    insert(&mut store, 16, &path(&[(11, 16)]), 2, b"&");
    insert(&mut store, 0, &path(&[(10, 0), (7, 0)]), 2, b"SLEEVE");
    delete(&mut store, 0, &path(&[(10, 0)]));
    store
}

#[test]
fn examples_of_xml() {
    let store = with_xml_examples();
    let e5 = r#"<e5 label="16" preserve="PRESENT" kind="T">a&lt;b &amp; "c"&gt;d</e5>"#;
    let e20 = format!(r#"<e20 label="16" preserve="PRESENT" kind="M">-150{e5}</e20>"#);
    let e10 = format!(r#"<e10 label="0" preserve="REMOVED" kind="-">{e20}</e10>"#);
    let e11 = r#"<e11 label="16" preserve="PRESENT" kind="T">&amp;</e11>"#;
    let examples = [
        (0, &[][..], String::new(), 31),
        (16, &[], [&e10, e11].concat(), 259),
        (16, &[(10, 0)], e10, 204),
        (16, &[(10, 0), (20, 16), (5, 16)], e5.to_string(), 101),
        (16, &[(11, 16)], e11.to_string(), 87),
        (8, &[], String::new(), 31),
    ];
    for (subject, steps, elements, length) in examples {
        let expected = (0, format!(r#"<dossier subject="{subject}">{elements}</dossier>"#));
        assert_eq!(expected.1.len(), length);
        for room in [length, length + 1, 426_016] {
            assert_eq!(xml(&store, subject, steps, room), expected);
        }
        for room in [0, length - 1] {
            assert_eq!(xml(&store, subject, steps, room), (10, String::new()));
        }
    }
    assert_eq!(xml(&store, 16, &[(9, 0)], 1000), (7, String::new()));
}

/// The XML of the listed elements directly below this path, each with its contents; all of them are groups or removed.
fn plain_xml(listed: &BTreeMap<Path, bool>, above: &Path) -> String {
    let inside = listed.iter().filter(|(path, _)| path.parent() == *above);
    let element = |(path, live): (&Path, &bool)| {
        let Step { name, label } = path.steps()[path.depth() - 1];
        let rest = if *live { r#"preserve="PRESENT" kind="G""# } else { r#"preserve="REMOVED" kind="-""# };
        format!(r#"<e{name} label="{label}" {rest}>{}</e{name}>"#, plain_xml(listed, path))
    };
    inside.map(element).collect()
}

#[test]
fn xml_holds_what_the_document_says() {
    let mut random = Random::new(6);
    for _ in 0..20 {
        let store = grown(&mut random);
        let subject = random.below(32) as u8;
        let elements = plain_xml(&listed(&store, subject), &Path::default());
        let expected = format!(r#"<dossier subject="{subject}">{elements}</dossier>"#);
        assert_eq!(xml(&store, subject.into(), &[], 426_016), (0, expected));
    }
}

/// A grade: the answer's number, step and remainder.
fn graded(store: &[u8], subject: u32, base: &[(u16, u8)], top: &[(u16, u8)], n: u32) -> (u32, i64, u32) {
    let answer = grade(store, subject, &path(base), &path(top), n);
    (answer.number, answer.step, answer.remainder)
}

/// The store of the examples of grades: 6:0 is a group, 8:0 is removed, 10:0 is a text.
fn with_grade_examples() -> Vec<u8> {
    let mut store = vec![0; STORE];
    let measures = [
        (0, &[(1, 0)][..], 1000),
        (0, &[(2, 0)], 1025),
        (0, &[(3, 0)], 990),
        (0, &[(4, 0)], i32::MIN),
        (0, &[(5, 0)], i32::MAX),
        (16, &[(7, 16)], 5),
        (16, &[(8, 0), (9, 16)], 6),
    ];
    group(&mut store, 0, &[(6, 0)]);
    group(&mut store, 0, &[(8, 0)]);
    insert(&mut store, 0, &path(&[(10, 0)]), TEXT, b"SLEEVE");
    for (subject, steps, number) in measures {
        assert_eq!(insert(&mut store, subject, &path(steps), MEASURE, &i32::to_le_bytes(number)).number, 0);
    }
    delete(&mut store, 0, &path(&[(8, 0)]));
    store
}

#[test]
fn examples_of_grades() {
    let store = with_grade_examples();
    let examples = [
        (0, &[(1, 0)][..], &[(2, 0)][..], 4, (0, 6, 1)),
        (0, &[(1, 0)], &[(3, 0)], 3, (0, -4, 2)),
        (0, &[(1, 0)], &[(1, 0)], 64, (0, 0, 0)),
        (0, &[(4, 0)], &[(5, 0)], 1, (0, 4_294_967_295, 0)),
        (0, &[(5, 0)], &[(4, 0)], 1, (0, -4_294_967_295, 0)),
        (0, &[(5, 0)], &[(4, 0)], 64, (0, -67_108_864, 1)),
        (0, &[(1, 0)], &[(2, 0)], 0, (11, 0, 0)),
        (0, &[(1, 0)], &[(2, 0)], 65, (11, 0, 0)),
        (0, &[(1, 0)], &[(2, 0)], 257, (11, 0, 0)),
        (0, &[(1, 0)], &[(2, 0)], u32::MAX, (11, 0, 0)),
        (0, &[(1, 0)], &[(99, 0)], 0, (11, 0, 0)),
        (0, &[(1, 0)], &[(99, 0)], 2, (7, 0, 0)),
        (0, &[(6, 0)], &[(99, 0)], 2, (7, 0, 0)),
        (0, &[(1, 0)], &[(6, 0)], 2, (12, 0, 0)),
        (0, &[], &[(1, 0)], 2, (12, 0, 0)),
        (0, &[(1, 0)], &[(7, 16)], 2, (7, 0, 0)),
        (16, &[(1, 0)], &[(7, 16)], 2, (0, -498, 1)),
        (16, &[(8, 0)], &[(1, 0)], 2, (12, 0, 0)),
        (16, &[(8, 0), (9, 16)], &[(1, 0)], 7, (0, 142, 0)),
        (0, &[(1, 0)], &[(10, 0)], 2, (12, 0, 0)),
        (0, &[], &[(99, 0)], 2, (7, 0, 0)),
        (40, &[(1, 0)], &[(2, 0)], 4, (2, 0, 0)),
        (0, &[(0, 0)], &[(1, 0)], 4, (4, 0, 0)),
        (0, &[(1, 0)], &[(1, 40)], 0, (4, 0, 0)),
    ];
    for (subject, base, top, n, expected) in examples {
        assert_eq!(graded(&store, subject, base, top, n), expected, "{subject} {base:?} {top:?} {n}");
    }
    assert_eq!(graded(&store[1..], 40, &[(0, 0)], &[], 0), (1, 0, 0));
    let mut corrupted = store;
    corrupted[16 * PARTITION + 1] = 1;
    assert_eq!(graded(&corrupted, 16, &[(0, 0)], &[], 0), (3, 0, 0));
    assert_eq!(graded(&corrupted, 15, &[(1, 0)], &[(2, 0)], 4), (0, 6, 1));
}

/// A store after many random calls, most of whose elements are measures.
fn measured(random: &mut Random) -> Vec<u8> {
    let mut store = grown(random);
    for path in elements(&store).keys() {
        let any = random.bits() as i32;
        let number = random.pick(&[0, 1, -1, i32::MIN, i32::MAX, any, any % 1000]);
        let label = path.label().expect("an element's path");
        if random.percent(70) {
            update(&mut store, label.into(), &path.bytes(), MEASURE, &number.to_le_bytes());
        }
    }
    store
}

/// Each listed path, with its number if it is a live measure.
fn listed_numbers(store: &[u8], subject: u8) -> BTreeMap<Path, Option<i32>> {
    let number =
        |path: &Path| match partition(store, path.label()?).slots().find(|slot| slot.path() == *path)?.value()? {
            Value::Measure(number) => Some(number),
            _ => None,
        };
    listed(store, subject).into_keys().map(|path| (path, number(&path))).collect()
}

/// Whether this is the answer of a grade by the document's words.
fn is_grade(listed: &BTreeMap<Path, Option<i32>>, base: &Path, top: &Path, n: u32, answer: (u32, i64, u32)) -> bool {
    let seen = |path: &Path| if path.depth() == 0 { Some(None) } else { listed.get(path).copied() };
    match (seen(base), seen(top)) {
        _ if !(1..=64).contains(&n) => answer == (11, 0, 0),
        (None, _) | (_, None) => answer == (7, 0, 0),
        (Some(Some(base)), Some(Some(top))) => {
            let (number, step, remainder) = answer;
            let rebuilt = i128::from(n) * i128::from(step) + i128::from(remainder);
            number == 0 && remainder < n && rebuilt == i128::from(top) - i128::from(base)
        }
        _ => answer == (12, 0, 0),
    }
}

#[test]
fn grades_are_what_the_document_says() {
    let mut random = Random::new(8);
    let mut met = [0; 13];
    for _ in 0..20 {
        let store = measured(&mut random);
        let subject = random.pick(&[0, 9, 16, 31]);
        let numbers = listed_numbers(&store, subject);
        let held: Vec<Path> = elements(&store).into_keys().collect();
        for _ in 0..2000 {
            let mut beginning = || {
                let path = random.pick(&held);
                let depth = if random.percent(80) { path.depth() } else { random.below(path.depth()) };
                Path::new(&path.steps()[..depth])
            };
            let (base, top) = (beginning(), beginning());
            let n = random.below(67) as u32;
            let answer = grade(&store, subject.into(), &base.bytes(), &top.bytes(), n);
            met[answer.number as usize] += 1;
            let answer = (answer.number, answer.step, answer.remainder);
            assert!(is_grade(&numbers, &base, &top, n, answer), "{subject} {base:?} {top:?} {n} {answer:?}");
        }
    }
    assert!([0, 7, 11, 12].iter().all(|number| met[*number] > 100), "{met:?}");
}

/// A group with groups of these names inside it, all of one label, as a text.
fn groups(top: u16, label: u8, names: &mut dyn Iterator<Item = u16>) -> String {
    let group =
        |name, inside: &str| format!(r#"<e{name} label="{label}" preserve="PRESENT" kind="G">{inside}</e{name}>"#);
    group(top, &names.map(|name| group(name, "")).collect::<String>())
}

/// A text in which @ stands for what is between a name and a kind: label 16 and PRESENT.
fn sent(short: &str) -> String {
    short.replace('@', r#" label="16" preserve="PRESENT" kind="#)
}

#[test]
fn examples_of_xml_intake() {
    let mut store = vec![0; STORE];
    group(&mut store, 0, &[(10, 0)]);
    let examples = [
        (16, &[(10, 0)][..], r#"<e20@"G"><e3@"M">-150</e3><e2@"T">a &lt; b</e2></e20>"#, 0, 3),
        (16, &[(10, 0)], r#"<e20@"G"></e20>"#, 8, 0),
        (16, &[], &format!(r#"<e1@"T">{}</e1>"#, "&amp;".repeat(16)), 0, 1),
        (16, &[], &format!(r#"<e2@"T">{}</e2>"#, "&amp;".repeat(17)), 13, 0),
        (16, &[], r#"<e3@"G"><e1@"G"></e1><e1@"G"></e1></e3>"#, 13, 0),
        (16, &[], r#"<e3@"G"><e1@"G"></e1><e1 label="17" preserve="PRESENT" kind="G"></e1></e3>"#, 14, 0),
        (16, &[], r#"<e3@"G"><e1 label="16" preserve="REMOVED" kind="-"></e1></e3>"#, 14, 0),
        (16, &[], r#"<e3 label="16" preserve="REMOVED" kind="G"></e3>"#, 13, 0),
        (16, &[], r#"<e3 label="16" preserve="REMOVED" kind="-">x</e3>"#, 13, 0),
        (16, &[], r#"<e3@"-"></e3>"#, 13, 0),
        (16, &[], r#"<e3 label="32" preserve="PRESENT" kind="G"></e3>"#, 13, 0),
        (16, &[], r#"<e3 label="0" preserve="PRESENT" kind="G"></e3>"#, 14, 0),
        (16, &[], r#"<e0@"G"></e0>"#, 13, 0),
        (16, &[], r#"<e65536@"G"></e65536>"#, 13, 0),
        (16, &[], r#"<e03@"G"></e03>"#, 13, 0),
        (16, &[], r#"<e3 label="016" preserve="PRESENT" kind="G"></e3>"#, 13, 0),
        (16, &[], r#"<e3@"M"></e3>"#, 13, 0),
        (16, &[], r#"<e3@"M">-0</e3>"#, 13, 0),
        (16, &[], r#"<e3@"M">2147483648</e3>"#, 13, 0),
        (16, &[], r#"<e3@"M">-2147483648</e3>"#, 0, 1),
        (16, &[], r#"<e4@"T"></e4>"#, 13, 0),
        (16, &[], r#"<e4@"T">a>b</e4>"#, 13, 0),
        (16, &[], r#"<e4@"T">&quot;</e4>"#, 13, 0),
        (16, &[], r#"<e4@"G">x</e4>"#, 13, 0),
        (16, &[], r#"<e4@"G"><e1@"G"></e1>x</e4>"#, 13, 0),
        (16, &[], "<e4@\"G\"></e4>\n", 13, 0),
        (16, &[], r#"<e4@"G"/>"#, 13, 0),
        (16, &[], r#"<e4 @"G"></e4>"#, 13, 0),
        (16, &[], r#"<e4 preserve="PRESENT" label="16" kind="G"></e4>"#, 13, 0),
        (16, &[], r#"<e4@"G"></e5>"#, 13, 0),
        (16, &[], r#"<dossier subject="16"><e4@"G"></e4></dossier>"#, 13, 0),
        (16, &[], "", 13, 0),
        (16, &[], r#"<e4@"G"></e4><e5@"G"></e5>"#, 13, 0),
        (16, &[], r#"<e60 label="0" preserve="PRESENT" kind="G"></e60> "#, 13, 0),
        (16, &[], r#"<e60@"G"><e61 label="0" preserve="PRESENT" kind="G"></e61></e60>"#, 14, 0),
        (16, &[], r#"<e60 label="16" preserve="REMOVED" kind="-"></e60>"#, 14, 0),
        (16, &[], r#"<e60 label="16" preserve="REMOVED" kind="-"><e61@"M">7</e61></e60>"#, 14, 0),
        (40, &[], r#"<e4@"G"></e4>"#, 2, 0),
        (16, &[(1, 0), (2, 0), (3, 0), (4, 0), (5, 0), (6, 0)], r#"<e4@"G"></e4>"#, 13, 0),
        (16, &[(11, 0)], r#"<e4@"G"></e4>"#, 7, 0),
        (16, &[(11, 0)], r#"<e4 label="0" preserve="PRESENT" kind="G"></e4>"#, 14, 0),
        (16, &[(0, 0)], "<", 4, 0),
        (0, &[(10, 0), (20, 16)], r#"<e4 label="0" preserve="PRESENT" kind="G"></e4>"#, 7, 0),
        (16, &[(10, 0), (20, 16), (2, 16)], r#"<e9@"G"><e9@"G"><e9@"G"><e9@"G"></e9></e9></e9></e9>"#, 13, 0),
        (16, &[(10, 0), (20, 16), (2, 16)], r#"<e9@"G"><e9@"G"><e9@"G"></e9></e9></e9>"#, 0, 3),
        (16, &[], &groups(50, 16, &mut (1..32)), 9, 0),
        (17, &[], &groups(50, 17, &mut (1..32).rev()), 0, 32),
        (17, &[], r#"<e51 label="17" preserve="PRESENT" kind="G"></e51>"#, 9, 0),
    ];
    for (subject, parent, short, number, count) in examples {
        let before = store.clone();
        let answer = insert_xml(&mut store, subject, &path(parent), sent(short).as_bytes());
        assert_eq!((answer.number, answer.count), (number, count), "{subject} {parent:?} {short}");
        assert!(number == 0 || store == before, "{subject} {parent:?} {short}");
    }
    let e2 = r#"<e2@"T">a &lt; b<e9@"G"><e9@"G"><e9@"G"></e9></e9></e9></e2>"#;
    let back = format!(r#"<dossier subject="16"><e20@"G">{e2}<e3@"M">-150</e3></e20></dossier>"#);
    assert_eq!(xml(&store, 16, &[(10, 0), (20, 16)], 1000), (0, sent(&back)));
}

#[test]
fn the_first_refusals_of_xml_intake() {
    let mut store = vec![0; STORE];
    let number = |store: &mut [u8], subject| insert_xml(store, subject, &[1], b"").number;
    assert_eq!(number(&mut store[1..], 40), 1);
    assert_eq!(number(&mut store, 40), 2);
    assert_eq!(number(&mut store, 287), 2);
    store[16 * PARTITION + 1] = 1;
    assert_eq!(number(&mut store, 16), 3);
    assert_eq!(number(&mut store, 15), 4);
    assert_eq!(insert_xml(&mut store, 15, &[], b"").number, 13);
}

/// A random style of one label below a parent: its elements with their kinds and values.
fn style(random: &mut Random, parent: &[Step], label: u8, count: usize) -> BTreeMap<Path, (u32, Vec<u8>)> {
    let mut elements = BTreeMap::new();
    let mut above = parent.to_vec();
    while elements.len() < count {
        let name = 1 + random.below(if elements.is_empty() { 6 } else { 300 }) as u16;
        let path = Path::new(&[&above[..], &[Step { name, label }]].concat());
        let number = random.bits() as i32;
        let text: Vec<u8> = (0..1 + random.below(16)).map(|_| 32 + random.below(95) as u8).collect();
        let values = [(GROUP, Vec::new()), (MEASURE, number.to_le_bytes().to_vec()), (TEXT, text)];
        elements.entry(path).or_insert_with(|| values[random.below(3)].clone());
        let paths: Vec<Path> = elements.keys().copied().filter(|path| path.depth() < 6).collect();
        above = if paths.is_empty() { break } else { random.pick(&paths).steps().to_vec() };
    }
    elements
}

/// The text of the elements directly below a path, each with its contents; siblings are brought into some order before.
fn style_text(style: &BTreeMap<Path, (u32, Vec<u8>)>, above: &Path, arrange: &mut dyn FnMut(&mut [&Path])) -> String {
    let mut siblings: Vec<&Path> = style.keys().filter(|path| path.parent() == *above).collect();
    arrange(&mut siblings);
    let element = |path: &&Path| {
        let Step { name, label } = path.steps()[path.depth() - 1];
        let (kind, value) = match &style[path] {
            (MEASURE, bytes) => ("M", i32::from_le_bytes(bytes[..].try_into().expect("four bytes")).to_string()),
            (TEXT, bytes) => ("T", String::from_utf8_lossy(bytes).into_owned()),
            _ => ("G", String::new()),
        };
        let value = value.replace('&', "&amp;").replace('<', "&lt;").replace('>', "&gt;");
        let inside = style_text(style, path, arrange);
        format!(r#"<e{name} label="{label}" preserve="PRESENT" kind="{kind}">{value}{inside}</e{name}>"#)
    };
    siblings.iter().map(element).collect()
}

#[test]
fn xml_intake_does_what_the_document_says() {
    let mut random = Random::new(9);
    let mut met = [0; 15];
    for _ in 0..500 {
        let mut store = grown(&mut random);
        let before = elements(&store);
        let parents: Vec<Path> = before.keys().copied().filter(|path| path.depth() < 6).collect();
        let parent = if random.percent(30) { Path::default() } else { random.pick(&parents) };
        let label = parent.label().unwrap_or(random.below(32) as u8);
        let count = 1 + random.below(34);
        let style = style(&mut random, parent.steps(), label, count);
        let text = style_text(&style, &parent, &mut |siblings| {
            for at in 1..siblings.len() {
                siblings.swap(at, random.below(at + 1));
            }
        });
        let answer = insert_xml(&mut store, label.into(), &parent.bytes(), text.as_bytes());
        met[answer.number as usize] += 1;
        let top = *style.keys().next().expect("a top element");
        let held = before.keys().filter(|path| path.label() == Some(label)).count();
        let expected = match () {
            () if before.contains_key(&top) => 8,
            () if held + style.len() > 32 => 9,
            () => 0,
        };
        assert_eq!(answer.number, expected, "{text}");
        assert_eq!(answer.count, if expected == 0 { style.len() as u64 } else { 0 });
        let mut after = before;
        if expected == 0 {
            let words = |(kind, value): &(u32, Vec<u8>)| format!("{:?}", Value::read(*kind, value));
            after.extend(style.iter().map(|(path, value)| (*path, words(value))));
            let back = style_text(&style, &parent, &mut |_| ());
            let steps: Vec<(u16, u8)> = top.steps().iter().map(|step| (step.name, step.label)).collect();
            let tagged = format!(r#"<dossier subject="{label}">{back}</dossier>"#);
            assert_eq!(xml(&store, label.into(), &steps, 10_000), (0, tagged));
        }
        assert_eq!(elements(&store), after);
        assert!((0..LABELS).all(|label| partition(&store, label).is_well_formed()));
    }
    assert!([0, 8, 9].iter().all(|number| met[*number] > 30), "{met:?}");
}

#[test]
fn examples_of_missing_groups() {
    let mut store = vec![0; STORE];
    let mut measure = |subject, steps: &[(u16, u8)], number, count| {
        let answer = inserted(&mut store, subject, steps, MEASURE, &1_i32.to_le_bytes());
        assert_eq!(answer, (number, count), "{subject} {steps:?}");
    };
    measure(0, &[(10, 0), (20, 0), (30, 0)], 0, 2);
    measure(0, &[(10, 0), (20, 0), (30, 0)], 8, 0);
    measure(16, &[(10, 0), (21, 16), (22, 16), (23, 16)], 0, 2);
    measure(16, &[(10, 0), (24, 0), (25, 16)], 7, 0);
    measure(16, &[(11, 8), (12, 16)], 7, 0);
    measure(16, &[(12, 16)], 0, 0);
    measure(16, &[(12, 16), (1, 16), (2, 16), (3, 16), (4, 16), (5, 16)], 0, 4);
    assert_eq!(seen(&store, 0), "VIEW 0 3;1 10 0 P G -;2 20 0 P G -;3 30 0 P M 1;");
    assert_eq!(delete(&mut store, 0, &path(&[(10, 0)])).count, 3);
    let one = 1_i32.to_le_bytes();
    assert_eq!(inserted(&mut store, 16, &[(10, 0), (21, 16), (40, 16)], MEASURE, &one), (0, 0));
    assert_eq!(inserted(&mut store, 0, &[(10, 0), (50, 0), (51, 0)], MEASURE, &one), (0, 2));
    for name in 100..120 {
        assert_eq!(inserted(&mut store, 16, &[(name, 16)], GROUP, &[]), (0, 0));
    }
    assert_eq!(partition(&store, 16).count(), 30);
    assert_eq!(inserted(&mut store, 16, &[(200, 16), (1, 16), (2, 16)], GROUP, &[]), (9, 0));
    assert_eq!(inserted(&mut store, 16, &[(201, 16), (1, 16), (2, 16)], GROUP, &[]), (9, 0));
    assert_eq!(delete(&mut store, 16, &path(&[(119, 16)])).count, 1);
    assert_eq!(inserted(&mut store, 16, &[(203, 16), (1, 16)], GROUP, &[]), (0, 1));
    assert_eq!(inserted(&mut store, 16, &[(202, 16)], GROUP, &[]), (0, 0));
    assert_eq!(partition(&store, 16).count(), 32);
    assert!((0..LABELS).all(|label| partition(&store, label).is_well_formed()));
}

#[test]
fn missing_groups_and_their_room() {
    let deep = [(200, 16), (1, 16), (2, 16), (3, 16), (4, 16), (5, 16)];
    for missing in 1..=5 {
        let mut store = vec![0; STORE];
        for name in 1..=31 - missing {
            group(&mut store, 16, &[(name, 16)]);
        }
        let mut less = store.clone();
        group(&mut less, 16, &[(100, 16)]);
        let steps = &deep[..=usize::from(missing)];
        assert_eq!(inserted(&mut less, 16, steps, TEXT, b"CUFF"), (9, 0));
        assert_eq!(inserted(&mut store, 16, steps, TEXT, b"CUFF"), (0, missing.into()));
        assert_eq!(partition(&store, 16).count(), 32);
    }
}

#[test]
fn a_removed_element_is_in_view() {
    let mut store = vec![0; STORE];
    group(&mut store, 0, &[(10, 0)]);
    group(&mut store, 16, &[(10, 0), (20, 16)]);
    delete(&mut store, 0, &path(&[(10, 0)]));
    assert_eq!(inserted(&mut store, 9, &[(10, 0), (20, 9), (30, 9)], GROUP, &[]), (7, 0));
    assert_eq!(inserted(&mut store, 16, &[(10, 0), (21, 16), (22, 16)], TEXT, b"CUFF"), (0, 1));
    assert_eq!(seen(&store, 16), "VIEW 16 4;1 10 0 R - -;2 20 16 P G -;2 21 16 P G -;3 22 16 P T CUFF;");
    assert_eq!(inserted(&mut store, 0, &[(10, 0), (40, 0)], TEXT, b"CUFF"), (0, 1));
    assert_eq!(seen(&store, 0), "VIEW 0 2;1 10 0 P G -;2 40 0 P T CUFF;");
}

/// A path whose last label is the subject's: behind a beginning of an element's come up to six steps in all, now and then
/// the first of them with the label before them.
fn below_some(random: &mut Random, held: &[Path], subject: u8) -> Path {
    let some = random.pick(held);
    let some = some.beginning(random.below(some.depth()));
    let mut path = if some.label().is_none_or(|label| dominates(subject, label)) { some } else { Path::default() };
    let more = 1 + random.below(DEPTH - path.depth());
    let others = if random.percent(15) { random.below(more) } else { 0 };
    let low = path.label().unwrap_or(0);
    for at in 0..more {
        path.push(Step { name: 1 + random.below(4) as u16, label: if at < others { low } else { subject } });
    }
    path
}

/// What an insert answers by the document's words.
fn insert_answer(before: &BTreeMap<Path, String>, missing: &[Path], subject: u8) -> (u32, u64) {
    let held = before.keys().filter(|path| path.label() == Some(subject)).count();
    match missing {
        _ if missing.iter().any(|path| path.label() != Some(subject)) => (7, 0),
        [] => (8, 0),
        _ if held + missing.len() > 32 => (9, 0),
        _ => (0, missing.len() as u64 - 1),
    }
}

#[test]
fn an_insert_makes_what_the_document_says() {
    let mut random = Random::new(10);
    let (mut met, mut made) = ([0; 10], [0; 6]);
    for _ in 0..30 {
        let mut store = grown(&mut random);
        let subject = random.pick(&[0, 9, 16, 24, 31]);
        for _ in 0..60 {
            let before = elements(&store);
            let held: Vec<Path> = before.keys().copied().collect();
            let path = below_some(&mut random, &held, subject);
            let listed = listed(&store, subject);
            let prefixes = (1..=path.depth()).map(|depth| path.beginning(depth));
            let missing: Vec<Path> = prefixes.filter(|prefix| !listed.contains_key(prefix)).collect();
            let expected = insert_answer(&before, &missing, subject);
            let answer = insert(&mut store, subject.into(), &path.bytes(), TEXT, b"CUFF");
            assert_eq!((answer.number, answer.count), expected, "{subject} {path:?}");
            met[expected.0 as usize] += 1;
            let mut after = before;
            if expected.0 == 0 {
                made[missing.len() - 1] += 1;
                after.extend(missing.iter().map(|prefix| (*prefix, format!("{:?}", Value::read(GROUP, &[])))));
                after.insert(path, format!("{:?}", Value::read(TEXT, b"CUFF")));
            }
            assert_eq!(elements(&store), after);
            assert!((0..LABELS).all(|label| partition(&store, label).is_well_formed()));
        }
    }
    assert!([0, 7, 8, 9].iter().all(|number| met[*number] > 30), "{met:?}");
    assert!(!made.contains(&0), "{made:?}");
}

#[test]
fn a_missing_beginning_is_found_at_every_depth() {
    let mut store = vec![0; STORE];
    for depth in 1..=6 {
        group(&mut store, 0, &[(1, 0); 6][..depth]);
    }
    for gone in 0..5 {
        let mut corrupted = store.clone();
        corrupted.copy_within(4 + 40 * (gone + 1)..PARTITION, 4 + 40 * gone);
        corrupted[PARTITION - 40..PARTITION].fill(0);
        corrupted[0] -= 1;
        assert!(!partition(&corrupted, 0).is_well_formed(), "without the path of {} steps", gone + 1);
    }
    assert!(partition(&store, 0).is_well_formed());
}

/// The path of names and labels.
fn steps(given: &[(u16, u8)]) -> Path {
    Path::new(&given.iter().map(|(name, label)| Step { name: *name, label: *label }).collect::<Vec<_>>())
}

/// Lays texts at these paths into a label's partition, in the order in which they are given.
fn put(store: &mut [u8], label: u8, paths: &[Path]) {
    let part = &mut store[PARTITION * usize::from(label)..][..PARTITION];
    part.fill(0);
    part[0] = paths.len() as u8;
    for (slot, (at, path)) in part[HEAD..].as_chunks_mut::<SLOT>().0.iter_mut().zip(paths.iter().enumerate()) {
        *slot = slot_of(path, TEXT as u8, format!("{at:02}").as_bytes());
    }
}

/// The paths of a label's partition.
fn paths_of(store: &[u8], label: u8) -> Vec<Path> {
    partition(store, label).slots().map(|slot| slot.path()).collect()
}

#[test]
fn the_highest_level_is_on_top() {
    let mut store = vec![0; STORE];
    for (name, label) in [(10, 0), (10, 8), (10, 9), (10, 16), (10, 24), (10, 1), (9, 31)] {
        assert_eq!(group(&mut store, label.into(), &[(name, label)]), 0);
    }
    let lines = "1 9 31 P G -;1 10 24 P G -;1 10 16 P G -;1 10 8 P G -;1 10 9 P G -;1 10 0 P G -;1 10 1 P G -;";
    assert_eq!(seen(&store, 31), format!("VIEW 31 7;{lines}"));
}

#[test]
fn example_of_the_migration() {
    let mut store = vec![0; STORE];
    put(&mut store, 0, &[steps(&[(10, 0)]), steps(&[(11, 0)])]);
    put(&mut store, 8, &[steps(&[(10, 8)])]);
    let order = [&[(10, 0), (1, 9)][..], &[(10, 8), (1, 9)], &[(10, 9)], &[(10, 9), (1, 9)]].map(steps);
    put(&mut store, 9, &order);
    store[PARTITION * 5 + 2] = 1;
    let number = |store: &[u8], subject| view(store, subject, &[], &mut [0; 200]);
    assert_eq!((number(&store, 9).number, number(&store, 8).count), (3, 51));
    assert_eq!(migrate(&mut store), Migration { number: 0, mask: 32 });
    assert_eq!(paths_of(&store, 9), [1, 2, 3, 0].map(|at| order[at]));
    assert_eq!((number(&store, 9).count, number(&store, 5).number), (104, 3));
    let after = store.clone();
    assert_eq!(migrate(&mut store), Migration { number: 0, mask: 544 });
    assert!(store == after);
    assert_eq!(migrate(&mut [0; STORE - 1]), Migration { number: 1, mask: 0 });
}

/// Which of two paths is first by the document's words, with a number for each label that tells which comes first.
fn plain_order(one: &Path, two: &Path, place: fn(u8) -> (i32, u8)) -> Ordering {
    for (one, two) in one.steps().iter().zip(two.steps()) {
        let order = one.name.cmp(&two.name).then(place(one.label).cmp(&place(two.label)));
        if order != Ordering::Equal {
            return order;
        }
    }
    one.depth().cmp(&two.depth())
}

/// The order of now: level from high to low, then compartments from low to high.
fn plain_now(one: &Path, two: &Path) -> Ordering {
    plain_order(one, two, |label| (-i32::from(label / 8), label % 8))
}

/// The order of before: by the label's number.
fn plain_before(one: &Path, two: &Path) -> Ordering {
    plain_order(one, two, |label| (0, label))
}

#[test]
fn paths_are_ordered_as_the_document_says() {
    let mut random = Random::new(11);
    let any = |random: &mut Random| {
        let step = |random: &mut Random| (random.pick(&[1, 2, 256]), random.below(32) as u8);
        let given: Vec<(u16, u8)> = (0..random.below(4)).map(|_| step(random)).collect();
        steps(&given)
    };
    let mut met = BTreeSet::new();
    for _ in 0..20_000 {
        let (one, two) = (any(&mut random), any(&mut random));
        assert_eq!(one.cmp(&two), plain_now(&one, &two), "{one:?} {two:?}");
        assert_eq!(one.old_cmp(&two), plain_before(&one, &two), "{one:?} {two:?}");
        met.insert((one.cmp(&two), one.old_cmp(&two)));
    }
    assert_eq!(met.len(), 5, "before, equal and behind in both, and each of the others by one alone");
}

/// Whether a partition of valid elements is well formed by the document's words in an order.
fn is_plainly_well_formed(paths: &[Path], label: u8, order: fn(&Path, &Path) -> Ordering) -> bool {
    let beginnings = |path: &Path| (1..path.depth()).map(|depth| path.beginning(depth)).collect::<Vec<_>>();
    let has_own = |path: &Path| {
        path.label() == Some(label)
            && beginnings(path).iter().all(|above| above.label() != Some(label) || paths.contains(above))
    };
    paths.windows(2).all(|pair| order(&pair[0], &pair[1]) == Ordering::Less) && paths.iter().all(has_own)
}

/// A store most of whose partitions are in the order of before, and some of them not well formed in it.
fn mostly_before(random: &mut Random) -> Vec<u8> {
    let mut store = grown(random);
    for label in 0..LABELS {
        let mut paths = paths_of(&store, label);
        if random.percent(70) {
            paths.sort_by(plain_before);
        }
        if let (true, Some(last)) = (random.percent(10), paths.len().checked_sub(1).filter(|last| *last > 0)) {
            paths.swap(random.below(last), last);
        }
        if random.percent(10) && paths.len() > 1 {
            paths.remove(random.below(paths.len()));
        }
        put(&mut store, label, &paths);
    }
    store
}

#[test]
fn a_migration_does_what_the_document_says() {
    let mut random = Random::new(12);
    let mut met = [0; 4];
    for _ in 0..300 {
        let before = mostly_before(&mut random);
        let mut store = before.clone();
        let Migration { number, mask } = migrate(&mut store);
        assert_eq!(number, 0);
        for label in 0..LABELS {
            let mut paths = paths_of(&before, label);
            let was = is_plainly_well_formed(&paths, label, plain_before);
            let is = is_plainly_well_formed(&paths, label, plain_now);
            assert_eq!(mask >> label & 1 == 0, was, "the bit of {label}");
            met[usize::from(was) + 2 * usize::from(is)] += 1;
            let part = |store: &[u8]| store.as_chunks::<PARTITION>().0[usize::from(label)];
            if !was || is {
                assert_eq!(part(&store), part(&before), "partition {label}");
                continue;
            }
            paths.sort_by(plain_now);
            assert_eq!(paths_of(&store, label), paths);
            assert_eq!(elements_of(&store, label), elements_of(&before, label));
            assert!(partition(&store, label).is_well_formed(), "partition {label}");
        }
    }
    assert!(met.iter().all(|count| *count > 30), "{met:?}");
}

/// Every element of a partition and, in words, its value.
fn elements_of(store: &[u8], label: u8) -> BTreeMap<Path, String> {
    partition(store, label).slots().map(|slot| (slot.path(), format!("{:?}", slot.value()))).collect()
}
