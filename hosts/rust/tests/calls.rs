//! The calls through the package: document 01's example, every refusal, what is left untouched, what an update keeps, XML read
//! back, grades, styles taken in as XML, missing groups, the order of versions, and the migration of stores written before.

use dossier::{
    raw, Answer, Error, Grade, GradeAnswer, Label, Line, Mark, Mask, MigrationAnswer, Path, Refusal, Store, Value, View,
    LISTING_BYTES_MAX, PARTITION_BYTES, STORE_BYTES, XML_BYTES_MAX,
};

/// What every output holds before a call.
const FILL: u8 = 0xa5;

/// 10:0, 20:16 and 30:0 below it, and 10:16, as bytes.
const P10: &[u8] = &[10, 0, 0];
const P10_20: &[u8] = &[10, 0, 0, 20, 0, 16];
const P10_30: &[u8] = &[10, 0, 0, 30, 0, 0];
const P10_16: &[u8] = &[10, 0, 16];

/// A group of label 0 as XML.
const GROUP_0: &str = r#"<e4 label="0" preserve="PRESENT" kind="G"></e4>"#;

/// The last listing of document 01's example.
const LISTING: &[u8] = b"VIEW\t16\t2\n1\t10\t0\tR\t-\t-\n2\t20\t16\tP\tM\t-150\n";

/// The label of a number.
fn label(number: u32) -> Label {
    Label::from_number(number).expect("a label")
}

/// The path of names and label numbers.
fn path(steps: &[(u16, u32)]) -> Path {
    steps.iter().fold(Path::root(), |path, (name, number)| path.child(*name, label(*number)))
}

/// The error of a refusal.
fn refused<T>(refusal: Refusal) -> Result<T, Error> {
    Err(Error::Refused(refusal))
}

/// The three calls of the example that change the store.
fn make_example<B: AsMut<[u8]>>(store: &mut Store<B>) {
    assert_eq!(store.insert(label(0), &path(&[(10, 0)]), Value::Group), Ok(0));
    assert_eq!(store.insert(label(16), &path(&[(10, 0), (20, 16)]), Value::Measure(-150)), Ok(0));
    assert_eq!(store.delete(label(0), &path(&[(10, 0)])), Ok(1));
}

/// A store after the example.
fn example() -> Store {
    let mut store = Store::empty();
    make_example(&mut store);
    store
}

/// A call to be refused.
#[derive(Clone, Copy, Debug)]
enum Call<'a> {
    View(&'a [u8], usize),
    ViewXml(&'a [u8], usize),
    Grade(&'a [u8], &'a [u8], u32),
    Insert(&'a [u8], u32, &'a [u8]),
    Update(&'a [u8], u32, &'a [u8]),
    Delete(&'a [u8]),
    InsertXml(&'a [u8], &'a str),
}

/// Each call of one path, the three that only read the store first and XML intake last, with nothing else to be refused but for
/// the label of the text, 0.
fn each_call(path: &[u8]) -> [Call<'_>; 7] {
    [
        Call::View(path, 64),
        Call::ViewXml(path, 64),
        Call::Grade(path, path, 1),
        Call::Insert(path, 0, &[]),
        Call::Update(path, 0, &[]),
        Call::Delete(path),
        Call::InsertXml(path, GROUP_0),
    ]
}

/// Makes a call on lent bytes. The answer of a grade that is refused has 0 twice behind its number, and so count 0 here.
fn perform(store: &mut [u8], subject: u32, call: Call, output: &mut [u8]) -> Answer {
    match call {
        Call::View(path, room) => raw::view(store, subject, path, &mut output[..room]),
        Call::ViewXml(path, room) => raw::view_xml(store, subject, path, &mut output[..room]),
        Call::Grade(base, top, n) => {
            let GradeAnswer { number, step, remainder } = raw::grade(store, subject, base, top, n);
            assert_eq!((step, remainder), (0, 0), "{subject} {call:?}");
            Answer { number, count: 0 }
        }
        Call::Insert(path, kind, value) => raw::insert(store, subject, path, kind, value),
        Call::Update(path, kind, value) => raw::update(store, subject, path, kind, value),
        Call::Delete(path) => raw::delete(store, subject, path),
        Call::InsertXml(parent, text) => raw::insert_xml(store, subject, parent, text.as_bytes()),
    }
}

/// A call is refused by a number, with count 0, and leaves store and output.
#[track_caller]
fn assert_refused(store: &mut [u8], subject: u32, call: Call, number: u32) {
    let before = store.to_vec();
    let mut output = [FILL; 64];
    let answer = perform(store, subject, call, &mut output);
    assert_eq!(answer, Answer { number, count: 0 }, "{subject} {call:?}");
    assert!(store == before, "the store after {subject} {call:?}");
    assert_eq!(output, [FILL; 64], "the output after {subject} {call:?}");
}

#[test]
fn the_example_fits_40_bytes() {
    let store = example();
    let mut output = [FILL; 64];
    let view = store.view_into(label(16), &Path::root(), &mut output[..40]).expect("a view");
    assert_eq!(view.listing(), LISTING);
    let lines = view.lines().collect::<Result<Vec<_>, _>>();
    let lines = lines.map(|lines| lines.into_iter().map(|line| (line.path, line.mark)).collect::<Vec<_>>());
    let removed = (path(&[(10, 0)]), Mark::Removed);
    let live = (path(&[(10, 0), (20, 16)]), Mark::Live(Value::Measure(-150)));
    assert_eq!(lines, Ok(vec![removed, live]));
    assert_eq!(output[40..], [FILL; 24]);
}

#[test]
fn the_example_in_39_bytes_is_refused_by_10() {
    let store = example();
    let mut output = [FILL; 64];
    assert_eq!(store.view_into(label(16), &Path::root(), &mut output[..39]), refused(Refusal::OutputShort));
    assert_eq!(output, [FILL; 64]);
}

#[test]
fn bytes_behind_a_listing_keep_their_contents() {
    let store = example();
    let before = store.as_bytes().to_vec();
    let mut output = [FILL; 64];
    assert_eq!(
        store.view_into(label(0), &Path::root(), &mut output).map(|view| view.listing().to_vec()),
        Ok(b"VIEW\t0\t0\n".to_vec())
    );
    assert_eq!(output[9..], [FILL; 55]);
    assert!(store.as_bytes() == before);
}

#[test]
fn a_removed_element_comes_again() {
    let mut store = example();
    assert_eq!(store.insert(label(0), &path(&[(10, 0)]), Value::Text("SLEEVE")), Ok(0));
    let mut output = vec![0; LISTING_BYTES_MAX];
    let view = store.view_into(label(16), &path(&[(10, 0)]), &mut output).expect("a view");
    let values = view.lines().map(|line| line.map(|line| line.value())).collect::<Result<Vec<_>, _>>();
    assert_eq!(values, Ok(vec![Some(Value::Text("SLEEVE")), Some(Value::Measure(-150))]));
}

/// A store with 10:0, 10:0/20:0 and 10:0/20:0/30:0 of these values, and 10:0/20:0/25:16, a measure.
fn nested(values: [Value; 3]) -> Store {
    let mut store = Store::empty();
    let steps = [(10, 0), (20, 0), (30, 0)];
    for (depth, value) in (1..).zip(values) {
        assert_eq!(store.insert(label(0), &path(&steps[..depth]), value), Ok(0));
    }
    assert_eq!(store.insert(label(16), &path(&[(10, 0), (20, 0), (25, 16)]), Value::Measure(-150)), Ok(0));
    store
}

/// What a subject sees of all.
fn seen(store: &Store, subject: u32) -> String {
    let mut output = [0; 256];
    let view = store.view_into(label(subject), &Path::root(), &mut output).expect("a view");
    String::from_utf8_lossy(view.listing()).into_owned()
}

#[test]
fn an_update_keeps_what_is_below() {
    let mut store = nested([Value::Group; 3]);
    assert_eq!(store.update(label(0), &path(&[(10, 0)]), Value::Text("PIECE")), Ok(1));
    assert_eq!(seen(&store, 0), "VIEW\t0\t3\n1\t10\t0\tP\tT\tPIECE\n2\t20\t0\tP\tG\t-\n3\t30\t0\tP\tG\t-\n");
    assert_eq!(store.update(label(0), &path(&[(10, 0), (20, 0)]), Value::Measure(5)), Ok(1));
    assert_eq!(seen(&store, 0), "VIEW\t0\t3\n1\t10\t0\tP\tT\tPIECE\n2\t20\t0\tP\tM\t5\n3\t30\t0\tP\tG\t-\n");
    let above = "1\t10\t0\tP\tT\tPIECE\n2\t20\t0\tP\tM\t5\n";
    assert_eq!(seen(&store, 16), format!("VIEW\t16\t4\n{above}3\t25\t16\tP\tM\t-150\n3\t30\t0\tP\tG\t-\n"));
    assert!(store.as_bytes() == nested([Value::Text("PIECE"), Value::Measure(5), Value::Group]).as_bytes());
    assert_refused(store.as_mut_bytes(), 0, Call::Update(&[11, 0, 0], 0, &[]), 7);
}

#[test]
fn an_update_leaves_nothing_of_the_old_value() {
    let mut store = nested([Value::Group; 3]);
    for value in [Value::Text("SIXTEEN LETTERS."), Value::Text("A"), Value::Measure(i32::MIN), Value::Group] {
        assert_eq!(store.update(label(0), &path(&[(10, 0), (20, 0)]), value), Ok(1));
        assert!(store.as_bytes() == nested([Value::Group, value, Value::Group]).as_bytes(), "{value:?}");
    }
}

#[test]
fn deletes_count_what_they_take() {
    let mut store = nested([Value::Group; 3]);
    assert_eq!(store.update(label(0), &path(&[(10, 0), (20, 0)]), Value::Measure(1)), Ok(1));
    assert_eq!(store.delete(label(0), &path(&[(10, 0)])), Ok(3));
    assert_eq!(seen(&store, 0), "VIEW\t0\t0\n");
    assert_eq!(seen(&store, 16), "VIEW\t16\t3\n1\t10\t0\tR\t-\t-\n2\t20\t0\tR\t-\t-\n3\t25\t16\tP\tM\t-150\n");
    assert_eq!(store.delete(label(16), &path(&[(10, 0), (20, 0), (25, 16)])), Ok(1));
    assert!(store.as_bytes() == Store::empty().as_bytes());
}

/// The path of six steps of label 16, the first of this name.
fn deep(name: u16) -> Path {
    path(&[(name, 16), (1, 16), (2, 16), (3, 16), (4, 16), (5, 16)])
}

#[test]
fn an_insert_makes_the_missing_groups() {
    let mut store = Store::empty();
    let measure = Value::Measure(1);
    assert_eq!(store.insert(label(0), &path(&[(10, 0), (20, 0), (30, 0)]), measure), Ok(2));
    assert_eq!(seen(&store, 0), "VIEW\t0\t3\n1\t10\t0\tP\tG\t-\n2\t20\t0\tP\tG\t-\n3\t30\t0\tP\tM\t1\n");
    assert_eq!(store.insert(label(0), &path(&[(10, 0), (20, 0), (30, 0)]), measure), refused(Refusal::Live));
    assert_eq!(store.insert(label(16), &path(&[(10, 0), (21, 16), (22, 16), (23, 16)]), measure), Ok(2));
    assert_eq!(store.insert(label(16), &path(&[(12, 16)]), measure), Ok(0));
    assert_eq!(store.insert(label(16), &deep(12), measure), Ok(4));
    assert_eq!(store.delete(label(0), &path(&[(10, 0)])), Ok(3));
    assert_eq!(store.insert(label(16), &path(&[(10, 0), (21, 16), (40, 16)]), measure), Ok(0));
    assert_eq!(store.insert(label(0), &path(&[(10, 0), (50, 0), (51, 0)]), measure), Ok(2));
    assert_eq!(seen(&store, 0), "VIEW\t0\t3\n1\t10\t0\tP\tG\t-\n2\t50\t0\tP\tG\t-\n3\t51\t0\tP\tM\t1\n");
    assert_eq!(store.insert(label(16), &deep(13), Value::Group), Ok(5));
}

#[test]
fn missing_steps_of_another_label_are_refused_by_7() {
    let mut store = Store::empty();
    assert_refused(store.as_mut_bytes(), 16, Call::Insert(&[11, 0, 8, 12, 0, 16], 0, &[]), 7);
    assert_eq!(store.insert(label(0), &path(&[(10, 0)]), Value::Group), Ok(0));
    assert_refused(store.as_mut_bytes(), 16, Call::Insert(&[10, 0, 0, 24, 0, 0, 25, 0, 16, 26, 0, 16], 0, &[]), 7);
    assert_refused(store.as_mut_bytes(), 0, Call::Update(&[10, 0, 0, 24, 0, 0], 0, &[]), 7);
    assert_refused(store.as_mut_bytes(), 0, Call::InsertXml(&[10, 0, 0, 24, 0, 0], GROUP_0), 7);
}

#[test]
fn missing_groups_without_room_are_refused_by_9() {
    let mut store = Store::empty();
    for name in 100..130 {
        assert_eq!(store.insert(label(16), &path(&[(name, 16)]), Value::Group), Ok(0));
    }
    assert_refused(store.as_mut_bytes(), 16, Call::Insert(&[200, 0, 16, 1, 0, 16, 2, 0, 16], 0, &[]), 9);
    assert_eq!(store.insert(label(16), &path(&[(200, 16), (1, 16), (2, 16)]), Value::Group), refused(Refusal::Full));
    assert_eq!(store.delete(label(16), &path(&[(129, 16)])), Ok(1));
    assert_eq!(store.insert(label(16), &path(&[(203, 16), (1, 16)]), Value::Group), Ok(1));
    assert_eq!(store.insert(label(16), &path(&[(202, 16)]), Value::Group), Ok(0));
    assert_eq!(store.insert(label(16), &path(&[(201, 16)]), Value::Group), refused(Refusal::Full));
}

#[test]
fn a_borrowed_store_is_written_in_place() {
    let mut bytes = vec![0; STORE_BYTES];
    make_example(&mut Store::from(&mut bytes[..]));
    assert!(bytes == example().as_bytes());
    let mut output = [0; 40];
    assert_eq!(Store::from(bytes).view_into(label(16), &Path::root(), &mut output).map(View::into_listing), Ok(LISTING.into()));
}

#[test]
fn refusal_1_store_of_another_length() {
    for length in [0, 1, STORE_BYTES - 1, STORE_BYTES + 1] {
        let mut bytes = vec![0; length];
        for call in each_call(P10) {
            assert_refused(&mut bytes, 40, call, 1);
        }
        let mut store = Store::from(&mut bytes[..]);
        assert_eq!(store.view_into(label(0), &Path::root(), &mut [0; 64]), refused(Refusal::StoreLength));
        assert_eq!(store.view_xml_into(label(0), &Path::root(), &mut [0; 64]), refused(Refusal::StoreLength));
        assert_eq!(store.grade(label(0), &path(&[(10, 0)]), &Path::root(), 0), refused(Refusal::StoreLength));
        assert_eq!(store.insert(label(0), &path(&[(10, 0)]), Value::Group), refused(Refusal::StoreLength));
        assert_eq!(store.update(label(0), &path(&[(10, 0)]), Value::Group), refused(Refusal::StoreLength));
        assert_eq!(store.delete(label(0), &path(&[(10, 0)])), refused(Refusal::StoreLength));
        assert_eq!(store.insert_xml(label(0), &Path::root(), ""), refused(Refusal::StoreLength));
    }
}

#[test]
fn refusal_2_subject_on_all_its_bits() {
    let mut store = example();
    for subject in [32, 256, 287, u32::MAX - 31, u32::MAX] {
        for call in each_call(P10) {
            assert_refused(store.as_mut_bytes(), subject, call, 2);
        }
    }
}

#[test]
fn refusal_3_partition_not_well_formed() {
    let mut store = Store::empty();
    store.as_mut_bytes()[16 * PARTITION_BYTES] = 33;
    for subject in [16, 17, 24, 31] {
        for call in each_call(P10) {
            assert_refused(store.as_mut_bytes(), subject, call, 3);
        }
    }
    assert!(store.view_into(label(15), &Path::root(), &mut [0; 64]).is_ok());
    assert!(store.view_xml_into(label(15), &Path::root(), &mut [0; 64]).is_ok());
    assert_eq!(store.view_into(label(16), &Path::root(), &mut [0; 64]), refused(Refusal::NotWellFormed));
    assert_eq!(store.view_xml_into(label(16), &Path::root(), &mut [0; 64]), refused(Refusal::NotWellFormed));
    assert_eq!(store.grade(label(16), &Path::root(), &Path::root(), 1), refused(Refusal::NotWellFormed));
    assert_eq!(store.grade(label(15), &Path::root(), &Path::root(), 1), refused(Refusal::NoMeasure));
    assert_eq!(store.insert_xml(label(16), &Path::root(), ""), refused(Refusal::NotWellFormed));
    assert_eq!(store.insert_xml(label(15), &Path::root(), ""), refused(Refusal::Form));
}

#[test]
fn refusal_4_what_is_no_path() {
    let mut store = Store::empty();
    let seven = [1, 0, 0].repeat(7);
    for no_path in [&[0, 0, 0][..], &[10, 0, 32], &[10, 0, 16, 20, 0, 9], &[10, 0], &seven] {
        for call in each_call(no_path) {
            assert_refused(store.as_mut_bytes(), 9, call, 4);
        }
        assert_refused(store.as_mut_bytes(), 9, Call::Grade(no_path, P10, 0), 4);
        assert_refused(store.as_mut_bytes(), 9, Call::Grade(P10, no_path, 0), 4);
    }
    assert_refused(store.as_mut_bytes(), 0, Call::Delete(&[]), 4);
    assert_eq!(store.insert(label(0), &Path::root(), Value::Group), refused(Refusal::Path));
    assert_eq!(store.insert(label(0), &path(&[(0, 0)]), Value::Group), refused(Refusal::Path));
}

#[test]
fn refusal_5_kind_on_all_its_bits_and_value() {
    let mut store = Store::empty();
    assert_eq!(store.insert(label(0), &path(&[(10, 0)]), Value::Group), Ok(0));
    for (kind, value) in [(3, &b"A"[..]), (256, b""), (257, &[0; 4]), (258, b"A"), (u32::MAX, b""), (0, b"A"), (1, &[0; 3])] {
        assert_refused(store.as_mut_bytes(), 0, Call::Insert(P10_30, kind, value), 5);
        assert_refused(store.as_mut_bytes(), 0, Call::Update(P10, kind, value), 5);
    }
    for text in ["", "SEVENTEEN LETTERS", "\t", "ä"] {
        assert_eq!(store.update(label(0), &path(&[(10, 0)]), Value::Text(text)), refused(Refusal::Value));
    }
    assert_eq!(store.update(label(0), &path(&[(10, 0)]), Value::Text("SIXTEEN LETTERS.")), Ok(1));
}

#[test]
fn refusals_6_7_and_8_of_the_place() {
    let mut store = Store::empty();
    for call in each_call(P10_30).into_iter().filter(|call| !matches!(call, Call::Insert(..))) {
        assert_refused(store.as_mut_bytes(), 0, call, 7);
    }
    assert_refused(store.as_mut_bytes(), 16, Call::Insert(P10_20, 0, &[]), 7);
    assert_eq!(store.insert(label(0), &path(&[(10, 0)]), Value::Group), Ok(0));
    assert_eq!(store.insert(label(16), &path(&[(10, 16)]), Value::Group), Ok(0));
    for call in each_call(P10).into_iter().skip(3).take(3) {
        assert_refused(store.as_mut_bytes(), 16, call, 6);
    }
    assert_refused(store.as_mut_bytes(), 0, Call::View(P10_16, 64), 7);
    assert_refused(store.as_mut_bytes(), 0, Call::ViewXml(P10_16, 64), 7);
    assert_refused(store.as_mut_bytes(), 0, Call::Insert(P10, 0, &[]), 8);
    assert_refused(store.as_mut_bytes(), 16, Call::Delete(P10_20), 7);
}

#[test]
fn refusal_9_full_partition() {
    let mut store = Store::empty();
    for name in 1..=32 {
        assert_eq!(store.insert(label(0), &path(&[(name, 0)]), Value::Group), Ok(0));
    }
    assert_refused(store.as_mut_bytes(), 0, Call::Insert(&[33, 0, 0], 0, &[]), 9);
    assert_eq!(store.insert(label(16), &path(&[(33, 16)]), Value::Group), Ok(0));
    assert_eq!(store.delete(label(0), &path(&[(10, 0)])), Ok(1));
    assert_eq!(store.insert(label(0), &path(&[(33, 0)]), Value::Group), Ok(0));
}

#[test]
fn refusal_10_output_too_short() {
    let mut store = example();
    for room in [0, 1, 39] {
        assert_refused(store.as_mut_bytes(), 16, Call::View(&[], room), 10);
        assert_refused(store.as_mut_bytes(), 16, Call::ViewXml(&[], room), 10);
    }
}

#[test]
fn the_smallest_measure_comes_back() {
    let mut store = Store::empty();
    assert_eq!(store.insert(label(0), &path(&[(10, 0)]), Value::Measure(i32::MIN)), Ok(0));
    let mut output = [0; 64];
    let view = store.view_into(label(0), &Path::root(), &mut output).expect("a view");
    assert_eq!(view.listing(), b"VIEW\t0\t1\n1\t10\t0\tP\tM\t-2147483648\n");
    assert_eq!(view.lines().next().and_then(Result::ok).and_then(|line| line.value()), Some(Value::Measure(i32::MIN)));
}

/// The store of the worked examples of XML: 10:0 and below it 7:0 and 20:16, 5:16 below 20:16, and 11:16; 0 deletes 10:0.
fn worked() -> Store {
    let mut store = Store::empty();
    for (subject, steps, value) in [
        (0, &[(10, 0)][..], Value::Group),
        (16, &[(10, 0), (20, 16)], Value::Measure(-150)),
        (16, &[(10, 0), (20, 16), (5, 16)], Value::Text("a<b & \"c\">d")),
        (16, &[(11, 16)], Value::Text("&")),
        (0, &[(10, 0), (7, 0)], Value::Text("SLEEVE")),
    ] {
        assert_eq!(store.insert(label(subject), &path(steps), value), Ok(0));
    }
    assert_eq!(store.delete(label(0), &path(&[(10, 0)])), Ok(2));
    store
}

#[test]
fn xml_of_the_worked_examples() {
    let store = worked();
    let e5 = r#"<e5 label="16" preserve="PRESENT" kind="T">a&lt;b &amp; "c"&gt;d</e5>"#;
    let e20 = format!(r#"<e20 label="16" preserve="PRESENT" kind="M">-150{e5}</e20>"#);
    let e10 = format!(r#"<e10 label="0" preserve="REMOVED" kind="-">{e20}</e10>"#);
    let e11 = r#"<e11 label="16" preserve="PRESENT" kind="T">&amp;</e11>"#;
    for (subject, steps, elements, length) in [
        (0, &[][..], "", 31),
        (16, &[], &format!("{e10}{e11}"), 259),
        (16, &[(10, 0)], &e10, 204),
        (16, &[(10, 0), (20, 16), (5, 16)], e5, 101),
        (16, &[(11, 16)], e11, 87),
        (8, &[], "", 31),
    ] {
        let expected = format!(r#"<dossier subject="{subject}">{elements}</dossier>"#);
        let mut output = [FILL; 300];
        assert_eq!(expected.len(), length);
        assert_eq!(store.view_xml_into(label(subject), &path(steps), &mut output[..length]), Ok(&expected[..]));
        assert_eq!(output[length..], [FILL; 300][length..]);
        let mut output = [FILL; 300];
        assert_eq!(store.view_xml_into(label(subject), &path(steps), &mut output[..length - 1]), refused(Refusal::OutputShort));
        assert_eq!(output, [FILL; 300]);
    }
    assert_eq!(store.view_xml_into(label(16), &path(&[(9, 0)]), &mut [0; 300]), refused(Refusal::Absent));
}

#[test]
fn bytes_behind_xml_keep_their_contents() {
    let store = worked();
    let before = store.as_bytes().to_vec();
    let mut output = vec![FILL; XML_BYTES_MAX];
    assert_eq!(store.view_xml_into(label(16), &Path::root(), &mut output).map(str::len), Ok(259));
    assert!(output[259..].iter().all(|byte| *byte == FILL));
    assert!(store.as_bytes() == before);
}

/// An element, of a listing or read from XML: depth, name and label, and what its attributes preserve and kind and its value are.
type Element = (usize, u16, u32, String, String, String);

/// An element of a listing.
fn listed(line: &Line) -> Element {
    let (preserve, kind, value) = match line.mark {
        Mark::Removed => ("REMOVED", "-", String::new()),
        Mark::Live(Value::Group) => ("PRESENT", "G", String::new()),
        Mark::Live(Value::Measure(number)) => ("PRESENT", "M", number.to_string()),
        Mark::Live(Value::Text(text)) => ("PRESENT", "T", text.to_string()),
    };
    (line.depth(), line.name, line.label.number(), preserve.to_string(), kind.to_string(), value)
}

/// What stands between the quotes of an attribute of this name.
fn attribute<'a>(written: Option<&'a str>, name: &str) -> &'a str {
    let quoted = written.and_then(|written| written.strip_prefix(name)?.strip_prefix('='));
    quoted.and_then(|quoted| quoted.strip_prefix('"')?.strip_suffix('"')).expect("an attribute")
}

/// The elements of XML, in their order; those directly in the dossier tag have this depth. Panics where it is not well formed.
fn read_xml(xml: &str, subject: u32, top: usize) -> Vec<Element> {
    let inside = xml.strip_prefix(&format!(r#"<dossier subject="{subject}">"#)).expect("the dossier tag");
    let inside = inside.strip_suffix("</dossier>").expect("the dossier's end tag");
    let mut open = Vec::new();
    let mut elements = Vec::new();
    assert!(inside.is_empty() || inside.starts_with('<'), "{inside}");
    for piece in inside.split('<').skip(1) {
        let (tag, text) = piece.split_once('>').expect("the end of a tag");
        if let Some(name) = tag.strip_prefix("/e") {
            assert_eq!((open.pop(), text), (Some(name), ""));
            continue;
        }
        let mut fields = tag.split(' ');
        let name = fields.next().and_then(|name| name.strip_prefix('e')).expect("a name");
        let [label, preserve, kind] = ["label", "preserve", "kind"].map(|name| attribute(fields.next(), name));
        assert_eq!(fields.next(), None);
        assert!(!text.contains('>'), "{text}");
        let value = text.replace("&lt;", "<").replace("&gt;", ">").replace("&amp;", "&");
        let (depth, label) = (top + open.len(), label.parse().expect("a label"));
        elements.push((depth, name.parse().expect("a number"), label, preserve.to_string(), kind.to_string(), value));
        open.push(name);
    }
    assert_eq!(open, [""; 0]);
    elements
}

/// The XML of a view has the elements of its listing, in their order; how many they are.
fn assert_same_elements(store: &Store, subject: u32, steps: &[(u16, u32)]) -> usize {
    let (mut listing, mut xml) = (vec![0; LISTING_BYTES_MAX], vec![0; XML_BYTES_MAX]);
    let view = store.view_into(label(subject), &path(steps), &mut listing).expect("a view");
    let xml = store.view_xml_into(label(subject), &path(steps), &mut xml).expect("a view as XML");
    let lines = view.lines().map(|line| line.map(|line| listed(&line))).collect::<Result<Vec<_>, _>>().expect("lines");
    assert_eq!(read_xml(xml, subject, steps.len().max(1)), lines, "{subject} {steps:?}");
    lines.len()
}

/// A store with every character in texts, versions of one name, and six steps of which the first four are removed.
fn mixed() -> Store {
    let mut store = worked();
    let characters = (32..=126).map(char::from).collect::<String>();
    for (at, name) in (0..characters.len()).step_by(16).zip(1..) {
        let text = &characters[at..characters.len().min(at + 16)];
        assert_eq!(store.insert(label(0), &path(&[(name, 0)]), Value::Text(text)), Ok(0));
    }
    for number in 0..32 {
        assert_eq!(
            store.insert(label(number), &path(&[(7, number)]), Value::Measure(i32::MIN.wrapping_add_unsigned(number))),
            Ok(0)
        );
    }
    let deep = [(65535, 0), (65534, 0), (3, 8), (4, 8), (5, 24), (6, 31)];
    for depth in 1..=deep.len() {
        assert_eq!(store.insert(label(deep[depth - 1].1), &path(&deep[..depth]), Value::Text("&<>&<>&<>&<>&<>&")), Ok(0));
    }
    assert_eq!(store.delete(label(0), &path(&deep[..1])), Ok(2));
    assert_eq!(store.delete(label(8), &path(&deep[..3])), Ok(2));
    store
}

#[test]
fn xml_and_listing_have_the_same_elements() {
    let store = mixed();
    for subject in 0..32 {
        assert!(assert_same_elements(&store, subject, &[]) >= 7);
    }
    assert_eq!(assert_same_elements(&store, 31, &[(65535, 0)]), 6);
    assert_eq!(assert_same_elements(&store, 31, &[(65535, 0), (65534, 0), (3, 8)]), 4);
    assert_eq!(assert_same_elements(&store, 24, &[(65535, 0), (65534, 0), (3, 8), (4, 8)]), 2);
    assert_eq!(assert_same_elements(&store, 31, &[(7, 31)]), 1);
    assert_eq!(assert_same_elements(&Store::empty(), 31, &[]), 0);
}

/// The store of the worked examples of grades: seven measures, the group 6:0, the removed 8:0 and the text 10:0.
fn measured() -> Store {
    let mut store = Store::empty();
    for (subject, steps, value) in [
        (0, &[(1, 0)][..], Value::Measure(1000)),
        (0, &[(2, 0)], Value::Measure(1025)),
        (0, &[(3, 0)], Value::Measure(990)),
        (0, &[(4, 0)], Value::Measure(i32::MIN)),
        (0, &[(5, 0)], Value::Measure(i32::MAX)),
        (0, &[(6, 0)], Value::Group),
        (16, &[(7, 16)], Value::Measure(5)),
        (0, &[(8, 0)], Value::Group),
        (16, &[(8, 0), (9, 16)], Value::Measure(6)),
        (0, &[(10, 0)], Value::Text("SLEEVE")),
    ] {
        assert_eq!(store.insert(label(subject), &path(steps), value), Ok(0));
    }
    assert_eq!(store.delete(label(0), &path(&[(8, 0)])), Ok(1));
    store
}

#[test]
fn grades_of_the_worked_examples() {
    let store = measured();
    let before = store.as_bytes().to_vec();
    for (subject, base, top, n, step, remainder) in [
        (0, &[(1, 0)][..], &[(2, 0)][..], 4, 6, 1),
        (0, &[(1, 0)], &[(3, 0)], 3, -4, 2),
        (0, &[(1, 0)], &[(1, 0)], 64, 0, 0),
        (0, &[(4, 0)], &[(5, 0)], 1, 4_294_967_295, 0),
        (0, &[(5, 0)], &[(4, 0)], 1, -4_294_967_295, 0),
        (0, &[(5, 0)], &[(4, 0)], 64, -67_108_864, 1),
        (16, &[(1, 0)], &[(7, 16)], 2, -498, 1),
        (16, &[(8, 0), (9, 16)], &[(1, 0)], 7, 142, 0),
    ] {
        assert_eq!(store.grade(label(subject), &path(base), &path(top), n), Ok(Grade { step, remainder }));
        let answer = raw::grade(store.as_bytes(), subject, path(base).as_bytes(), path(top).as_bytes(), n);
        assert_eq!(answer, GradeAnswer { number: 0, step, remainder });
    }
    assert!(store.as_bytes() == before);
}

#[test]
fn refusals_7_and_12_of_a_grade() {
    let mut store = measured();
    let (absent, no_measure) = (Refusal::Absent, Refusal::NoMeasure);
    for (subject, base, top, refusal) in [
        (0, &[(1, 0)][..], &[(99, 0)][..], absent),
        (0, &[(6, 0)], &[(99, 0)], absent),
        (0, &[], &[(99, 0)], absent),
        (0, &[(1, 0)], &[(7, 16)], absent),
        (0, &[(1, 0)], &[(8, 0)], absent),
        (0, &[(1, 0)], &[(6, 0)], no_measure),
        (0, &[(1, 0)], &[(10, 0)], no_measure),
        (0, &[], &[(1, 0)], no_measure),
        (0, &[], &[], no_measure),
        (16, &[(8, 0)], &[(1, 0)], no_measure),
    ] {
        let [base, top] = [path(base), path(top)];
        assert_eq!(store.grade(label(subject), &base, &top, 2), refused(refusal));
        assert_eq!(store.grade(label(subject), &top, &base, 2), refused(refusal));
        assert_refused(store.as_mut_bytes(), subject, Call::Grade(base.as_bytes(), top.as_bytes(), 2), refusal.number());
    }
}

#[test]
fn refusal_11_sizes_on_all_their_bits() {
    let mut store = measured();
    for n in [0, 65, 255, 256, 257, 320, u32::MAX] {
        for (base, top) in [(&[1, 0, 0][..], &[2, 0, 0][..]), (&[1, 0, 0], &[99, 0, 0]), (&[], &[6, 0, 0])] {
            assert_refused(store.as_mut_bytes(), 0, Call::Grade(base, top, n), 11);
        }
        assert_refused(store.as_mut_bytes(), 0, Call::Grade(&[1, 0, 0], &[1, 0, 40], n), 4);
        assert_eq!(store.grade(label(0), &path(&[(1, 0)]), &path(&[(2, 0)]), n), refused(Refusal::Sizes));
    }
}

#[test]
fn a_grade_divides_every_difference() {
    let mut store = Store::empty();
    let [base, top] = [path(&[(1, 0)]), path(&[(2, 0)])];
    assert_eq!(store.insert(label(0), &base, Value::Measure(0)), Ok(0));
    assert_eq!(store.insert(label(0), &top, Value::Measure(0)), Ok(0));
    for (from, to) in
        [(0, 1), (0, -1), (7, 100), (100, -29), (-64, 64), (i32::MIN, i32::MAX), (i32::MAX, i32::MIN), (-1, i32::MAX)]
    {
        assert_eq!(store.update(label(0), &base, Value::Measure(from)), Ok(1));
        assert_eq!(store.update(label(0), &top, Value::Measure(to)), Ok(1));
        for n in 1..=64 {
            let Grade { step, remainder } = store.grade(label(0), &base, &top, n).expect("a grade");
            assert_eq!(i64::from(n) * step + i64::from(remainder), i64::from(to) - i64::from(from), "{from} {to} {n}");
            assert!(remainder < n, "{from} {to} {n}");
        }
    }
}

/// A text in which @ stands for what is between a name and a kind: label 16 and PRESENT.
fn sent(short: &str) -> String {
    short.replace('@', r#" label="16" preserve="PRESENT" kind="#)
}

/// A group of a label with groups of these names inside it.
fn sent_groups(top: u16, number: u32, names: impl Iterator<Item = u16>) -> String {
    let group = |name, inside: &str| format!(r#"<e{name} label="{number}" preserve="PRESENT" kind="G">{inside}</e{name}>"#);
    group(top, &names.map(|name| group(name, "")).collect::<String>())
}

/// A store with 10:0, a group.
fn with_style() -> Store {
    let mut store = Store::empty();
    assert_eq!(store.insert(label(0), &path(&[(10, 0)]), Value::Group), Ok(0));
    store
}

/// What a subject sees of a path, as XML.
fn xml(store: &Store, subject: u32, steps: &[(u16, u32)]) -> String {
    let mut output = vec![0; XML_BYTES_MAX];
    store.view_xml_into(label(subject), &path(steps), &mut output).expect("a view as XML").to_string()
}

#[test]
fn styles_of_the_worked_examples() {
    let mut store = with_style();
    let amps = "&amp;".repeat(16);
    let nines = |depth: usize| (0..depth).fold(String::new(), |inside, _| format!(r#"<e9@"G">{inside}</e9>"#));
    let (style, sleeve) = (&[(10, 0)][..], &[(10, 0), (20, 16), (2, 16)][..]);
    for (steps, short, outcome) in [
        (style, r#"<e20@"G"><e3@"M">-150</e3><e2@"T">a &lt; b</e2></e20>"#, Ok(3)),
        (style, r#"<e20@"G"></e20>"#, refused(Refusal::Live)),
        (&[], &format!(r#"<e1@"T">{amps}</e1>"#), Ok(1)),
        (&[], &format!(r#"<e2@"T">{amps}&amp;</e2>"#), refused(Refusal::Form)),
        (&[], r#"<e3@"M">-2147483648</e3>"#, Ok(1)),
        (&[(1, 0), (2, 0), (3, 0), (4, 0), (5, 0), (6, 0)], r#"<e4@"G"></e4>"#, refused(Refusal::Form)),
        (&[(11, 0)], r#"<e4@"G"></e4>"#, refused(Refusal::Absent)),
        (&[(11, 0)], r#"<e4 label="0" preserve="PRESENT" kind="G"></e4>"#, refused(Refusal::NotOwn)),
        (&[(0, 0)], "<", refused(Refusal::Path)),
        (sleeve, &nines(4), refused(Refusal::Form)),
        (sleeve, &nines(3), Ok(3)),
    ] {
        assert_eq!(store.insert_xml(label(16), &path(steps), &sent(short)), outcome, "{steps:?} {short}");
    }
    assert_refused(store.as_mut_bytes(), 40, Call::InsertXml(&[], &sent(r#"<e4@"G"></e4>"#)), 2);
    assert_refused(store.as_mut_bytes(), 0, Call::InsertXml(P10_20, &sent_groups(4, 0, 0..0)), 7);
    assert_refused(store.as_mut_bytes(), 16, Call::InsertXml(&[], &sent_groups(50, 16, 1..32)), 9);
    assert_eq!(store.insert_xml(label(17), &Path::root(), &sent_groups(50, 17, (1..32).rev())), Ok(32));
    assert_refused(store.as_mut_bytes(), 17, Call::InsertXml(&[], &sent_groups(51, 17, 0..0)), 9);
    assert_eq!(xml(&store, 17, &[(50, 17)]), format!(r#"<dossier subject="17">{}</dossier>"#, sent_groups(50, 17, 1..32)));
    let e2 = format!(r#"<e2@"T">a &lt; b{}</e2>"#, nines(3));
    let e20 = sent(&format!(r#"<e20@"G">{e2}<e3@"M">-150</e3></e20>"#));
    assert_eq!(xml(&store, 16, &[(10, 0), (20, 16)]), format!(r#"<dossier subject="16">{e20}</dossier>"#));
}

#[test]
fn refusal_13_what_is_not_in_form() {
    let mut store = with_style();
    for short in [
        r#"<e3@"G"><e1@"G"></e1><e1@"G"></e1></e3>"#,
        r#"<e3@"G"><e1@"G"></e1><e2@"G"></e2><e1@"M">7</e1></e3>"#,
        r#"<e3 label="16" preserve="REMOVED" kind="G"></e3>"#,
        r#"<e3 label="16" preserve="REMOVED" kind="-">x</e3>"#,
        r#"<e3@"-"></e3>"#,
        r#"<e3 label="32" preserve="PRESENT" kind="G"></e3>"#,
        r#"<e0@"G"></e0>"#,
        r#"<e65536@"G"></e65536>"#,
        r#"<e03@"G"></e03>"#,
        r#"<e3 label="016" preserve="PRESENT" kind="G"></e3>"#,
        r#"<e3@"M"></e3>"#,
        r#"<e3@"M">-0</e3>"#,
        r#"<e3@"M">+5</e3>"#,
        r#"<e3@"M">007</e3>"#,
        r#"<e3@"M">2147483648</e3>"#,
        r#"<e3@"M">-2147483649</e3>"#,
        r#"<e4@"T"></e4>"#,
        r#"<e4@"T">a>b</e4>"#,
        r#"<e4@"T">&quot;</e4>"#,
        r#"<e4@"T">&#65;</e4>"#,
        r#"<e4@"T">SEVENTEEN LETTERS</e4>"#,
        r#"<e4@"T"><![CDATA[a]]></e4>"#,
        "<e4@\"T\">\t</e4>",
        r#"<e4@"T">ä</e4>"#,
        r#"<e4@"G">x</e4>"#,
        r#"<e4@"G"><e1@"G"></e1>x</e4>"#,
        "<e4@\"G\"></e4>\n",
        " <e4@\"G\"></e4>",
        r#"<e4@"G"/>"#,
        r"<e4@'G'></e4>",
        r#"<e4@"G" ></e4>"#,
        r#"<e4@"G"></e4 >"#,
        r#"<e4  label="16" preserve="PRESENT" kind="G"></e4>"#,
        r#"<e4 preserve="PRESENT" label="16" kind="G"></e4>"#,
        r#"<e4@"G"></e5>"#,
        r#"<e4@"G"></e04>"#,
        r#"<e4@"G"></e4"#,
        r#"<!-- --><e4@"G"></e4>"#,
        r#"<?xml version="1.0"?><e4@"G"></e4>"#,
        r#"<dossier subject="16"><e4@"G"></e4></dossier>"#,
        "",
        r#"<e4@"G"></e4><e5@"G"></e5>"#,
        r#"<e60 label="0" preserve="PRESENT" kind="G"></e60> "#,
    ] {
        let text = sent(short);
        assert_refused(store.as_mut_bytes(), 16, Call::InsertXml(&[], &text), 13);
        assert_eq!(store.insert_xml(label(16), &path(&[(11, 0)]), &text), refused(Refusal::Form), "{short}");
    }
    assert_eq!(raw::insert_xml(store.as_mut_bytes(), 16, &[], b"<e4\xff"), Answer { number: 13, count: 0 });
}

#[test]
fn refusal_14_what_is_not_the_subjects_or_removed() {
    let mut store = with_style();
    for short in [
        r#"<e3@"G"><e1@"G"></e1><e1 label="17" preserve="PRESENT" kind="G"></e1></e3>"#,
        r#"<e3@"G"><e1 label="16" preserve="REMOVED" kind="-"></e1></e3>"#,
        r#"<e3 label="0" preserve="PRESENT" kind="G"></e3>"#,
        r#"<e60@"G"><e61 label="0" preserve="PRESENT" kind="G"></e61></e60>"#,
        r#"<e60 label="16" preserve="REMOVED" kind="-"></e60>"#,
        r#"<e60 label="16" preserve="REMOVED" kind="-"><e61@"M">7</e61></e60>"#,
    ] {
        let text = sent(short);
        assert_refused(store.as_mut_bytes(), 16, Call::InsertXml(P10, &text), 14);
        assert_eq!(store.insert_xml(label(16), &path(&[(11, 0)]), &text), refused(Refusal::NotOwn), "{short}");
    }
}

#[test]
fn a_style_that_is_refused_changes_nothing() {
    let mut store = with_style();
    assert_eq!(store.insert_xml(label(16), &path(&[(10, 0)]), &sent_groups(20, 16, 1..31)), Ok(31));
    for number in [33, 600, 1500] {
        assert_refused(store.as_mut_bytes(), 16, Call::InsertXml(P10, &sent_groups(20, 16, 1..number)), 8);
        assert_refused(store.as_mut_bytes(), 16, Call::InsertXml(P10, &sent_groups(21, 16, 1..number)), 9);
        assert_refused(store.as_mut_bytes(), 16, Call::InsertXml(P10, &sent_groups(20, 16, (1..number).chain(1..2))), 13);
    }
    assert_refused(store.as_mut_bytes(), 16, Call::InsertXml(P10, &sent_groups(21, 16, 1..2)), 9);
    assert_eq!(store.insert_xml(label(16), &path(&[(10, 0)]), &sent_groups(21, 16, 0..0)), Ok(1));
    assert_eq!(store.delete(label(16), &path(&[(10, 0), (20, 16)])), Ok(31));
    assert_eq!(xml(&store, 0, &[]), r#"<dossier subject="0"><e10 label="0" preserve="PRESENT" kind="G"></e10></dossier>"#);
}

#[test]
fn a_view_as_xml_is_taken_in_again() {
    let store = mixed();
    let mut other = Store::empty();
    for name in 1..=6 {
        let viewed = xml(&store, 0, &[(name, 0)]);
        let text = viewed.strip_prefix(r#"<dossier subject="0">"#).and_then(|rest| rest.strip_suffix("</dossier>"));
        assert_eq!(other.insert_xml(label(0), &Path::root(), text.expect("the dossier tag")), Ok(1));
        assert_eq!(xml(&other, 0, &[(name, 0)]), viewed);
    }
}

#[test]
fn the_highest_level_is_on_top() {
    let mut store = Store::empty();
    for (name, number) in [(10, 0), (10, 8), (10, 9), (10, 16), (10, 24), (10, 1), (9, 31)] {
        assert_eq!(store.insert(label(number), &path(&[(name, number)]), Value::Group), Ok(0));
    }
    let lines = "1 9 31 P G -;1 10 24 P G -;1 10 16 P G -;1 10 8 P G -;1 10 9 P G -;1 10 0 P G -;1 10 1 P G -;";
    assert_eq!(seen(&store, 31).replace('\t', " ").replace('\n', ";"), format!("VIEW 31 7;{lines}"));
    let groups =
        [(9, 31), (10, 24), (10, 16), (10, 8), (10, 9), (10, 0), (10, 1)].map(|(name, number)| sent_groups(name, number, 0..0));
    assert_eq!(xml(&store, 31, &[]), format!(r#"<dossier subject="31">{}</dossier>"#, groups.concat()));
}

/// The bytes of a partition with texts at these paths, in the order in which they are given.
fn partition(paths: &[&[(u16, u8)]]) -> Vec<u8> {
    let mut bytes = vec![u8::try_from(paths.len()).expect("a slot each"), 0, 0, 0];
    for steps in paths {
        let mut slot = [0; 40];
        slot[0] = u8::try_from(steps.len()).expect("six at most");
        for (at, (name, label)) in steps.iter().enumerate() {
            slot[1 + 2 * at..3 + 2 * at].copy_from_slice(&name.to_le_bytes());
            slot[13 + at] = *label;
        }
        slot[19..23].copy_from_slice(&[2, 2, b'a', b'b']);
        bytes.extend(slot);
    }
    bytes.resize(PARTITION_BYTES, 0);
    bytes
}

/// The bytes of a label's partition in a store.
fn part(store: &[u8], label: usize) -> &[u8] {
    &store[PARTITION_BYTES * label..PARTITION_BYTES * (label + 1)]
}

/// The store of the worked example of the migration, written before; partition 5 is broken.
fn written_before() -> Store {
    let mut store = Store::empty();
    let parts = [
        (0, partition(&[&[(10, 0)], &[(11, 0)]])),
        (8, partition(&[&[(10, 8)]])),
        (9, partition(&[&[(10, 0), (1, 9)], &[(10, 8), (1, 9)], &[(10, 9)], &[(10, 9), (1, 9)]])),
    ];
    for (label, bytes) in parts {
        store.as_mut_bytes()[PARTITION_BYTES * label..PARTITION_BYTES * (label + 1)].copy_from_slice(&bytes);
    }
    store.as_mut_bytes()[PARTITION_BYTES * 5 + 2] = 1;
    store
}

/// How many bytes a view of all has, or why it is refused.
fn viewed(store: &Store, subject: u32) -> Result<usize, Error> {
    let mut output = vec![0; LISTING_BYTES_MAX];
    store.view_into(label(subject), &Path::root(), &mut output).map(|view| view.listing().len())
}

#[test]
fn the_migration_of_the_worked_example() {
    let mut store = written_before();
    assert_eq!((viewed(&store, 9), viewed(&store, 8)), (refused(Refusal::NotWellFormed), Ok(51)));
    let before = store.as_bytes().to_vec();
    assert_eq!(store.migrate().map(Mask::bits), Ok(1 << 5));
    let order = partition(&[&[(10, 8), (1, 9)], &[(10, 9)], &[(10, 9), (1, 9)], &[(10, 0), (1, 9)]]);
    assert_eq!(part(store.as_bytes(), 9), order);
    for other in (0..32).filter(|other| *other != 9) {
        assert_eq!(part(store.as_bytes(), other), part(&before, other), "partition {other}");
    }
    assert_eq!((viewed(&store, 9), viewed(&store, 5)), (Ok(104), refused(Refusal::NotWellFormed)));
    let after = store.as_bytes().to_vec();
    let again = store.migrate().expect("a second migration");
    assert_eq!((again.bits(), again.labels().collect::<Vec<_>>()), (544, vec![label(5), label(9)]));
    assert!(store.as_bytes() == after, "a second migration changes a byte");
}

#[test]
fn a_store_of_another_length_is_not_migrated() {
    for length in [0, 1, PARTITION_BYTES, STORE_BYTES - 1, STORE_BYTES + 1, 2 * STORE_BYTES] {
        let mut bytes = written_before().as_bytes().repeat(2);
        bytes.truncate(length);
        let before = bytes.clone();
        assert_eq!(raw::migrate(&mut bytes), MigrationAnswer { number: 1, mask: 0 }, "{length}");
        assert!(bytes == before, "the store of {length} bytes");
        assert_eq!(Store::from(&mut bytes[..]).migrate(), refused(Refusal::StoreLength));
    }
    assert_eq!(raw::migrate(&mut vec![0; STORE_BYTES]), MigrationAnswer { number: 0, mask: 0 });
    assert_eq!(raw::migrate(&mut vec![0xff; STORE_BYTES]), MigrationAnswer { number: 0, mask: u32::MAX });
}

/// A store file that was written before the path order changed, and what the reference in tools makes of it.
const BEFORE: &[u8; STORE_BYTES] = include_bytes!("../../../tests/before-order.store");
const AFTER: &[u8; STORE_BYTES] = include_bytes!("../../../tests/after-order.store");

/// The partitions of that file that hold versions of one name at two levels.
const MOVED: [u32; 4] = [9, 16, 24, 31];

/// The labels of the lines of one step with this name, in the order in which a subject sees them.
fn versions(store: &Store, subject: u32, name: u16) -> Vec<u32> {
    let mut output = vec![0; LISTING_BYTES_MAX];
    let view = store.view_into(label(subject), &Path::root(), &mut output).expect("a view");
    let lines = view.lines().map(|line| line.expect("a line"));
    lines.filter(|line| (line.depth(), line.name) == (1, name)).map(|line| line.label.number()).collect()
}

#[test]
fn a_store_file_of_before_is_migrated_and_served() {
    let mut store = Store::from(BEFORE.to_vec());
    for subject in 0..32 {
        let waits = MOVED.iter().any(|moved| label(subject).dominates(label(*moved)));
        assert_eq!(viewed(&store, subject).is_ok(), !waits, "{subject} before the migration");
        if waits {
            assert_refused(store.as_mut_bytes(), subject, Call::View(&[], 64), 3);
            assert_refused(store.as_mut_bytes(), subject, Call::Delete(P10), 3);
        }
    }
    assert!(store.as_bytes() == BEFORE, "a refused call changes a byte");
    assert_eq!(store.migrate().map(Mask::bits), Ok(0));
    assert!(store.as_bytes() == AFTER, "the migrated store");
    assert!((0..32).all(|subject| viewed(&store, subject).is_ok()));
    assert_eq!(versions(&store, 9, 10), [8, 9, 0]);
    let by_level: Vec<u32> = [24, 16, 8, 0].into_iter().flat_map(|level| level..level + 8).collect();
    assert_eq!(versions(&store, 31, 50), by_level);
    assert_eq!(store.migrate().map(|mask| mask.labels().map(Label::number).collect()), Ok(MOVED.to_vec()));
    assert!(store.as_bytes() == AFTER, "a second migration changes a byte");
    assert_eq!(store.insert(label(9), &path(&[(10, 0), (2, 9)]), Value::Group), Ok(0));
    assert_eq!(store.delete(label(31), &path(&[(50, 0), (1, 31)])), Ok(1));
}
