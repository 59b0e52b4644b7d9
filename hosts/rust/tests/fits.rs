//! What Rust's people expect of the types: conversions, printing, iteration, errors, a store that is only read, views without a
//! buffer, and a store opened by its file's name.

use std::error;
use std::{env, fs, process};

use dossier::{
    Answer, Compartment, Error, FileCause, FileError, Kind, Label, Labels, Level, Line, Mark, Mask, NoLabel, NoPath, Path,
    Refusal, Store, StoreFile, Value, View, STORE_BYTES,
};

/// The label of a text.
fn label(text: &str) -> Label {
    text.parse().expect("a label")
}

/// The path of a text.
fn path(text: &str) -> Path {
    text.parse().expect("a path")
}

/// A style of label 0 that is removed, and pieces of label 16 below and beside it.
fn example() -> Store {
    let (mut store, open, house) = (Store::empty(), label("open"), label("house"));
    store.insert(open, &path("10:0"), Value::Group).expect("an insert");
    store.insert(house, &path("10:0/20:16"), Value::Text("CUFF")).expect("an insert");
    store.insert(house, &path("10:0/20:16/1:16"), Value::Measure(7)).expect("an insert");
    store.insert(house, &path("11:16"), Value::Group).expect("an insert");
    store.delete(open, &path("10:0")).expect("a delete");
    store
}

/// What 16 sees of the example.
const LISTING: &str = "VIEW\t16\t4\n1\t10\t0\tR\t-\t-\n2\t20\t16\tP\tT\tCUFF\n3\t1\t16\tP\tM\t7\n1\t11\t16\tP\tG\t-\n";

/// The paths and marks of a view.
fn lines(view: &View) -> Vec<(String, String)> {
    let told = |line: Line| (line.path.to_string(), format!("{:?}", line.mark));
    view.into_iter().map(|line| told(line.expect("a line"))).collect()
}

#[test]
fn a_view_needs_no_buffer() {
    let (store, house) = (example(), label("house"));
    let view = store.view(house, &Path::root()).expect("a view");
    assert_eq!(view.to_string(), LISTING);
    let live = |value: &str| format!("Live({value})");
    let below = [("10:0/20:16".into(), live(r#"Text("CUFF")"#)), ("10:0/20:16/1:16".into(), live("Measure(7)"))];
    let mut all = vec![("10:0".into(), "Removed".into())];
    all.extend(below.clone());
    all.push(("11:16".into(), live("Group")));
    assert_eq!(lines(&view), all);
    let part = store.view(house, &path("10:0/20:16")).expect("a view");
    assert_eq!((lines(&part), part.path()), (below.to_vec(), &path("10:0/20:16")));

    let mut output = [0; 100];
    let lent = store.view_into(house, &Path::root(), &mut output).expect("a view");
    assert_eq!(lent, view);
    assert_eq!(store.view(house, &path("12:16")), Err(Refusal::Absent.into()));
    assert_eq!(store.view_xml(house, &path("11:16")).expect("XML"), {
        r#"<dossier subject="16"><e11 label="16" preserve="PRESENT" kind="G"></e11></dossier>"#
    });
    assert_eq!(store.view_xml(house, &path("12:16")), Err(Refusal::Absent.into()));
}

#[test]
fn a_full_store_is_viewed_without_a_buffer() {
    let mut store = Store::empty();
    for subject in Label::all() {
        let above = Path::from([(65535, subject); 5]);
        for name in 65509..=65535 {
            store.insert(subject, &above.child(name, subject), Value::Text("&&&&&&&&&&&&&&&&")).expect("an insert");
        }
    }
    // Of each label 5 lines of 16 or 17 bytes and 27 of 31 or 32, by the label's digits, and the first line.
    let view = store.view(label("31"), &Path::root()).expect("a view");
    assert_eq!((view.lines().count(), view.listing().len()), (1024, 10 * (5 * 16 + 27 * 31) + 22 * (5 * 17 + 27 * 32) + 13));
    assert_eq!(store.view_xml(label("31"), &Path::root()).expect("XML").matches("</e").count(), 1024);
}

#[test]
fn a_store_is_over_any_bytes_and_gives_them_back() {
    let bytes = Vec::from(example());
    let array: [u8; STORE_BYTES] = example().try_into().expect("the length of a store");
    assert!(bytes == array);
    assert_eq!(<[u8; 3]>::try_from(example()), Err(example()));
    let mut in_array = Store::from(array);
    in_array.delete(label("house"), &path("11:16")).expect("a delete");
    assert!(<[u8; STORE_BYTES]>::from(in_array) != array);
    assert_eq!(Store::from(Box::new(array)), example());

    let mut changed = bytes.clone();
    Store::from(&mut changed[..]).delete(label("house"), &path("11:16")).expect("a delete");
    assert!(changed != bytes);
    for read_only in [Store::from(&bytes[..]), Store::from(&array[..])] {
        assert_eq!(read_only.view(label("house"), &Path::root()).expect("a view").to_string(), LISTING);
        assert_eq!(read_only.grade(label("house"), &path("11:16"), &path("11:16"), 3), Err(Refusal::NoMeasure.into()));
        assert_eq!(read_only.as_ref(), read_only.into_bytes());
    }
    assert_eq!(Store::from(&[0; 3][..]).view(label("open"), &Path::root()), Err(Refusal::StoreLength.into()));
}

#[test]
fn a_store_shows_none_of_its_bytes() {
    assert_eq!(format!("{:?}", example()), "Store of 41088 bytes");
    assert_eq!(format!("{:?}", Store::from(&[1, 2, 3])), "Store of 3 bytes");
    let (one, mut other) = (example(), example().clone());
    assert_eq!(one, other);
    other.delete(label("house"), &path("11:16")).expect("a delete");
    assert_ne!(one, other);
    assert_eq!(Store::default(), Store::empty());
}

#[test]
fn labels_and_paths_are_read_and_shown() {
    assert_eq!(Label::try_from(17), Ok(label("house+sizing")));
    assert_eq!(Label::try_from(32), "32".parse());
    assert_eq!((label("17").to_string(), label("17").words(), u32::from(label("17"))), ("17".into(), "house+sizing".into(), 17));
    assert_eq!(format!("{:>3}|{:<7}|{:^8}|", label("17"), Level::House, Compartment::Cost), " 17|house  |  cost  |");
    assert_eq!([Kind::Group, Kind::Measure, Kind::Text].map(|kind| format!("{kind:>8}")), ["   group", " measure", "    text"]);
    assert_eq!(label("29").compartments().map(|one| one.to_string()).collect::<Vec<_>>(), ["sizing", "cost"]);
    assert_eq!(path("10:open/20:house+sizing").to_string(), "10:0/20:17");
    assert_eq!(path("/10:open/20:house+sizing"), path("10:0/20:17"));
    assert_eq!((Value::from(7200), Value::from("CUFF")), (Value::Measure(7200), Value::Text("CUFF")));
    assert_eq!(format!("{}|{:>5}|{:<5}|", Value::Group, Value::Measure(-5), Value::Text("A")), "-|   -5|A    |");
    let steps: Vec<(u16, Label)> = path("10:0/20:17").into_iter().collect();
    assert_eq!(steps, [(10, label("0")), (20, label("17"))]);
}

#[test]
fn paths_are_in_the_order_of_a_view() {
    let mut store = Store::empty();
    for subject in Label::all() {
        for above in [Path::root(), path("7:0")] {
            store.insert(subject, &above.child(10, subject), Value::Group).expect("an insert");
            store.insert(subject, &above.child(10, subject).child(1, subject), Value::Group).expect("an insert");
        }
    }
    let view = store.view(label("31"), &Path::root()).expect("a view");
    let listed: Vec<Path> = view.lines().map(|line| line.expect("a line").path).collect();
    assert_eq!((listed.len(), view.len()), (129, 129));
    let mut sorted = listed.clone();
    sorted.sort_by_key(ToString::to_string);
    assert_ne!(sorted, listed);
    sorted.sort();
    assert_eq!(sorted, listed);
}

/// Whether values of this type may be sent to other threads and be shared by them.
fn is_shared<T: Send + Sync>() {}

#[test]
fn what_is_given_may_go_to_other_threads() {
    is_shared::<(Store, Store<&[u8]>, StoreFile, View<'static>, Line, Mark, Path, Mask, Labels)>();
    is_shared::<(Error, Refusal, FileError, NoLabel, NoPath)>();
}

#[test]
fn refusals_have_the_words_of_all_hosts() {
    let words = fs::read_to_string("../../tests/refusals.tsv").expect("the words");
    let told = Refusal::ALL.iter().map(|refusal| {
        let name = format!("{refusal:?}").char_indices().fold(String::new(), |name, (at, letter)| {
            let parted = if at > 0 && letter.is_uppercase() { name + "_" } else { name };
            parted + &letter.to_uppercase().to_string()
        });
        format!("{}\t{name}\t{}\n", refusal.number(), refusal.cause())
    });
    assert_eq!(told.collect::<String>(), words);
}

#[test]
fn errors_are_errors() {
    let refused: Box<dyn error::Error> = Refusal::Absent.into();
    let words = "refused by 7: the path or its parent is not in view, or the element is not live";
    assert_eq!(refused.to_string(), words);
    let refused = example().delete(label("open"), &path("10:0")).expect_err("a refusal");
    assert_eq!((refused.to_string().as_str(), refused.refusal()), (words, Some(Refusal::Absent)));
    assert_eq!(Error::Unreadable.refusal(), None);
    assert!(error::Error::source(&refused).is_none());
    assert_eq!(Error::Unreadable.to_string(), "a line of the listing, or the XML, does not read");
    let unexpected = Error::Unexpected(Answer { number: 7, count: 40 });
    assert_eq!(unexpected.to_string(), "unexpected answer: number 7, count 40");
}

#[test]
fn a_store_is_opened_by_its_name() {
    let name = env::temp_dir().join(format!("dossier-open-{}", process::id()));
    Store::create(&name).expect("a new store");
    let again = Store::create(&name).expect_err("it is there");
    assert_eq!(again.to_string(), format!("{}: there is a file of this name already", name.display()));
    assert_eq!((again.file(), matches!(again.cause(), FileCause::Exists)), (name.as_path(), true));
    let mut store = Store::open(&name).expect("it opens");
    assert_eq!(format!("{store:?}"), format!("Store in {}", name.display()));
    store.insert(label("house"), &path("11:16"), Value::Measure(7200)).expect("an insert");
    assert!(store.save().expect("it is saved"));
    *store = Store::from(vec![0; 3]);
    let length = store.save().expect_err("another length");
    assert_eq!(length.to_string(), format!("{}: not saved: the store has 3 bytes and not 41088", name.display()));
    drop(store);
    let read = Store::read(name.to_str().expect("a text")).expect("it is read");
    assert_eq!(lines(&read.view(label("house"), &Path::root()).expect("a view")).len(), 1);
    fs::remove_file(&name).expect("it goes");
    assert!(matches!(Store::open(&name).expect_err("it is gone").cause(), FileCause::Open(_)));
    example().save_as(&name).expect("a new store");
    assert_eq!(Store::read(&name).expect("it is read"), example());
    assert!(matches!(Store::from(&[0; 3]).save_as(&name).expect_err("no store").cause(), FileCause::Length(3)));
    fs::remove_file(&name).expect("it goes");
}
