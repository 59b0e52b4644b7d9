//! A store kept in a file: made, opened under a lock, saved by a new file, and left alone where it is another's meanwhile.

use std::env;
use std::fs::{self, File};
use std::os::unix::fs::{symlink, MetadataExt, PermissionsExt};
use std::path::PathBuf;
use std::process;
use std::sync::atomic::{AtomicU32, Ordering};
use std::sync::mpsc;
use std::thread;
use std::time::Duration;

use dossier::file::{read, StoreFile, Wait};
use dossier::{FileCause, FileError, Label, Path, Store, Value, STORE_BYTES};

/// A folder of a test's own, which is removed at its end.
struct Folder(PathBuf);

impl Folder {
    fn new() -> Folder {
        static COUNT: AtomicU32 = AtomicU32::new(0);
        let name = format!("dossier-file-{}-{}", process::id(), COUNT.fetch_add(1, Ordering::Relaxed));
        let folder = env::temp_dir().join(name);
        fs::create_dir(&folder).expect("a new folder");
        Folder(folder)
    }

    /// A folder with an empty store.
    fn with_store() -> (Folder, PathBuf) {
        let folder = Folder::new();
        let store = folder.0.join("store");
        Store::create(&store).expect("a store is made");
        (folder, store)
    }

    /// The names in it.
    fn names(&self) -> Vec<String> {
        let entries = fs::read_dir(&self.0).expect("the folder");
        entries.map(|entry| entry.expect("an entry").file_name().into_string().expect("a name")).collect()
    }
}

impl Drop for Folder {
    fn drop(&mut self) {
        let _ = fs::remove_dir_all(&self.0);
    }
}

/// The label 0.
fn open() -> Label {
    "open".parse().expect("a label")
}

/// Why a store could not be opened or saved.
fn cause<T>(result: Result<T, FileError>) -> FileCause {
    result.err().expect("an error").into_cause()
}

/// Inserts an element of one step.
fn insert(file: &mut StoreFile, name: u16) {
    file.insert(open(), &Path::root().child(name, open()), Value::Group).expect("an insert");
}

#[test]
fn a_store_is_made_once_and_for_its_owner() {
    let (folder, store) = Folder::with_store();
    let about = fs::metadata(&store).expect("the file");
    assert_eq!((about.len(), about.permissions().mode() & 0o777), (STORE_BYTES as u64, 0o600));
    assert!(matches!(cause(Store::create(&store)), FileCause::Exists));
    assert!(matches!(cause(Store::create(folder.0.join("none/store"))), FileCause::Save(_)));
    assert_eq!(folder.names(), ["store"]);
}

#[test]
fn what_is_saved_is_read() {
    let (folder, store) = Folder::with_store();
    fs::set_permissions(&store, PermissionsExt::from_mode(0o640)).expect("a mode");
    let before = fs::metadata(&store).expect("the file").ino();
    let mut file = StoreFile::open(&store, Wait::No).expect("it opens");
    assert!(!file.save().expect("nothing to save"));
    assert_eq!(fs::metadata(&store).expect("the file").ino(), before);
    for name in [1, 2] {
        insert(&mut file, name);
        assert!(file.save().expect("it is saved"));
        assert_eq!(fs::read(&store).expect("the file"), file.as_bytes());
        assert!(matches!(cause(read(&store, Wait::No)), FileCause::InUse));
    }
    drop(file);
    assert_ne!(read(&store, Wait::No).expect("it is read").as_bytes(), vec![0; STORE_BYTES]);
    assert_eq!(fs::metadata(&store).expect("the file").permissions().mode() & 0o777, 0o640);
    assert_eq!(folder.names(), ["store"]);
}

#[test]
fn a_lock_is_shared_by_those_who_read() {
    let (_folder, store) = Folder::with_store();
    let other = File::open(&store).expect("the file");
    other.lock_shared().expect("a lock");
    assert!(read(&store, Wait::No).is_ok());
    assert!(matches!(cause(StoreFile::open(&store, Wait::No)), FileCause::InUse));
    other.unlock().expect("no lock");
    let held = StoreFile::open(&store, Wait::No).expect("it opens");
    assert!(matches!(cause(read(&store, Wait::No)), FileCause::InUse));
    assert!(matches!(cause(StoreFile::open(&store, Wait::No)), FileCause::InUse));
    drop(held);
    assert!(StoreFile::open(&store, Wait::No).is_ok());
}

#[test]
fn who_waits_goes_on_with_what_was_saved() {
    let (folder, store) = Folder::with_store();
    let mut file = StoreFile::open(&store, Wait::No).expect("it opens");
    let (begun, has_begun) = mpsc::channel();
    let waiting: Vec<_> = (2..10)
        .map(|name| {
            let (store, begun) = (store.clone(), begun.clone());
            thread::spawn(move || {
                begun.send(()).expect("the test waits");
                let mut file = Store::open(&store).expect("it opens");
                insert(&mut file, name);
                file.save().expect("it is saved")
            })
        })
        .collect();
    has_begun.iter().take(8).for_each(drop);
    insert(&mut file, 1);
    file.save().expect("it is saved");
    drop(file);
    assert!(waiting.into_iter().all(|one| one.join().expect("it ends")));
    let last = read(&store, Wait::No).expect("it is read");
    let view = last.view(open(), &Path::root()).expect("a view");
    let names: Vec<u16> = view.lines().map(|line| line.expect("a line").name).collect();
    assert_eq!(names, (1..10).collect::<Vec<_>>());
    assert_eq!(folder.names(), ["store"]);
}

#[test]
fn what_another_saved_meanwhile_stays() {
    let changes: [fn(&PathBuf); 4] = [
        |store| fs::write(store, vec![0; STORE_BYTES + 1]).expect("it grows"),
        |store| fs::write(store, vec![7; STORE_BYTES]).expect("it is written in place"),
        |store| {
            fs::write(store.with_extension("new"), vec![0; STORE_BYTES]).expect("a new file");
            fs::rename(store.with_extension("new"), store).expect("it gets the name");
        },
        |store| fs::remove_file(store).expect("it is taken away"),
    ];
    for change in changes {
        let (folder, store) = Folder::with_store();
        let mut file = StoreFile::open(&store, Wait::No).expect("it opens");
        insert(&mut file, 1);
        change(&store);
        let left = fs::read(&store).ok();
        assert!(matches!(cause(file.save()), FileCause::Changed));
        assert_eq!(fs::read(&store).ok(), left);
        assert_eq!(folder.names().len(), usize::from(left.is_some()));
    }
}

#[test]
fn who_reads_waits() {
    let (_folder, store) = Folder::with_store();
    let mut file = StoreFile::open(&store, Wait::No).expect("it opens");
    let (begun, has_begun) = mpsc::channel();
    let waiting = thread::spawn({
        let store = store.clone();
        move || {
            begun.send(()).expect("the test waits");
            Store::read(store).expect("it is read")
        }
    });
    has_begun.recv().expect("it begins");
    thread::sleep(Duration::from_millis(50));
    insert(&mut file, 1);
    file.save().expect("it is saved");
    let saved = file.clone();
    drop(file);
    assert_eq!(waiting.join().expect("it ends"), saved);
}

#[test]
fn who_waits_behind_a_link_goes_on_where_it_leads_then() {
    let (folder, store) = Folder::with_store();
    let (other, link) = (folder.0.join("other"), folder.0.join("link"));
    let mut changed = Store::empty();
    changed.insert(open(), &Path::root().child(7, open()), Value::Group).expect("an insert");
    changed.save_as(&other).expect("another store");
    symlink(&store, &link).expect("a link");
    let held = StoreFile::open(&store, Wait::No).expect("it opens");
    let (begun, has_begun) = mpsc::channel();
    let waiting = thread::spawn({
        let link = link.clone();
        move || {
            begun.send(()).expect("the test waits");
            Store::open(link).expect("it opens").clone()
        }
    });
    has_begun.recv().expect("it begins");
    thread::sleep(Duration::from_millis(50));
    fs::remove_file(&link).expect("the link goes");
    symlink(&other, &link).expect("another link");
    drop(held);
    assert_eq!(waiting.join().expect("it ends"), changed);
}

#[test]
fn what_is_no_store_is_not_opened() {
    let folder = Folder::new();
    let file = folder.0.join("file");
    for length in [0, STORE_BYTES - 1, STORE_BYTES + 1] {
        fs::write(&file, vec![0; length]).expect("a file");
        assert!(matches!(cause(read(&file, Wait::No)), FileCause::NoStore(found) if found == length as u64));
        assert!(matches!(cause(StoreFile::open(&file, Wait::No)), FileCause::NoStore(found) if found == length as u64));
    }
    assert!(matches!(cause(read(&folder.0, Wait::No)), FileCause::NotRegular));
    assert!(matches!(cause(read(folder.0.join("none"), Wait::No)), FileCause::Open(_)));
}
