//! A store kept in a file: read under a lock, and saved by a new file that gets the old one's name.
//!
//! The lock is the system's advisory lock on the file itself, shared while a store is only read. A save replaces the file, so
//! whoever waited for the lock may hold that of a file that no longer bears the name: it is looked up again until it does.
//! `dossier_file` takes no lock; so a save looks just before the rename whether the file is still the one that was read.

use std::collections::hash_map::RandomState;
use std::fmt;
use std::fs::{self, File, Metadata, OpenOptions, TryLockError};
use std::hash::BuildHasher;
use std::io::{self, ErrorKind, Read, Write};
use std::ops::{Deref, DerefMut};
use std::os::unix::fs::{fchown, FileExt, MetadataExt, OpenOptionsExt};
use std::path::{Path, PathBuf};

use crate::file_error::{FileCause, FileError};
use crate::{access_list, Store, STORE_BYTES};

/// The mode of a file that is made: its owner's alone, since it holds the texts of every label.
const OWNER_ALONE: u32 = 0o600;
/// How many names are tried for the new file of a save.
const TRIES: u32 = 100;

/// What to do where another holds the file's lock.
#[derive(Clone, Copy, Debug, PartialEq, Eq)]
pub enum Wait {
    /// Wait until it is let go.
    Yes,
    /// Give up: [`FileCause::InUse`].
    No,
}

/// Makes a file with these bytes, those of a store, its owner's alone. No file is overwritten: a new file beside it is filled and
/// then linked to the name, which the system refuses where there is one.
pub(crate) fn create(path: &Path, store: &[u8]) -> Result<(), FileError> {
    make(path, store).map_err(|cause| FileError::new(path, cause))
}

/// The same, or why not.
fn make(path: &Path, store: &[u8]) -> Result<(), FileCause> {
    if store.len() != STORE_BYTES {
        return Err(FileCause::Length(store.len()));
    }
    let (mut file, new_name) = new_beside(path).map_err(FileCause::Save)?;
    let made = fill(&mut file, store).and_then(|()| fs::hard_link(&new_name, path));
    let _ = fs::remove_file(&new_name);
    match made {
        Err(error) if error.kind() == ErrorKind::AlreadyExists => Err(FileCause::Exists),
        Err(error) => Err(FileCause::Save(error)),
        Ok(()) => sync_folder(path),
    }
}

/// Reads the store of a file under a shared lock, which is let go at once: the bytes are the caller's.
///
/// # Errors
///
/// Where the file cannot be opened, locked or read, or is no store.
pub fn read(path: impl AsRef<Path>, wait: Wait) -> Result<Store, FileError> {
    let path = path.as_ref();
    let opened = open_locked(path, Access::Shared, wait).and_then(|opened| read_store(&opened.file));
    opened.map(Store::from).map_err(|cause| FileError::new(path, cause))
}

/// A store that is read from a file and may be saved there; it has all calls of a [`Store`]. Nobody else who takes locks reads or
/// saves it meanwhile. What is not saved when it is dropped is lost.
#[must_use]
pub struct StoreFile {
    path: PathBuf,
    opened: Opened,
    read: Vec<u8>,
    store: Store,
}

impl StoreFile {
    /// Opens a file and locks it, until this is dropped. Symbolic links are followed.
    ///
    /// Whoever has the file open already is waited for, in this program too: one thread that opens a file twice waits for ever.
    ///
    /// # Errors
    ///
    /// Where the file cannot be opened, locked or read, or is no store.
    pub fn open(path: impl AsRef<Path>, wait: Wait) -> Result<StoreFile, FileError> {
        let path = path.as_ref();
        let opened = open_locked(path, Access::Alone, wait).and_then(|opened| Ok((read_store(&opened.file)?, opened)));
        let (read, opened) = opened.map_err(|cause| FileError::new(path, cause))?;
        Ok(StoreFile { path: path.to_owned(), opened, store: Store::from(read.clone()), read })
    }

    /// The file, as it was named.
    #[must_use]
    pub fn path(&self) -> &Path {
        &self.path
    }

    /// Saves the store by a new file, synced and renamed, if a byte has changed since it was read or saved: whether it has. The
    /// new file has the old one's mode, group and access list and, where the system allows it, its owner.
    ///
    /// # Errors
    ///
    /// Where the file is no longer the one that was read, or the new one cannot be made: the old store stays then. By
    /// [`FileCause::NotSynced`] where the new store is there and its name may not survive a loss of power.
    pub fn save(&mut self) -> Result<bool, FileError> {
        self.save_changes().map_err(|cause| FileError::new(&self.path, cause))
    }

    /// The same, or why not.
    fn save_changes(&mut self) -> Result<bool, FileCause> {
        let bytes = self.store.as_bytes();
        if bytes == self.read {
            return Ok(false);
        }
        if bytes.len() != STORE_BYTES {
            return Err(FileCause::Length(bytes.len()));
        }
        if let Some(kind) = self.opened.denied {
            return Err(FileCause::Save(kind.into()));
        }
        let (mut file, new_name) = new_beside(&self.opened.name).map_err(FileCause::Save)?;
        if let Err(cause) = self.replace(&mut file, &new_name) {
            let _ = fs::remove_file(&new_name);
            return Err(cause);
        }
        self.opened.file = file;
        self.read.clone_from_slice(self.store.as_bytes());
        sync_folder(&self.opened.name).map(|()| true)
    }

    /// Fills the new file, which is locked before anybody can find it, and gives it the store's name.
    fn replace(&self, new: &mut File, new_name: &Path) -> Result<(), FileCause> {
        lock(new, Access::Alone, Wait::No)?;
        set_rights(new, &self.opened.file).and_then(|()| fill(new, self.store.as_bytes())).map_err(FileCause::Save)?;
        if !self.is_as_read() {
            return Err(FileCause::Changed);
        }
        fs::rename(new_name, &self.opened.name).map_err(FileCause::Save)
    }

    /// Whether the file that was read has the same bytes and still bears the name, which is looked at last.
    fn is_as_read(&self) -> bool {
        let mut bytes = vec![0; STORE_BYTES];
        let length = self.opened.file.metadata().map(|about| about.len());
        length.is_ok_and(|length| length == STORE_BYTES as u64)
            && self.opened.file.read_exact_at(&mut bytes, 0).is_ok()
            && self.read == bytes
            && bears(&self.opened.name, &self.opened.file)
    }
}

impl Deref for StoreFile {
    type Target = Store;

    fn deref(&self) -> &Store {
        &self.store
    }
}

impl DerefMut for StoreFile {
    fn deref_mut(&mut self) -> &mut Store {
        &mut self.store
    }
}

impl fmt::Debug for StoreFile {
    fn fmt(&self, out: &mut fmt::Formatter<'_>) -> fmt::Result {
        write!(out, "Store in {}", self.path.display())
    }
}

/// Who may hold the lock at the same time.
#[derive(Clone, Copy, PartialEq, Eq)]
enum Access {
    Shared,
    Alone,
}

/// A file that is locked, its name without links, and why it may not be written, if it may not.
struct Opened {
    name: PathBuf,
    file: File,
    denied: Option<ErrorKind>,
}

/// Opens and locks a file; again where another file has got the name meanwhile.
fn open_locked(path: &Path, access: Access, wait: Wait) -> Result<Opened, FileCause> {
    loop {
        let name = fs::canonicalize(path).map_err(FileCause::Open)?;
        if !fs::metadata(&name).map_err(FileCause::Open)?.is_file() {
            return Err(FileCause::NotRegular);
        }
        let (file, denied) = open_as(&name, access).map_err(FileCause::Open)?;
        lock(&file, access, wait)?;
        if bears(path, &file) && bears(&name, &file) {
            return Ok(Opened { name, file, denied });
        }
    }
}

/// Opens a file, to be written too where it is to be had alone. One that may not be written is opened to be read: a script may
/// change nothing.
fn open_as(name: &Path, access: Access) -> io::Result<(File, Option<ErrorKind>)> {
    if access == Access::Shared {
        return File::open(name).map(|file| (file, None));
    }
    match OpenOptions::new().read(true).write(true).open(name) {
        Err(error) if matches!(error.kind(), ErrorKind::PermissionDenied | ErrorKind::ReadOnlyFilesystem) => {
            File::open(name).map(|file| (file, Some(error.kind())))
        }
        opened => opened.map(|file| (file, None)),
    }
}

/// Locks a file.
fn lock(file: &File, access: Access, wait: Wait) -> Result<(), FileCause> {
    let tried = match (access, wait) {
        (Access::Shared, Wait::Yes) => return file.lock_shared().map_err(FileCause::Lock),
        (Access::Alone, Wait::Yes) => return file.lock().map_err(FileCause::Lock),
        (Access::Shared, Wait::No) => file.try_lock_shared(),
        (Access::Alone, Wait::No) => file.try_lock(),
    };
    tried.map_err(|error| match error {
        TryLockError::WouldBlock => FileCause::InUse,
        TryLockError::Error(error) => FileCause::Lock(error),
    })
}

/// Whether the name leads to this file.
fn bears(name: &Path, file: &File) -> bool {
    let identity = |about: Metadata| (about.dev(), about.ino());
    match (fs::metadata(name), file.metadata()) {
        (Ok(named), Ok(held)) => identity(named) == identity(held),
        _ => false,
    }
}

/// The bytes of a file that has those of a store.
fn read_store(file: &File) -> Result<Vec<u8>, FileCause> {
    let mut bytes = Vec::with_capacity(STORE_BYTES + 1);
    file.take(STORE_BYTES as u64 + 1).read_to_end(&mut bytes).map_err(FileCause::Open)?;
    let count = bytes.len() as u64;
    if bytes.len() == STORE_BYTES {
        return Ok(bytes);
    }
    Err(FileCause::NoStore(file.metadata().map_or(count, |about| about.len().max(count))))
}

/// A new file beside this one: its name, a dot and six letters.
fn new_beside(name: &Path) -> io::Result<(File, PathBuf)> {
    let mut tries = 0;
    loop {
        let mut new_name = name.as_os_str().to_owned();
        new_name.push(".");
        new_name.push(letters(RandomState::new().hash_one(tries)));
        let new_name = PathBuf::from(new_name);
        match OpenOptions::new().read(true).write(true).create_new(true).mode(OWNER_ALONE).open(&new_name) {
            Err(error) if error.kind() == ErrorKind::AlreadyExists && tries < TRIES => tries += 1,
            made => return made.map(|file| (file, new_name)),
        }
    }
}

/// Six letters from a random number.
fn letters(random: u64) -> String {
    (0..6).map(|at| char::from(b'a' + (random >> (8 * at) & 0xff) as u8 % 26)).collect()
}

/// Gives a file the mode, the group and the access list of another, and its owner where the system allows it.
fn set_rights(file: &File, from: &File) -> io::Result<()> {
    let (own, about) = (file.metadata()?, from.metadata()?);
    if own.uid() != about.uid() {
        let _ = fchown(file, Some(about.uid()), None);
    }
    if own.gid() != about.gid() {
        fchown(file, None, Some(about.gid()))?;
    }
    access_list::copy(from, file)?;
    file.set_permissions(about.permissions())
}

/// Writes and syncs a file.
fn fill(file: &mut File, bytes: &[u8]) -> io::Result<()> {
    file.write_all(bytes)?;
    file.sync_all()
}

/// Syncs the folder that a file stands in, so that its name survives a loss of power.
fn sync_folder(name: &Path) -> Result<(), FileCause> {
    let folder = match name.parent() {
        Some(folder) if folder != Path::new("") => folder,
        _ => Path::new("."),
    };
    File::open(folder).and_then(|folder| folder.sync_all()).map_err(FileCause::NotSynced)
}
