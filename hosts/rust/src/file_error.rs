//! Why a store in a file could not be opened or saved.

use std::path::{Path, PathBuf};
use std::{error, fmt, io};

use crate::STORE_BYTES;

/// A store in a file that could not be opened or saved: the file, and why.
#[derive(Debug)]
pub struct FileError {
    file: PathBuf,
    cause: FileCause,
}

impl FileError {
    /// The error of a file, as it was named.
    pub(crate) fn new(file: &Path, cause: FileCause) -> FileError {
        FileError { file: file.to_owned(), cause }
    }

    /// The file, as it was named.
    #[must_use]
    pub fn file(&self) -> &Path {
        &self.file
    }

    /// Why.
    #[must_use]
    pub fn cause(&self) -> &FileCause {
        &self.cause
    }

    /// Why, to be kept.
    #[must_use]
    pub fn into_cause(self) -> FileCause {
        self.cause
    }
}

impl fmt::Display for FileError {
    fn fmt(&self, out: &mut fmt::Formatter<'_>) -> fmt::Result {
        write!(out, "{}: {}", self.file.display(), self.cause)
    }
}

impl error::Error for FileError {}

/// Why a store in a file could not be opened or saved; it is shown with the system's own words.
#[derive(Debug)]
#[non_exhaustive]
pub enum FileCause {
    /// The file could not be opened or read.
    Open(io::Error),
    /// The file is a folder, a device or a pipe.
    NotRegular,
    /// The file has this many bytes and not [`STORE_BYTES`].
    NoStore(u64),
    /// There is a file of this name already.
    Exists,
    /// Another holds the lock.
    InUse,
    /// The file could not be locked.
    Lock(io::Error),
    /// The file is no longer the one that was read; nothing was saved.
    Changed,
    /// The store has this many bytes and not [`STORE_BYTES`]; nothing was saved.
    Length(usize),
    /// The new file could not be made, written or given its name; the old store, if there was one, is there.
    Save(io::Error),
    /// The new store is there, but its folder could not be synced, so that the name may not survive a loss of power.
    NotSynced(io::Error),
}

impl fmt::Display for FileCause {
    fn fmt(&self, out: &mut fmt::Formatter<'_>) -> fmt::Result {
        match self {
            FileCause::Open(error) => write!(out, "the file cannot be opened: {error}"),
            FileCause::NotRegular => write!(out, "it is no regular file"),
            FileCause::NoStore(length) => write!(out, "it is no store: it has {length} bytes, a store has {STORE_BYTES}"),
            FileCause::Exists => write!(out, "there is a file of this name already"),
            FileCause::InUse => write!(out, "the file is in use"),
            FileCause::Lock(error) => write!(out, "the file cannot be locked: {error}"),
            FileCause::Changed => write!(out, "not saved: the file was changed meanwhile"),
            FileCause::Length(length) => write!(out, "not saved: the store has {length} bytes and not {STORE_BYTES}"),
            FileCause::Save(error) => write!(out, "not saved: {error}"),
            FileCause::NotSynced(error) => write!(out, "saved, but its folder is not synced: {error}"),
        }
    }
}
