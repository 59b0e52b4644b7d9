//! The store and its typed calls.

use std::fmt;
use std::path;
use std::str;

use crate::answer::{Error, Grade, Mask};
use crate::file::{self, StoreFile, Wait};
use crate::file_error::FileError;
use crate::label::Label;
use crate::listing::View;
use crate::path::Path;
use crate::value::Value;
use crate::{raw, LISTING_BYTES_MAX, STORE_BYTES, XML_BYTES_MAX};

/// A store over bytes of any contents and length: a `Vec<u8>` of its own if nothing else is said, an array, a borrowed
/// `&mut [u8]`, or a `&[u8]`, over which it is only read: it has the calls that do not change it.
///
/// Bytes of another length than [`STORE_BYTES`] make every call refuse by 1.
///
/// ```
/// # use dossier::{Label, Level, Path, Store, STORE_BYTES};
/// let open = Label::new(Level::Open, &[]);
/// let read_only = Store::from(&[0; STORE_BYTES][..]);
/// assert_eq!(read_only.view(open, &Path::root())?.to_string(), "VIEW\t0\t0\n");
/// # Ok::<(), dossier::Error>(())
/// ```
///
/// ```compile_fail
/// # use dossier::{Label, Level, Path, Store, STORE_BYTES};
/// # let open = Label::new(Level::Open, &[]);
/// let mut read_only = Store::from(&[0; STORE_BYTES][..]);
/// read_only.delete(open, &Path::root().child(10, open));
/// ```
#[derive(Clone, Copy, PartialEq, Eq)]
#[must_use]
pub struct Store<B = Vec<u8>> {
    bytes: B,
}

impl Store {
    /// An empty store.
    pub fn empty() -> Store {
        Store::from(vec![0; STORE_BYTES])
    }

    /// Makes a file with an empty store, its owner's alone. No file is overwritten.
    ///
    /// # Errors
    ///
    /// Where there is a file of this name, or it cannot be made.
    pub fn create(path: impl AsRef<path::Path>) -> Result<(), FileError> {
        Store::empty().save_as(path)
    }

    /// Reads the store of a file under a shared lock, which is waited for and let go at once: the bytes are the caller's.
    /// [`file::read`] can do without waiting. Whoever has the file open is waited for, in this program too.
    ///
    /// # Errors
    ///
    /// Where the file cannot be read or is no store.
    pub fn read(path: impl AsRef<path::Path>) -> Result<Store, FileError> {
        file::read(path, Wait::Yes)
    }

    /// Opens the store of a file, to be changed and [saved](StoreFile::save). The file is locked, which is waited for, until what
    /// this gives is dropped. [`StoreFile::open`] can do without waiting. Whoever has the file open is waited for, in this program
    /// too: one thread that opens a file twice waits for ever.
    ///
    /// # Errors
    ///
    /// Where the file cannot be opened or is no store.
    pub fn open(path: impl AsRef<path::Path>) -> Result<StoreFile, FileError> {
        StoreFile::open(path, Wait::Yes)
    }
}

impl Default for Store {
    fn default() -> Store {
        Store::empty()
    }
}

impl<B: AsRef<[u8]>> From<B> for Store<B> {
    fn from(bytes: B) -> Store<B> {
        Store { bytes }
    }
}

impl<const N: usize> From<Box<[u8; N]>> for Store {
    fn from(bytes: Box<[u8; N]>) -> Store {
        Store::from(Vec::from(bytes as Box<[u8]>))
    }
}

impl From<Store> for Vec<u8> {
    fn from(store: Store) -> Vec<u8> {
        store.bytes
    }
}

impl<const N: usize> From<Store<[u8; N]>> for [u8; N] {
    fn from(store: Store<[u8; N]>) -> [u8; N] {
        store.bytes
    }
}

impl<const N: usize> TryFrom<Store> for [u8; N] {
    type Error = Store;

    /// The store's bytes, or the store where they are of another number.
    fn try_from(store: Store) -> Result<[u8; N], Store> {
        store.bytes.try_into().map_err(Store::from)
    }
}

impl<B: AsRef<[u8]>> AsRef<[u8]> for Store<B> {
    fn as_ref(&self) -> &[u8] {
        self.as_bytes()
    }
}

impl<B: AsMut<[u8]>> AsMut<[u8]> for Store<B> {
    fn as_mut(&mut self) -> &mut [u8] {
        self.as_mut_bytes()
    }
}

impl<B: AsRef<[u8]>> fmt::Debug for Store<B> {
    /// Its length alone: the bytes hold the texts of every label.
    fn fmt(&self, out: &mut fmt::Formatter<'_>) -> fmt::Result {
        write!(out, "Store of {} bytes", self.as_bytes().len())
    }
}

impl<B> Store<B> {
    /// What the store is over.
    #[must_use]
    pub fn into_bytes(self) -> B {
        self.bytes
    }
}

impl<B: AsRef<[u8]>> Store<B> {
    /// The store's bytes.
    #[must_use]
    pub fn as_bytes(&self) -> &[u8] {
        self.bytes.as_ref()
    }

    /// Makes a file with this store, its owner's alone. No file is overwritten.
    ///
    /// # Errors
    ///
    /// Where there is a file of this name, it cannot be made, or the store has another length.
    pub fn save_as(&self, path: impl AsRef<path::Path>) -> Result<(), FileError> {
        file::create(path.as_ref(), self.as_bytes())
    }

    /// The path and everything in the subject's view below it, each element on a line.
    ///
    /// # Errors
    ///
    /// By [1](crate::Refusal::StoreLength), [3](crate::Refusal::NotWellFormed), [4](crate::Refusal::Path) or
    /// [7](crate::Refusal::Absent).
    pub fn view(&self, subject: Label, path: &Path) -> Result<View<'static>, Error> {
        let mut output = vec![0; LISTING_BYTES_MAX];
        let count = self.view_into(subject, path, &mut output)?.listing().len();
        output.truncate(count);
        output.shrink_to_fit();
        Ok(View::new(output.into(), subject, path))
    }

    /// Lists what [`view`](Store::view) gives into the output, whose bytes behind the listing keep their contents. An output of
    /// [`LISTING_BYTES_MAX`] bytes is long enough for every listing.
    ///
    /// # Errors
    ///
    /// As of [`view`](Store::view), and by [10](crate::Refusal::OutputShort).
    pub fn view_into<'o>(&self, subject: Label, path: &Path, output: &'o mut [u8]) -> Result<View<'o>, Error> {
        let answer = raw::view(self.as_bytes(), subject.number(), path.as_bytes(), output);
        let listing = written(output, answer.outcome()?).ok_or(Error::Unexpected(answer))?;
        Ok(View::new(listing.into(), subject, path))
    }

    /// The path and everything in the subject's view below it as XML, bytes 32 to 126 alone.
    ///
    /// # Errors
    ///
    /// As of [`view`](Store::view).
    pub fn view_xml(&self, subject: Label, path: &Path) -> Result<String, Error> {
        self.view_xml_into(subject, path, &mut vec![0; XML_BYTES_MAX]).map(str::to_owned)
    }

    /// Writes what [`view_xml`](Store::view_xml) gives into the output, whose bytes behind the XML keep their contents. An output of
    /// [`XML_BYTES_MAX`] bytes is long enough for every view.
    ///
    /// # Errors
    ///
    /// As of [`view`](Store::view), and by [10](crate::Refusal::OutputShort).
    pub fn view_xml_into<'o>(&self, subject: Label, path: &Path, output: &'o mut [u8]) -> Result<&'o str, Error> {
        let answer = raw::view_xml(self.as_bytes(), subject.number(), path.as_bytes(), output);
        let xml = written(output, answer.outcome()?).ok_or(Error::Unexpected(answer))?;
        str::from_utf8(xml).map_err(|_| Error::Unreadable)
    }

    /// The even grade between two live measures that the subject sees, in n sizes, 1 to 64. The step is rounded down, also where
    /// the top is smaller: from 1000 to 990 in 3 sizes it is -4, and 2 are left.
    ///
    /// # Errors
    ///
    /// By [1](crate::Refusal::StoreLength), [3](crate::Refusal::NotWellFormed), [4](crate::Refusal::Path),
    /// [11](crate::Refusal::Sizes), [7](crate::Refusal::Absent) or [12](crate::Refusal::NoMeasure), in this order.
    pub fn grade(&self, subject: Label, base: &Path, top: &Path, n: u32) -> Result<Grade, Error> {
        raw::grade(self.as_bytes(), subject.number(), base.as_bytes(), top.as_bytes(), n).outcome()
    }
}

impl<B: AsMut<[u8]>> Store<B> {
    /// The store's bytes, to be written: any bytes will do, and the calls refuse what is not well formed.
    pub fn as_mut_bytes(&mut self) -> &mut [u8] {
        self.bytes.as_mut()
    }

    /// Makes one live element with a value. Where its parent is not in view, the missing groups above it are made too; they must
    /// bear the subject's label, else the insert is refused by 7. All of them are made, or none. The count: how many groups were
    /// made, 0 where the parent was in view, be it removed.
    ///
    /// # Errors
    ///
    /// By [1](crate::Refusal::StoreLength), [3](crate::Refusal::NotWellFormed) to [9](crate::Refusal::Full).
    pub fn insert(&mut self, subject: Label, path: &Path, value: Value<'_>) -> Result<u64, Error> {
        let bytes = self.as_mut_bytes();
        let answer =
            value.with_bytes(|brought| raw::insert(bytes, subject.number(), path.as_bytes(), value.kind().number(), brought));
        answer.outcome()
    }

    /// Replaces the value of a live element, its kind too, and keeps all else: what stands below it stays, whatever its label.
    /// The count: 1, the element replaced.
    ///
    /// # Errors
    ///
    /// By [1](crate::Refusal::StoreLength), [3](crate::Refusal::NotWellFormed) to [7](crate::Refusal::Absent).
    pub fn update(&mut self, subject: Label, path: &Path, value: Value<'_>) -> Result<u64, Error> {
        let bytes = self.as_mut_bytes();
        let answer =
            value.with_bytes(|brought| raw::update(bytes, subject.number(), path.as_bytes(), value.kind().number(), brought));
        answer.outcome()
    }

    /// Deletes the element and every live element below it of the same label. The count: how many elements were taken.
    ///
    /// # Errors
    ///
    /// By [1](crate::Refusal::StoreLength), [3](crate::Refusal::NotWellFormed), [4](crate::Refusal::Path),
    /// [6](crate::Refusal::OtherLabel) or [7](crate::Refusal::Absent).
    pub fn delete(&mut self, subject: Label, path: &Path) -> Result<u64, Error> {
        raw::delete(self.as_mut_bytes(), subject.number(), path.as_bytes()).outcome()
    }

    /// XML intake: takes in a style, sent as one XML element as [`view_xml`](Store::view_xml) writes it, without the dossier tag
    /// and with siblings in any order. All of its elements are made below the parent, or none; the parent must be in view, be it
    /// removed. The count: how many elements were made.
    ///
    /// # Errors
    ///
    /// By [1](crate::Refusal::StoreLength), [3](crate::Refusal::NotWellFormed), [4](crate::Refusal::Path),
    /// [13](crate::Refusal::Form), [14](crate::Refusal::NotOwn), [7](crate::Refusal::Absent), [8](crate::Refusal::Live) or
    /// [9](crate::Refusal::Full), in this order.
    pub fn insert_xml(&mut self, subject: Label, parent: &Path, text: &str) -> Result<u64, Error> {
        raw::insert_xml(self.as_mut_bytes(), subject.number(), parent.as_bytes(), text.as_bytes()).outcome()
    }

    /// The migration of a store that was written before the path order changed, to be run once by the store's owner, before calls
    /// resume. Each partition that is well formed in the order of before, by name and then by the label's number, gets the same
    /// elements in the order of now; each other keeps its bytes and is in the [`Mask`]. A second migration changes no byte; the
    /// partitions that the first changed are in its mask too.
    ///
    /// # Errors
    ///
    /// By [1](crate::Refusal::StoreLength) alone.
    pub fn migrate(&mut self) -> Result<Mask, Error> {
        raw::migrate(self.as_mut_bytes()).outcome()
    }
}

/// The first bytes of an output, if it has so many.
fn written(output: &[u8], count: u64) -> Option<&[u8]> {
    output.get(..usize::try_from(count).ok()?)
}

#[cfg(test)]
mod tests {
    use super::*;

    #[test]
    fn a_count_over_the_output_is_not_believed() {
        assert_eq!(written(b"VIEW", 4), Some(&b"VIEW"[..]));
        assert_eq!(written(b"VIEW", 5), None);
        assert_eq!(written(b"VIEW", u64::MAX), None);
    }
}
