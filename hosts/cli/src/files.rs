//! Files and standard output, as the commands use them.

use std::ffi::OsStr;
use std::fs::{self, File};
use std::io::{self, ErrorKind, IsTerminal, Read, Write};

use dossier::file::{self, StoreFile, Wait};
use dossier::{FileCause, FileError, Store};

use crate::arguments::Words;
use crate::failure::{Done, Failure, eprint_all};

/// Reads the store of the command's file, to be shown.
pub fn read_store(words: &Words) -> Result<Store, Failure> {
    waiting(words, |file, wait| file::read(file, wait))
}

/// Opens the store of the command's file, to be changed and saved. It is locked until it is dropped.
pub fn open_store(words: &Words) -> Result<StoreFile, Failure> {
    waiting(words, |file, wait| StoreFile::open(file, wait))
}

/// Opens the command's file. Where it is in use and a person looks on, it is said that it is waited for.
fn waiting<T>(words: &Words, open: impl Fn(&OsStr, Wait) -> Result<T, FileError>) -> Result<T, Failure> {
    let name = words.file();
    let is_in_use = |error: &FileError| matches!(error.cause(), FileCause::InUse);
    let opened = match open(name, Wait::No) {
        Err(error) if is_in_use(&error) && words.wait() == Wait::Yes => {
            if io::stderr().is_terminal() {
                eprint_all(&format!("{} is in use; waiting\n", name.display()));
            }
            open(name, Wait::Yes)
        }
        opened => opened,
    };
    opened.map_err(|error| Failure::store(&error))
}

/// Saves a store that was opened. That a new store's folder could not be synced is told, and it is saved.
pub fn save(opened: &mut StoreFile) -> Result<(), Failure> {
    opened.save().map(|_| ()).map_err(|error| Failure::store(&error))
}

/// The bytes of a file, or of standard input where the word is a dash.
pub fn read_all(word: &OsStr) -> Result<Vec<u8>, Failure> {
    let read = if word == "-" {
        let mut bytes = Vec::new();
        io::stdin().read_to_end(&mut bytes).map(|_| bytes)
    } else {
        fs::read(word)
    };
    read.map_err(|error| Failure::other(word, &error))
}

/// Hands on the pieces of a file, or of standard input where the word is a dash, as they are read.
pub fn read_pieces(word: &OsStr, mut each: impl FnMut(&[u8]) -> Result<(), Failure>) -> Result<(), Failure> {
    let failed = |error: io::Error| Failure::other(word, &error);
    let mut source: Box<dyn Read> =
        if word == "-" { Box::new(io::stdin()) } else { Box::new(File::open(word).map_err(failed)?) };
    let mut piece = vec![0; 65_536];
    loop {
        match source.read(&mut piece) {
            Ok(0) => return Ok(()),
            Ok(count) => each(&piece[..count])?,
            Err(error) if error.kind() == ErrorKind::Interrupted => {}
            Err(error) => return Err(failed(error)),
        }
    }
}

/// Writes all to standard output. Where nobody reads it any more, nothing is lost.
pub fn print(text: &[u8]) -> Result<Done, Failure> {
    write_out(text).map(|()| Done::Well).map_err(|error| unprinted(&error, false))
}

/// Writes to standard output what was done to a store that is saved.
pub fn print_saved(text: &[u8]) -> Result<Done, Failure> {
    write_out(text).map(|()| Done::Well).map_err(|error| unprinted(&error, true))
}

/// Writes all to standard output, if there is somebody to read it.
fn write_out(text: &[u8]) -> io::Result<()> {
    let mut output = io::stdout().lock();
    match output.write_all(text).and_then(|()| output.flush()) {
        Err(error) if error.kind() == ErrorKind::BrokenPipe => Ok(()),
        written => written,
    }
}

/// Standard output could not be written. Whether the store is saved is told where it may have changed.
pub fn unprinted(error: &io::Error, is_saved: bool) -> Failure {
    let saved = if is_saved { "; the store is saved" } else { "" };
    Failure::File(format!("standard output: {error}{saved}\n"))
}
