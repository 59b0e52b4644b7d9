//! How a command ends, and its exit status.

use std::ffi::OsStr;
use std::io;

use dossier::{Error, FileCause, FileError, Label, Path, Refusal};

use crate::refusals;

/// How a command ends that was carried out.
#[derive(Clone, Copy, Debug, PartialEq, Eq)]
pub enum Done {
    /// Nothing is to be said by the status.
    Well,
    /// Something was found: a refusal, a difference, a line that does not read, a partition that is not well formed.
    Found,
}

/// Why a command was not carried out.
#[derive(Debug)]
pub enum Failure {
    /// The command line is not one of those that the help shows.
    Usage(String),
    /// The call was refused.
    Refused(String),
    /// A file could not be opened, locked, read or saved.
    File(String),
}

impl Failure {
    /// A slip in the command line, with the command whose help says more.
    pub fn usage(command: &str, what: &str) -> Failure {
        Failure::Usage(format!("dossier {command}: {what}; see dossier {command} --help\n"))
    }

    /// A store's file that could not be opened, locked or saved.
    pub fn store(error: &FileError) -> Failure {
        let advice = match error.cause() {
            FileCause::Open(error) if error.kind() == io::ErrorKind::NotFound => "; dossier new makes an empty store",
            FileCause::Exists => "; it is not overwritten",
            _ => "",
        };
        Failure::File(format!("{error}{advice}\n"))
    }

    /// Another file that could not be read or written.
    pub fn other(file: &OsStr, error: &io::Error) -> Failure {
        Failure::File(format!("{}: {error}\n", file.display()))
    }

    /// A call that gave no result, told by what its refusal means.
    pub fn call(error: Error, told: impl FnOnce(Refusal) -> String) -> Failure {
        Failure::Refused(match error {
            Error::Refused(refusal) => format!("{}\n", told(refusal)),
            other => format!("{other}\n"),
        })
    }

    /// A view that gave no result.
    pub fn view(error: Error, subject: Label, path: &Path) -> Failure {
        Failure::call(error, |refusal| refusals::of_view(refusal, subject, path))
    }

    /// Says on standard error why.
    pub fn tell(&self) {
        let (Failure::Usage(text) | Failure::Refused(text) | Failure::File(text)) = self;
        eprint_all(text);
    }
}

/// The exit status.
pub fn status(done: &Result<Done, Failure>) -> u8 {
    match done {
        Ok(Done::Well) => 0,
        Ok(Done::Found) | Err(Failure::Refused(_)) => 1,
        Err(Failure::Usage(_)) => 2,
        Err(Failure::File(_)) => 3,
    }
}

/// Writes to standard error. That it may be closed is no failure: there is nobody to be told.
pub fn eprint_all(text: &str) {
    use io::Write;
    let _ = io::stderr().write_all(text.as_bytes());
}
