//! `dossier new`: a file with an empty store.

use dossier::Store;

use crate::arguments::Words;
use crate::failure::{Done, Failure};

/// Makes the file.
pub fn new(words: &Words) -> Result<Done, Failure> {
    Store::create(words.file()).map(|()| Done::Well).map_err(|error| Failure::store(&error))
}
