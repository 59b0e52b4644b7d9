//! `dossier diff`: what one label sees and another does not.

use std::collections::HashSet;

use dossier::{Error, Refusal};

use crate::arguments::Words;
use crate::element::{Element, elements};
use crate::failure::{Done, Failure};
use crate::files;
use crate::shown::{counted, named};
use crate::table;

/// Lists the elements that the one sees and the other does not. Of what both see they are shown the same, since whoever sees a
/// path dominates its label.
pub fn diff(words: &Words) -> Result<Done, Failure> {
    let (subject, other, path) = (words.label("--as")?, words.label("--than")?, words.path(1)?);
    let store = files::read_store(words)?;
    let seen = elements(&store, subject, &path).map_err(|error| Failure::view(error, subject, &path))?;
    let by_other = match elements(&store, other, &path) {
        Err(Error::Refused(Refusal::Absent)) => Vec::new(),
        listed => listed.map_err(|error| Failure::view(error, other, &path))?,
    };
    let common: HashSet<&[u8]> = by_other.iter().map(|element| element.path.as_bytes()).collect();
    let more: Vec<&Element> = seen.iter().filter(|element| !common.contains(element.path.as_bytes())).collect();
    let head = format!("{} sees {} that {} does not\n", named(subject), counted(more.len(), "element"), named(other));
    if more.is_empty() {
        return files::print(head.as_bytes());
    }
    let rows: Vec<Vec<String>> = more.iter().map(|element| table::row(element.path.to_string(), element)).collect();
    files::print(format!("{head}\n{}", table::columns(&["path", "label", "kind", "value"], &rows)).as_bytes())?;
    Ok(Done::Found)
}
