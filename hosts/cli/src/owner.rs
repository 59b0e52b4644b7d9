//! What only a file's owner may know: the state of each partition; and `dossier check`, which tells it.

use dossier::{Error, Label, PARTITION_BYTES, Path, Refusal, Store};

use crate::arguments::Words;
use crate::element::{Content, elements};
use crate::failure::{Done, Failure};
use crate::files;
use crate::refusals;
use crate::shown::{counted, named};
use crate::table;

/// How many elements a partition can hold.
const SLOTS: usize = 32;

/// The state of a partition.
#[derive(Clone, Copy, Debug, PartialEq, Eq)]
pub enum State {
    /// It is well formed and holds so many elements.
    WellFormed(usize),
    /// It is well formed in the order of before: the migration brings it into the order of now.
    Former,
    /// It is well formed in neither order.
    Broken,
}

/// The bytes of a label's partition.
pub fn partition(store: &Store, label: Label) -> &[u8] {
    let start = label.number() as usize * PARTITION_BYTES;
    &store.as_bytes()[start..start + PARTITION_BYTES]
}

/// A store whose other partitions are empty.
fn alone(store: &Store, label: Label) -> Store {
    let start = label.number() as usize * PARTITION_BYTES;
    let mut alone = Store::empty();
    alone.as_mut_bytes()[start..start + PARTITION_BYTES].copy_from_slice(partition(store, label));
    alone
}

/// The state of a label's partition. It is told by the calls themselves, on a store in which it is alone: a view by its label is
/// refused by 3 exactly if it is not well formed, and the migration's mask tells of the order of before.
pub fn state(store: &Store, label: Label) -> Result<State, Error> {
    let mut alone = alone(store, label);
    match elements(&alone, label, &Path::root()) {
        Ok(seen) => Ok(State::WellFormed(seen.iter().filter(|element| element.content != Content::Removed).count())),
        Err(Error::Refused(Refusal::NotWellFormed)) => {
            Ok(if alone.migrate()?.has(label) { State::Broken } else { State::Former })
        }
        Err(error) => Err(error),
    }
}

/// Tells the state of each partition.
pub fn check(words: &Words) -> Result<Done, Failure> {
    let store = files::read_store(words)?;
    let states = Label::all()
        .map(|label| Ok((label, state(&store, label)?)))
        .collect::<Result<Vec<_>, Error>>()
        .map_err(|error| Failure::call(error, refusals::of_any))?;
    let rows: Vec<Vec<String>> = states.iter().map(|(label, state)| row(*label, *state)).collect();
    let text = table::columns(&["label", "in words", "elements", "free", "partition"], &rows);
    let faulty: Vec<Label> =
        states.iter().filter(|(_, state)| !matches!(state, State::WellFormed(_))).map(|(label, _)| *label).collect();
    let elements = states.iter().map(|(_, state)| if let State::WellFormed(count) = state { *count } else { 0 }).sum();
    files::print(format!("{text}\n{}", summary(elements, &faulty)).as_bytes())?;
    Ok(if faulty.is_empty() { Done::Well } else { Done::Found })
}

/// The row of a partition.
fn row(label: Label, state: State) -> Vec<String> {
    let (elements, free, told) = match state {
        State::WellFormed(count) => (count.to_string(), SLOTS.saturating_sub(count).to_string(), "well formed"),
        State::Former => {
            ("-".to_string(), "-".to_string(), "not well formed: in the order of before, see dossier migrate")
        }
        State::Broken => ("-".to_string(), "-".to_string(), "not well formed: broken"),
    };
    vec![label.to_string(), label.words(), elements, free, told.to_string()]
}

/// What is said below the table.
fn summary(elements: usize, faulty: &[Label]) -> String {
    let refused: Vec<Label> =
        Label::all().filter(|subject| faulty.iter().any(|label| subject.dominates(*label))).collect();
    let counted = counted(elements, "element");
    if faulty.is_empty() {
        return format!("{counted}; every partition is well formed\n");
    }
    format!(
        "{counted} in those that are well formed\nnot well formed: {}\nrefused by 3 are the calls of: {}\n",
        list(faulty),
        list(&refused)
    )
}

/// Labels with their words, or that there are none.
pub fn list(labels: &[Label]) -> String {
    let names: Vec<String> = labels.iter().map(|label| named(*label)).collect();
    if names.is_empty() { "none".to_string() } else { names.join(", ") }
}
