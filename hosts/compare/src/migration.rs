//! The migration to another path order: document 02's seventh request.
use crate::label::LABELS;
use crate::partition::{STORE, partition, sort_slots};
use std::cmp::Ordering;

/// What a migration answers: 0 or 1, and a bit for each partition that was not well formed in the order of before.
#[derive(Clone, Copy, PartialEq, Eq, Debug)]
pub struct Migration {
    pub number: u32,
    pub mask: u32,
}

/// Brings each partition that is well formed in the order of before into that of now, and leaves the others.
pub fn migrate(store: &mut [u8]) -> Migration {
    if store.len() != STORE {
        return Migration { number: 1, mask: 0 };
    }
    let left = (0..LABELS).filter(|label| !migrate_one(store, *label));
    Migration { number: 0, mask: left.fold(0, |mask, label| mask | 1 << label) }
}

/// Migrates one partition, if it was well formed, and tells whether it was. While it is tested it shows whether anything
/// has to be moved.
fn migrate_one(store: &mut [u8], label: u8) -> bool {
    let mut is_sorted = true;
    let was_well_formed = partition(store, label).is_well_formed_by(|before, path| {
        is_sorted &= before < path;
        before.old_cmp(path) == Ordering::Less
    });
    if was_well_formed && !is_sorted {
        sort_slots(store, label);
    }
    was_well_formed
}
