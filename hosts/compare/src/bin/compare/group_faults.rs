//! The faults of an insert that makes the missing groups.
use crate::faults::{foreseen, refused};
use crate::generate::plain;
use crate::side::{Answer, Call, Name, Side, product};
use reference::partition::{SLOT, SLOTS, content_of, partition, put_content, put_slots, slot_of, take_slots};
use reference::path::Path;
use reference::value::GROUP;

/// Each fault and what it does.
pub const FAULTS: [(&str, Side); 14] = [
    ("an insert makes a group of another label", makes_others),
    ("an insert passes over a missing step of another label", passes_over),
    ("an insert takes a removed element for missing", refuses_removed),
    ("an insert takes for in view what a higher label holds", takes_hidden),
    ("the count of an insert has the element", counts_element),
    ("the count of an insert is that of the path's steps above the element", counts_steps),
    ("9 is told for the element alone", room_for_one),
    ("9 is told for the groups without the element", room_for_groups),
    ("the deepest group is left out", leaves_deepest),
    ("the first group is left out", leaves_first),
    ("a group has the element's value", gives_value),
    ("the groups are made although the insert is refused by 9", makes_some),
    ("an update makes what is missing", updates_missing),
    ("an XML intake makes the missing groups above it", takes_in_missing),
];

/// The prefixes of an insert's path, without itself, that have the subject's label and are not live, the shortest first;
/// none if the call is another or the product answers another number.
fn missing(call: &Call, store: &[u8], number: u32) -> Vec<Path> {
    let path = Path::read(&call.path).filter(|_| call.name == Name::Insert && foreseen(call, store) == number);
    let Some(path) = path else { return Vec::new() };
    let own = partition(store, call.subject as u8);
    let prefixes = (1..path.depth()).map(|depth| path.beginning(depth));
    prefixes.filter(|prefix| prefix.label() == Some(call.subject as u8) && own.find(prefix).is_err()).collect()
}

/// The insert of a group at this path, by the subject of its label.
fn group_at(path: &Path) -> Call {
    plain(Name::Insert, path.label().unwrap_or_default().into(), path.bytes())
}

/// The slots of groups at these paths.
fn group_slots(paths: &[Path]) -> Vec<[u8; SLOT]> {
    paths.iter().map(|path| slot_of(path, GROUP as u8, &[])).collect()
}

/// Puts slots into a partition that has room for them, one behind the other, where this path would stand.
fn put_from(store: &mut [u8], label: u8, path: &Path, slots: Vec<[u8; SLOT]>) {
    let at = partition(store, label).find(path).unwrap_or_else(|at| at);
    put_slots(store, label, at, slots.into_iter());
}

/// Makes a call; where it is an insert that makes groups, what it leaves is changed.
fn with_made(call: &Call, store: &mut [u8], output: &mut [u8], change: impl Fn(&mut [u8], u8, &[Path])) -> Answer {
    let made = missing(call, store, 0);
    let answer = product(call, store, output);
    if !made.is_empty() {
        change(store, call.subject as u8, &made);
    }
    answer
}

/// Takes the element at this path, and nothing else, out of a partition.
fn take_out(store: &mut [u8], label: u8, path: &Path) {
    if let Ok(at) = partition(store, label).find(path) {
        take_slots(store, label, at, 1);
    }
}

/// Makes a group at each step that is missing, whatever its label, where there is room.
fn makes_others(call: &Call, store: &mut [u8], output: &mut [u8]) -> Answer {
    if let (Name::Insert, 7, Some(path)) = (call.name, foreseen(call, store), Path::read(&call.path)) {
        for depth in 1..path.depth() {
            product(&group_at(&path.beginning(depth)), store, &mut []);
        }
    }
    product(call, store, output)
}

/// Makes the groups of the subject's label and the element where a step of another label is missing above them.
fn passes_over(call: &Call, store: &mut [u8], output: &mut [u8]) -> Answer {
    let missing = missing(call, store, 7);
    let label = call.subject as u8;
    if !missing.is_empty() && partition(store, label).count() + missing.len() < SLOTS {
        put_from(store, label, &missing[0], group_slots(&missing));
    }
    product(call, store, output)
}

/// Refuses an insert by 7 whose longest prefix in view is removed.
fn refuses_removed(call: &Call, store: &mut [u8], output: &mut [u8]) -> Answer {
    let missing = missing(call, store, 0);
    let above = missing.first().map(Path::parent).filter(|above| above.depth() > 0);
    let is_live = |above: Path| above.label().is_some_and(|label| partition(store, label).find(&above).is_ok());
    if above.is_some_and(|above| !is_live(above)) { refused(7) } else { product(call, store, output) }
}

/// Makes no group at a path that a label above the subject's has elements below.
fn takes_hidden(call: &Call, store: &mut [u8], output: &mut [u8]) -> Answer {
    let before = store.to_vec();
    with_made(call, store, output, |store, label, made| {
        for path in made {
            if (label + 1..32).any(|higher| partition(&before, higher).below(path).1.next().is_some()) {
                take_out(store, label, path);
            }
        }
    })
}

/// Counts the element with the groups.
fn counts_element(call: &Call, store: &mut [u8], output: &mut [u8]) -> Answer {
    let makes = !missing(call, store, 0).is_empty();
    let answer = product(call, store, output);
    Answer { count: answer.count + u64::from(makes), ..answer }
}

/// Counts each step above the element, be it missing or not.
fn counts_steps(call: &Call, store: &mut [u8], output: &mut [u8]) -> Answer {
    let makes = !missing(call, store, 0).is_empty();
    let answer = product(call, store, output);
    if makes { Answer { count: call.path.len() as u64 / 3 - 1, ..answer } } else { answer }
}

/// Puts the element in, with as many groups as there is room for, where it alone has room.
fn room_for_one(call: &Call, store: &mut [u8], output: &mut [u8]) -> Answer {
    let missing = missing(call, store, 9);
    let label = call.subject as u8;
    if missing.is_empty() || partition(store, label).count() == SLOTS {
        return product(call, store, output);
    }
    let made = SLOTS - partition(store, label).count() - 1;
    let path = Path::read(&call.path).unwrap_or_default();
    let mut slots = group_slots(&missing[..made]);
    slots.push(slot_of(&path, call.kind as u8, &call.value));
    put_from(store, label, &missing[0], slots);
    Answer { number: 0, count: made as u64, ..Answer::default() }
}

/// Makes the groups, and not the element, where they alone have room.
fn room_for_groups(call: &Call, store: &mut [u8], output: &mut [u8]) -> Answer {
    match missing(call, store, 9).last() {
        Some(parent) if foreseen(&group_at(parent), store) == 0 => {
            let answer = product(&group_at(parent), store, output);
            Answer { count: answer.count + 1, ..answer }
        }
        _ => product(call, store, output),
    }
}

/// Makes every group but the one directly above the element.
fn leaves_deepest(call: &Call, store: &mut [u8], output: &mut [u8]) -> Answer {
    with_made(call, store, output, |store, label, made| take_out(store, label, &made[made.len() - 1]))
}

/// Makes every group but the one directly below what is in view.
fn leaves_first(call: &Call, store: &mut [u8], output: &mut [u8]) -> Answer {
    with_made(call, store, output, |store, label, made| take_out(store, label, &made[0]))
}

/// Gives each group the element's kind and value.
fn gives_value(call: &Call, store: &mut [u8], output: &mut [u8]) -> Answer {
    with_made(call, store, output, |store, label, made| {
        for path in made {
            if let Ok(at) = partition(store, label).find(path) {
                put_content(store, label, at, &content_of(call.kind as u8, &call.value));
            }
        }
    })
}

/// Makes the groups that have room where the insert is refused by 9.
fn makes_some(call: &Call, store: &mut [u8], output: &mut [u8]) -> Answer {
    let missing = missing(call, store, 9);
    let answer = product(call, store, output);
    for path in missing {
        product(&group_at(&path), store, &mut []);
    }
    answer
}

/// Inserts where the element of an update is not live.
fn updates_missing(call: &Call, store: &mut [u8], output: &mut [u8]) -> Answer {
    if call.name == Name::Update && foreseen(call, store) == 7 {
        return product(&Call { name: Name::Insert, ..call.clone() }, store, output);
    }
    product(call, store, output)
}

/// Makes the parent of an XML intake where it is missing and has the subject's label.
fn takes_in_missing(call: &Call, store: &mut [u8], output: &mut [u8]) -> Answer {
    let parent = Path::read(&call.path).filter(|_| call.name == Name::InsertXml && foreseen(call, store) == 7);
    if let Some(parent) = parent.filter(|parent| parent.label() == Some(call.subject as u8)) {
        product(&group_at(&parent), store, &mut []);
    }
    product(call, store, output)
}
