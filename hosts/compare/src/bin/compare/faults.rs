//! The product with one fault each: the comparison has to find every one of them.
use crate::generate::XML_ROOMY;
use crate::grade_faults as grade;
use crate::side::{Answer, Call, Name, Side, product};
use reference::STORE;
use reference::label::LABELS;
use reference::partition::{HEAD, PARTITION, SLOT, SLOTS, VALUE, partition};
use reference::path::Path;
use reference::value::Value;

/// Each fault and what it does.
pub const FAULTS: [(&str, Side); 29] = [
    ("a refused view writes the output's first byte", writes_when_refused),
    ("a view writes the byte behind its listing", writes_behind),
    ("a refused call writes the store's last byte", writes_store_when_refused),
    ("a delete counts at most two", counts_two),
    ("all 32 partitions are tested", tests_all),
    ("the dominated partitions' free bytes are not tested", spares_free_bytes),
    ("an update is two public calls", two_calls),
    ("an update takes what is below", takes_below),
    ("an update counts what is below", counts_below),
    ("an update writes the content of the next slot", writes_next),
    ("an update leaves the end of a longer value", leaves_end),
    ("the subject is cut to a byte", cuts_subject),
    ("the kind is cut to a byte", cuts_kind),
    ("a partition is full with 31", full_early),
    ("the value is tested before the path", value_first),
    ("a live version of the name with a higher label stops an insert", tells_of_higher),
    ("the XML has > as it is", leaves_greater),
    ("the XML closes an element by the name of the one around it", closes_by_parent),
    ("the XML has - for the value of a removed element", values_removed),
    ("a grade rounds toward zero", grade::rounds_to_zero),
    ("a grade has the remainder of the absolute difference", grade::divides_absolute),
    ("a grade has a step of 32 bits", grade::cuts_step),
    ("a grade takes the top's measure for both", grade::takes_top_twice),
    ("a grade refuses 64 sizes", grade::refuses_64),
    ("a grade takes 65 sizes", grade::takes_65),
    ("a grade's number of sizes is cut to a byte", grade::cuts_sizes),
    ("a grade tests the base for a measure before the top's view", grade::base_first),
    ("a grade refuses the root by 4", grade::refuses_root),
    ("a grade tells a hidden measure from a missing one", grade::tells_of_hidden),
];

/// The answer of a refusal.
pub fn refused(number: u32) -> Answer {
    Answer { number, ..Answer::default() }
}

/// The number the product would answer, without doing the call.
pub fn foreseen(call: &Call, store: &[u8]) -> u32 {
    let (mut store, mut output) = (store.to_vec(), vec![0; call.output]);
    product(call, &mut store, &mut output).number
}

/// Changes the first byte of an output that is too short.
fn writes_when_refused(call: &Call, store: &mut [u8], output: &mut [u8]) -> Answer {
    let answer = product(call, store, output);
    if let (true, Some(byte)) = (answer.number == 10, output.first_mut()) {
        *byte ^= 1;
    }
    answer
}

/// Changes the byte behind a listing.
fn writes_behind(call: &Call, store: &mut [u8], output: &mut [u8]) -> Answer {
    let answer = product(call, store, output);
    if let (Name::View, Some(byte)) = (call.name, output.get_mut(answer.count as usize)) {
        *byte ^= u8::from(answer.number == 0);
    }
    answer
}

/// Changes the store's last byte where the partition is full.
fn writes_store_when_refused(call: &Call, store: &mut [u8], output: &mut [u8]) -> Answer {
    let answer = product(call, store, output);
    if let (9, Some(byte)) = (answer.number, store.last_mut()) {
        *byte ^= 1;
    }
    answer
}

/// Counts no more than two deleted elements.
fn counts_two(call: &Call, store: &mut [u8], output: &mut [u8]) -> Answer {
    let answer = product(call, store, output);
    let count = if call.name == Name::Delete { answer.count.min(2) } else { answer.count };
    Answer { count, ..answer }
}

/// Answers 3 for partitions that the subject does not dominate too.
fn tests_all(call: &Call, store: &mut [u8], output: &mut [u8]) -> Answer {
    let tested = store.len() == STORE && call.subject < u32::from(LABELS);
    if tested && !(0..LABELS).all(|label| partition(store, label).is_well_formed()) {
        return refused(3);
    }
    product(call, store, output)
}

/// Clears the free slots before the call, so that no test finds anything there.
fn spares_free_bytes(call: &Call, store: &mut [u8], output: &mut [u8]) -> Answer {
    let saved = store.to_vec();
    if store.len() == STORE {
        for part in store.as_chunks_mut::<PARTITION>().0 {
            let free = HEAD + SLOT * usize::from(part[0]).min(SLOTS);
            part[free..].fill(0);
        }
    }
    let answer = product(call, store, output);
    if answer.number != 0 {
        store.copy_from_slice(&saved);
    }
    answer
}

/// The subject's paths from that of an update on, in their order; none if the call is another or is refused.
fn from_updated(call: &Call, store: &[u8]) -> Vec<Path> {
    let path = Path::read(&call.path).filter(|_| call.name == Name::Update && foreseen(call, store) == 0);
    let Some(path) = path else { return Vec::new() };
    partition(store, call.subject as u8).slots().map(|slot| slot.path()).filter(|held| *held >= path).collect()
}

/// The subject's paths that extend that of an update.
fn below_updated(call: &Call, store: &[u8]) -> Vec<Path> {
    let paths = from_updated(call, store);
    paths.iter().skip(1).take_while(|path| path.extends(&paths[0])).copied().collect()
}

/// Deletes and inserts where an update is asked for and nothing of the subject's label is below.
fn two_calls(call: &Call, store: &mut [u8], output: &mut [u8]) -> Answer {
    if from_updated(call, store).is_empty() || !below_updated(call, store).is_empty() {
        return product(call, store, output);
    }
    let taken = product(&Call { name: Name::Delete, ..call.clone() }, store, output);
    let put = product(&Call { name: Name::Insert, ..call.clone() }, store, output);
    if put.number == 0 { taken } else { put }
}

/// Deletes what is below an updated element.
fn takes_below(call: &Call, store: &mut [u8], output: &mut [u8]) -> Answer {
    let below = below_updated(call, store);
    let answer = product(call, store, output);
    for path in below {
        product(&Call { name: Name::Delete, path: path.bytes(), ..call.clone() }, store, output);
    }
    answer
}

/// Counts what is below an updated element.
fn counts_below(call: &Call, store: &mut [u8], output: &mut [u8]) -> Answer {
    let below = below_updated(call, store).len() as u64;
    let answer = product(call, store, output);
    Answer { count: answer.count + below, ..answer }
}

/// Updates the element behind the one that is asked for, if there is one.
fn writes_next(call: &Call, store: &mut [u8], output: &mut [u8]) -> Answer {
    match from_updated(call, store).get(1) {
        Some(next) => product(&Call { path: next.bytes(), ..call.clone() }, store, output),
        None => product(call, store, output),
    }
}

/// Lays back what stood behind the end of an updated value.
fn leaves_end(call: &Call, store: &mut [u8], output: &mut [u8]) -> Answer {
    let saved = store.to_vec();
    let answer = product(call, store, output);
    if (call.name, answer.number) == (Name::Update, 0) {
        for (at, (byte, old)) in store.iter_mut().zip(saved).enumerate() {
            let in_slot = (at % PARTITION).saturating_sub(HEAD) % SLOT;
            if in_slot >= VALUE + call.value.len() {
                *byte = old;
            }
        }
    }
    answer
}

/// Takes the subject's lowest byte alone.
fn cuts_subject(call: &Call, store: &mut [u8], output: &mut [u8]) -> Answer {
    product(&Call { subject: call.subject & 255, ..call.clone() }, store, output)
}

/// Takes the kind's lowest byte alone.
fn cuts_kind(call: &Call, store: &mut [u8], output: &mut [u8]) -> Answer {
    product(&Call { kind: call.kind & 255, ..call.clone() }, store, output)
}

/// Refuses the 32nd insert of a label.
fn full_early(call: &Call, store: &mut [u8], output: &mut [u8]) -> Answer {
    let done = call.name == Name::Insert && foreseen(call, store) == 0;
    if done && partition(store, call.subject as u8).count() == 31 {
        return refused(9);
    }
    product(call, store, output)
}

/// Answers 5 where both the path and the value are not valid.
fn value_first(call: &Call, store: &mut [u8], output: &mut [u8]) -> Answer {
    let valued = matches!(call.name, Name::Insert | Name::Update);
    if valued && foreseen(call, store) == 4 && Value::read(call.kind, &call.value).is_none() {
        return refused(5);
    }
    product(call, store, output)
}

/// Refuses an insert because a higher partition has the same names.
fn tells_of_higher(call: &Call, store: &mut [u8], output: &mut [u8]) -> Answer {
    let done = call.name == Name::Insert && foreseen(call, store) == 0;
    let names = |path: &[u8]| path.chunks(3).map(|step| [step[0], step[1]]).collect::<Vec<_>>();
    let mut higher = (0..LABELS).filter(|label| done && u32::from(*label) > call.subject);
    if higher.any(|label| partition(store, label).slots().any(|slot| names(&slot.path().bytes()) == names(&call.path)))
    {
        return refused(8);
    }
    product(call, store, output)
}

/// Makes a call with the product's XML changed, as a writer with that fault would.
pub fn with_xml(call: &Call, store: &mut [u8], output: &mut [u8], change: impl Fn(&str) -> String) -> Answer {
    if call.name != Name::ViewXml {
        return product(call, store, output);
    }
    let mut space = vec![0; XML_ROOMY];
    let answer = product(call, store, &mut space);
    if answer.number != 0 {
        return answer;
    }
    let xml = change(&String::from_utf8_lossy(&space[..answer.count as usize]));
    let Some(written) = output.get_mut(..xml.len()) else { return refused(10) };
    written.copy_from_slice(xml.as_bytes());
    Answer { count: xml.len() as u64, ..answer }
}

/// Escapes only `&` and `<`.
fn leaves_greater(call: &Call, store: &mut [u8], output: &mut [u8]) -> Answer {
    with_xml(call, store, output, |xml| xml.replace("&gt;", ">"))
}

/// Writes the end tag of an element inside another one with the other's name.
fn closes_by_parent(call: &Call, store: &mut [u8], output: &mut [u8]) -> Answer {
    with_xml(call, store, output, |xml| {
        let (mut changed, mut open) = (String::new(), Vec::new());
        for piece in xml.split('<').skip(1) {
            let name = piece.split([' ', '>']).next().unwrap_or(piece);
            let closed = name.starts_with('/').then(|| open.pop()).flatten();
            match (closed, open.last()) {
                (Some(_), Some(around)) if open.len() > 1 => changed += &format!("</{around}>"),
                _ => changed += &format!("<{piece}"),
            }
            if closed.is_none() {
                open.push(name);
            }
        }
        changed
    })
}

/// Writes what a listing has for a value where an element is removed.
fn values_removed(call: &Call, store: &mut [u8], output: &mut [u8]) -> Answer {
    with_xml(call, store, output, |xml| xml.replace(r#" kind="-">"#, r#" kind="-">-"#))
}
