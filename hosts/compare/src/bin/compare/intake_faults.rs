//! The faults of XML intake.
use crate::faults::{foreseen, refused};
use crate::robust::spent;
use crate::sent::Sent;
use crate::side::{Answer, Call, Name, Side, product};
use reference::STORE;
use reference::label::dominates;
use reference::partition::{SLOTS, partition};
use reference::path::{DEPTH, Path};
use std::collections::BTreeSet;
use std::time::Duration;

/// Each fault that random calls must find, and what it does.
pub const FAULTS: [(&str, Side); 31] = [
    ("what stands behind the end tag is left out", leaves_behind),
    ("an end tag may have another number", ends_anyhow),
    ("siblings may be equal", takes_equal),
    ("siblings may be equal that are no neighbours", takes_equal_apart),
    ("siblings of one name are equal", refuses_versions),
    ("a seventh step is taken", takes_seventh),
    ("a sixth step is refused", refuses_sixth),
    ("the length of a text is counted with its escapes", counts_escapes),
    ("a text of 17 characters is taken", takes_17),
    ("a text may have > as it is", takes_greater),
    ("a number may have leading zeros", takes_zeros),
    ("-0 is taken", takes_minus_zero),
    ("siblings must be in path order", refuses_order),
    ("a removed element with nothing inside is refused by 13", refuses_removed_leaf),
    ("labels that fall are refused by 13", refuses_falling),
    ("a label over 31 is refused by 14", tells_label),
    ("a removed element is taken for a group", takes_removed),
    ("14 is told before the end is read", tells_early),
    ("9 is told at the 33rd element", full_early),
    ("the parent's view is tested before the form", view_first),
    ("the top element is tested before the form", live_first),
    ("the room is tested before the top element", room_first),
    ("the room is tested for the top element alone", room_for_one),
    ("a removed parent is refused by 7", refuses_removed),
    ("a parent that the subject does not dominate is refused by 4", refuses_higher),
    ("the root is refused by 4", refuses_root),
    ("the last element is not put in", drops_last),
    ("the first element is put in where not all have room", puts_some),
    ("the count leaves out the top element", counts_below),
    ("a text is put in with its escapes", keeps_escapes),
    ("an element inside another is put in as a group", loses_values),
];

/// Each fault that the large texts of the robustness test must find.
pub const LONG_FAULTS: [(&str, Side); 8] = [
    ("equal siblings are found among the first 32 alone", |call, store, output| {
        mend_siblings(call, store, output, |_, second| second >= 32)
    }),
    ("equal siblings are found within 512 places alone", |call, store, output| {
        mend_siblings(call, store, output, |first, second| second - first > 512)
    }),
    ("equal siblings are found if one is among the first 512", |call, store, output| {
        mend_siblings(call, store, output, |first, _| first >= 512)
    }),
    ("equal siblings are found if both are among the same 512", |call, store, output| {
        mend_siblings(call, store, output, |first, second| first / 512 != second / 512)
    }),
    ("equal siblings are not found behind a large group inside", forgets_inside),
    ("siblings are held against each other by a name's lower bits", cuts_names),
    ("the length of a text is cut to 16 bits", cuts_length),
    ("a megabyte takes too long", is_slow),
];

/// Whether a call is an XML intake whose text is read: it is not refused before.
fn is_read(call: &Call, number: u32) -> bool {
    call.name == Name::InsertXml && !(1..=4).contains(&number)
}

/// Makes a call; where it is an XML intake that is refused by 13, with another text, as one takes it who is not so
/// strict.
fn with_mended(
    call: &Call,
    store: &mut [u8],
    output: &mut [u8],
    mend: impl FnOnce(&[u8]) -> Option<Vec<u8>>,
) -> Answer {
    let is_refused = call.name == Name::InsertXml && foreseen(call, store) == 13;
    match is_refused.then(|| mend(&call.text)).flatten() {
        Some(text) => product(&Call { text, ..call.clone() }, store, output),
        None => product(call, store, output),
    }
}

/// Makes a call; where it is an XML intake that is refused by 13, with each element of its text changed before.
fn with_changed(call: &Call, store: &mut [u8], output: &mut [u8], mut change: impl FnMut(&mut Sent)) -> Answer {
    with_mended(call, store, output, |text| {
        let mut sent = Sent::read(text)?;
        sent.for_each(&mut change);
        Some(sent.text())
    })
}

/// Makes a call; where it is an XML intake whose text is read, it is refused by another number if one is told for the
/// number that the product answers and the elements of the text.
fn with_number(
    call: &Call,
    store: &mut [u8],
    output: &mut [u8],
    tell: impl FnOnce(u32, &Sent, &[u8]) -> Option<u32>,
) -> Answer {
    let number = foreseen(call, store);
    let sent = if is_read(call, number) { Sent::read_first(&call.text) } else { None };
    match sent.and_then(|(sent, _)| tell(number, &sent, store)) {
        Some(number) => refused(number),
        None => product(call, store, output),
    }
}

/// Reads the first element alone.
fn leaves_behind(call: &Call, store: &mut [u8], output: &mut [u8]) -> Answer {
    with_mended(call, store, output, |text| Sent::read_first(text).map(|(sent, _)| sent.text()))
}

/// Takes each end tag for that of the element that it ends.
fn ends_anyhow(call: &Call, store: &mut [u8], output: &mut [u8]) -> Answer {
    with_changed(call, store, output, |element| element.end = element.name.clone())
}

/// What tells a sibling from another.
fn key(element: &Sent) -> (String, String) {
    (element.name.clone(), element.label.clone())
}

/// Gives the siblings of an element other names that are equal to one before, where the places of both are chosen.
fn rename(element: &mut Sent, is_chosen: fn(usize, usize) -> bool) {
    let mut fresh = (1..65_536_u32).rev().map(|name| name.to_string());
    let mut taken: BTreeSet<String> = element.inside.iter().map(|sibling| sibling.name.clone()).collect();
    let mut first = std::collections::BTreeMap::new();
    for at in 0..element.inside.len() {
        let before = *first.entry(key(&element.inside[at])).or_insert(at);
        if before != at && is_chosen(before, at) {
            let name = fresh.find(|name| !taken.contains(name)).unwrap_or_default();
            taken.insert(name.clone());
            element.inside[at].end = name.clone();
            element.inside[at].name = name;
        }
    }
}

/// Takes equal siblings where their places are chosen.
fn mend_siblings(call: &Call, store: &mut [u8], output: &mut [u8], is_chosen: fn(usize, usize) -> bool) -> Answer {
    with_changed(call, store, output, |element| rename(element, is_chosen))
}

/// Takes all equal siblings.
fn takes_equal(call: &Call, store: &mut [u8], output: &mut [u8]) -> Answer {
    mend_siblings(call, store, output, |_, _| true)
}

/// Takes equal siblings that have others between them.
fn takes_equal_apart(call: &Call, store: &mut [u8], output: &mut [u8]) -> Answer {
    mend_siblings(call, store, output, |first, second| second - first > 1)
}

/// Whether two siblings somewhere have the same part.
fn repeats(sent: &Sent, part: fn(&Sent) -> u32) -> bool {
    let is_new = |element: &Sent| {
        let mut met = BTreeSet::new();
        element.inside.iter().all(|sibling| met.insert(part(sibling)))
    };
    !sent.all().into_iter().all(is_new)
}

/// The number of a name.
fn name_of(element: &Sent) -> u32 {
    element.name.parse().unwrap_or(0)
}

/// Answers 13 for siblings that differ in their label alone.
fn refuses_versions(call: &Call, store: &mut [u8], output: &mut [u8]) -> Answer {
    with_number(call, store, output, |_, sent, _| repeats(sent, name_of).then_some(13))
}

/// Reads a text one step higher than its parent says.
fn takes_seventh(call: &Call, store: &mut [u8], output: &mut [u8]) -> Answer {
    let is_refused = call.name == Name::InsertXml && foreseen(call, store) == 13;
    match call.path.split_first_chunk::<3>() {
        Some((_, path)) if is_refused => product(&Call { path: path.to_vec(), ..call.clone() }, store, output),
        _ => product(call, store, output),
    }
}

/// How many levels a tree has.
fn levels(sent: &Sent) -> usize {
    1 + sent.inside.iter().map(levels).max().unwrap_or(0)
}

/// Answers 13 for a path of six steps.
fn refuses_sixth(call: &Call, store: &mut [u8], output: &mut [u8]) -> Answer {
    with_number(call, store, output, |_, sent, _| (call.path.len() / 3 + levels(sent) == DEPTH).then_some(13))
}

/// Answers 13 for a text that has over 16 bytes with its escapes.
fn counts_escapes(call: &Call, store: &mut [u8], output: &mut [u8]) -> Answer {
    let is_long = |element: &&Sent| element.kind == "T" && element.value.len() > 16;
    with_number(call, store, output, |_, sent, _| sent.all().iter().any(is_long).then_some(13))
}

/// Leaves out the 17th character of a text.
fn takes_17(call: &Call, store: &mut [u8], output: &mut [u8]) -> Answer {
    with_changed(call, store, output, |element| {
        let escapes = ["&amp;", "&lt;", "&gt;"].iter();
        let undone = escapes.fold(element.value.clone(), |value, escape| value.replace(escape, "x"));
        if element.kind == "T" && undone.len() == 17 {
            element.value = undone[..16].to_string();
        }
    })
}

/// Reads `>` in a text.
fn takes_greater(call: &Call, store: &mut [u8], output: &mut [u8]) -> Answer {
    with_changed(call, store, output, |element| element.value = element.value.replace('>', "&gt;"))
}

/// Reads numbers with leading zeros.
fn takes_zeros(call: &Call, store: &mut [u8], output: &mut [u8]) -> Answer {
    let trimmed = |written: &str| match written.trim_start_matches('0') {
        "" if !written.is_empty() => "0".to_string(),
        rest => rest.to_string(),
    };
    with_changed(call, store, output, |element| {
        element.name = trimmed(&element.name);
        element.end = trimmed(&element.end);
        element.label = trimmed(&element.label);
        if element.kind == "M" {
            element.value = trimmed(&element.value);
        }
    })
}

/// Reads -0 as 0.
fn takes_minus_zero(call: &Call, store: &mut [u8], output: &mut [u8]) -> Answer {
    with_changed(call, store, output, |element| {
        if (&element.kind[..], &element.value[..]) == ("M", "-0") {
            element.value.remove(0);
        }
    })
}

/// Answers 13 where siblings are not in path order.
fn refuses_order(call: &Call, store: &mut [u8], output: &mut [u8]) -> Answer {
    let is_ordered = |element: &Sent| element.inside.is_sorted_by_key(Sent::place);
    with_number(call, store, output, |_, sent, _| (!sent.all().into_iter().all(is_ordered)).then_some(13))
}

/// Whether an element is removed.
fn is_removed(element: &Sent) -> bool {
    element.preserve == "REMOVED"
}

/// Answers 13 for a removed element with nothing inside, as no view writes one.
fn refuses_removed_leaf(call: &Call, store: &mut [u8], output: &mut [u8]) -> Answer {
    let is_leaf = |element: &Sent| is_removed(element) && element.inside.is_empty();
    with_number(call, store, output, |_, sent, _| sent.all().into_iter().any(is_leaf).then_some(13))
}

/// The number of a label.
fn label_of(element: &Sent) -> u8 {
    element.label.parse().unwrap_or(0)
}

/// Answers 13 where a label does not dominate the one around it.
fn refuses_falling(call: &Call, store: &mut [u8], output: &mut [u8]) -> Answer {
    let falls =
        |element: &Sent| element.inside.iter().any(|inside| !dominates(label_of(inside) % 32, label_of(element) % 32));
    with_number(call, store, output, |_, sent, _| sent.all().into_iter().any(falls).then_some(13))
}

/// Answers 14 for a label over 31 in a text that is else in form.
fn tells_label(call: &Call, store: &mut [u8], output: &mut [u8]) -> Answer {
    let is_over = |element: &Sent| element.label.parse::<u32>().is_ok_and(|label| label > 31);
    with_changed(call, store, output, |element| {
        if is_over(element) {
            element.label = if call.subject == 0 { "1" } else { "0" }.to_string();
        }
    })
}

/// Makes a group of each removed element.
fn takes_removed(call: &Call, store: &mut [u8], output: &mut [u8]) -> Answer {
    let text = Sent::read(&call.text).filter(|_| is_read(call, foreseen(call, store))).map(|mut sent| {
        sent.for_each(&mut |element| {
            if is_removed(element) && element.kind == "-" {
                (element.preserve, element.kind) = ("PRESENT".to_string(), "G".to_string());
            }
        });
        sent.text()
    });
    product(&Call { text: text.unwrap_or_else(|| call.text.clone()), ..call.clone() }, store, output)
}

/// The beginning of a text up to each start tag, with the end tags of what is open there.
fn closed_beginnings(text: &[u8]) -> Vec<Vec<u8>> {
    let (mut open, mut beginnings) = (Vec::new(), Vec::new());
    let written = String::from_utf8_lossy(text);
    for (at, mark) in written.match_indices('>') {
        let tag = written[..at].rfind('<').map_or("", |start| &written[start..at]);
        if tag.starts_with("</") {
            open.pop();
        } else {
            let name = tag.trim_start_matches('<').split(' ').next().unwrap_or("");
            open.push(format!("</{name}>"));
            let ends = open.iter().rev().map(String::as_str).collect::<String>();
            beginnings.push([&written[..at], mark, &ends].concat().into_bytes());
        }
    }
    beginnings
}

/// Answers 14 at a group of another label, or at a removed element, whatever comes behind.
fn tells_early(call: &Call, store: &mut [u8], output: &mut [u8]) -> Answer {
    let is_early = call.name == Name::InsertXml
        && foreseen(call, store) == 13
        && closed_beginnings(&call.text).into_iter().any(|text| foreseen(&Call { text, ..call.clone() }, store) == 14);
    if is_early { refused(14) } else { product(call, store, output) }
}

/// Answers 9 where 33 elements begin, whatever else is wrong.
fn full_early(call: &Call, store: &mut [u8], output: &mut [u8]) -> Answer {
    let starts = call.text.windows(2).filter(|two| two == b"<e").count();
    if starts > SLOTS && is_read(call, foreseen(call, store)) {
        return refused(9);
    }
    product(call, store, output)
}

/// Answers 7 where the text is not in form, or not the subject's, and the parent is not in view.
fn view_first(call: &Call, store: &mut [u8], output: &mut [u8]) -> Answer {
    let view = Call { name: Name::View, output: 0, ..call.clone() };
    let number = foreseen(call, store);
    if is_read(call, number) && matches!(number, 13 | 14) && foreseen(&view, store) == 7 {
        return refused(7);
    }
    product(call, store, output)
}

/// Whether the top element of a text, as it is written, is live.
fn is_live(call: &Call, sent: &Sent, store: &[u8]) -> bool {
    let path = sent.step().and_then(|step| Path::read(&[&call.path[..], &step].concat()));
    path.is_some_and(|path| path.label().is_some_and(|label| partition(store, label).held(&path).is_some()))
}

/// Answers 8 where the text is not in form and its top element is live.
fn live_first(call: &Call, store: &mut [u8], output: &mut [u8]) -> Answer {
    with_number(call, store, output, |number, sent, store| (number == 13 && is_live(call, sent, store)).then_some(8))
}

/// How many elements the subject's partition would hold.
fn held_with(call: &Call, sent: &Sent, store: &[u8]) -> usize {
    partition(store, call.subject as u8).count() + sent.all().len()
}

/// Answers 9 where the top element is live and not all have room.
fn room_first(call: &Call, store: &mut [u8], output: &mut [u8]) -> Answer {
    with_number(call, store, output, |number, sent, store| {
        (number == 8 && held_with(call, sent, store) > SLOTS).then_some(9)
    })
}

/// Answers 9 only if there is no slot left, and puts in as many elements as there are.
fn room_for_one(call: &Call, store: &mut [u8], output: &mut [u8]) -> Answer {
    let answer = product(call, store, output);
    if !is_read(call, answer.number) || answer.number != 9 || store.len() != STORE {
        return answer;
    }
    let put = put_first(call, store, output);
    if put.number == 0 { Answer { count: 1, ..put } } else { answer }
}

/// Inserts the top element of a text as a group.
fn put_first(call: &Call, store: &mut [u8], output: &mut [u8]) -> Answer {
    let step = Sent::read(&call.text).and_then(|sent| sent.step()).unwrap_or_default();
    let path = [&call.path[..], &step].concat();
    product(&Call { name: Name::Insert, path, kind: 0, value: Vec::new(), ..call.clone() }, store, output)
}

/// Answers 7 for a parent that is removed.
fn refuses_removed(call: &Call, store: &mut [u8], output: &mut [u8]) -> Answer {
    with_number(call, store, output, |number, _, store| {
        let parent = Path::read(&call.path)?;
        let is_removed = partition(store, parent.label()?).held(&parent).is_none();
        (matches!(number, 0 | 8 | 9) && is_removed).then_some(7)
    })
}

/// Answers 4 where the subject does not dominate the parent's label.
fn refuses_higher(call: &Call, store: &mut [u8], output: &mut [u8]) -> Answer {
    with_number(call, store, output, |_, _, _| {
        let label = Path::read(&call.path)?.label()?;
        (!dominates(call.subject as u8, label)).then_some(4)
    })
}

/// Answers 4 for the root as the parent.
fn refuses_root(call: &Call, store: &mut [u8], output: &mut [u8]) -> Answer {
    if call.path.is_empty() && is_read(call, foreseen(call, store)) {
        return refused(4);
    }
    product(call, store, output)
}

/// The paths of the elements that a call puts in, each before those inside it, as bytes.
fn paths(parent: &[u8], sent: &Sent) -> Vec<Vec<u8>> {
    let path = [parent, &sent.step().unwrap_or_default()].concat();
    let inside: Vec<Vec<u8>> = sent.inside.iter().flat_map(|element| paths(&path, element)).collect();
    [vec![path], inside].concat()
}

/// Makes a call; where it is an XML intake that is done, with another one made behind it.
fn with_next(
    call: &Call,
    store: &mut [u8],
    output: &mut [u8],
    next: impl FnOnce(&Sent, &[Vec<u8>]) -> Option<Call>,
) -> Answer {
    let answer = product(call, store, output);
    if (call.name, answer.number) == (Name::InsertXml, 0) {
        let next = Sent::read(&call.text).and_then(|sent| next(&sent, &paths(&call.path, &sent)));
        if let Some(next) = next {
            product(&next, store, output);
        }
    }
    answer
}

/// Takes out the last element again.
fn drops_last(call: &Call, store: &mut [u8], output: &mut [u8]) -> Answer {
    with_next(call, store, output, |_, paths| {
        let path = paths.last()?.clone();
        Some(Call { name: Name::Delete, path, ..call.clone() })
    })
}

/// Puts in the first element where not all have room.
fn puts_some(call: &Call, store: &mut [u8], output: &mut [u8]) -> Answer {
    let answer = product(call, store, output);
    if call.name == Name::InsertXml && answer.number == 9 {
        put_first(call, store, output);
    }
    answer
}

/// Counts the elements inside the top one.
fn counts_below(call: &Call, store: &mut [u8], output: &mut [u8]) -> Answer {
    let answer = product(call, store, output);
    let less = u64::from(call.name == Name::InsertXml && answer.number == 0);
    Answer { count: answer.count - less, ..answer }
}

/// Gives a text its value as it was written, if that fits.
fn keeps_escapes(call: &Call, store: &mut [u8], output: &mut [u8]) -> Answer {
    with_next(call, store, output, |sent, paths| {
        let is_escaped = |element: &Sent| element.value.contains('&') && element.value.len() <= 16;
        let at = sent.all().into_iter().position(is_escaped)?;
        let value = sent.all()[at].value.clone().into_bytes();
        Some(Call { name: Name::Update, path: paths[at].clone(), kind: 2, value, ..call.clone() })
    })
}

/// Makes the second element a group.
fn loses_values(call: &Call, store: &mut [u8], output: &mut [u8]) -> Answer {
    with_next(call, store, output, |_, paths| {
        let path = paths.get(1)?.clone();
        Some(Call { name: Name::Update, path, kind: 0, value: Vec::new(), ..call.clone() })
    })
}

/// Takes equal siblings if a large group stands inside one before them.
fn forgets_inside(call: &Call, store: &mut [u8], output: &mut [u8]) -> Answer {
    with_changed(call, store, output, |element| {
        if element.inside.iter().any(|sibling| sibling.inside.len() > SLOTS) {
            rename(element, |_, _| true);
        }
    })
}

/// Answers 13 for siblings whose names have the same lower 15 bits, and one label.
fn cuts_names(call: &Call, store: &mut [u8], output: &mut [u8]) -> Answer {
    let part = |element: &Sent| (name_of(element) & 0x7fff) << 8 | u32::from(label_of(element));
    with_number(call, store, output, |_, sent, _| repeats(sent, part).then_some(13))
}

/// Takes the lowest 16 bits of the length of a text alone.
fn cuts_length(call: &Call, store: &mut [u8], output: &mut [u8]) -> Answer {
    let text = call.text[..call.text.len() & 0xffff].to_vec();
    product(&Call { text, ..call.clone() }, store, output)
}

/// Takes more time than there is for a long text.
fn is_slow(call: &Call, store: &mut [u8], output: &mut [u8]) -> Answer {
    let begin = spent();
    while call.text.len() >= 1_000_000 && spent().saturating_sub(begin) < Duration::from_millis(2100) {}
    product(call, store, output)
}
