//! Random texts for XML intake: good ones, and ones that are nearly so.
use crate::sent::Sent;
use crate::stores::{name, valid_value};
use reference::path::DEPTH;
use reference::random::Random;
use reference::value::Value;

/// Names that are none, and some that are.
const NAMES: [&str; 12] = ["0", "65535", "65536", "70000", "03", "00", "", "-1", "+3", " 3", "3 ", "4294967297"];
/// Labels that are none, and some that are.
const LABELS: [&str; 12] = ["0", "7", "31", "32", "40", "255", "256", "016", "", "-1", "+1", " 1"];
/// Values of which each is none of some kind.
const VALUES: [&str; 33] = [
    "",
    "0",
    "-0",
    "00",
    "007",
    "-07",
    "+5",
    "-",
    "5 ",
    " 5",
    "1x",
    "2147483647",
    "2147483648",
    "-2147483648",
    "-2147483649",
    "4294967296",
    "99999999999999999999",
    "a>b",
    ">",
    "a&b",
    "&",
    "&amp",
    "&quot;",
    "&#65;",
    "&AMP;",
    "&lt;&gt;&amp;",
    "\t",
    "\n",
    "\u{7f}",
    "ä",
    "SIXTEEN LETTERS.",
    "SEVENTEEN LETTERS",
    "]]>",
];
/// What may stand before or behind a text, or in the middle of it, where it must not.
const ODD: [&str; 16] = [
    " ",
    "\n",
    "\0",
    "x",
    "<",
    ">",
    "&",
    "<e1 ",
    "</e1>",
    "<!-- -->",
    "<?xml version=\"1.0\"?>",
    "<![CDATA[a]]>",
    "\u{feff}",
    "\r\n",
    "<e9 label=\"0\" preserve=\"PRESENT\" kind=\"G\"></e9>",
    "</dossier>",
];
/// Marks of the form, and what may be written for them where it must not.
const MARKS: [(&str, &str); 14] = [
    ("\"", "'"),
    (" label", "  label"),
    (" label", "\tlabel"),
    ("></e", "/>"),
    (" kind=", " kind ="),
    ("\">", "\" >"),
    ("</e", "</ e"),
    ("<e", "<E"),
    ("<e", "<"),
    ("PRESENT", "present"),
    ("PRESENT", "REMOVED"),
    ("kind=\"G\"", "kind=\"-\""),
    ("kind=\"T\"", "kind=\"M\""),
    ("&amp;", "&"),
];

/// A text with about so many elements of this label, the top one of this name, for a parent of so many steps; it is
/// good or spoiled.
pub fn text(random: &mut Random, top: u16, label: u8, count: usize, parent: usize) -> Vec<u8> {
    let mut sent = tree(random, top, label, count, DEPTH.saturating_sub(parent).max(1));
    while random.percent(35) {
        spoil(random, &mut sent);
    }
    let mut text = sent.text();
    while random.percent(15) {
        spoil_text(random, &mut text);
    }
    text
}

/// A tree of so many live elements and at most so many levels, of one element if that is one level; no two siblings are
/// equal.
pub fn tree(random: &mut Random, top: u16, label: u8, count: usize, levels: usize) -> Sent {
    let mut sent = element(random, top.into(), label);
    let more = if levels > 1 { count - 1 } else { 0 };
    for _ in 0..more {
        let mut at = &mut sent;
        for _ in 2..levels {
            if at.inside.is_empty() || random.percent(40) {
                break;
            }
            let next = random.below(at.inside.len());
            at = &mut at.inside[next];
        }
        let is_new = |name: &u32| at.inside.iter().all(|element| element.name != name.to_string());
        let wished = u32::from(name(random).max(1));
        let name = if is_new(&wished) { Some(wished) } else { (1..).find(is_new) };
        let child = element(random, name.unwrap_or(wished), label);
        at.inside.insert(random.below(at.inside.len() + 1), child);
    }
    sent
}

/// A live element with a value and nothing inside.
fn element(random: &mut Random, name: u32, label: u8) -> Sent {
    let (kind, bytes) = valid_value(random);
    let (kind, value) = match Value::read(kind, &bytes) {
        Some(Value::Measure(number)) => ("M", number.to_string()),
        Some(Value::Text(text)) => ("T", escaped(text)),
        _ => ("G", String::new()),
    };
    Sent { kind: kind.to_string(), value, ..Sent::group(name, label) }
}

/// A text with its escapes.
fn escaped(text: &[u8]) -> String {
    String::from_utf8_lossy(text).replace('&', "&amp;").replace('<', "&lt;").replace('>', "&gt;")
}

/// Some element of a tree.
fn some<'a>(random: &mut Random, sent: &'a mut Sent) -> &'a mut Sent {
    let mut at = sent;
    while !at.inside.is_empty() && random.percent(70) {
        let next = random.below(at.inside.len());
        at = &mut at.inside[next];
    }
    at
}

/// Changes one element of a tree, so that the text is mostly not in form or not the subject's.
fn spoil(random: &mut Random, sent: &mut Sent) {
    let at = some(random, sent);
    match random.below(16) {
        0..3 => at.label = random.below(32).to_string(),
        3 => at.label = random.pick(&LABELS).to_string(),
        4 => {
            at.name = random.pick(&NAMES).to_string();
            at.end = at.name.clone();
        }
        5 => at.end = random.pick(&["1", "2", "0", "65536", "01", "", " 1"]).to_string(),
        6 | 7 => remove(random, at),
        8 => at.preserve = random.pick(&["REMOVED", "PRESENT", "", "removed"]).to_string(),
        9 => at.kind = random.pick(&["G", "M", "T", "-", "g", "", "GT", "0"]).to_string(),
        10 | 11 => at.value = random.pick(&VALUES).to_string(),
        12 => long_text(random, at),
        13 | 14 => repeat(random, at),
        _ => deepen(random, at),
    }
}

/// Marks an element as removed; now and then it keeps its value.
fn remove(random: &mut Random, at: &mut Sent) {
    at.preserve = "REMOVED".to_string();
    at.kind = "-".to_string();
    if random.percent(90) {
        at.value.clear();
    }
}

/// Gives an element a text of about 16 characters, some of which are escaped.
fn long_text(random: &mut Random, at: &mut Sent) {
    let length = random.pick(&[15, 16, 16, 16, 17]);
    at.kind = "T".to_string();
    at.value = (0..length).map(|_| random.pick(&["a", " ", "\"", "&amp;", "&lt;", "&gt;"])).collect();
}

/// Puts an element beside one inside this one: equal to it in name and mostly in label.
fn repeat(random: &mut Random, at: &mut Sent) {
    let Some(one) = at.inside.first() else { return };
    let first = random.below(at.inside.len());
    let again = Sent { name: at.inside[first].name.clone(), end: at.inside[first].end.clone(), ..one.clone() };
    let label = if random.percent(70) { at.inside[first].label.clone() } else { random.below(32).to_string() };
    let place = random.below(at.inside.len() + 1);
    at.inside.insert(place, Sent { label, inside: Vec::new(), ..again });
}

/// Puts a chain of elements into an element, so that some stand too deep, or just deep enough.
fn deepen(random: &mut Random, at: &mut Sent) {
    let mut chain = element(random, 9, 0);
    for _ in 1..1 + random.below(7) {
        chain = Sent { inside: vec![chain], ..element(random, 9, 0) };
    }
    let label = at.label.clone();
    chain.for_each(&mut |element| element.label = label.clone());
    at.inside.push(chain);
}

/// Changes a text's bytes.
fn spoil_text(random: &mut Random, text: &mut Vec<u8>) {
    let at = random.below(text.len() + 1);
    match random.below(14) {
        0 => text.truncate(at),
        1 if at < text.len() => drop(text.remove(at)),
        2 if at < text.len() => text[at] = random.byte(),
        3 if at < text.len() => text[at] = random.pick(b"<>&\"'/= 019e-T"),
        4 => drop(text.splice(at..at, random.pick(&ODD).bytes())),
        5..8 => text.extend(random.pick(&ODD).bytes()),
        8 => drop(text.splice(..0, random.pick(&ODD).bytes())),
        9 => tear(random, text),
        10 | 11 => {
            let (mark, other) = random.pick(&MARKS);
            replace_one(random, text, mark, other);
        }
        12 => *text = [&b"<dossier subject=\"16\">"[..], text, b"</dossier>"].concat(),
        _ => {
            let length = random.pick(&[0, 1, 2, 60, 300]);
            *text = random.bytes(length);
        }
    }
}

/// The pieces of a text, tags and what stands between them.
pub fn pieces(text: &[u8]) -> Vec<&[u8]> {
    let starts = text.split_inclusive(|byte| *byte == b'>');
    starts
        .flat_map(|part| {
            let (value, tag) = part.split_at(part.iter().position(|byte| *byte == b'<').unwrap_or(part.len()));
            [value, tag].into_iter().filter(|piece| !piece.is_empty())
        })
        .collect()
}

/// Drops, doubles or moves a piece.
fn tear(random: &mut Random, text: &mut Vec<u8>) {
    let mut pieces = pieces(text);
    if pieces.is_empty() {
        return;
    }
    let (at, to) = (random.below(pieces.len()), random.below(pieces.len()));
    match random.below(3) {
        0 => drop(pieces.remove(at)),
        1 => pieces.insert(at, pieces[at]),
        _ => pieces.swap(at, to),
    }
    *text = pieces.concat();
}

/// Writes something else for one of these marks.
fn replace_one(random: &mut Random, text: &mut Vec<u8>, mark: &str, other: &str) {
    let written = String::from_utf8_lossy(text).into_owned();
    let places: Vec<usize> = written.match_indices(mark).map(|(at, _)| at).collect();
    if !places.is_empty() {
        let at = random.pick(&places);
        *text = [&written[..at], other, &written[at + mark.len()..]].concat().into_bytes();
    }
}
