//! Texts for XML intake as trees of what is written in them.
use crate::side::{Call, Name};
use std::cmp::Reverse;
use std::fmt::Write;

/// An element of a text, each part as it is written there, in form or not.
#[derive(Clone, Debug)]
pub struct Sent {
    pub name: String,
    pub label: String,
    pub preserve: String,
    pub kind: String,
    pub value: String,
    pub inside: Vec<Sent>,
    /// The number of the end tag.
    pub end: String,
}

/// How deep a text is read at most.
const DEEPEST: usize = 64;

impl Sent {
    /// A live group with nothing inside.
    pub fn group(name: u32, label: u8) -> Sent {
        let [name, label] = [name, label.into()].map(|number: u32| number.to_string());
        let (preserve, kind) = ("PRESENT".to_string(), "G".to_string());
        Sent { end: name.clone(), name, label, preserve, kind, value: String::new(), inside: Vec::new() }
    }

    /// The element as it is written.
    pub fn text(&self) -> Vec<u8> {
        let mut text = String::new();
        self.put(&mut text);
        text.into_bytes()
    }

    /// Writes the element.
    fn put(&self, text: &mut String) {
        let Sent { name, label, preserve, kind, value, inside, end } = self;
        let _ = write!(text, r#"<e{name} label="{label}" preserve="{preserve}" kind="{kind}">{value}"#);
        inside.iter().for_each(|element| element.put(text));
        let _ = write!(text, "</e{end}>");
    }

    /// Reads a text that is one element; nothing if it is not written as one.
    pub fn read(text: &[u8]) -> Option<Sent> {
        Sent::read_first(text).filter(|(_, behind)| behind.is_empty()).map(|(sent, _)| sent)
    }

    /// Reads the element that a text begins with, and what stands behind it.
    pub fn read_first(text: &[u8]) -> Option<(Sent, &str)> {
        let mut rest = str::from_utf8(text).ok()?;
        Sent::read_at(&mut rest, 1).map(|sent| (sent, rest))
    }

    /// Reads the next element; its depth is this one.
    fn read_at(rest: &mut &str, depth: usize) -> Option<Sent> {
        if depth > DEEPEST {
            return None;
        }
        *rest = rest.strip_prefix("<e")?;
        let marks = [" label=\"", "\" preserve=\"", "\" kind=\"", "\">"];
        let [name, label, preserve, kind] = marks.map(|mark| up_to(rest, mark));
        let value = &rest[..rest.find('<')?];
        *rest = &rest[value.len()..];
        let mut inside = Vec::new();
        while !rest.starts_with("</e") {
            inside.push(Sent::read_at(rest, depth + 1)?);
        }
        *rest = rest.strip_prefix("</e")?;
        let [name, label, preserve, kind, value, end] =
            [name?, label?, preserve?, kind?, value, up_to(rest, ">")?].map(str::to_string);
        Some(Sent { name, label, preserve, kind, value, inside, end })
    }

    /// Brings siblings into path order.
    fn sort(&mut self) {
        self.inside.sort_by_key(Sent::place);
        self.inside.iter_mut().for_each(Sent::sort);
    }

    /// Its place among its siblings: by name, then by level from high to low, then by compartments.
    pub fn place(&self) -> (u64, Reverse<u64>, u64) {
        let [name, label] = [&self.name, &self.label].map(|written| written.parse::<u64>().unwrap_or(0));
        (name, Reverse(label / 8), label % 8)
    }

    /// Does something with each element, each before those inside it.
    pub fn for_each(&mut self, act: &mut impl FnMut(&mut Sent)) {
        act(self);
        self.inside.iter_mut().for_each(|element| element.for_each(act));
    }

    /// The elements, each before those inside it.
    pub fn all(&self) -> Vec<&Sent> {
        std::iter::once(self).chain(self.inside.iter().flat_map(Sent::all)).collect()
    }

    /// The step as a path has it, if its numbers are in range.
    pub fn step(&self) -> Option<[u8; 3]> {
        let [low, high] = self.name.parse::<u16>().ok()?.to_le_bytes();
        Some([low, high, self.label.parse().ok()?])
    }
}

/// What stands before this mark, which is taken too.
fn up_to<'a>(rest: &mut &'a str, mark: &str) -> Option<&'a str> {
    let (before, behind) = rest.split_once(mark)?;
    *rest = behind;
    Some(before)
}

/// After a style was taken in: the view of its top element as XML, and what it must write.
pub fn read_back(call: &Call) -> Option<(Call, Vec<u8>)> {
    let mut sent = Sent::read(&call.text)?;
    let path = [&call.path[..], &sent.step()?].concat();
    sent.sort();
    let start = format!(r#"<dossier subject="{}">"#, call.subject).into_bytes();
    let xml = [start, sent.text(), b"</dossier>".to_vec()].concat();
    Some((Call { name: Name::ViewXml, path, output: xml.len(), ..call.clone() }, xml))
}
