//! What a view lists, each element with its whole path.

use std::collections::HashMap;

use dossier::{Error, Label, Level, Line, Mark, Path, Store, Value};

use crate::shown::millimetres;

/// An element in view.
#[derive(Clone, Debug, PartialEq, Eq)]
pub struct Element {
    /// Its path, from the root.
    pub path: Path,
    /// The name of its last step.
    pub name: u16,
    /// Its label.
    pub label: Label,
    /// What it holds.
    pub content: Content,
}

/// What an element holds.
#[derive(Clone, Debug, PartialEq, Eq)]
pub enum Content {
    /// It is removed; something live still stands below it.
    Removed,
    /// It is a group.
    Group,
    /// A measure, in hundredths of a millimetre.
    Measure(i32),
    /// A text.
    Text(String),
}

impl Content {
    /// The kind in a word; of a removed element that it is removed.
    pub fn kind(&self) -> &'static str {
        match self {
            Content::Removed => "removed",
            Content::Group => "group",
            Content::Measure(_) => "measure",
            Content::Text(_) => "text",
        }
    }

    /// The measure, if it is one.
    pub fn measure(&self) -> Option<i32> {
        match self {
            Content::Measure(hundredths) => Some(*hundredths),
            _ => None,
        }
    }

    /// The value as it is shown to people: a measure in millimetres, a text as it is, else nothing.
    pub fn shown(&self) -> String {
        match self {
            Content::Removed | Content::Group => String::new(),
            Content::Measure(hundredths) => format!("{} mm", millimetres(*hundredths)),
            Content::Text(text) => text.clone(),
        }
    }
}

/// The elements that a subject sees at and below a path, in path order.
pub fn elements(store: &Store, subject: Label, path: &Path) -> Result<Vec<Element>, Error> {
    store.view(subject, path)?.lines().map(|line| Ok(element(line?))).collect()
}

/// The element of a line.
fn element(line: Line) -> Element {
    let Line { path, name, label, mark, .. } = line;
    let content = match mark {
        Mark::Removed => Content::Removed,
        Mark::Live(Value::Group) => Content::Group,
        Mark::Live(Value::Measure(hundredths)) => Content::Measure(hundredths),
        Mark::Live(Value::Text(text)) => Content::Text(text.to_string()),
    };
    Element { path, name, label, content }
}

/// Where an element stands: those above it that are listed, from the root on, and itself, each with its name, its text, if it is
/// one, and whether it is removed. Of one above it that is a version among others its label is told.
pub fn place(elements: &[Element], versions: &[Version], at: usize) -> Vec<String> {
    let top = elements.first().map_or(0, |element| element.path.depth());
    let (mut names, mut depth) = (Vec::new(), usize::MAX);
    for before in (0..=at).rev() {
        let element = &elements[before];
        if depth == top {
            break;
        }
        if element.path.depth() < depth {
            depth = element.path.depth();
            let is_told = before != at && versions[before] != Version::Only;
            names.push(element.step_shown(is_told));
        }
    }
    names.reverse();
    names
}

/// What an element is among the versions under its name.
#[derive(Clone, Copy, Debug, PartialEq, Eq)]
pub enum Version {
    /// There are no others.
    Only,
    /// None that is listed has a higher level.
    Highest,
    /// One that is listed has a higher level.
    Lower,
}

impl Element {
    /// Its last step for people: the name, the text, if it is one, whether it is removed, and the label, if that is to be told.
    fn step_shown(&self, is_label_told: bool) -> String {
        let content = match &self.content {
            Content::Text(text) => format!(" {text}"),
            Content::Removed => " (removed)".to_string(),
            Content::Group | Content::Measure(_) => String::new(),
        };
        let label = if is_label_told { format!(" [{}]", self.label.words()) } else { String::new() };
        format!("{}{content}{label}", self.name)
    }

    /// The path above it and its name: what versions have in common.
    pub fn common(&self) -> (Path, u16) {
        (self.path.prefix(self.path.depth().saturating_sub(1)), self.name)
    }
}

/// What each element is among the versions under its name that are listed.
pub fn versions(elements: &[Element]) -> Vec<Version> {
    let mut levels: HashMap<(Path, u16), Vec<Level>> = HashMap::new();
    for element in elements {
        levels.entry(element.common()).or_default().push(element.label.level());
    }
    let version = |element: &Element| match levels.get(&element.common()) {
        Some(levels) if levels.len() > 1 && levels.iter().any(|level| *level > element.label.level()) => Version::Lower,
        Some(levels) if levels.len() > 1 => Version::Highest,
        _ => Version::Only,
    };
    elements.iter().map(version).collect()
}

#[cfg(test)]
mod tests {
    use super::*;

    /// The path of a text.
    fn path(text: &str) -> Path {
        text.parse().expect("a path")
    }

    #[test]
    fn each_element_has_its_whole_path() {
        let (open, house) = ("0".parse().expect("a label"), "16".parse().expect("a label"));
        let mut store = Store::empty();
        let inserted = [(open, "10:0/20:0/30:0"), (house, "10:0/20:0/30:16"), (house, "10:0/21:16"), (open, "11:0")];
        for (subject, text) in inserted {
            store.insert(subject, &path(text), Value::Measure(-150)).expect("an insert");
        }
        store.delete(open, &path("10:0")).expect("a delete");
        let listed = |top: &str| {
            let elements = elements(&store, house, &path(top)).expect("a view");
            elements
                .into_iter()
                .map(|element| format!("{} {}", element.path, element.content.kind()))
                .collect::<Vec<_>>()
        };
        let below = ["10:0/20:0 removed", "10:0/20:0/30:16 measure"];
        assert_eq!(listed("10:0/20:0"), below);
        assert_eq!(listed("10:0/20:0/30:16"), below[1..]);
        assert_eq!(listed("/"), ["10:0 removed", below[0], below[1], "10:0/21:16 measure", "11:0 measure"]);
    }

    #[test]
    fn versions_are_told_by_their_level() {
        let mut store = Store::empty();
        for (subject, text) in
            [(0, "10:0"), (8, "10:8"), (16, "10:16"), (17, "10:17"), (0, "11:0"), (8, "10:0/11:8"), (0, "10:0/10:0")]
        {
            let subject = Label::from_number(subject).expect("a label");
            store.insert(subject, &path(text), Value::Group).expect("an insert");
        }
        let seen = elements(&store, Label::from_number(31).expect("a label"), &Path::root()).expect("a view");
        let told: Vec<(String, Version)> =
            seen.iter().zip(versions(&seen)).map(|(element, version)| (element.path.to_string(), version)).collect();
        let expected = [
            ("10:16", Version::Highest),
            ("10:17", Version::Highest),
            ("10:8", Version::Lower),
            ("10:0", Version::Lower),
            ("10:0/10:0", Version::Only),
            ("10:0/11:8", Version::Only),
            ("11:0", Version::Only),
        ];
        assert_eq!(told, expected.map(|(path, version)| (path.to_string(), version)));
    }
}
