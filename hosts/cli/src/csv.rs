//! What a subject sees as comma separated values.

use crate::element::{Content, Element, place, versions};
use crate::shown::millimetres;

/// A line of heads and a line for each element. Measures are in millimetres.
pub fn csv(elements: &[Element]) -> String {
    let heads = "path,depth,name,label,words,kind,millimetres,text,place\n".to_string();
    let versions = versions(elements);
    (0..elements.len()).fold(heads, |text, at| text + &line(&elements[at], &place(elements, &versions, at)))
}

/// The line of an element that stands at a place.
fn line(element: &Element, place: &[String]) -> String {
    let Element { path, name, label, content } = element;
    let (measure, text) = match content {
        Content::Measure(hundredths) => (millimetres(*hundredths), String::new()),
        Content::Text(text) => (String::new(), quoted(text)),
        Content::Group | Content::Removed => (String::new(), String::new()),
    };
    format!(
        "/{path},{},{name},{label},{},{},{measure},{text},{}\n",
        path.depth(),
        label.words(),
        content.kind(),
        quoted(&place.join(" / "))
    )
}

/// A text in double quotes, its own doubled.
fn quoted(text: &str) -> String {
    format!("\"{}\"", text.replace('"', "\"\""))
}
