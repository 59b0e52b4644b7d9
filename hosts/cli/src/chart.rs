//! `dossier chart`: a page to print, with nothing on it that the view does not list.

use std::fs;
use std::path::Path as FilePath;

use dossier::{Label, Path, STORE_BYTES};

use crate::arguments::Words;
use crate::date::Date;
use crate::element::{self, Element, Version, place, versions};
use crate::failure::{Done, Failure};
use crate::files;
use crate::html::{content, header, page, tagged};
use crate::shown::millimetres;

/// How wide the bars' space is, in units of its drawing.
const WIDE: i64 = 1000;
/// The least width of a bar.
const LEAST: i64 = 3;

/// Writes the chart of what a label sees.
pub fn chart(words: &Words) -> Result<Done, Failure> {
    let (subject, path) = (words.label("--as")?, words.path(1)?);
    let date = match words.option("--date").map(|word| word.to_string_lossy()) {
        Some(text) => text.parse().map_err(|error| words.slip(&format!("'{text}' is no date: {error}")))?,
        None => Date::today(),
    };
    let output = words.option("-o").unwrap_or_default();
    if is_store(FilePath::new(output)) {
        return Err(words.slip("the page would be written over a store"));
    }
    let store = files::read_store(words)?;
    let elements = element::elements(&store, subject, &path).map_err(|error| Failure::view(error, subject, &path))?;
    let text = chart_page(subject, &path, &elements, date);
    if output == "-" {
        return files::print(text.as_bytes());
    }
    fs::write(output, text).map(|()| Done::Well).map_err(|error| Failure::other(output, &error))
}

/// Whether a file may be a store: it has a store's length, and does not begin as a page does.
fn is_store(file: &FilePath) -> bool {
    let is_long = fs::metadata(file).is_ok_and(|about| about.is_file() && about.len() == STORE_BYTES as u64);
    is_long && !fs::read(file).is_ok_and(|bytes| bytes.starts_with(b"<!DOCTYPE html>"))
}

/// The page: the tree with its texts, then the measures.
fn chart_page(subject: Label, path: &Path, elements: &[Element], date: Date) -> String {
    let title = format!("Chart for {}", subject.words());
    let footer = format!("{title}, {date}");
    let head = header(&title, subject, path, elements, &[date.to_string()]);
    if elements.is_empty() {
        return page(&title, &footer, &(head + "<p>Nothing is in view.</p>\n"));
    }
    page(&title, &footer, &format!("{head}<h2>Tree</h2>\n{}{}", tree(elements), measures(elements)))
}

/// The tree: a list in which what stands below an element is a list in it.
fn tree(elements: &[Element]) -> String {
    let Some(top) = elements.first().map(|element| element.path.depth()) else {
        return String::new();
    };
    let (mut text, mut depth) = ("<ul>\n".to_string(), top);
    for (at, element) in elements.iter().enumerate() {
        let next = element.path.depth();
        if at > 0 {
            text += &if next > depth {
                "\n<ul>\n".to_string()
            } else {
                format!("</li>\n{}", "</ul>\n</li>\n".repeat(depth - next))
            };
        }
        depth = next;
        text += &item(element);
    }
    text + "</li>\n" + &"</ul>\n</li>\n".repeat(depth - top) + "</ul>\n"
}

/// An element of the tree, without its end.
fn item(element: &Element) -> String {
    let name = tagged("span", "name", &element.name.to_string());
    let label = tagged("span", "label", &element.label.words());
    format!("<li><div>{name} {} {label}</div>", content(&element.content))
}

/// The table of measures, with a bar each.
fn measures(elements: &[Element]) -> String {
    let versions = versions(elements);
    let measured: Vec<(usize, i64)> =
        elements.iter().enumerate().filter_map(|(at, element)| Some((at, element.content.measure()?.into()))).collect();
    if measured.is_empty() {
        return "<p>No measure is in view.</p>\n".to_string();
    }
    let low = measured.iter().fold(0, |low, (_, measure)| low.min(*measure));
    let high = measured.iter().fold(0, |high, (_, measure)| high.max(*measure));
    let (mut rows, mut before) = (String::new(), None);
    for (at, measure) in &measured {
        let common = Some(elements[*at].common());
        let class = row_class(versions[*at], common == before);
        rows += &row(&elements[*at], &place(elements, &versions, *at), &class, &bar(*measure, low, high));
        before = common;
    }
    let has_versions = measured.iter().any(|(at, _)| versions[*at] != Version::Only);
    let legend =
        if has_versions { "<p>Of versions under one name those of the highest level are in bold.</p>\n" } else { "" };
    let heads = "<tr><th>Measure</th><th>Label</th><th class=\"number\">mm</th><th class=\"bars\">Length</th></tr>";
    format!("<h2>Measures</h2>\n{legend}<table>\n<thead>{heads}</thead>\n<tbody>\n{rows}</tbody>\n</table>\n")
}

/// The class of a measure's row: whether it is a version of the highest level, and whether it is a further version, which stays on
/// one sheet of paper with the row before it.
fn row_class(version: Version, is_further: bool) -> String {
    let classes = [(version == Version::Highest).then_some("highest"), is_further.then_some("further")];
    classes.into_iter().flatten().collect::<Vec<_>>().join(" ")
}

/// The row of a measure that stands at a place.
fn row(element: &Element, place: &[String], class: &str, bar: &str) -> String {
    let last = place.len().saturating_sub(1);
    let step = |(at, step): (usize, &String)| {
        tagged("span", "step", &if at < last { format!("{step} /") } else { step.clone() })
    };
    let steps: Vec<String> = place.iter().enumerate().map(step).collect();
    let label = tagged("td", "label", &element.label.words());
    let value = tagged("td", "number", &element.content.measure().map_or(String::new(), millimetres));
    format!("<tr class=\"{class}\"><td>{}</td>{label}{value}<td class=\"bars\">{bar}</td></tr>\n", steps.join(" "))
}

/// The bar of a measure, drawn from 0, in a space from the lowest to the highest. That of a measure other than 0 is seen.
fn bar(measure: i64, low: i64, high: i64) -> String {
    let at = |number: i64| (number - low) * WIDE / (high - low).max(1);
    let (zero, least) = (at(0), if measure == 0 { 0 } else { LEAST });
    let width = (zero - at(measure)).abs().max(least);
    let start = if measure < 0 { zero - width } else { zero };
    format!(
        "<svg viewBox=\"-3 0 {} 10\" preserveAspectRatio=\"none\" aria-hidden=\"true\"><rect x=\"{start}\" y=\"1\" width=\"{width}\" \
         height=\"8\"/><rect x=\"{}\" width=\"3\" height=\"10\"/></svg>",
        WIDE + 6,
        zero - 1
    )
}
