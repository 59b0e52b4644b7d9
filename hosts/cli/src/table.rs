//! Tables of plain text.

use dossier::{Label, Path};

use crate::element::Element;
use crate::shown::{counted, named};

/// Lines with their columns below each other; the first has the heads.
pub fn columns(heads: &[&str], rows: &[Vec<String>]) -> String {
    let heads: Vec<String> = heads.iter().map(ToString::to_string).collect();
    let mut widths: Vec<usize> = heads.iter().map(String::len).collect();
    for row in rows {
        for (width, cell) in widths.iter_mut().zip(row) {
            *width = cell.len().max(*width);
        }
    }
    let line = |row: &Vec<String>| {
        let cells: Vec<String> = row.iter().zip(&widths).map(|(cell, width)| format!("{cell:<width$}")).collect();
        format!("{}\n", cells.join("  ").trim_end())
    };
    std::iter::once(&heads).chain(rows).map(line).collect()
}

/// The row of an element, behind how it is called.
pub fn row(name: String, element: &Element) -> Vec<String> {
    let Element { label, content, .. } = element;
    vec![name, named(*label), content.kind().to_string(), content.shown()]
}

/// What a subject sees, as a tree: an element below another is indented.
pub fn tree(subject: Label, path: &Path, elements: &[Element]) -> String {
    let top = path.depth().max(1);
    let row = |element: &Element| {
        let indent = "  ".repeat(element.path.depth().saturating_sub(top));
        row(format!("{indent}{}", element.name), element)
    };
    let rows: Vec<Vec<String>> = elements.iter().map(row).collect();
    let head = format!("{} sees {} at and below {path}\n", named(subject), counted(elements.len(), "element"));
    if rows.is_empty() { head } else { format!("{head}\n{}", columns(&["element", "label", "kind", "value"], &rows)) }
}
