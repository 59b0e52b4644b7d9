//! Pages of HTML that need no other file.

use dossier::{Label, Path};

use crate::element::{Content, Element};
use crate::shown::{counted, named};

/// How the pages look: black on white, on a screen and on paper of either size.
const STYLE: &str = "\
* { box-sizing: border-box; }
html { color-scheme: light; }
body { margin: 0 auto; padding: 2rem 1.5rem; max-width: 48rem; background: #fff; color: #000;
  font: 10.5pt/1.45 'Helvetica Neue', Helvetica, Arial, 'Liberation Sans', 'DejaVu Sans', sans-serif; }
h1 { margin: 0 0 .3rem; font-size: 1.7rem; line-height: 1.2; }
h2 { margin: 1.6rem 0 .5rem; font-size: 1.15rem; break-after: avoid; }
header { padding-bottom: .7rem; border-bottom: 2px solid #000; }
header p { margin: .1rem 0; }
ul { margin: 0; padding: 0 0 0 .4rem; list-style: none; }
ul ul { margin-left: .35rem; padding-left: 1rem; border-left: 1px solid #999; }
li > div { padding: .12rem 0; break-inside: avoid; }
table { width: 100%; border-collapse: collapse; }
th, td { padding: .2rem .8rem .2rem 0; text-align: left; vertical-align: baseline; }
th { border-bottom: 1px solid #000; font-weight: 600; }
td { border-bottom: 1px solid #ccc; }
tr { break-inside: avoid; }
.name { font-weight: 600; font-variant-numeric: tabular-nums; }
.label { font-size: .82em; white-space: nowrap; }
.removed, .group { font-style: italic; }
.number { text-align: right; white-space: nowrap; font-variant-numeric: tabular-nums; }
.text, .value { white-space: pre-wrap; }
.step { white-space: pre; }
.highest .number, .highest .step:last-child { font-weight: 700; }
.further { break-before: avoid; }
.bars { width: 30%; padding-right: 0; vertical-align: top; }
.bars svg { display: block; width: 100%; height: .72rem; margin-top: .3rem; }
@media print { body { padding: 0; max-width: none; } }
";

/// A text in HTML.
pub fn escaped(text: &str) -> String {
    text.replace('&', "&amp;").replace('<', "&lt;").replace('>', "&gt;").replace('"', "&quot;")
}

/// A text in a tag with a class.
pub fn tagged(tag: &str, class: &str, text: &str) -> String {
    format!("<{tag} class=\"{class}\">{}</{tag}>", escaped(text))
}

/// The margins of a sheet of paper, with a line at its foot and its number. The line must have letters, digits and such marks
/// alone as mean nothing in a style.
fn margins(footer: &str) -> String {
    let small = "font: 8pt Arial, 'DejaVu Sans', sans-serif;";
    format!(
        "@page {{ margin: 16mm 15mm 18mm; @bottom-left {{ content: \"{footer}\"; {small} }} \
         @bottom-right {{ content: counter(page) \" / \" counter(pages); {small} }} }}\n"
    )
}

/// A whole page, with a line at the foot of each sheet of paper.
pub fn page(title: &str, footer: &str, body: &str) -> String {
    let (title, margins) = (escaped(title), margins(footer));
    format!(
        "<!DOCTYPE html>\n<html lang=\"en\">\n<head>\n<meta charset=\"utf-8\">\n\
         <meta name=\"viewport\" content=\"width=device-width, initial-scale=1\">\n<title>{title}</title>\n\
         <style>\n{margins}{STYLE}</style>\n</head>\n<body>\n{body}</body>\n</html>\n"
    )
}

/// The head of a page: its title, who sees what, and perhaps more lines.
pub fn header(title: &str, subject: Label, path: &Path, elements: &[Element], more: &[String]) -> String {
    let place =
        if path.depth() == 0 { "the whole tree".to_string() } else { format!("{path} and what stands below it") };
    let seen = format!("Seen by label {}: {place}, {}", named(subject), counted(elements.len(), "element"));
    let lines: String = more.iter().chain([&seen]).map(|line| format!("<p>{}</p>\n", escaped(line))).collect();
    format!("<header>\n<h1>{}</h1>\n{lines}</header>\n", escaped(title))
}

/// What an element holds, for people; of a group that it is one, of a removed one that it is removed.
pub fn content(content: &Content) -> String {
    match content {
        Content::Removed => tagged("span", "removed", "removed"),
        Content::Group => tagged("span", "group", "group"),
        other => tagged("span", other.kind(), &other.shown()),
    }
}

/// What a subject sees, as a page with a table; an element below another is indented.
pub fn view(subject: Label, path: &Path, elements: &[Element]) -> String {
    let title = format!("View of label {}", named(subject));
    let rows: String = elements.iter().map(|element| row(path, element)).collect();
    let heads = "<tr><th>Element</th><th>Label</th><th>Kind</th><th>Value</th></tr>";
    let table = format!("<table>\n<thead>{heads}</thead>\n<tbody>\n{rows}</tbody>\n</table>\n");
    page(
        &title,
        &title,
        &(header(&title, subject, path, elements, &[]) + if elements.is_empty() { "" } else { &table }),
    )
}

/// A row of the table.
fn row(top: &Path, element: &Element) -> String {
    let Element { path, name, label, content } = element;
    let indent = 1.5 * path.depth().saturating_sub(top.depth().max(1)) as f32;
    let cells = [
        tagged("td", "label", &named(*label)),
        format!("<td>{}</td>", content.kind()),
        tagged("td", "value", &content.shown()),
    ];
    format!("<tr><td class=\"name\" style=\"padding-left:{indent}rem\">{name}</td>{}</tr>\n", cells.concat())
}
