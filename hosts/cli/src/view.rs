//! `dossier view`: what a label sees, in one of five formats.

use std::io::{self, IsTerminal};

use dossier::{Error, Label, Path, Store, View};

use crate::arguments::Words;
use crate::csv;
use crate::element;
use crate::failure::{Done, Failure};
use crate::files;
use crate::html;
use crate::table;

/// The formats.
#[derive(Clone, Copy)]
enum Format {
    Lines,
    Table,
    Csv,
    Html,
    Xml,
}

/// Prints what a label sees.
pub fn view(words: &Words) -> Result<Done, Failure> {
    let (subject, path, format) = (words.label("--as")?, words.path(1)?, format_of(words)?);
    let store = files::read_store(words)?;
    let mut text = text(&store, subject, &path, format).map_err(|error| Failure::view(error, subject, &path))?;
    if matches!(format, Format::Xml) && io::stdout().is_terminal() {
        text.push(b'\n');
    }
    files::print(&text)
}

/// The format that is asked for.
fn format_of(words: &Words) -> Result<Format, Failure> {
    match words.option("--format").map(|word| word.to_string_lossy()).as_deref() {
        None | Some("table") => Ok(Format::Table),
        Some("lines") => Ok(Format::Lines),
        Some("csv") => Ok(Format::Csv),
        Some("html") => Ok(Format::Html),
        Some("xml") => Ok(Format::Xml),
        Some(other) => Err(words.slip(&format!("'{other}' is no format; there are lines, table, csv, html and xml"))),
    }
}

/// What a label sees, in a format.
fn text(store: &Store, subject: Label, path: &Path, format: Format) -> Result<Vec<u8>, Error> {
    match format {
        Format::Lines => store.view(subject, path).map(View::into_listing),
        Format::Xml => store.view_xml(subject, path).map(String::into_bytes),
        Format::Table | Format::Csv | Format::Html => {
            let elements = element::elements(store, subject, path)?;
            Ok(match format {
                Format::Csv => csv::csv(&elements),
                Format::Html => html::view(subject, path, &elements),
                _ => table::tree(subject, path, &elements),
            }
            .into_bytes())
        }
    }
}
