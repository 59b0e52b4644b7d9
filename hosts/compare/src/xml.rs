//! The view as XML: document 02's first request.
use crate::listing::{Live, decimal, with_first_new};
use crate::path::{DEPTH, Path, Step};
use crate::value::{LONGEST, Value};

/// The most bytes of the dossier tag with its end tag.
const DOSSIER: usize = r#"<dossier subject="31"></dossier>"#.len();
/// The most bytes of an element's tag with its end tag.
const TAGS: usize = r#"<e65535 label="31" preserve="PRESENT" kind="T"></e65535>"#.len();
/// The most bytes of a value: of a text whose characters are all escaped.
const VALUE: usize = "&amp;".len() * LONGEST;

/// The most bytes of the XML of this many live elements, each with five removed ones around it.
fn most(live: usize) -> usize {
    DOSSIER + live * (DEPTH * TAGS + VALUE)
}

/// Writes the XML of these live elements, which are the path or extend it, into the output: how many bytes it has, or
/// nothing if the output is too short. Where the output has room for the most bytes it is written at once.
pub fn write(output: &mut [u8], subject: u8, live: &[Live], path: &Path) -> Option<usize> {
    let most = most(live.len());
    if output.len() >= most {
        return Some(Writer::new(output).put_all(subject, live, path));
    }
    let mut room = vec![0; most];
    let length = Writer::new(&mut room).put_all(subject, live, path);
    output.get_mut(..length)?.copy_from_slice(&room[..length]);
    Some(length)
}

/// Writes XML into bytes that have room for it.
struct Writer<'a> {
    output: &'a mut [u8],
    length: usize,
}

impl<'a> Writer<'a> {
    /// A writer that has written nothing.
    fn new(output: &'a mut [u8]) -> Writer<'a> {
        Writer { output, length: 0 }
    }

    /// Writes the whole XML: how many bytes it has.
    fn put_all(mut self, subject: u8, live: &[Live], path: &Path) -> usize {
        self.put(b"<dossier subject=\"");
        self.put_number(subject.into());
        self.put(b"\">");
        self.put_elements(live, path);
        self.put(b"</dossier>");
        self.length
    }

    /// Writes the elements: for each live one the end tags of those that it is not in, the tags of the removed ones
    /// around it that are new, and its tag and value; then the end tags that are left.
    fn put_elements(&mut self, live: &[Live], top: &Path) {
        let mut open: &[Step] = &[];
        for (first, element) in with_first_new(live, top) {
            self.put_ends(open, first);
            let (last, around) = element.path.steps().split_last().expect("no live element is the root");
            for step in &around[first - 1..] {
                self.put_tag(step, b"\" preserve=\"REMOVED\" kind=\"-\">");
            }
            self.put_live(last, element);
            open = element.path.steps();
        }
        self.put_ends(open, top.depth().max(1));
    }

    /// Writes the end tags of these steps, from the last one up to this depth.
    fn put_ends(&mut self, open: &[Step], depth: usize) {
        for step in open.iter().skip(depth - 1).rev() {
            self.put(b"</e");
            self.put_number(step.name.into());
            self.put(b">");
        }
    }

    /// Writes a live element's tag and value.
    fn put_live(&mut self, step: &Step, element: &Live) {
        match element.slot.value() {
            Some(Value::Measure(number)) => {
                self.put_tag(step, b"\" preserve=\"PRESENT\" kind=\"M\">");
                if number < 0 {
                    self.put(b"-");
                }
                self.put_number(number.unsigned_abs());
            }
            Some(Value::Text(text)) => {
                self.put_tag(step, b"\" preserve=\"PRESENT\" kind=\"T\">");
                self.put_text(text);
            }
            Some(Value::Group) | None => self.put_tag(step, b"\" preserve=\"PRESENT\" kind=\"G\">"),
        }
    }

    /// Writes an element's tag; the rest is what stands behind the label.
    fn put_tag(&mut self, step: &Step, rest: &[u8; 30]) {
        self.put(b"<e");
        self.put_number(step.name.into());
        self.put(b" label=\"");
        self.put_number(step.label.into());
        self.put(rest);
    }

    /// Writes a text, its characters `&`, `<` and `>` escaped.
    fn put_text(&mut self, mut text: &[u8]) {
        while let Some(at) = text.iter().position(|byte| matches!(byte, b'&' | b'<' | b'>')) {
            self.put(&text[..at]);
            match text[at] {
                b'&' => self.put(b"&amp;"),
                b'<' => self.put(b"&lt;"),
                _ => self.put(b"&gt;"),
            }
            text = &text[at + 1..];
        }
        self.put(text);
    }

    /// Writes a number in decimal.
    fn put_number(&mut self, number: u32) {
        self.put(decimal(number, &mut [0; 10]));
    }

    /// Writes these bytes.
    fn put(&mut self, bytes: &[u8]) {
        self.output[self.length..self.length + bytes.len()].copy_from_slice(bytes);
        self.length += bytes.len();
    }
}
