//! XML intake: document 02's fifth request. A text is read once, from its first byte to its last.
use crate::label::LABELS;
use crate::partition::{SLOT, SLOTS, slot_of};
use crate::path::{Path, Step};
use crate::value::{GROUP, LONGEST, MEASURE, TEXT, Value, is_printable};

/// The fewest bytes of an element.
const SHORTEST: usize = r#"<e1 label="0" preserve="PRESENT" kind="G"></e1>"#.len();

/// An element that is sent; a text is as it stands there, with its escapes.
pub struct Element<'a> {
    pub path: Path,
    value: Value<'a>,
}

/// What a text in form sends.
pub struct Style<'a> {
    /// How many elements it has.
    pub count: usize,
    /// Whether each of them is live and bears the subject's label.
    pub is_own: bool,
    /// The elements in the text's order, the top one first: as many as a partition has slots.
    pub elements: Vec<Element<'a>>,
}

/// Reads a text that the subject sends below the parent; nothing if it is not in form.
pub fn read<'a>(text: &'a [u8], subject: u8, parent: &Path) -> Option<Style<'a>> {
    let style = Style { count: 0, is_own: true, elements: Vec::new() };
    let mut reader = Reader { rest: text, subject, path: *parent, keys: Vec::new(), style };
    reader.element()?;
    reader.rest.is_empty().then_some(reader.style)
}

/// What is left of a text, and what was read of it.
struct Reader<'a> {
    rest: &'a [u8],
    subject: u8,
    /// The path of the innermost open element.
    path: Path,
    /// The steps met so far directly inside each open element, as numbers; those inside the innermost one are the last.
    keys: Vec<u32>,
    style: Style<'a>,
}

impl<'a> Reader<'a> {
    /// Reads an element with its contents: its step.
    fn element(&mut self) -> Option<Step> {
        self.take(b"<e")?;
        let name = self.name()?;
        self.take(b" label=\"")?;
        let step = Step { name, label: self.number(u32::from(LABELS) - 1)? as u8 };
        self.path.push(step)?;
        let value = self.value()?;
        self.note(step.label, value);
        self.inside()?;
        self.take(b"</e")?;
        (self.name()? == name).then_some(())?;
        self.take(b">")?;
        self.path.pop();
        Some(step)
    }

    /// Reads the elements inside an element, up to its end tag. No two of them are equal in name and label.
    fn inside(&mut self) -> Option<()> {
        let first = self.keys.len();
        while !self.rest.starts_with(b"</") {
            let step = self.element()?;
            self.keys.push(u32::from(step.name) << 8 | u32::from(step.label));
        }
        let differ = differ(&mut self.keys[first..]);
        self.keys.truncate(first);
        differ.then_some(())
    }

    /// Notes an element that was met; one without a value is removed.
    fn note(&mut self, label: u8, value: Option<Value<'a>>) {
        let Style { count, is_own, elements } = &mut self.style;
        *count += 1;
        match value {
            Some(value) if label == self.subject && *count <= SLOTS => {
                if *count == 1 {
                    elements.reserve_exact(SLOTS.min(1 + self.rest.len() / SHORTEST));
                }
                elements.push(Element { path: self.path, value });
            }
            Some(_) if label == self.subject => (),
            _ => *is_own = false,
        }
    }

    /// Reads the rest of a start tag, behind the label, and the value: that of a live element, or that there is none.
    fn value(&mut self) -> Option<Option<Value<'a>>> {
        if self.take(b"\" preserve=\"REMOVED\" kind=\"-\">").is_some() {
            return Some(None);
        }
        self.take(b"\" preserve=\"PRESENT\" kind=\"")?;
        let (letter, rest) = self.rest.split_first()?;
        self.rest = rest.strip_prefix(b"\">")?;
        match letter {
            b'G' => Some(Some(Value::Group)),
            b'M' => self.measure().map(|number| Some(Value::Measure(number))),
            b'T' => self.text().map(|text| Some(Value::Text(text))),
            _ => None,
        }
    }

    /// Reads a text, up to the tag behind it.
    fn text(&mut self) -> Option<&'a [u8]> {
        let from = self.rest;
        let mut length = 0;
        while *self.rest.first()? != b'<' {
            (_, self.rest) = character(self.rest)?;
            length += 1;
        }
        (1..=LONGEST).contains(&length).then(|| &from[..from.len() - self.rest.len()])
    }

    /// Reads a measure within 32 signed bits; -0 is none.
    fn measure(&mut self) -> Option<i32> {
        if self.take(b"-").is_none() {
            return self.number(i32::MAX as u32).map(|number| number as i32);
        }
        let size = self.number(i32::MIN.unsigned_abs())?;
        (size > 0).then_some(0_i32.wrapping_sub_unsigned(size))
    }

    /// Reads a name.
    fn name(&mut self) -> Option<u16> {
        self.number(u16::MAX.into()).filter(|number| *number > 0).map(|number| number as u16)
    }

    /// Reads a number without plus or leading zeros, up to this one. Behind a zero no digit is read.
    fn number(&mut self, most: u32) -> Option<u32> {
        let digit = |rest: &[u8]| rest.first().map(|byte| byte.wrapping_sub(b'0')).filter(|digit| *digit < 10);
        let mut number = u64::from(digit(self.rest)?);
        self.rest = &self.rest[1..];
        while number > 0
            && let Some(next) = digit(self.rest)
        {
            number = 10 * number + u64::from(next);
            if number > most.into() {
                return None;
            }
            self.rest = &self.rest[1..];
        }
        Some(number as u32)
    }

    /// Reads exactly these bytes.
    fn take<const N: usize>(&mut self, bytes: &[u8; N]) -> Option<()> {
        let (first, rest) = self.rest.split_first_chunk()?;
        (first == bytes).then(|| self.rest = rest)
    }
}

impl Element<'_> {
    /// The slot of the element.
    pub fn slot(&self) -> [u8; SLOT] {
        match self.value {
            Value::Group => slot_of(&self.path, GROUP as u8, &[]),
            Value::Measure(number) => slot_of(&self.path, MEASURE as u8, &number.to_le_bytes()),
            Value::Text(text) => {
                let (mut bytes, mut length, mut rest) = ([0; LONGEST], 0, text);
                while let Some((byte, behind)) = character(rest) {
                    bytes[length] = byte;
                    (length, rest) = (length + 1, behind);
                }
                slot_of(&self.path, TEXT as u8, &bytes[..length])
            }
        }
    }
}

/// The first character of a text, its escape undone, and what stands behind it; nothing if it may not stand there.
fn character(text: &[u8]) -> Option<(u8, &[u8])> {
    let (byte, rest) = text.split_first()?;
    match byte {
        b'&' => {
            let escape = |end: &[u8], byte| rest.strip_prefix(end).map(|behind| (byte, behind));
            escape(b"amp;", b'&').or_else(|| escape(b"lt;", b'<')).or_else(|| escape(b"gt;", b'>'))
        }
        b'<' | b'>' => None,
        _ => is_printable(byte).then_some((*byte, rest)),
    }
}

/// Whether no two of these are equal. They are mostly in their order; if not, they are brought into it.
fn differ(keys: &mut [u32]) -> bool {
    if keys.is_sorted_by(|one, two| one < two) {
        return true;
    }
    keys.sort_unstable();
    keys.windows(2).all(|pair| pair[0] < pair[1])
}
