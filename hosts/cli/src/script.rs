//! A script's line, read as a call and carried out.

use dossier::{Answer, Kind, raw};

use crate::slips::Slip;

/// The most bytes of a line, its end not counted.
pub const LINE_BYTES_MAX: usize = 256;
/// The bytes of the output that a view of a script is given.
pub const OUTPUT_BYTES: usize = 16_384;

/// The largest subject and label, and the largest name, that read.
const LABEL_MAX: u32 = 255;
const NAME_MAX: u32 = 65_535;

/// A step as a line has it. Its label may be none.
#[derive(Clone, Copy, Debug, PartialEq, Eq)]
pub struct Step {
    pub name: u16,
    pub label: u8,
}

/// A value that a line brings: the kind's number, and the bytes.
#[derive(Clone, Debug, PartialEq, Eq)]
pub struct Brought {
    pub kind: u32,
    pub bytes: Vec<u8>,
}

/// What a line asks for.
#[derive(Clone, Debug, PartialEq, Eq)]
pub enum Verb {
    View,
    Insert(Brought),
    Update(Brought),
    Delete,
}

/// A line that reads.
#[derive(Clone, Debug, PartialEq, Eq)]
pub struct Call {
    pub subject: u32,
    pub steps: Vec<Step>,
    pub verb: Verb,
}

impl Call {
    /// Makes the call on a store: what it answers. A view is written to the output.
    pub fn carry_out(&self, store: &mut [u8], output: &mut [u8]) -> Answer {
        let path = self.path_bytes();
        match &self.verb {
            Verb::View => raw::view(store, self.subject, &path, output),
            Verb::Insert(value) => raw::insert(store, self.subject, &path, value.kind, &value.bytes),
            Verb::Update(value) => raw::update(store, self.subject, &path, value.kind, &value.bytes),
            Verb::Delete => raw::delete(store, self.subject, &path),
        }
    }

    /// The path as the calls take it.
    fn path_bytes(&self) -> Vec<u8> {
        let mut bytes = Vec::with_capacity(3 * self.steps.len());
        for step in &self.steps {
            bytes.extend_from_slice(&step.name.to_le_bytes());
            bytes.push(step.label);
        }
        bytes
    }

    /// The path as the line has it.
    pub fn path_text(&self) -> String {
        let steps: Vec<String> = self.steps.iter().map(|step| format!("{}:{}", step.name, step.label)).collect();
        if steps.is_empty() { "/".to_string() } else { steps.join("/") }
    }
}

/// Reads a line, without its end, or says why it does not read.
pub fn read_line(line: &[u8]) -> Result<Call, Slip> {
    if line.is_empty() {
        return Err(Slip::Empty);
    }
    if line.len() > LINE_BYTES_MAX {
        return Err(Slip::Long);
    }
    read_fields(line).map_err(|slip| slip.of_line(line))
}

/// Reads the fields of a line, which are parted by tabs.
pub fn read_fields(line: &[u8]) -> Result<Call, Slip> {
    let fields: Vec<&[u8]> = line.split(|byte| *byte == b'\t').collect();
    let wanted = match fields.get(1) {
        Some(&(b"V" | b"D")) => 3,
        Some(&(b"I" | b"U")) => 5,
        Some(verb) => return Err(Slip::Verb(verb.to_vec())),
        None => return Err(Slip::NoTab),
    };
    if fields.len() != wanted {
        return Err(Slip::Fields { verb: fields[1][0], found: fields.len(), wanted });
    }
    let subject = number_of(fields[0], LABEL_MAX).ok_or_else(|| Slip::Subject(fields[0].to_vec()))?;
    let steps = read_path(fields[2])?;
    let verb = match fields[1] {
        b"V" => Verb::View,
        b"D" => Verb::Delete,
        b"I" => Verb::Insert(read_value(fields[3], fields[4])?),
        _ => Verb::Update(read_value(fields[3], fields[4])?),
    };
    Ok(Call { subject, steps, verb })
}

/// Reads a number without plus or leading zeros, up to this one.
fn number_of(field: &[u8], most: u32) -> Option<u32> {
    let is_plain = field == b"0" || field.first().is_some_and(|digit| (b'1'..=b'9').contains(digit));
    let digits =
        str::from_utf8(field).ok().filter(|text| is_plain && text.bytes().all(|byte| byte.is_ascii_digit()))?;
    digits.parse().ok().filter(|number| *number <= most)
}

/// Reads a measure within 32 signed bits; -0 is none.
fn measure_of(field: &[u8]) -> Option<i32> {
    match field.strip_prefix(b"-") {
        None => number_of(field, i32::MAX.unsigned_abs()).and_then(|number| i32::try_from(number).ok()),
        Some(digits) => number_of(digits, i32::MIN.unsigned_abs())
            .filter(|size| *size > 0)
            .map(|size| 0i32.wrapping_sub_unsigned(size)),
    }
}

/// Reads a path; a lone / is the root's.
fn read_path(field: &[u8]) -> Result<Vec<Step>, Slip> {
    if field == b"/" {
        return Ok(Vec::new());
    }
    let slip = |step: &[u8]| Slip::Path { whole: field.to_vec(), step: step.to_vec() };
    field.split(|byte| *byte == b'/').map(|step| read_step(step).ok_or_else(|| slip(step))).collect()
}

/// Reads a step, name and label parted by a colon.
fn read_step(step: &[u8]) -> Option<Step> {
    let colon = step.iter().position(|byte| *byte == b':')?;
    let name = number_of(&step[..colon], NAME_MAX)?.try_into().ok()?;
    let label = number_of(&step[colon + 1..], LABEL_MAX)?.try_into().ok()?;
    Some(Step { name, label })
}

/// Reads a kind and a value.
fn read_value(kind: &[u8], value: &[u8]) -> Result<Brought, Slip> {
    let (kind, bytes) = match kind {
        b"G" if value == b"-" => (Kind::Group, Vec::new()),
        b"G" => return Err(Slip::GroupValue(value.to_vec())),
        b"M" => (Kind::Measure, measure_of(value).ok_or_else(|| Slip::Measure(value.to_vec()))?.to_le_bytes().to_vec()),
        b"T" if value.iter().all(|byte| (32..=126).contains(byte)) => (Kind::Text, value.to_vec()),
        b"T" => return Err(Slip::Text(value.to_vec())),
        _ => return Err(Slip::Kind(kind.to_vec())),
    };
    Ok(Brought { kind: kind.number(), bytes })
}

#[cfg(test)]
mod tests {
    use super::*;

    /// The call of a line that reads.
    fn call(line: &str) -> Call {
        read_line(line.as_bytes()).unwrap_or_else(|slip| panic!("{line:?}: {slip}"))
    }

    #[test]
    fn calls_are_read() {
        let step = |name, label| Step { name, label };
        assert_eq!(call("0\tV\t/"), Call { subject: 0, steps: vec![], verb: Verb::View });
        assert_eq!(
            call("255\tD\t65535:255/0:0"),
            Call { subject: 255, steps: vec![step(65535, 255), step(0, 0)], verb: Verb::Delete }
        );
        let brought = |line| match call(line).verb {
            Verb::Insert(value) | Verb::Update(value) => (value.kind, value.bytes),
            _ => panic!("{line:?} brings no value"),
        };
        assert_eq!(brought("0\tI\t1:0\tG\t-"), (0, vec![]));
        assert_eq!(brought("0\tU\t1:0\tM\t-150"), (1, (-150i32).to_le_bytes().to_vec()));
        assert_eq!(brought("0\tU\t1:0\tM\t-2147483648"), (1, i32::MIN.to_le_bytes().to_vec()));
        assert_eq!(brought("0\tU\t1:0\tM\t2147483647"), (1, i32::MAX.to_le_bytes().to_vec()));
        assert_eq!(brought("0\tI\t1:0\tT\t"), (2, vec![]));
        assert_eq!(brought("0\tI\t1:0\tT\t-"), (2, b"-".to_vec()));
    }

    #[test]
    fn a_line_of_256_bytes_reads() {
        let line = |length: usize| format!("0\tI\t1:0\tT\t{}", "x".repeat(length - 10));
        assert!(read_line(line(256).as_bytes()).is_ok());
        assert_eq!(read_line(line(257).as_bytes()), Err(Slip::Long));
    }

    #[test]
    fn a_line_is_carried_out() {
        let (mut store, mut output) = (vec![0; dossier::STORE_BYTES], [0; 64]);
        assert_eq!(call("0\tI\t10:0\tT\tSHIRT").carry_out(&mut store, &mut output), Answer { number: 0, count: 0 });
        assert_eq!(call("0\tU\t10:0\tM\t5").carry_out(&mut store, &mut output), Answer { number: 0, count: 1 });
        assert_eq!(call("0\tV\t/").carry_out(&mut store, &mut output), Answer { number: 0, count: 22 });
        assert_eq!(&output[..22], b"VIEW\t0\t1\n1\t10\t0\tP\tM\t5\n");
        assert_eq!(call("0\tD\t10:0").carry_out(&mut store, &mut output), Answer { number: 0, count: 1 });
        assert_eq!(call("40\tV\t/").carry_out(&mut store, &mut output), Answer { number: 2, count: 0 });
    }
}
