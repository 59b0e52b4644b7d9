//! The call runner: a script's lines read, carried out and answered.
use crate::calls::{self, Answer};
use crate::listing::put_decimal;
use crate::partition::STORE;
use crate::value::{GROUP, MEASURE, TEXT, is_printable};
use std::io::{self, BufRead, Write};

/// The most bytes of a line, its byte 10 not counted.
pub const LINE: usize = 256;
/// The bytes of the runner's output space.
pub const SPACE: usize = 16_384;

/// What a line asks for.
enum Verb {
    View,
    Insert(u32, Vec<u8>),
    Update(u32, Vec<u8>),
    Delete,
}

/// A line that was read.
struct Request {
    subject: u32,
    path: Vec<u8>,
    verb: Verb,
}

/// The runner's store and output space.
pub struct Runner {
    store: Vec<u8>,
    space: Vec<u8>,
}

/// Runs a script from its first line to its last on a fresh store.
pub fn run(input: impl BufRead, output: impl Write) -> io::Result<()> {
    Runner::new().run(input, output)
}

impl Default for Runner {
    fn default() -> Runner {
        Runner::new()
    }
}

impl Runner {
    /// A runner with a fresh store.
    pub fn new() -> Runner {
        Runner::on(vec![0; STORE])
    }

    /// A runner on these bytes of a store.
    pub fn on(store: Vec<u8>) -> Runner {
        Runner { store, space: vec![0; SPACE] }
    }

    /// Its store's bytes.
    pub fn store(&self) -> &[u8] {
        &self.store
    }

    /// Runs a script from its first line to its last.
    pub fn run(&mut self, mut input: impl BufRead, mut output: impl Write) -> io::Result<()> {
        let (mut line, mut printed) = (Vec::new(), Vec::new());
        while input.read_until(b'\n', &mut line)? > 0 {
            self.answer(line.strip_suffix(b"\n").unwrap_or(&line), &mut printed);
            output.write_all(&printed)?;
            line.clear();
            printed.clear();
        }
        output.flush()
    }

    /// Carries out one line, without its byte 10, and prints what it answers.
    pub fn answer(&mut self, line: &[u8], printed: &mut Vec<u8>) {
        let Some(request) = read_line(line) else {
            return printed.extend_from_slice(b"A\t?\t0\n");
        };
        let answer = self.carry_out(&request);
        if answer.number == 0 && matches!(request.verb, Verb::View) {
            printed.extend_from_slice(&self.space[..answer.count as usize]);
        }
        put_answer(printed, answer);
    }

    /// Makes the call that a line asks for.
    fn carry_out(&mut self, request: &Request) -> Answer {
        let Request { subject, path, verb } = request;
        match verb {
            Verb::View => calls::view(&self.store, *subject, path, &mut self.space),
            Verb::Insert(kind, value) => calls::insert(&mut self.store, *subject, path, *kind, value),
            Verb::Update(kind, value) => calls::update(&mut self.store, *subject, path, *kind, value),
            Verb::Delete => calls::delete(&mut self.store, *subject, path),
        }
    }
}

/// Prints a call's answer. No count is over the output space.
fn put_answer(printed: &mut Vec<u8>, answer: Answer) {
    printed.extend_from_slice(b"A\t");
    put_decimal(printed, answer.number);
    printed.push(b'\t');
    put_decimal(printed, answer.count as u32);
    printed.push(b'\n');
}

/// Reads a line; nothing if it does not read as a call.
fn read_line(line: &[u8]) -> Option<Request> {
    if line.len() > LINE {
        return None;
    }
    let mut fields = line.split(|byte| *byte == b'\t');
    let subject = read_number(fields.next()?, 255)?;
    let verb = fields.next()?;
    let path = read_path(fields.next()?)?;
    let verb = match verb {
        b"V" => Verb::View,
        b"D" => Verb::Delete,
        b"I" => read_value(fields.next()?, fields.next()?).map(|(kind, value)| Verb::Insert(kind, value))?,
        b"U" => read_value(fields.next()?, fields.next()?).map(|(kind, value)| Verb::Update(kind, value))?,
        _ => return None,
    };
    fields.next().is_none().then_some(Request { subject, path, verb })
}

/// Reads a number without plus or leading zeros, up to this one.
fn read_number(field: &[u8], most: u32) -> Option<u32> {
    let plain = field == b"0" || field.first().is_some_and(|digit| (b'1'..=b'9').contains(digit));
    if !plain || !field.iter().all(u8::is_ascii_digit) {
        return None;
    }
    let number = str::from_utf8(field).ok()?.parse().ok()?;
    (number <= most).then_some(number)
}

/// Reads a measure within 32 signed bits; -0 is none.
fn read_measure(field: &[u8]) -> Option<i32> {
    match field.strip_prefix(b"-") {
        None => i32::try_from(read_number(field, i32::MAX as u32)?).ok(),
        Some(digits) => match read_number(digits, i32::MIN.unsigned_abs())? {
            0 => None,
            size => i32::try_from(-i64::from(size)).ok(),
        },
    }
}

/// Reads a path into three bytes a step; a lone / is the empty path.
fn read_path(field: &[u8]) -> Option<Vec<u8>> {
    if field == b"/" {
        return Some(Vec::new());
    }
    let mut path = Vec::with_capacity(18);
    for step in field.split(|byte| *byte == b'/') {
        let colon = step.iter().position(|byte| *byte == b':')?;
        let name = read_number(&step[..colon], 65_535)? as u16;
        let label = read_number(&step[colon + 1..], 255)? as u8;
        path.extend_from_slice(&name.to_le_bytes());
        path.push(label);
    }
    Some(path)
}

/// Reads a kind and a value into the kind's number and the value's bytes.
fn read_value(kind: &[u8], value: &[u8]) -> Option<(u32, Vec<u8>)> {
    match kind {
        b"G" if value == b"-" => Some((GROUP, Vec::new())),
        b"M" => Some((MEASURE, read_measure(value)?.to_le_bytes().to_vec())),
        b"T" if value.iter().all(is_printable) => Some((TEXT, value.to_vec())),
        _ => None,
    }
}
