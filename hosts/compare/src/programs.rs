//! Other programs that carry out scripts: which scripts they are given, how, and how what they print and leave is compared.
use crate::random::Random;
use std::io::{self, ErrorKind, Read, Write};
use std::process::{Child, Command, ExitCode, ExitStatus, Stdio};

/// Which random scripts are compared: those of a seed, so many of them or only one.
pub struct Range {
    pub seed: u64,
    pub scripts: u64,
    pub only: Option<u64>,
}

impl Range {
    /// Reads it from the end of a command line, `[--seed N] [--scripts N] [--script N]`. Without a seed the clock gives one.
    pub fn read(mut arguments: impl Iterator<Item = String>, scripts: u64) -> Option<Range> {
        let clock = std::time::UNIX_EPOCH.elapsed().map_or(1, |since| since.as_nanos() as u64);
        let mut range = Range { seed: clock, scripts, only: None };
        while let Some(argument) = arguments.next() {
            let number = arguments.next()?.parse().ok()?;
            match argument.as_str() {
                "--seed" => range.seed = number,
                "--scripts" => range.scripts = number,
                "--script" => range.only = Some(number),
                _ => return None,
            }
        }
        Some(range)
    }

    /// The numbers of the scripts.
    pub fn numbers(&self) -> std::ops::Range<u64> {
        self.only.map_or(0..self.scripts, |only| only..only + 1)
    }
}

/// How a comparison ends: 0 if nothing differs and all was met, 1 if not, 2 if a program or a file could not be used, which is told.
pub fn end(compared: io::Result<bool>, who: &str) -> ExitCode {
    match compared {
        Ok(true) => ExitCode::SUCCESS,
        Ok(false) => ExitCode::FAILURE,
        Err(error) => {
            eprintln!("{who}: {error}");
            ExitCode::from(2)
        }
    }
}

/// How many answers there are of each number from 0 to 10, and of ?.
pub type Answers = [u64; 12];

/// What a run of a program leaves: what it printed, the bytes of its file, if there is one, and its exit status, which is
/// none if a signal ended it.
#[derive(Clone)]
pub struct Outcome {
    pub printed: Vec<u8>,
    pub file: Option<Vec<u8>>,
    pub status: Option<i32>,
}

impl Outcome {
    /// What is different first from what is expected, if anything is.
    pub fn difference(&self, expected: &Outcome) -> Option<String> {
        let status = || differing_status(self.status, expected.status);
        let byte = || differing_byte(self.file.as_deref(), expected.file.as_deref());
        differing_line(&self.printed, &expected.printed).or_else(byte).or_else(status)
    }
}

/// The first line that differs between what the product prints and what is expected, if one does.
pub fn differing_line(printed: &[u8], expected: &[u8]) -> Option<String> {
    if printed == expected {
        return None;
    }
    let lines = |text: &[u8]| text.split(|byte| *byte == b'\n').map(<[u8]>::to_vec).collect::<Vec<_>>();
    let (printed, expected) = (lines(printed), lines(expected));
    let at = printed.iter().zip(&expected).take_while(|(one, two)| one == two).count();
    let show = |lines: &[Vec<u8>]| lines.get(at).map(|line| String::from_utf8_lossy(line).into_owned());
    let (printed, expected) = (show(&printed), show(&expected));
    Some(format!("output line {}: the product prints {printed:?}, expected is {expected:?}", at + 1))
}

/// The first byte that differs between the file that the product leaves and the expected one, if one does.
fn differing_byte(file: Option<&[u8]>, expected: Option<&[u8]>) -> Option<String> {
    if file == expected {
        return None;
    }
    let (Some(file), Some(expected)) = (file, expected) else {
        return Some(if file.is_some() { "there is a file" } else { "the file is missing" }.to_string());
    };
    let at = file.iter().zip(expected).take_while(|(one, two)| one == two).count();
    let show = |bytes: &[u8]| format!("{:?} of {} bytes", bytes.get(at), bytes.len());
    Some(format!("byte {at} of the file: the product leaves {}, expected is {}", show(file), show(expected)))
}

/// The exit statuses, if they differ.
fn differing_status(status: Option<i32>, expected: Option<i32>) -> Option<String> {
    (status != expected).then(|| format!("the exit status: the product ends with {status:?}, expected is {expected:?}"))
}

/// Counts the answer lines by their number.
pub fn count_answers(printed: &[u8], answers: &mut Answers) {
    for line in printed.split(|byte| *byte == b'\n').filter(|line| line.starts_with(b"A\t")) {
        let number = line.split(|byte| *byte == b'\t').nth(1).and_then(|field| str::from_utf8(field).ok());
        answers[number.and_then(|number| number.parse().ok()).unwrap_or(11).min(11)] += 1;
    }
}

/// Whether a call was refused, or a line did not read.
pub fn has_refusal(printed: &[u8]) -> bool {
    let mut answers = Answers::default();
    count_answers(printed, &mut answers);
    answers[1..].iter().any(|count| *count > 0)
}

/// Runs a program on a script that comes in pieces: what it prints, and how it ends.
pub fn drive(command: &mut Command, script: &[u8], random: &mut Random) -> io::Result<(Vec<u8>, ExitStatus)> {
    let mut child = command.stdin(Stdio::piped()).stdout(Stdio::piped()).spawn()?;
    let printed = feed(&mut child, script, random);
    let status = child.wait()?;
    Ok((printed?, status))
}

/// Writes a script in pieces while the output is read. The program need not read the script to its end.
fn feed(child: &mut Child, script: &[u8], random: &mut Random) -> io::Result<Vec<u8>> {
    let mut input = child.stdin.take().expect("the input is piped");
    let mut output = child.stdout.take().expect("the output is piped");
    let pieces = pieces(script, random);
    std::thread::scope(|scope| {
        let writer = scope.spawn(move || pieces.into_iter().try_for_each(|piece| input.write_all(piece)));
        let mut printed = Vec::new();
        output.read_to_end(&mut printed)?;
        match writer.join().expect("the writer does not panic") {
            Err(error) if error.kind() != ErrorKind::BrokenPipe => Err(error),
            _ => Ok(printed),
        }
    })
}

/// A script cut into pieces: some of them short, mostly long ones.
fn pieces<'a>(mut script: &'a [u8], random: &mut Random) -> Vec<&'a [u8]> {
    let longest = random.pick(&[7, 300, 4096, 70_000, 70_000]);
    let mut pieces = Vec::new();
    while !script.is_empty() {
        let (piece, rest) = script.split_at((1 + random.below(longest)).min(script.len()));
        pieces.push(piece);
        script = rest;
    }
    pieces
}
