//! `dossier run`: a script carried out on a store in a file.

use std::ffi::OsStr;
use std::fs::{File, Metadata};
use std::io::{self, ErrorKind, IsTerminal, Read, Write};

use dossier::Store;

use crate::arguments::Words;
use crate::failure::{Done, Failure, eprint_all};
use crate::files;
use crate::lines::Lines;
use crate::progress::Progress;
use crate::refusals;
use crate::script::{self, OUTPUT_BYTES};

/// How many bytes of a script are read at once, and of answers are kept before they are written.
const PIECE: usize = 65_536;

/// Carries out a script and saves the store. What was carried out is saved also where the answers could no longer be written or
/// the script no longer be read: every answer that was printed is true of the saved store.
pub fn run(words: &Words) -> Result<Done, Failure> {
    let mut source = Source::open(words.word(1))?;
    let mut opened = files::open_store(words)?;
    source.greet();
    let progress = Progress::new(source.length(), source.is_typed());
    let mut runner = Runner::new(&mut opened, words.has("--explain"), progress);
    let read = runner.carry_out_all(&mut source);
    let (faults, written) = (runner.faults, runner.output.finish());
    files::save(&mut opened)?;
    read.map_err(|error| {
        Failure::File(format!("{}: {error}; what was carried out is saved\n", source.name().display()))
    })?;
    written.map_err(|error| files::unprinted(&error, true))?;
    Ok(if words.has("--strict") && faults > 0 { Done::Found } else { Done::Well })
}

/// Where a script comes from.
enum Source<'a> {
    Named(&'a OsStr, File),
    Standard,
}

impl<'a> Source<'a> {
    /// The script of this name; standard input where there is none, or a dash.
    fn open(name: Option<&'a OsStr>) -> Result<Source<'a>, Failure> {
        match name.filter(|name| *name != "-") {
            Some(name) => {
                File::open(name).map(|file| Source::Named(name, file)).map_err(|error| Failure::other(name, &error))
            }
            None => Ok(Source::Standard),
        }
    }

    /// How it is called in messages.
    fn name(&self) -> &OsStr {
        match self {
            Source::Named(name, _) => name,
            Source::Standard => OsStr::new("standard input"),
        }
    }

    /// How many bytes it has, where that is known.
    fn length(&self) -> Option<u64> {
        match self {
            Source::Named(_, file) => file.metadata().ok().filter(Metadata::is_file).map(|about| about.len()),
            Source::Standard => None,
        }
    }

    /// Whether a person types it.
    fn is_typed(&self) -> bool {
        matches!(self, Source::Standard) && io::stdin().is_terminal()
    }

    /// Tells a person who is to type the script that it is waited for.
    fn greet(&self) {
        if self.is_typed() {
            eprint_all("calls are read from the terminal; Ctrl-D on a line of its own ends them and saves\n");
        }
    }
}

impl Read for Source<'_> {
    fn read(&mut self, piece: &mut [u8]) -> io::Result<usize> {
        match self {
            Source::Named(_, file) => file.read(piece),
            Source::Standard => io::stdin().read(piece),
        }
    }
}

/// Standard output. Once a write has failed nothing more is written, and the script goes on.
#[derive(Default)]
struct Output {
    kept: Vec<u8>,
    failed: Option<io::Error>,
}

impl Output {
    /// Writes what was kept.
    fn flush(&mut self) {
        if self.failed.is_none() {
            let mut output = io::stdout().lock();
            self.failed = output.write_all(&self.kept).and_then(|()| output.flush()).err();
        }
        self.kept.clear();
    }

    /// Whether all could be written, or nobody wanted to read it any more.
    fn finish(&mut self) -> io::Result<()> {
        match self.failed.take() {
            Some(error) if error.kind() != ErrorKind::BrokenPipe => Err(error),
            _ => Ok(()),
        }
    }
}

/// A script that is being carried out.
struct Runner<'a> {
    store: &'a mut Store,
    space: Box<[u8; OUTPUT_BYTES]>,
    output: Output,
    progress: Progress,
    is_explained: bool,
    lines: u64,
    faults: u64,
}

impl<'a> Runner<'a> {
    /// One that has carried out nothing yet.
    fn new(store: &'a mut Store, is_explained: bool, progress: Progress) -> Runner<'a> {
        let (space, output) = (Box::new([0; OUTPUT_BYTES]), Output::default());
        Runner { store, space, output, progress, is_explained, lines: 0, faults: 0 }
    }

    /// Carries out all lines. The answers are written before more is waited for.
    fn carry_out_all(&mut self, source: &mut impl Read) -> io::Result<()> {
        let (mut piece, mut lines, mut bytes) = (vec![0; PIECE], Lines::default(), 0);
        let ended = loop {
            match source.read(&mut piece) {
                Ok(0) => break Ok(()),
                Ok(count) => {
                    lines.take(&piece[..count], |line| self.carry_out(line));
                    bytes += count as u64;
                    self.write();
                    self.progress.tell(self.lines, bytes);
                }
                Err(error) if error.kind() == ErrorKind::Interrupted => {}
                Err(error) => break Err(error),
            }
        };
        if ended.is_ok() {
            lines.finish(|line| self.carry_out(line));
        }
        self.write();
        self.progress.hide();
        ended
    }

    /// Carries out a line and keeps what it prints.
    fn carry_out(&mut self, line: &[u8]) {
        self.lines += 1;
        match script::read_line(line) {
            Ok(call) => {
                let answer = call.carry_out(self.store.as_mut_bytes(), &mut self.space[..]);
                if answer.number == 0 && call.verb == script::Verb::View {
                    self.output.kept.extend_from_slice(&self.space[..answer.count as usize]);
                }
                self.output.kept.extend_from_slice(format!("A\t{}\t{}\n", answer.number, answer.count).as_bytes());
                if answer.number != 0 {
                    self.fault(|| refusals::of_call(answer.number, &call));
                }
            }
            Err(slip) => {
                self.output.kept.extend_from_slice(b"A\t?\t0\n");
                self.fault(|| format!("does not read: {slip}"));
            }
        }
        if self.output.kept.len() >= PIECE {
            self.write();
        }
    }

    /// Counts a line that was refused or does not read, and says why if that is asked for, behind what it prints.
    fn fault(&mut self, why: impl FnOnce() -> String) {
        self.faults += 1;
        if self.is_explained {
            self.write();
            self.progress.hide();
            eprint_all(&format!("line {}: {}\n", self.lines, why()));
        }
    }

    /// Writes the answers that were kept.
    fn write(&mut self) {
        if !self.output.kept.is_empty() && io::stdout().is_terminal() {
            self.progress.hide();
        }
        self.output.flush();
    }
}
