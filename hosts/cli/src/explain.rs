//! `dossier explain`: refusals in words, and what is wrong with a script's lines. No store is looked at.

use std::ffi::OsStr;

use dossier::{Refusal, STORE_BYTES};

use crate::arguments::Words;
use crate::failure::{Done, Failure};
use crate::files;
use crate::lines::Lines;
use crate::refusals;
use crate::script;
use crate::shown::counted;

/// What `A ? 0` means.
const UNREAD: &str = "A ? 0: The line does not read as a call. Usual causes are spaces in place of tabs, a carriage return at the end of \
                      the line, and an empty line; dossier explain SCRIPT says which.\n";

/// Explains a number, all numbers, or a script.
pub fn explain(words: &Words) -> Result<Done, Failure> {
    let Some(word) = words.word(0) else {
        let all: Vec<String> = Refusal::ALL.iter().copied().map(of_refusal).collect();
        return files::print(format!("{UNREAD}\n{}", all.join("\n")).as_bytes());
    };
    let is_number = |text: &&str| !text.is_empty() && text.bytes().all(|byte| byte.is_ascii_digit());
    match word.to_str() {
        Some("?") => files::print(UNREAD.as_bytes()),
        Some(text) if is_number(&text) => explain_number(words, text),
        _ => explain_script(word),
    }
}

/// A refusal with its number.
fn of_refusal(refusal: Refusal) -> String {
    let (cause, advice) = refusals::meaning(refusal);
    format!("{}: {cause}\n    {advice}\n", refusal.number())
}

/// Explains a number.
fn explain_number(words: &Words, text: &str) -> Result<Done, Failure> {
    let number = text.parse().ok();
    if number == Some(0) {
        return files::print(b"0: The call is done.\n");
    }
    match number.and_then(Refusal::from_number) {
        Some(refusal) => files::print(of_refusal(refusal).as_bytes()),
        None => Err(words.slip(&format!("no call is refused by {text}; a script of this name is ./{text}"))),
    }
}

/// Says what is wrong with the lines of a script.
fn explain_script(word: &OsStr) -> Result<Done, Failure> {
    let (mut lines, mut examiner) = (Lines::default(), Examiner::new());
    files::read_pieces(word, |piece| {
        lines.take(piece, |line| examiner.examine(line));
        files::print(&std::mem::take(&mut examiner.said)).map(|_| ())
    })?;
    lines.finish(|line| examiner.examine(line));
    let (count, faults) = (counted(examiner.lines, "line"), examiner.faults);
    let end = match faults {
        0 => format!("{count}: nothing is wrong with how they are written\n"),
        _ => format!("{count}, {faults} of them with a fault\n"),
    };
    files::print(&[examiner.said, end.into_bytes()].concat())?;
    Ok(if faults == 0 { Done::Well } else { Done::Found })
}

/// Lines that are examined, and what is said of them.
struct Examiner {
    store: Vec<u8>,
    lines: usize,
    faults: usize,
    said: Vec<u8>,
}

impl Examiner {
    /// One that has examined nothing yet, with an empty store.
    fn new() -> Examiner {
        Examiner { store: vec![0; STORE_BYTES], lines: 0, faults: 0, said: Vec::new() }
    }

    /// Examines a line.
    fn examine(&mut self, line: &[u8]) {
        self.lines += 1;
        if let Some(why) = self.fault_of(line) {
            self.faults += 1;
            self.said.extend_from_slice(format!("line {}: {why}\n", self.lines).as_bytes());
        }
    }

    /// Why a line does not read, or is refused on every store that is well formed: 2, 4, 5 and 6 are told by the line alone, before
    /// anything is looked for in the store.
    fn fault_of(&mut self, line: &[u8]) -> Option<String> {
        let call = match script::read_line(line) {
            Ok(call) => call,
            Err(slip) => return Some(format!("does not read: {slip}")),
        };
        let answer = call.carry_out(&mut self.store, &mut [0; 64]);
        matches!(answer.number, 2 | 4 | 5 | 6).then(|| refusals::of_call(answer.number, &call))
    }
}
