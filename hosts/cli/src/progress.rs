//! How far a long script is, told on standard error where that is a terminal.

use std::io::{self, IsTerminal};
use std::time::{Duration, Instant};

use crate::failure::eprint_all;

/// After how long it is told for the first time, and how often then.
const PATIENCE: Duration = Duration::from_secs(1);
const PACE: Duration = Duration::from_millis(200);

/// What is told, and when.
pub struct Progress {
    is_told: bool,
    is_shown: bool,
    due: Instant,
    whole: Option<u64>,
}

impl Progress {
    /// Of a script of this many bytes, where that is known. Where it is typed nothing is told.
    pub fn new(whole: Option<u64>, is_typed: bool) -> Progress {
        let is_told = io::stderr().is_terminal() && !is_typed;
        Progress { is_told, is_shown: false, due: Instant::now() + PATIENCE, whole: whole.filter(|whole| *whole > 0) }
    }

    /// Tells how many lines were carried out and how many bytes were read, if it is time to.
    pub fn tell(&mut self, lines: u64, bytes: u64) {
        if !self.is_told || Instant::now() < self.due {
            return;
        }
        let share = self.whole.map_or(String::new(), |whole| format!(", {}%", bytes.min(whole) * 100 / whole));
        eprint_all(&format!("\r{lines} lines{share}\x1b[K"));
        self.is_shown = true;
        self.due = Instant::now() + PACE;
    }

    /// Takes away what was told, before something else is written to the terminal.
    pub fn hide(&mut self) {
        if self.is_shown {
            eprint_all("\r\x1b[K");
            self.is_shown = false;
        }
    }
}
