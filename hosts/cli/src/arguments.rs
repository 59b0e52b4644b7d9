//! The command line of one command: its options, and the words that are none.

use std::collections::HashMap;
use std::ffi::{OsStr, OsString};
use std::fmt::Display;
use std::os::unix::ffi::OsStrExt;
use std::str::FromStr;

use dossier::file::Wait;
use dossier::{Label, Path};

use crate::failure::Failure;
use crate::help::Command;

/// The words of a command line.
pub struct Words {
    command: &'static str,
    plain: Vec<OsString>,
    options: HashMap<&'static str, OsString>,
}

/// Whether one of these options stands among the words, before a lone `--`.
pub fn asks(words: &[OsString], options: &[&str]) -> bool {
    let before = words.iter().take_while(|word| *word != "--");
    before.into_iter().any(|word| options.iter().any(|option| word == option))
}

/// An option's name, and its value where that is joined by `=`.
fn parted(word: &OsStr) -> (String, Option<&OsStr>) {
    let bytes = word.as_bytes();
    let at = bytes.iter().position(|byte| *byte == b'=').unwrap_or(bytes.len());
    let name = OsStr::from_bytes(&bytes[..at]).to_string_lossy().into_owned();
    (name, bytes.get(at + 1..).map(OsStr::from_bytes))
}

impl Words {
    /// Reads the words behind a command.
    pub fn read(command: &Command, words: &[OsString]) -> Result<Words, Failure> {
        let mut read = Words { command: command.name, plain: Vec::new(), options: HashMap::new() };
        let mut words = words.iter();
        while let Some(word) = words.next() {
            if word == "--" {
                read.plain.extend(words.by_ref().cloned());
            } else if word.len() > 1 && word.as_encoded_bytes().starts_with(b"-") {
                read.take_option(command, word, &mut words)?;
            } else {
                read.plain.push(word.clone());
            }
        }
        read.count(command)?;
        Ok(read)
    }

    /// Takes an option with its value, if it has one: `--as 16` or `--as=16`.
    fn take_option<'a>(
        &mut self,
        command: &Command,
        word: &OsStr,
        rest: &mut impl Iterator<Item = &'a OsString>,
    ) -> Result<(), Failure> {
        let (name, joined) = parted(word);
        let Some(option) = command.options.iter().find(|option| option.name == name) else {
            return Err(self.slip(&format!("there is no option '{name}'")));
        };
        let value = match (option.value, joined) {
            (None, None) => OsString::new(),
            (None, Some(_)) => return Err(self.slip(&format!("{name} takes no value"))),
            (Some(_), Some(value)) => value.to_owned(),
            (Some(what), None) => rest.next().cloned().ok_or_else(|| self.slip(&format!("{name} lacks its {what}")))?,
        };
        match self.options.insert(option.name, value) {
            None => Ok(()),
            Some(_) => Err(self.slip(&format!("{name} is given twice"))),
        }
    }

    /// Tests that no word is missing and none too many, and that each option is there that has to be.
    fn count(&self, command: &Command) -> Result<(), Failure> {
        if let Some(missing) = command.words.iter().take(command.least).nth(self.plain.len()) {
            return Err(self.slip(&format!("{missing} is missing")));
        }
        if let Some(extra) = self.plain.get(command.words.len()) {
            return Err(self.slip(&format!("'{}' is one word too many", extra.display())));
        }
        let is_missing = |option: &&crate::help::CommandOption| option.is_needed && !self.has(option.name);
        match command.options.iter().find(is_missing) {
            Some(option) => Err(self.slip(&format!("{} {} is missing", option.name, option.value.unwrap_or_default()))),
            None => Ok(()),
        }
    }

    /// A slip in this command line.
    pub fn slip(&self, what: &str) -> Failure {
        Failure::usage(self.command, what)
    }

    /// Whether an option is given.
    pub fn has(&self, option: &str) -> bool {
        self.options.contains_key(option)
    }

    /// The value of an option.
    pub fn option(&self, option: &str) -> Option<&OsStr> {
        self.options.get(option).map(OsString::as_os_str)
    }

    /// One of the words that are no options.
    pub fn word(&self, at: usize) -> Option<&OsStr> {
        self.plain.get(at).map(OsString::as_os_str)
    }

    /// The store's file, which is the first word of every command that has one.
    pub fn file(&self) -> &OsStr {
        self.word(0).unwrap_or_default()
    }

    /// Whether to wait where the file is in use.
    pub fn wait(&self) -> Wait {
        if self.has("--no-wait") { Wait::No } else { Wait::Yes }
    }

    /// The label that an option names.
    pub fn label(&self, option: &str) -> Result<Label, Failure> {
        self.parsed(self.option(option).unwrap_or_default())
    }

    /// The path in a word, or the root.
    pub fn path(&self, at: usize) -> Result<Path, Failure> {
        self.parsed(self.word(at).unwrap_or(OsStr::new("/")))
    }

    /// What a word says.
    fn parsed<T: FromStr<Err: Display>>(&self, word: &OsStr) -> Result<T, Failure> {
        word.to_string_lossy().parse().map_err(|error: T::Err| self.slip(&error.to_string()))
    }
}
