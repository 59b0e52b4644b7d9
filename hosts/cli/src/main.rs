//! The command `dossier`: a labelled dossier store in a file. It makes, shows, charts, migrates and checks stores and carries
//! out scripts of calls on them. The calls are those of the package in hosts/rust; this program reads, prints and keeps files.

mod arguments;
mod chart;
mod csv;
mod date;
mod diff;
mod element;
mod explain;
mod failure;
mod files;
mod help;
mod html;
mod lines;
mod migrate;
mod new;
mod owner;
mod progress;
mod refusals;
mod run;
mod script;
mod shown;
mod slips;
mod table;
mod take;
mod view;

use std::env;
use std::ffi::OsString;
use std::process::ExitCode;

use arguments::Words;
use failure::{Done, Failure};

fn main() -> ExitCode {
    let words: Vec<OsString> = env::args_os().skip(1).collect();
    let done = dispatch(&words);
    if let Err(failure) = &done {
        failure.tell();
    }
    ExitCode::from(failure::status(&done))
}

/// Carries out what the command line asks for.
fn dispatch(words: &[OsString]) -> Result<Done, Failure> {
    let Some((first, rest)) = words.split_first() else {
        return Err(Failure::Usage(help::overview()));
    };
    match first.to_str() {
        Some("--help" | "-h") => return files::print(help::overview().as_bytes()),
        Some("--version" | "-V") => return files::print(help::version().as_bytes()),
        _ => {}
    }
    let command = help::command(first)
        .ok_or_else(|| Failure::Usage(format!("there is no command '{}'; see dossier --help\n", first.display())))?;
    if arguments::asks(rest, &["--help", "-h"]) {
        return files::print(help::text(command).as_bytes());
    }
    if arguments::asks(rest, &["--version", "-V"]) {
        return files::print(help::version().as_bytes());
    }
    (command.carry_out)(&Words::read(command, rest)?)
}
