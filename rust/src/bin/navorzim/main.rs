//! `navorzim`: code sheets, plans and stripes in files, over the proved library.
//!
//! Exit status: 0 done, 1 refused, disks that can't be rebuilt or stripes that can't be sound, 2 misuse or a file that can't be used, 3 from
//! `status` where disks are missing and can be rebuilt.
#![deny(unsafe_code)]

mod arguments;
mod array;
mod arrays;
mod birth;
mod checksum;
mod commands;
mod completions;
mod demo;
mod disks;
mod failure;
mod files;
mod folders;
mod gather;
mod help;
mod inventory;
mod label;
mod lists;
mod locks;
mod manual;
mod output;
mod picture;
mod place;
mod planning;
mod progress;
mod recovery;
mod replacement;
mod rescue;
mod restore;
mod rights;
mod sheets;
mod soundness;
mod stream;
mod stuck;
mod svg;
mod system;
mod text;
mod usage;
mod wanted;

use arguments::shown;
use commands::Ran;
use failure::Failure;
use std::ffi::{OsStr, OsString};
use std::io::{self, ErrorKind, Write};
use std::process::ExitCode;

fn main() -> ExitCode {
    let given: Vec<OsString> = std::env::args_os().skip(1).collect();
    system::watch_signals();
    let Ran { answer, aside } = answer(given);
    // All files are closed and the temporary ones are gone.
    system::obey_signals();
    match answer {
        Ok(text) => ExitCode::from(print(&text, aside, 0)),
        Err(failure) => ExitCode::from(complain(&failure, aside)),
    }
}

/// What the command line asks for.
fn answer(given: Vec<OsString>) -> Ran {
    let mut given = given.into_iter();
    let Some(first) = given.next() else {
        return Err(misuse("no command is given".to_string())).into();
    };
    match first.to_str() {
        Some("help" | "--help" | "-h") => help_for(given).into(),
        Some("--version" | "-V") => {
            nothing_more(given).map(|()| format!("navorzim {}\n", env!("CARGO_PKG_VERSION"))).into()
        }
        // For the installation, and in no list: what they print is made of the table of commands.
        Some("man") => nothing_more(given).map(|()| manual::page()).into(),
        Some("completions") => completions_for(given).into(),
        name => match name.and_then(commands::find) {
            Some(command) => commands::run(command, given),
            None => Err(unknown(&first)).into(),
        },
    }
}

fn help_for(mut given: impl Iterator<Item = OsString>) -> Result<String, Failure> {
    let Some(name) = given.next() else {
        return Ok(help::ALL.to_string());
    };
    nothing_more(given)?;
    match name.to_str().and_then(commands::find) {
        Some(command) => Ok(command.help.to_string()),
        None => Err(unknown(&name)),
    }
}

fn completions_for(mut given: impl Iterator<Item = OsString>) -> Result<String, Failure> {
    let shell = given.next().unwrap_or_default();
    nothing_more(given)?;
    let script = shell.to_str().and_then(completions::script);
    script.ok_or_else(|| misuse(format!("completions are for bash, zsh and fish, not for '{}'", shown(&shell))))
}

fn nothing_more(mut given: impl Iterator<Item = OsString>) -> Result<(), Failure> {
    match given.next() {
        None => Ok(()),
        Some(word) => Err(misuse(format!("'{}' is one word too many", shown(&word)))),
    }
}

fn unknown(name: &OsStr) -> Failure {
    misuse(format!("there is no command '{}'", shown(name)))
}

fn misuse(what: String) -> Failure {
    Failure::Misuse { what, command: "" }
}

/// Prints an answer, or says it aside where standard output has taken other bytes; the work is done by then, so a reader who has gone
/// away changes nothing of its status.
fn print(text: &str, aside: bool, status: u8) -> u8 {
    if aside {
        let _ = write!(io::stderr(), "{text}");
        return status;
    }
    let mut out = io::stdout().lock();
    match out.write_all(text.as_bytes()).and_then(|()| out.flush()) {
        Err(error) if error.kind() != ErrorKind::BrokenPipe => {
            let _ = writeln!(io::stderr(), "navorzim: can't write the answer: {error}");
            2
        }
        _ => status,
    }
}

fn complain(failure: &Failure, aside: bool) -> u8 {
    let status = match failure {
        Failure::Missing { text } => return print(text, aside, failure.status()),
        Failure::NoPlan { text, .. }
        | Failure::Unsound { text, .. }
        | Failure::InTheWay { text, .. }
        | Failure::Drawn { text, .. }
        | Failure::Unexpected { text, .. } => print(text, aside, failure.status()),
        Failure::Refused(_) | Failure::Misuse { .. } | Failure::File(_) => failure.status(),
    };
    let _ = writeln!(io::stderr(), "navorzim: {failure}");
    status
}
