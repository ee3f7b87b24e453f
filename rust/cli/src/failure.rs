//! How a command ends where it is not done, and what it says then on standard error.

use std::fmt::Display;
use std::io::{self, Write};
use std::path::Path;
use std::process::ExitCode;

use crate::quote;

/// The exit status beside 0, which is done.
#[derive(Clone, Copy, Debug, PartialEq, Eq)]
pub enum Status {
    /// Refused or malformed.
    Refused = 1,
    /// A mistake in the arguments.
    Usage = 2,
    /// A file could not be read or written, standard output included.
    File = 3,
}

#[derive(Debug)]
pub struct Failure {
    pub status: Status,
    /// The first line names the mistake. Empty where there is nobody left to tell.
    message: String,
}

impl Failure {
    /// A mistake in the arguments, with the lines that say how it is done.
    pub fn usage(mistake: impl Display, help: &str) -> Failure {
        let usage = help.lines().take_while(|line| !line.is_empty());
        let lines: Vec<&str> = usage.collect();
        Failure { status: Status::Usage, message: format!("{mistake}\n{}", lines.join("\n")) }
    }

    /// A file that could not be read or written.
    pub fn file(path: &Path, what: impl Display) -> Failure {
        Failure { status: Status::File, message: format!("{}: {what}", quote::path(path)) }
    }

    /// Something refused or malformed, in the file and at the place that `what` names.
    pub fn refused(what: impl Display) -> Failure {
        Failure { status: Status::Refused, message: what.to_string() }
    }

    /// What could not be read and has no path: standard input, or files that are each told in a line of their own.
    pub fn unread(what: impl Display) -> Failure {
        Failure { status: Status::File, message: what.to_string() }
    }

    pub fn standard_output(error: &io::Error) -> Failure {
        let message = match error.kind() {
            // Whoever read it has read enough.
            io::ErrorKind::BrokenPipe => String::new(),
            _ => format!("standard output: {}", words(error)),
        };
        Failure { status: Status::File, message }
    }

    /// What is already done, ahead of the message.
    pub fn after(mut self, done: impl Display) -> Failure {
        if !self.message.is_empty() {
            self.message = format!("{done}, but {}", self.message);
        }
        self
    }

    pub fn tell(&self) -> ExitCode {
        if !self.message.is_empty() {
            note(&self.message);
        }
        ExitCode::from(self.status as u8)
    }
}

/// A line on standard error. There is no other place to tell that it cannot be written.
pub fn note(message: impl Display) {
    raw_note(format!("yurdelmiz: {message}"));
}

/// A line on standard error without the command's name.
pub fn raw_note(message: impl Display) {
    let _ = io::stderr().write_all(format!("{message}\n").as_bytes());
}

/// The system's words for an error, without its number.
pub fn words(error: &io::Error) -> String {
    let words = error.to_string();
    match words.find(" (os error") {
        Some(at) => words[..at].to_owned(),
        None => words,
    }
}
