//! The command `yurdelmiz`: arguments in, files and lines out. Every verdict, label and field rule is the
//! proved library's (the crate `yurdelmiz`); here are files, words, dates and pictures.
//!
//! A subcommand is one file with its `COMMAND`, one text under help/ and one line in [`COMMANDS`]; of a family of
//! commands, as `sets put` and `sets find`, in the family.

#![deny(unsafe_code)]

mod add;
mod arguments;
mod commands;
mod dark_test;
mod date;
mod day_input;
mod decimal;
mod elements_input;
mod elements_report;
mod elements_text;
mod failure;
mod help;
mod input;
mod label;
mod label_input;
mod label_output;
mod label_stream;
mod list;
mod malformed;
mod output;
mod plot;
mod quote;
mod refused_day;
mod refused_elements;
mod refused_file;
mod salvage;
mod scale;
mod sets;
#[allow(unsafe_code)]
mod signals;
#[allow(unsafe_code)]
mod standard_input;
mod stdout;
mod tally;
mod telemetry_csv;
mod telemetry_input;
mod third_law;
mod time_text;
mod two_line;
mod written;

use std::env;
use std::ffi::OsString;
use std::process::ExitCode;

use commands::{Asked, Entry};
use failure::Failure;

/// The subcommands beside `help`.
const COMMANDS: [Entry; 8] = [
    Entry::Command(&label::COMMAND),
    Entry::Command(&add::COMMAND),
    Entry::Command(&list::COMMAND),
    Entry::Command(&dark_test::COMMAND),
    Entry::Command(&scale::COMMAND),
    Entry::Command(&salvage::COMMAND),
    Entry::Family(&sets::FAMILY),
    Entry::Command(&plot::COMMAND),
];

fn run(words: &[OsString]) -> Result<(), Failure> {
    let Some((first, rest)) = words.split_first() else {
        return Err(Failure::usage("no command is given", help::GENERAL));
    };
    match first.to_str() {
        Some("help") => help::run(rest),
        Some("--help" | "-h") => stdout::print(help::GENERAL),
        Some("--version" | "-V") => stdout::print(&help::version()),
        _ => match commands::find(first, rest)? {
            Asked::Help(text) => stdout::print(text),
            Asked::Command(command, words) => match command.parse(words)? {
                Some(arguments) => (command.run)(&arguments),
                None => stdout::print(command.help),
            },
        },
    }
}

fn main() -> ExitCode {
    signals::prepare();
    let words: Vec<OsString> = env::args_os().skip(1).collect();
    match run(&words) {
        Ok(()) => ExitCode::SUCCESS,
        Err(failure) => failure.tell(),
    }
}
