//! `help`, and what `--version` says. The texts are files, which `./yurdelmiz` shows before it is built.

use std::ffi::OsString;

use crate::failure::Failure;
use crate::{commands, quote, stdout};

pub const GENERAL: &str = include_str!("../help/yurdelmiz.txt");

/// `help [COMMAND]`, where the command may be of two words.
pub fn run(words: &[OsString]) -> Result<(), Failure> {
    let (text, behind) = match words {
        [] => (GENERAL, words),
        [word, rest @ ..] if word == "help" || commands::is_help(word) => (GENERAL, rest),
        [first, rest @ ..] => commands::text(first, rest)?,
    };
    match behind.first() {
        None => stdout::print(text),
        Some(extra) => {
            let extra = quote::word(&extra.to_string_lossy());
            Err(Failure::usage(format!("help: {extra} is one word too many"), GENERAL))
        }
    }
}

/// The project's version, and the kit with which the library was proved.
pub fn version() -> String {
    let (version, kit) = (env!("CARGO_PKG_VERSION"), env!("YURDELMIZ_KIT"));
    format!("yurdelmiz {version}\nproved with {kit}\n")
}
