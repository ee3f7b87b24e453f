//! The subcommands by their names: `label`, and of two words `sets put`, whose first is that of a family.

use std::ffi::{OsStr, OsString};

use crate::arguments::{nearest, Command};
use crate::failure::Failure;
use crate::{help, quote, COMMANDS};

/// Commands whose names begin with one word.
pub struct Family {
    pub name: &'static str,
    pub commands: &'static [&'static Command],
    /// Its first lines, up to an empty one, are the usages of its commands.
    pub help: &'static str,
}

/// What the first word names.
pub enum Entry {
    Command(&'static Command),
    Family(&'static Family),
}

/// What the words ask for.
pub enum Asked<'a> {
    /// A command, with the words behind its name.
    Command(&'static Command, &'a [OsString]),
    /// The text of a family.
    Help(&'static str),
}

impl Entry {
    fn name(&self) -> &'static str {
        match self {
            Entry::Command(command) => command.name,
            Entry::Family(family) => family.name,
        }
    }
}

impl Family {
    /// Its command of a second word.
    fn find(&self, word: &OsStr) -> Result<&'static Command, Failure> {
        let name = format!("{} {}", self.name, word.to_string_lossy());
        let names = || self.commands.iter().map(|command| command.name);
        let found = self.commands.iter().find(|command| command.name == name);
        found.copied().ok_or_else(|| unknown(&name, names(), self.help))
    }

    /// The second words: `put, find or list`.
    fn words(&self) -> String {
        let words: Vec<&str> =
            self.commands.iter().map(|command| &command.name[self.name.len() + 1..]).collect();
        let (last, others) = words.split_last().expect("a family has commands");
        format!("{} or {last}", others.join(", "))
    }
}

pub fn is_help(word: &OsStr) -> bool {
    word == "--help" || word == "-h"
}

fn entry(word: &OsStr) -> Result<&'static Entry, Failure> {
    let text = word.to_string_lossy();
    COMMANDS.iter().find(|entry| entry.name() == text).ok_or_else(|| {
        unknown(&text, COMMANDS.iter().map(Entry::name).chain(["help"]), help::GENERAL)
    })
}

/// What a first word and the rest ask for.
pub fn find<'a>(first: &OsStr, rest: &'a [OsString]) -> Result<Asked<'a>, Failure> {
    let family = match entry(first)? {
        Entry::Command(command) => return Ok(Asked::Command(command, rest)),
        Entry::Family(family) => family,
    };
    match rest {
        [] => {
            let mistake = format!("{}: {} is missing", family.name, family.words());
            Err(Failure::usage(mistake, family.help))
        }
        [word, ..] if is_help(word) => Ok(Asked::Help(family.help)),
        [word, rest @ ..] => Ok(Asked::Command(family.find(word)?, rest)),
    }
}

/// The text of what words name, and the words behind the name.
pub fn text<'a>(
    first: &OsStr,
    rest: &'a [OsString],
) -> Result<(&'static str, &'a [OsString]), Failure> {
    Ok(match (entry(first)?, rest) {
        (Entry::Family(family), []) => (family.help, rest),
        (Entry::Family(family), [word, rest @ ..]) => (family.find(word)?.help, rest),
        (Entry::Command(command), _) => (command.help, rest),
    })
}

fn unknown(text: &str, names: impl Iterator<Item = &'static str>, help: &str) -> Failure {
    let hint = match nearest(text, names) {
        Some(near) => format!(": did you mean {near}?"),
        None => String::new(),
    };
    let kind = if text.starts_with('-') { "option" } else { "command" };
    Failure::usage(format!("there is no {kind} {}{hint}", quote::word(text)), help)
}
