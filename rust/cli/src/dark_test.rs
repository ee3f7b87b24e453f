//! `dark-test FILE...`: the dark test labels of label files, of each by its tail alone.

use std::fmt::{self, Display, Formatter};
use std::path::Path;

use yurdelmiz::{dark_test, LabelFile, Refusal};

use crate::arguments::{Arguments, Command};
use crate::failure::Failure;
use crate::stdout::Lines;
use crate::tally::Tally;
use crate::{input, quote};

pub const COMMAND: Command = Command {
    name: "dark-test",
    operands: &["FILE..."],
    flags: &[],
    help: include_str!("../help/dark-test.txt"),
    run,
};

fn run(arguments: &Arguments) -> Result<(), Failure> {
    let mut lines = Lines::new();
    let mut tally = Tally::default();
    for path in arguments.paths() {
        let answer = ask(path);
        tally.files += 1;
        match answer {
            Answer::Held(_) | Answer::NotHeld => {}
            Answer::Refused(_) => tally.refused += 1,
            Answer::Unread(_) => tally.unread += 1,
        }
        lines.print(format_args!("{}\t{answer}\n", quote::name(path)))?;
    }
    lines.end()?;
    tally.verdict()
}

/// What the line of a file says.
enum Answer {
    Held(u32),
    NotHeld,
    Refused(Refusal),
    /// Why it could not be asked.
    Unread(String),
}

/// The proved library's verdict on the tail of a file.
fn ask(path: &Path) -> Answer {
    let mut room = [0; LabelFile::TAIL];
    match input::read_tail(path, &mut room) {
        Ok((tail, length)) => match dark_test(tail, length) {
            Ok(Some(figure)) => Answer::Held(figure),
            Ok(None) => Answer::NotHeld,
            Err(refusal) => Answer::Refused(refusal),
        },
        Err(why) => Answer::Unread(why),
    }
}

impl Display for Answer {
    fn fmt(&self, f: &mut Formatter) -> fmt::Result {
        match self {
            Answer::Held(figure) => write!(f, "{figure}"),
            Answer::NotHeld => write!(f, "not held"),
            Answer::Refused(refusal) => write!(f, "refused {}", refusal.number()),
            Answer::Unread(why) => write!(f, "cannot be read: {why}"),
        }
    }
}
