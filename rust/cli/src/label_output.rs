//! The label file that `label`, `add` and `salvage` write: what is asked of it, and what the first two say then.

use std::path::Path;

use yurdelmiz::Counts;

use crate::arguments::Command;
use crate::failure::Failure;
use crate::{output, quote, stdout};

/// What is asked of LABELS before anything is read: no name of another kind of file, and what is asked of
/// every output.
pub fn check(command: &Command, path: &Path, inputs: &[&Path]) -> Result<(), Failure> {
    let ending = path.extension().unwrap_or_default().to_ascii_lowercase();
    if ["csv", "json", "svg"].iter().any(|other| ending == *other) {
        return Err(command.mistake(format!(
            "{}: LABELS would be {}, and a label file is none of that kind; list --csv, list --json and \
             plot make those from it",
            command.name,
            quote::path(path)
        )));
    }
    output::check(command, path, inputs)
}

/// Writes the file that was labelled, and says its counts behind what else is to be said.
pub fn write(path: &Path, file: &[u8], ahead: &str, counts: Counts) -> Result<(), Failure> {
    output::write(path, file)?;
    let Counts { labels, training, test, .. } = counts;
    let line = format!("{ahead}labelled {labels} training {training} test {test}\n");
    stdout::print_after(path, &line)
}
