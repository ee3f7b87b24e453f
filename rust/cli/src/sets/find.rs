//! `sets find PAST FORECAST TIME`: the set for a time, as an elements file.

use std::path::Path;

use yurdelmiz::{find_set, position, Elements, FoundSet, Refusal, SetTable};

use super::refused;
use super::table::Table;
use crate::arguments::{Arguments, Command, Flag, TIME};
use crate::failure::{note, Failure};
use crate::refused_elements::{out_of_range, OUTSIDE};
use crate::{date, elements_text, output, quote, stdout, time_text};

/// The option with the file to write.
const OUTPUT: &str = "-o";

pub const COMMAND: Command = Command {
    name: "sets find",
    operands: &["PAST", "FORECAST", TIME],
    flags: &[Flag { name: OUTPUT, value: Some("FILE") }],
    help: include_str!("../../help/sets/find.txt"),
    run,
};

fn run(arguments: &Arguments) -> Result<(), Failure> {
    let time = time_of(&arguments.word(2))?;
    let paths = [0, 1].map(|at| arguments.path(at));
    let output = arguments.value(OUTPUT).map(Path::new);
    if let Some(path) = output {
        if path.as_os_str().is_empty() {
            return Err(COMMAND.mistake("sets find: FILE is empty"));
        }
        output::check(&COMMAND, path, &paths)?;
    }
    let past = Table::read(paths[0])?;
    let forecast = Table::read(paths[1])?;
    let sizes = [&past, &forecast].map(|table| table.bytes.len());
    match find_set(&past.bytes, sizes[0], &forecast.bytes, sizes[1], time) {
        Ok(found) => {
            let (kind, path) = match found.table {
                SetTable::Past => ("past", paths[0]),
                SetTable::Forecast => ("forecast", paths[1]),
            };
            tell(&found, kind, path, output)?;
            warn(&found.elements(), time);
            Ok(())
        }
        Err(refusal) => {
            let why = match refusal {
                Refusal::NoSet => no_set(&past, &forecast, time),
                _ => {
                    let at_fault = if past.check().is_err() { &past } else { &forecast };
                    refused::why(at_fault)
                }
            };
            Err(refused::failure(refusal, why))
        }
    }
}

fn time_of(word: &str) -> Result<i64, Failure> {
    time_text::read(word)
        .map_err(|why| COMMAND.mistake(format!("{TIME} {} {why}", quote::word(word))))
}

/// The set as an elements file, on standard output or in a file.
fn tell(found: &FoundSet, kind: &str, path: &Path, output: Option<&Path>) -> Result<(), Failure> {
    let (elements, row) = (found.elements(), found.number);
    let epoch = elements.epoch;
    let text = format!(
        "# {kind} set, row {row} (from 0) of {}, epoch {}\n{}",
        quote::name(path),
        date::shown(epoch),
        elements_text::lines(&elements)
    );
    match output {
        None => stdout::print(&text),
        Some(output) => {
            output::write(output, text.as_bytes())?;
            let line = format!("found {kind} row {row} epoch {} {epoch}\n", date::iso(epoch));
            stdout::print_after(output, &line)
        }
    }
}

/// Warns where the set is too far from the time to label with, or the time is none that is labelled.
fn warn(elements: &Elements, time: i64) {
    if position(elements, time) != Err(Refusal::Time) {
        return;
    }
    let (shown, epoch) = (date::shown(time), elements.epoch);
    let is = if out_of_range(time) {
        OUTSIDE.to_owned()
    } else {
        format!("{} the epoch, {}", date::apart(time, epoch), date::shown(epoch))
    };
    note(format!("warning: the time, {shown}, is {is}: label refuses a record of it with 8"));
}

fn no_set(past: &Table, forecast: &Table, time: i64) -> String {
    let mut told = refused::sets(past.path, past.sets());
    if past.sets() > 0 {
        told.push_str(&format!(
            ", the first with the epoch {}, after the time, {}",
            date::shown(past.set(0).epoch),
            date::shown(time)
        ));
    }
    format!("{told}; {}", refused::sets(forecast.path, forecast.sets()))
}
