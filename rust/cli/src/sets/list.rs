//! `sets list TABLE`: a line for each set, with its elements as `label` tells them.

use yurdelmiz::{Element, Elements};

use super::refused;
use super::table::Table;
use crate::arguments::{Arguments, Command};
use crate::failure::Failure;
use crate::stdout::Lines;
use crate::{date, elements_report};

pub const COMMAND: Command = Command {
    name: "sets list",
    operands: &["TABLE"],
    flags: &[],
    help: include_str!("../../help/sets/list.txt"),
    run,
};

fn run(arguments: &Arguments) -> Result<(), Failure> {
    let table = Table::read(arguments.path(0))?;
    if let Err(refusal) = table.check() {
        return Err(refused::failure(refusal, refused::why(&table)));
    }
    let mut lines = Lines::new();
    lines.print(format_args!("sets {}\n", table.sets()))?;
    for row in 0..table.sets() {
        let set = table.set(row);
        let date = date::iso(set.epoch);
        lines.print(format_args!("{row} {date} {} {}\n", set.epoch, told(&set)))?;
    }
    lines.end()
}

/// The elements beside the epoch.
fn told(set: &Elements) -> String {
    let elements = Element::ALL.into_iter().filter(|element| *element != Element::Epoch);
    let told: Vec<String> = elements.map(|element| elements_report::told(element, set)).collect();
    told.join(", ")
}
