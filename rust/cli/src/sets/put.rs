//! `sets put TABLE ELEMENTS`

use yurdelmiz::Refusal;

use super::refused;
use super::table::{Put, Table};
use crate::arguments::{Arguments, Command};
use crate::elements_input::ElementsFile;
use crate::failure::Failure;
use crate::malformed::Swapped;
use crate::two_line::{self, AxisAndRates};
use crate::{date, output, quote, stdout};

pub const COMMAND: Command = Command {
    name: "sets put",
    operands: &["TABLE", "ELEMENTS"],
    flags: &[two_line::AXIS_FLAG, two_line::NODE_RATE_FLAG, two_line::PERIGEE_RATE_FLAG],
    help: include_str!("../../help/sets/put.txt"),
    run,
};

fn run(arguments: &Arguments) -> Result<(), Failure> {
    let beside = AxisAndRates::given(&COMMAND, arguments)?;
    let [table_path, elements_path] = [0, 1].map(|at| arguments.path(at));
    output::check(&COMMAND, table_path, &[elements_path])?;
    let there = Table::read_if_there(table_path)?;
    let made = if there.is_none() { " table made" } else { "" };
    let mut table = there.unwrap_or(Table { path: table_path, bytes: Vec::new() });
    let input = ElementsFile::read(elements_path, beside, Swapped::Table)?.take()?;
    match table.put(&input.elements) {
        Ok(Put { row, replaced }) => {
            output::write(table_path, &table.bytes)?;
            let done = if replaced { "replaced" } else { "put" };
            let (epoch, sets) = (input.elements.epoch, table.sets());
            let date = date::iso(epoch);
            let line = format!("{done} row {row} epoch {date} {epoch} sets {sets}{made}\n");
            stdout::print_after(table_path, &line)
        }
        Err(refusal) => {
            let why = match refusal {
                Refusal::Table => refused::why(&table),
                Refusal::Room => {
                    format!("{}, the most in a file", refused::sets(table_path, table.sets()))
                }
                _ => input.refused(refusal).unwrap_or_else(|| {
                    format!("{}: {}", quote::path(elements_path), refusal.sentence())
                }),
            };
            Err(refused::failure(refusal, why))
        }
    }
}
