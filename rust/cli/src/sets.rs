//! `sets`: element sets in tables by epoch, past ones and forecast ones.

mod find;
mod list;
mod put;
mod refused;
mod table;

use crate::commands::Family;

pub const FAMILY: Family = Family {
    name: "sets",
    commands: &[&put::COMMAND, &find::COMMAND, &list::COMMAND],
    help: include_str!("../help/sets.txt"),
};
