//! Why a table was refused: the first row at fault and its fault, or how many bytes are over. The verdicts are the
//! library's, on the table's first rows and on the row's set.

use std::path::Path;

use yurdelmiz::{Day, Element, Elements, Refusal, Refused};

use super::table::{self, Table, ROW};
use crate::decimal::grouped;
use crate::failure::Failure;
use crate::input::looks_like_text;
use crate::written::Written;
use crate::{date, elements_report, quote, refused_elements, stdout};

/// Prints a refusal, of which none here has a place, and says why.
pub fn failure(refusal: Refusal, why: String) -> Failure {
    match stdout::print(&format!("{}\n", Refused { refusal, place: 0 })) {
        Ok(()) => Failure::refused(why),
        Err(failure) => failure,
    }
}

pub fn why(table: &Table) -> String {
    let path = quote::path(table.path);
    let over = bytes_over(table.bytes.len());
    let Some(row) = first_fault(&table.bytes) else {
        let over = over.unwrap_or_else(|| Refusal::Table.to_string());
        return if looks_like_text(&table.bytes) {
            format!("{path}: {over}: it is text, and no table")
        } else {
            format!("{path}: {over}: is the file cut short, or no table?")
        };
    };
    let mut told = fault(table, row);
    if let Some(over) = over {
        told.push_str(&format!("; {over}"));
    }
    if looks_like_text(&table.bytes) {
        told.push_str("; it is text, and no table");
    }
    told
}

/// Said of a length that is no whole number of rows.
fn bytes_over(length: usize) -> Option<String> {
    let [bytes, rows] = [length, length / ROW].map(|number| grouped(number as u64));
    match length % ROW {
        0 => None,
        over => Some(format!("{bytes} bytes are {rows} rows of {ROW} and {over} more")),
    }
}

/// The first row at fault. Rows from the first on are refused as a table exactly where one of them is at fault, so
/// that halving finds it.
fn first_fault(bytes: &[u8]) -> Option<usize> {
    let refused = |rows: usize| table::check(&bytes[..rows * ROW]).is_err();
    let (mut sound, mut faulty) = (0, bytes.len() / ROW);
    if !refused(faulty) {
        return None;
    }
    while faulty - sound > 1 {
        let middle = sound.midpoint(faulty);
        if refused(middle) {
            faulty = middle;
        } else {
            sound = middle;
        }
    }
    Some(sound)
}

/// What is wrong with the first row at fault: its set, or else its epoch.
fn fault(table: &Table, number: usize) -> String {
    let set = table.set(number);
    let (path, byte) = (quote::path(table.path), grouped((number * ROW) as u64));
    let place = format!("{path}, row {number} (from 0, at byte {byte})");
    if let Err(refusal) = Day::open(&set) {
        let row = RefusedRow { place: format!("{place}: refused {}", refusal.number()), set };
        return refused_elements::why(&row, refusal)
            .unwrap_or_else(|| format!("{}: {}", row.place, refusal.sentence()));
    }
    let before = number.checked_sub(1).map(|row| table.set(row).epoch);
    let epoch = date::shown(set.epoch);
    match before {
        Some(before) if before == set.epoch => format!(
            "{place}: its epoch, {epoch}, is that of the row before: no epoch stands twice in a table"
        ),
        Some(before) => format!(
            "{place}: its epoch, {epoch}, is before that of the row before, {}: rows stand in rising order of \
             epoch",
            date::shown(before)
        ),
        None => format!("{place}: {}", Refusal::Table),
    }
}

/// A row of a table whose set is refused.
struct RefusedRow {
    place: String,
    set: Elements,
}

impl Written for RefusedRow {
    fn place(&self, _: &[Element]) -> String {
        self.place.clone()
    }

    fn text(&self, element: Element) -> String {
        elements_report::number(element, &self.set).to_string()
    }

    fn number(&self, element: Element) -> Option<i64> {
        Some(elements_report::number(element, &self.set))
    }

    fn value(&self, element: Element) -> String {
        elements_report::value(element, elements_report::number(element, &self.set))
    }

    fn unit(&self, element: Element) -> &'static str {
        element.unit()
    }
}

/// What a table that is not refused has, for a message.
pub fn sets(path: &Path, number: usize) -> String {
    let path = quote::path(path);
    match number {
        0 => format!("{path} has no sets"),
        1 => format!("{path} has 1 set"),
        _ => format!("{path} has {} sets", grouped(number as u64)),
    }
}

#[cfg(test)]
mod tests {
    use super::*;

    const ELEMENTS: &str = include_str!("../../../../examples/oscar10/elements.txt");

    /// Every place of a first fault, alone, with others behind it, and ahead of bytes that are over.
    #[test]
    fn first_faults() {
        let set = yurdelmiz::parse_elements(ELEMENTS.as_bytes()).unwrap();
        for rows in 0..20 {
            let sound: Vec<u8> = (0..rows)
                .flat_map(|row| Elements { epoch: row as i64, ..set }.to_bytes())
                .collect();
            assert_eq!(first_fault(&sound), None, "{rows} rows");
            assert_eq!(first_fault(&[&sound[..], &[0]].concat()), None, "{rows} rows");
            for fault in 0..rows {
                // A set that is refused; and an epoch of the row before, which the first row has not.
                let mut refused = sound.clone();
                refused[fault * ROW + 8..fault * ROW + 12].fill(0xff);
                let mut twice = sound.clone();
                twice[fault * ROW] = fault.saturating_sub(1) as u8;
                for (mut bytes, first) in
                    [(refused, Some(fault)), (twice, (fault > 0).then_some(fault))]
                {
                    assert_eq!(first_fault(&bytes), first, "row {fault} of {rows}");
                    bytes[(rows - 1) * ROW + 8..].fill(0xff);
                    assert_eq!(first_fault(&bytes), Some(first.unwrap_or(rows - 1)));
                    bytes.push(0);
                    assert_eq!(first_fault(&bytes), Some(first.unwrap_or(rows - 1)));
                }
            }
        }
    }
}
