//! Tables of element sets: a set found, one put ahead of all rows, and one put over the last.

use std::hint::black_box;

use reference::day_bytes::{elements_to_bytes, ELEMENTS_BYTES};
use reference::element_sets::{find, put, Row};
use reference::orbit::Elements;

use crate::{compare, library_elements, Comparison, ELEMENTS};

/// Seconds from set to set.
const APART: i64 = 3_600;

fn set(row: usize) -> Elements {
    Elements { epoch: ELEMENTS.epoch + APART * row as i64, ..ELEMENTS }
}

fn table(rows: std::ops::Range<usize>) -> Vec<u8> {
    rows.flat_map(|row| elements_to_bytes(&set(row))).collect()
}

fn library_find(past: &[u8], forecast: &[u8], time: i64) -> Row {
    let found = yurdelmiz::find_set(black_box(past), past.len(), forecast, forecast.len(), time);
    let yurdelmiz::FoundSet { table, number, .. } = black_box(found.expect("a set"));
    match table {
        yurdelmiz::SetTable::Past => Row::Past(number),
        yurdelmiz::SetTable::Forecast => Row::Forecast(number),
    }
}

fn reference_find(past: &[u8], forecast: &[u8], time: i64) -> Row {
    black_box(find(black_box(past), past.len(), forecast, forecast.len(), time).expect("a set"))
}

/// The set for a time in the middle of the past, both tables of so many rows.
pub fn finding(repeats: usize, rows: usize) -> Comparison {
    let (past, forecast) = (table(0..rows), table(rows..2 * rows));
    let time = set(rows / 2).epoch + 60;
    let comparison = compare(
        repeats,
        &mut || {
            library_find(&past, &forecast, black_box(time));
        },
        &mut || {
            reference_find(&past, &forecast, black_box(time));
        },
    );
    let row = library_find(&past, &forecast, time);
    assert_eq!(row, Row::Past(rows / 2), "the row");
    assert_eq!(row, reference_find(&past, &forecast, time), "the row");
    comparison
}

/// A table and room for a row. Its size is not taken from the answer, so that every call has as many rows.
struct Rows {
    buffer: Vec<u8>,
    size: usize,
}

impl Rows {
    fn new(rows: usize) -> Rows {
        let mut buffer = table(0..rows);
        let size = buffer.len();
        buffer.extend([0; ELEMENTS_BYTES]);
        Rows { buffer, size }
    }

    fn library_put(&mut self, set: &Elements) -> usize {
        let put = yurdelmiz::put_set(&library_elements(set), &mut self.buffer, self.size);
        black_box(put.expect("enough room"))
    }

    fn reference_put(&mut self, set: &Elements) -> usize {
        black_box(put(set, &mut self.buffer, self.size).expect("enough room"))
    }
}

/// Sets ahead of all rows, each a second earlier.
struct Earlier(Elements);

impl Earlier {
    fn next(&mut self) -> &Elements {
        self.0.epoch -= 1;
        black_box(&self.0)
    }
}

/// A set put ahead of so many rows, which are all moved.
pub fn putting_ahead(repeats: usize, rows: usize) -> Comparison {
    let mut tables = [Rows::new(rows), Rows::new(rows)];
    let [library, reference] = &mut tables;
    let mut sets = [Earlier(ELEMENTS), Earlier(ELEMENTS)];
    let [library_sets, reference_sets] = &mut sets;
    let comparison = compare(
        repeats,
        &mut || {
            library.library_put(library_sets.next());
        },
        &mut || {
            reference.reference_put(reference_sets.next());
        },
    );
    put_ahead_once(rows);
    comparison
}

/// By the library and by the reference, into the same rows.
fn put_ahead_once(rows: usize) {
    let mut tables = [Rows::new(rows), Rows::new(rows)];
    let [library, reference] = &mut tables;
    let mut sets = Earlier(ELEMENTS);
    let set = sets.next();
    assert_eq!(library.library_put(set), reference.reference_put(set), "the size");
    assert!(tables[0].buffer == tables[1].buffer, "the two tables");
}

/// A set put over the last of so many rows.
pub fn putting_over(repeats: usize, rows: usize) -> Comparison {
    let mut tables = [Rows::new(rows), Rows::new(rows)];
    let [library, reference] = &mut tables;
    let last = Elements { node: 0, ..set(rows - 1) };
    let comparison = compare(
        repeats,
        &mut || {
            library.library_put(black_box(&last));
        },
        &mut || {
            reference.reference_put(black_box(&last));
        },
    );
    assert!(tables[0].buffer == tables[1].buffer, "the two tables");
    comparison
}

/// A set found and one put ahead of all rows, once by the library and once by the reference: to be run under a counter
/// of instructions.
pub fn once(rows: usize) {
    let past = table(0..rows);
    let time = set(rows / 2).epoch;
    assert_eq!(library_find(&past, &[], time), reference_find(&past, &[], time), "the row");
    put_ahead_once(rows);
}
