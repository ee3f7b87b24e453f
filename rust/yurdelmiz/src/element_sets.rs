//! Tables of element sets: the set for a time, and a new set in its place.

use crate::bytes::{u32_at, u64_at};
use crate::elements::Elements;
use crate::ffi;
use crate::refusal::{self, Refusal};

/// Which of two tables a set stands in.
#[derive(Clone, Copy, Debug, PartialEq, Eq, Hash)]
pub enum SetTable {
    /// Of past sets.
    Past,
    /// Of forecast sets.
    Forecast,
}

/// A set of elements found in one of two tables: the row itself.
#[derive(Clone, Copy, Debug, PartialEq, Eq)]
pub struct FoundSet<'a> {
    /// The table that has it.
    pub table: SetTable,
    /// The number of its row, from 0.
    pub number: usize,
    /// Its bytes in the table.
    pub row: &'a [u8; ffi::ELEMENTS_BYTES],
}

impl FoundSet<'_> {
    /// The elements that the row holds.
    pub fn elements(&self) -> Elements {
        Elements::from_bytes(self.row)
    }
}

/// Finds the set for a time: of the past sets the one with the latest epoch that is not after the time, or, where
/// there is none, of the forecast sets the one with the earliest epoch. The tables are the first `past_size` bytes
/// of `past` and the first `forecast_size` of `forecast`. Refusals 21, of either table, then 23.
pub fn find_set<'a>(
    past: &'a [u8],
    past_size: usize,
    forecast: &'a [u8],
    forecast_size: usize,
    time: i64,
) -> Result<FoundSet<'a>, Refusal> {
    let mut answer = [0; ffi::FIND_SET_BYTES];
    // SAFETY: the slices are `past`, `forecast` and `answer`.
    let status = unsafe {
        ffi::yurdelmiz_find_set(
            past.as_ptr(),
            past.len(),
            past_size,
            forecast.as_ptr(),
            forecast.len(),
            forecast_size,
            time,
            answer.as_mut_ptr(),
            answer.len(),
        )
    };
    refusal::check(status)?;
    let (table, bytes) = match u32_at(&answer, 8) {
        ffi::PAST => (SetTable::Past, past),
        ffi::FORECAST => (SetTable::Forecast, forecast),
        other => panic!("table {other} is outside the C interface"),
    };
    let offset: usize = u64_at(&answer, 0).try_into().expect("an offset within the table");
    let row = bytes[offset..offset + ffi::ELEMENTS_BYTES].try_into().expect("a row");
    Ok(FoundSet { table, number: offset / ffi::ELEMENTS_BYTES, row })
}

/// Puts a set into the table in the first `size` bytes of `buffer`, over the set of the same epoch or into its place
/// by epoch, and gives the bytes of the table then. Refusals of elements, then 21 and 22.
///
/// On a refusal `buffer` is unchanged; behind the table that results it always is.
pub fn put_set(elements: &Elements, buffer: &mut [u8], size: usize) -> Result<usize, Refusal> {
    let elements = elements.to_bytes();
    let mut answer = [0; ffi::PUT_SET_BYTES];
    // SAFETY: the slices are `elements`, `buffer`, which is borrowed alone, and `answer`.
    let status = unsafe {
        ffi::yurdelmiz_put_set(
            elements.as_ptr(),
            elements.len(),
            buffer.as_mut_ptr(),
            buffer.len(),
            size,
            answer.as_mut_ptr(),
            answer.len(),
        )
    };
    refusal::check(status)?;
    Ok(u64_at(&answer, 0).try_into().expect("a size within the buffer"))
}

/// Puts a set into a table, which grows where no set has its epoch. On a refusal it is unchanged.
pub fn put_set_in_vec(elements: &Elements, table: &mut Vec<u8>) -> Result<(), Refusal> {
    let size = table.len();
    table.resize(size + ffi::ELEMENTS_BYTES, 0);
    let put = put_set(elements, table, size);
    table.truncate(*put.as_ref().unwrap_or(&size));
    put.map(|_| ())
}
