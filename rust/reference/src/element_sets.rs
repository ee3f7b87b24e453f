//! Tables of element sets, past and forecast: the set for a time, and a new set in its place.

use crate::day_bytes::{elements_of_bytes, elements_to_bytes, ELEMENTS_BYTES};
use crate::orbit::Elements;
use crate::refusal::Refusal;

/// The table of a set, with the number of its row from 0.
#[derive(Clone, Copy, Debug, PartialEq, Eq)]
pub enum Row {
    Past(usize),
    Forecast(usize),
}

/// The sets of the table in the first `size` bytes of `buffer`; refusal 21.
fn sets_in(buffer: &[u8], size: usize) -> Result<Vec<Elements>, Refusal> {
    let table = buffer.get(..size).ok_or(Refusal::Table)?;
    let (rows, ragged) = table.as_chunks::<ELEMENTS_BYTES>();
    let sets: Vec<Elements> = rows.iter().map(elements_of_bytes).collect();
    let rising = sets.windows(2).all(|pair| pair[0].epoch < pair[1].epoch);
    let accepted = sets.iter().all(|set| set.check().is_ok());
    if ragged.is_empty() && rising && accepted {
        Ok(sets)
    } else {
        Err(Refusal::Table)
    }
}

/// Finds the set for a time: the past set with the latest epoch not after it, or else the forecast set with the
/// earliest epoch. Each table is the first bytes of its buffer, as many as its size; refusals 21 and 23.
pub fn find(
    past: &[u8],
    past_size: usize,
    forecast: &[u8],
    forecast_size: usize,
    time: i64,
) -> Result<Row, Refusal> {
    let past = sets_in(past, past_size)?;
    let forecast = sets_in(forecast, forecast_size)?;
    let up_to_time = (0..past.len()).filter(|row| past[*row].epoch <= time);
    let latest = up_to_time.max_by_key(|row| past[*row].epoch);
    let earliest = (0..forecast.len()).min_by_key(|row| forecast[*row].epoch);
    latest.map(Row::Past).or(earliest.map(Row::Forecast)).ok_or(Refusal::NoSet)
}

/// Puts a set into the table in the first `size` bytes of `buffer`, where it replaces one of the same epoch, and gives
/// the size of the table then; refusals of elements, then 21 and 22.
///
/// On a refusal `buffer` is unchanged; behind the table that results it always is.
pub fn put(set: &Elements, buffer: &mut [u8], size: usize) -> Result<usize, Refusal> {
    set.check()?;
    let mut sets = sets_in(buffer, size)?;
    sets.retain(|other| other.epoch != set.epoch);
    sets.push(*set);
    sets.sort_by_key(|set| set.epoch);
    let table: Vec<u8> = sets.iter().flat_map(elements_to_bytes).collect();
    let room = buffer.get_mut(..table.len()).ok_or(Refusal::Room)?;
    room.copy_from_slice(&table);
    Ok(table.len())
}
