//! Comparisons of the set for a time: every epoch and the seconds next to it, tables without sets, the same bytes for
//! both tables, either table or both damaged, and answers of any length.

use reference::element_sets::{find, Row};
use yurdelmiz::{ffi, FoundSet, SetTable};

use crate::element_tables::{damaged, sets, times, Table, DAMAGE, REFUSED_SETS};
use crate::lent::Lent;
use crate::random::Random;
use crate::report::Report;

const PAST: &str = "past";
const FORECAST: &str = "forecast";
const FORECAST_OF_PAST: &str = "forecast, of a past with later sets alone";

/// Two tables and a time. Without a forecast of its own, the forecast is in the buffer of the past.
#[derive(Debug)]
struct Asked<'a> {
    past: &'a Table,
    forecast: Option<&'a Table>,
    forecast_size: usize,
    time: i64,
}

impl<'a> Asked<'a> {
    fn new(past: &'a Table, forecast: &'a Table, time: i64) -> Asked<'a> {
        Asked { past, forecast: Some(forecast), forecast_size: forecast.size, time }
    }

    fn forecast_buffer(&self) -> &'a [u8] {
        &self.forecast.unwrap_or(self.past).buffer
    }

    /// The status and the answer, of a length, with the lent bytes compared: a refusal changes none, and no call any
    /// but those of the answer.
    fn call(&self, random: &mut Random, report: &mut Report, answer_len: usize) -> (u32, Vec<u8>) {
        let before = random.bytes(answer_len);
        let mut past = Lent::new(&self.past.buffer);
        let mut forecast = self.forecast.map(|table| Lent::new(&table.buffer));
        let mut answer = Lent::new(&before);
        let (past_bytes, answer_bytes) = (past.bytes(), answer.bytes());
        let (past_pointer, past_len) = (past_bytes.as_ptr(), past_bytes.len());
        let (forecast_pointer, forecast_len) = match &mut forecast {
            Some(forecast) => (forecast.bytes().as_ptr(), forecast.bytes().len()),
            None => (past_pointer, past_len),
        };
        // SAFETY: the slices are those of `past`, of `forecast` or of `past` again, and of `answer`.
        let status = unsafe {
            ffi::yurdelmiz_find_set(
                past_pointer,
                past_len,
                self.past.size,
                forecast_pointer,
                forecast_len,
                self.forecast_size,
                self.time,
                answer_bytes.as_mut_ptr(),
                answer_bytes.len(),
            )
        };
        if status != 0 {
            report.bytes(self, "answer after a refusal", answer_bytes, &before);
        }
        let answer_after = answer_bytes.to_vec();
        report.bytes(self, "past", past.bytes(), &self.past.buffer);
        if let Some(forecast) = &mut forecast {
            report.bytes(self, "forecast", forecast.bytes(), self.forecast_buffer());
        }
        let guarded = [Some(&past), forecast.as_ref(), Some(&answer)];
        let guarded = guarded.into_iter().flatten().all(Lent::guarded);
        report.equal(self, "bytes outside the slices", guarded, true);
        (status, answer_after)
    }

    /// The offset of the row and the number of its table.
    fn library(&self, random: &mut Random, report: &mut Report) -> Result<(u64, u32), (u32, u32)> {
        let (status, answer) = self.call(random, report, ffi::FIND_SET_BYTES);
        if status != 0 {
            return Err((status, 0));
        }
        let (offset, table) = answer.split_at(8);
        let offset = u64::from_le_bytes(offset.try_into().expect("8 bytes"));
        Ok((offset, u32::from_le_bytes(table.try_into().expect("4 bytes"))))
    }

    fn reference(&self) -> Result<Row, u32> {
        let past = self.past;
        find(&past.buffer, past.size, self.forecast_buffer(), self.forecast_size, self.time)
            .map_err(|refusal| refusal.number())
    }

    /// Compares the Rust face with the call itself: the same row, and it is the bytes of the table.
    fn binding(&self, report: &mut Report, through_c: Result<(u64, u32), (u32, u32)>) {
        let (past, forecast) = (&self.past.buffer, self.forecast_buffer());
        let found =
            yurdelmiz::find_set(past, self.past.size, forecast, self.forecast_size, self.time);
        let binding = found
            .map(|FoundSet { table, number, row }| {
                let (number_of_table, buffer) = match table {
                    SetTable::Past => (ffi::PAST, &past[..]),
                    SetTable::Forecast => (ffi::FORECAST, forecast),
                };
                let offset = number * ffi::ELEMENTS_BYTES;
                let lies_there = buffer[offset..].as_ptr() == row.as_ptr();
                ((offset as u64, number_of_table), lies_there)
            })
            .map_err(|refusal| (refusal.number(), 0));
        report.equal(self, "binding", binding, through_c.map(|told| (told, true)));
    }

    /// Compares the library, by itself and through its Rust face, with the reference; the answer is counted as damage
    /// where it is refused for that.
    fn compare(&self, random: &mut Random, report: &mut Report, damage: Option<&'static str>) {
        let reference = self.reference();
        let no_past = self.past.size == 0;
        match (reference, damage) {
            (Ok(Row::Past(_)), _) => report.answer(PAST),
            (Ok(Row::Forecast(_)), _) if no_past => report.answer(FORECAST),
            (Ok(Row::Forecast(_)), _) => report.answer(FORECAST_OF_PAST),
            (Err(21), Some(kind)) => report.answer(kind),
            (Err(_), _) => {}
        }
        let library = self.library(random, report);
        let reference = reference
            .map(|row| match row {
                Row::Past(row) => (row, ffi::PAST),
                Row::Forecast(row) => (row, ffi::FORECAST),
            })
            .map(|(row, table)| ((row * ffi::ELEMENTS_BYTES) as u64, table))
            .map_err(|number| (number, 0));
        report.outcomes(self, library, reference);
        // The Rust face relies on a right answer.
        if library == reference {
            self.binding(report, library);
        }
        if let Some(kind) = damage {
            let refused = library.map_err(|(number, _)| number);
            report.equal(self, kind, refused, Err(21));
        }
    }
}

/// The library's set of a past for a time, without a forecast: the offset of its row and the number of its table.
pub fn of_past(
    random: &mut Random,
    report: &mut Report,
    past: &Table,
    time: i64,
) -> Result<(u64, u32), (u32, u32)> {
    let no_sets = Table { buffer: vec![], size: 0 };
    Asked::new(past, &no_sets, time).library(random, report)
}

/// Past and forecast, and a table of no sets, with bytes behind each.
struct Tables {
    past: Table,
    forecast: Table,
    empty: Table,
}

/// Each with the other, with no sets, and by itself in both places.
fn sound(random: &mut Random, report: &mut Report, tables: &Tables, times: &[i64]) {
    let Tables { past, forecast, empty } = tables;
    for time in times {
        Asked::new(past, forecast, *time).compare(random, report, None);
        Asked::new(past, empty, *time).compare(random, report, None);
        let twice = Asked { past, forecast: None, forecast_size: past.size, time: *time };
        twice.compare(random, report, None);
    }
    let time = random.pick(times);
    Asked::new(empty, forecast, time).compare(random, report, None);
    Asked::new(empty, empty, time).compare(random, report, None);
    let no_bytes = Table { buffer: vec![], size: 0 };
    Asked::new(&no_bytes, &no_bytes, time).compare(random, report, None);
}

/// The past a part of the forecast's table, in the same bytes, or the other way round.
fn parts_of_a_table(random: &mut Random, report: &mut Report, table: &Table, times: &[i64]) {
    for part in (0..=table.size).step_by(ffi::ELEMENTS_BYTES) {
        let past = Table { size: part, ..table.clone() };
        let time = random.pick(times);
        let forecast_size = table.size;
        Asked { past: &past, forecast: None, forecast_size, time }.compare(random, report, None);
        Asked { past: table, forecast: None, forecast_size: part, time }
            .compare(random, report, None);
    }
}

/// A damaged table in either place or both, beside a sound one or one of no sets, at the time of any answer.
fn either_damaged(random: &mut Random, report: &mut Report, tables: &Tables, times: &[i64]) {
    let Tables { past, forecast, empty } = tables;
    let of_past = random.one_in(2);
    let sets = sets(random, 5);
    for (kind, bad) in damaged(random, &sets) {
        let kind = Some(kind);
        let time = random.pick(times);
        let other = random.pick(&[past, forecast, empty]);
        Asked::new(&bad, other, time).compare(random, report, kind);
        Asked::new(other, &bad, time).compare(random, report, kind);
        let first_or_last = random.pick(&[i64::MIN, i64::MAX]);
        Asked::new(&bad, empty, first_or_last).compare(random, report, kind);
        Asked::new(past, &bad, first_or_last).compare(random, report, kind);
        if of_past {
            let twice = Asked { past: &bad, forecast: None, forecast_size: bad.size, time };
            twice.compare(random, report, kind);
        } else {
            Asked { past: &bad, forecast: None, forecast_size: 0, time }
                .compare(random, report, kind);
        }
    }
}

/// An answer of another length is told before all else.
fn answer_lengths(random: &mut Random, report: &mut Report, tables: &Tables, times: &[i64]) {
    let Tables { past, forecast, empty } = tables;
    let right = ffi::FIND_SET_BYTES;
    let any = [random.index(right), right + 1 + random.index(100)];
    for length in [0, 4, 8, right - 1, right + 1, 16, 52].into_iter().chain(any) {
        let bad = Table { size: past.size + random.index(2), ..past.clone() };
        let [past, forecast] = [random.pick(&[&bad, empty]), random.pick(&[forecast, empty])];
        let asked = Asked::new(past, forecast, random.pick(times));
        let (status, _) = asked.call(random, report, length);
        report.equal(&(asked, length), "bad buffer", status, ffi::BAD_BUFFER);
    }
}

pub fn find_set(random: &mut Random, report: &mut Report) {
    for kind in [PAST, FORECAST, FORECAST_OF_PAST].into_iter().chain(DAMAGE) {
        report.due(kind);
    }
    for (_, kind) in REFUSED_SETS {
        report.due(kind);
    }
    report.due_refusal(21);
    report.due_refusal(23);
    let most = if random.one_in(32) { 40 } else { 6 };
    let [past, forecast] = [0; 2].map(|_| sets(random, most));
    let times = times(random, &[&past[..], &forecast].concat());
    let tables = Tables {
        past: Table::with_any_room(random, &past),
        forecast: Table::with_any_room(random, &forecast),
        empty: Table::with_any_room(random, &[]),
    };
    sound(random, report, &tables, &times);
    parts_of_a_table(random, report, &tables.forecast, &times);
    either_damaged(random, report, &tables, &times);
    answer_lengths(random, report, &tables, &times);
}
