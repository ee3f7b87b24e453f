//! Why a day was not labelled or added: which file, which line or record, what it holds, and what to do. The
//! refusal is the library's.

use yurdelmiz::{Element, Elements, LabelFile, Refusal, Refused, Sample};

use crate::date;
use crate::day_input::Day;
use crate::decimal::grouped;
use crate::failure::Failure;
use crate::refused_elements::{out_of_range, OUTSIDE};
use crate::standard_input;
use crate::telemetry_input::Source;

/// Behind a number of records that is over it.
const MOST: &str = "and a day has at most 1,024";

/// What to do with a label file in the place of telemetry.
const ORDER: &str = "the order is ELEMENTS TELEMETRY LABELS";

/// Why the day was refused, after so many labels of the file that it was added to.
pub fn failure(day: &Day, before: u32, refused: Refused) -> Failure {
    let Refused { refusal, place } = refused;
    let told = day.elements.refused(refusal).unwrap_or_else(|| match refusal {
        Refusal::Time => day.record(place, before),
        Refusal::TelemetryLength => day.length(before),
        _ => format!("{}: {refused}", day.telemetry.name()),
    });
    Failure::refused(told)
}

impl Day<'_> {
    fn length(&self, before: u32) -> String {
        let why = if self.telemetry.is_label_file() {
            format!("it is a label file: {ORDER}")
        } else {
            match self.telemetry.source {
                Source::File(_) => self.file_length(before),
                Source::StandardInput => self.stream_length(),
            }
        };
        format!("{}: {why}", self.telemetry.name())
    }

    fn file_length(&self, before: u32) -> String {
        let Some(length) = self.telemetry.length() else {
            return "over 16,384 bytes: label it in parts of at most 1,024 records".to_owned();
        };
        let (records, rest) = whole_records(length);
        if rest == 0 && before > 0 {
            return format!(
                "{} records, and the file has {} labels: it has room for {} more, 1,024 in all",
                grouped(records),
                grouped(before),
                grouped(LabelFile::MOST_LABELS as u64 - u64::from(before)),
            );
        }
        if rest == 0 {
            return format!("{} records, {MOST}: label it in parts", grouped(records));
        }
        let told = format!(
            "{} bytes are {} records of 16 and {rest} more",
            grouped(length),
            grouped(records)
        );
        self.with_advice(told, "is the file cut short, or no telemetry?")
    }

    /// A record too many, or an end within a record.
    fn stream_length(&self) -> String {
        let Some(length) = self.telemetry.length() else {
            return self.with_advice(format!("a 1,025th record came, {MOST}"), "label it in parts");
        };
        let (records, rest) = whole_records(length);
        let place = self.telemetry.place(records as usize);
        let told = format!("it ended within {place}, after {rest} of its 16 bytes");
        self.with_advice(told, "is it cut short, or no telemetry?")
    }

    /// What is wrong and what to do, which of text is to name it as CSV.
    fn with_advice(&self, told: String, advice: &str) -> String {
        if self.telemetry.looks_like_csv() {
            format!("{told}: it looks like text; {}", self.csv_advice())
        } else {
            format!("{told}: {advice}")
        }
    }

    fn csv_advice(&self) -> &'static str {
        match self.telemetry.source {
            Source::File(_) => "CSV has a name that ends in .csv, or the option --csv",
            Source::StandardInput => "CSV is read from a file, or from /dev/stdin with --csv",
        }
    }

    /// The record, by its own number: the place counts the labels of the file too.
    fn record(&self, place: u32, before: u32) -> String {
        let Elements { epoch, half_mean_motion_derivative, .. } = self.elements.elements;
        let number = (place - before) as usize;
        let mut place = format!("{}, {}", self.telemetry.name(), self.telemetry.place(number));
        if before > 0 {
            place.push_str(&format!(", behind the file's {} labels", grouped(before)));
        }
        let Some(time) = self.telemetry.time(number) else {
            return format!("{place}: {}", Refusal::Time.sentence());
        };
        let shown = date::shown(time);
        let mut told = if out_of_range(time) {
            format!("{place}: the record's time is {shown}, {OUTSIDE}: check the record")
        } else {
            let reach = if half_mean_motion_derivative == 0 {
                "366 days"
            } else {
                "30 days, for half_mean_motion_derivative is not 0"
            };
            format!(
                "{place}: the record's time, {shown}, is {} the epoch, {}: label it with elements of an \
                 epoch within {reach}",
                date::apart(time, epoch),
                date::shown(epoch)
            )
        };
        if let Some(hint) = self.unix_hint(time) {
            told.push_str(&hint);
            return told;
        }
        let whole = match self.telemetry.source {
            Source::File(_) => "the file",
            Source::StandardInput => standard_input::NAME,
        };
        if self.telemetry.is_label_file() {
            told.push_str(&format!("; {whole} is a label file: {ORDER}"));
        } else if self.telemetry.looks_like_csv() {
            told.push_str(&format!("; {whole} looks like text: {}", self.csv_advice()));
        }
        told
    }

    /// Seconds from 1970 in place of seconds from 1989-12-31, in the record or in the epoch, where that is written
    /// in seconds.
    fn unix_hint(&self, time: i64) -> Option<String> {
        let reached = |set: &Elements, time: i64| yurdelmiz::position(set, time).is_ok();
        let elements = self.elements.elements;
        if let Some(moved) = time.checked_sub(date::UNIX).filter(|it| reached(&elements, *it)) {
            return Some(unix("its time", moved));
        }
        let moved = self.elements.written.number(Element::Epoch)?.checked_sub(date::UNIX)?;
        let set = Elements { epoch: moved, ..elements };
        reached(&set, time).then(|| unix("the epoch", moved))
    }
}

/// How many records some bytes are, and how many bytes are left.
fn whole_records(length: u64) -> (u64, u64) {
    (length / Sample::SIZE as u64, length % Sample::SIZE as u64)
}

fn unix(what: &str, moved: i64) -> String {
    format!(
        "; if {what} counts from 1970, as Unix does, it is {}: subtract {}",
        date::shown(moved),
        grouped(date::UNIX)
    )
}
