//! The listing of a label file.

use std::fmt::Write;

use crate::file::read;
use crate::trailer::Counts;

/// What the listing program prints for a file.
pub fn listing(file: &[u8]) -> String {
    let file = match read(file, file.len()) {
        Ok(file) => file,
        Err(refused) => {
            return format!("refused {} at {}\n", refused.refusal.number(), refused.place);
        }
    };
    let Counts { labels, training, test, .. } = file.counts;
    let mut text = format!("labels {labels} training {training} test {test}\n");
    for label in file.labels() {
        writeln!(
            text,
            "{} {} {} {} {} {} {:08x}",
            label.time,
            label.revolution,
            label.side as u8,
            label.shade as u8,
            label.reading.code(),
            label.elevation_sine,
            label.reading.watts_bits(),
        )
        .expect("a String takes all text");
    }
    text
}
