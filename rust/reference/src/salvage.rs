//! Salvage: the whole labels that damaged bytes begin with, kept under a fresh trailer.

use crate::file::{check_room, labels_in, write_trailer};
use crate::label::LABEL_BYTES;
use crate::refusal::Refusal;
use crate::telemetry::RECORDS_MAX;
use crate::trailer::Counts;

/// What was kept of damaged bytes.
#[derive(Clone, Copy, Debug, PartialEq, Eq)]
pub struct Salvaged {
    pub labels: u32,
    /// Bytes behind the labels.
    pub dropped: u64,
}

/// Keeps the labels from the first byte on, up to the first that breaks a field rule, the end or the most that a
/// file holds, and writes them into `output` with a trailer of their counts; refusal 11.
///
/// On a refusal `output` is unchanged; past the trailer it always is.
pub fn salvage(bytes: &[u8], output: &mut [u8]) -> Result<Salvaged, Refusal> {
    let mut counts = Counts::default();
    for label in labels_in(bytes).map_while(|label| label).take(RECORDS_MAX) {
        counts.add(&label);
    }
    let labels = counts.labels as usize;
    check_room(output.len(), labels)?;
    let kept = labels * LABEL_BYTES;
    let (body, rest) = output.split_at_mut(kept);
    body.copy_from_slice(&bytes[..kept]);
    write_trailer(&counts, rest);
    Ok(Salvaged { labels: counts.labels, dropped: (bytes.len() - kept) as u64 })
}
