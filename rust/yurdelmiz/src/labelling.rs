//! A day's telemetry labelled, whole or added to a label file.

use crate::bytes::u64_at;
use crate::elements::Elements;
use crate::ffi;
use crate::label::Label;
use crate::refusal::{self, Refused};
use crate::telemetry::Sample;
use crate::trailer::{Counts, Form};

/// Labels a day's telemetry into `output`, the trailer of 24 bytes behind the labels.
///
/// On a refusal `output` is unchanged; behind the trailer it always is.
pub fn label_day(
    elements: &Elements,
    telemetry: &[u8],
    output: &mut [u8],
) -> Result<Counts, Refused> {
    let elements = elements.to_bytes();
    // SAFETY: the slices are `elements`, `telemetry` and `output`, which is borrowed alone.
    let result = unsafe {
        ffi::yurdelmiz_label(
            elements.as_ptr(),
            elements.len(),
            telemetry.as_ptr(),
            telemetry.len(),
            output.as_mut_ptr(),
            output.len(),
        )
    };
    refusal::check_with_place(result)?;
    Ok(Counts::at(output, telemetry.len() / Sample::SIZE * Label::SIZE))
}

/// The label file of a day's telemetry, whole.
pub fn label_to_vec(elements: &Elements, telemetry: &[u8]) -> Result<Vec<u8>, Refused> {
    let mut output = vec![0; Form::WRITTEN.distance(telemetry.len() / Sample::SIZE)];
    label_day(elements, telemetry, &mut output)?;
    Ok(output)
}

/// A label file that telemetry was added to.
#[derive(Clone, Copy, Debug, PartialEq, Eq)]
pub struct Added {
    /// Of all its labels.
    pub counts: Counts,
    /// The bytes of the file, those ahead of its first label too.
    pub size: usize,
}

/// Adds telemetry to the label file in the first `size` bytes of `buffer`: the labels over its trailer, and a
/// trailer of 24 bytes behind them. The place of a refused record counts the labels ahead of it.
///
/// On a refusal `buffer` is unchanged; ahead of the file's trailer and behind the one written it always is.
pub fn add(
    elements: &Elements,
    buffer: &mut [u8],
    size: usize,
    telemetry: &[u8],
) -> Result<Added, Refused> {
    let elements = elements.to_bytes();
    let mut answer = [0; ffi::ADD_BYTES];
    // SAFETY: the slices are `elements`, `buffer`, which is borrowed alone, `telemetry` and `answer`.
    let result = unsafe {
        ffi::yurdelmiz_add(
            elements.as_ptr(),
            elements.len(),
            buffer.as_mut_ptr(),
            buffer.len(),
            size,
            telemetry.as_ptr(),
            telemetry.len(),
            answer.as_mut_ptr(),
            answer.len(),
        )
    };
    refusal::check_with_place(result)?;
    let size = u64_at(&answer, 0).try_into().expect("a size within the buffer");
    Ok(Added { counts: Counts::at(&answer, 8), size })
}

/// Adds telemetry to a whole label file, which grows by the labels. On a refusal it is unchanged.
pub fn add_to_vec(
    elements: &Elements,
    file: &mut Vec<u8>,
    telemetry: &[u8],
) -> Result<Counts, Refused> {
    let size = file.len();
    // Enough with either trailer.
    file.resize(size + Form::WRITTEN.distance(telemetry.len() / Sample::SIZE), 0);
    let added = add(elements, file, size, telemetry);
    file.truncate(added.map_or(size, |added| added.size));
    added.map(|added| added.counts)
}
