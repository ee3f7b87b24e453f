//! Comparisons of adding: a day in parts against the day at once, and refusals.

use reference::file::{add, file_bytes, label_day, read, Added};
use reference::label::LABEL_BYTES;
use reference::orbit::Elements;
use reference::telemetry::{RECORDS_MAX, RECORD_BYTES};
use reference::trailer::Form;

use crate::answers::{counts, library_refused, reference_refused, Refused};
use crate::inputs;
use crate::label_files::{self, File};
use crate::numbers::library_elements;
use crate::random::Random;
use crate::report::{Hex, Report};
use crate::tails;

/// Adds the parts of a day to each other, or a day to any file.
pub fn adding(random: &mut Random, report: &mut Report) {
    if random.one_in(2) {
        in_parts(random, report);
    } else {
        to_any_file(random, report);
    }
}

/// Adds by both, and compares the answers and the buffers. The answer and `buffer` are the library's.
fn compare(
    report: &mut Report,
    elements: &Elements,
    buffer: &mut [u8],
    length: usize,
    telemetry: &[u8],
) -> Result<Added, Refused> {
    let before = buffer.to_vec();
    let input = (elements, Hex(&before), length, Hex(telemetry));
    let lent = telemetry.to_vec();
    let library = yurdelmiz::add(&library_elements(elements), buffer, length, &lent)
        .map(|added| Added { counts: counts(added.counts), length: added.size })
        .map_err(library_refused);
    let mut reference_buffer = before.clone();
    let reference =
        add(elements, &mut reference_buffer, length, telemetry).map_err(reference_refused);

    report.outcomes(&input, library, reference);
    report.bytes(&input, "buffer", buffer, &reference_buffer);
    report.bytes(&input, "telemetry", &lent, telemetry);
    match library {
        Err(_) => report.bytes(&input, "buffer after a refusal", buffer, &before),
        Ok(added) => {
            let file = read(buffer, added.length);
            let stated = file.map(|file| (file.counts, file.form)).map_err(reference_refused);
            report.equal(&input, "counts", Ok((added.counts, Form::Bytes24)), stated);
            tails::of_file(report, &buffer[..added.length]);
        }
    }
    library
}

/// A whole day for which labelling asks no more than the elements and each record.
fn day(random: &mut Random) -> (Elements, Vec<u8>) {
    let (elements, mut telemetry) = if random.one_in(3) {
        inputs::eclipse(random)
    } else {
        let elements = inputs::elements(random);
        (elements, inputs::telemetry(random, &elements))
    };
    let records = (telemetry.len() / RECORD_BYTES).min(RECORDS_MAX);
    telemetry.truncate(records * RECORD_BYTES);
    (elements, telemetry)
}

/// The day's telemetry in two to five parts, of which some may be empty.
fn parts<'a>(random: &mut Random, telemetry: &'a [u8]) -> Vec<&'a [u8]> {
    let records = telemetry.len() / RECORD_BYTES;
    let mut cuts: Vec<usize> =
        (1..random.between(2, 5)).map(|_| random.index(records + 1)).collect();
    cuts.sort_unstable();
    let ends = cuts.iter().copied().chain([records]);
    let starts = [0].into_iter().chain(cuts.iter().copied());
    starts.zip(ends).map(|(from, to)| &telemetry[from * RECORD_BYTES..to * RECORD_BYTES]).collect()
}

/// The day at once and in parts, from the file of the first part or from one without labels: the same bytes
/// from the first label on, or the same refusal at the same place.
fn in_parts(random: &mut Random, report: &mut Report) {
    let (elements, telemetry) = day(random);
    let records = telemetry.len() / RECORD_BYTES;
    let mut whole = vec![0; file_bytes(records)];
    let at_once = label_day(&elements, &telemetry, &mut whole).map_err(reference_refused);

    let mut parts = parts(random, &telemetry);
    let mut labels = Vec::new();
    if random.one_in(2) {
        let mut output = vec![0; file_bytes(parts[0].len() / RECORD_BYTES)];
        if label_day(&elements, parts[0], &mut output).is_ok() {
            output.truncate(output.len() - Form::Bytes24.bytes());
            labels = output;
            parts.remove(0);
        }
    }
    let (form, ahead) = (random.pick(&Form::ALL), label_files::bytes_ahead(random));
    let File { bytes: mut buffer, .. } = File::of(random, form, &labels, ahead);
    let mut length = buffer.len();
    let behind = if random.one_in(2) { random.index(60) } else { 0 };
    let rest = random.bytes((ahead + whole.len() + behind).saturating_sub(length));
    buffer.extend(rest);
    let before = buffer.clone();

    let mut refused = None;
    for part in parts {
        match compare(report, &elements, &mut buffer, length, part) {
            Ok(added) => length = added.length,
            Err(told) => {
                refused = Some(told);
                break;
            }
        }
    }
    let input = (elements, Hex(&before), form, Hex(&telemetry));
    match (at_once, refused) {
        (Ok(_), None) => {
            let end = ahead + whole.len();
            report.equal(&input, "length", length, end);
            report.bytes(&input, "bytes ahead", &buffer[..ahead], &before[..ahead]);
            report.bytes(&input, "the day", &buffer[ahead..end], &whole);
            report.bytes(&input, "bytes behind", &buffer[end..], &before[end..]);
        }
        (at_once, refused) => report.equal(&input, "refusal", refused, at_once.err()),
    }
}

/// Room for the labels of both parts, counted from the first label: enough, a byte short or more, as much as
/// the added records alone or the buffer from its start would ask, or something else.
fn room(random: &mut Random, first: usize, labels: usize, records: usize) -> usize {
    let exact = first + file_bytes(labels + records);
    match random.below(8) {
        0 => exact - 1,
        1 => exact - 1 - random.index(24),
        2 => exact - first,
        3 => exact - labels * LABEL_BYTES,
        4 => random.index(exact),
        5 => exact + random.index(100),
        _ => exact,
    }
}

/// Any file, telemetry, elements and room: some sound, some not, so that several refusals are due at once.
fn to_any_file(random: &mut Random, report: &mut Report) {
    let (elements, mut telemetry) = match random.below(4) {
        0 => inputs::eclipse(random),
        _ => {
            let elements = inputs::elements(random);
            (elements, inputs::telemetry(random, &elements))
        }
    };
    let file = if random.one_in(8) {
        // About as many labels and records together as a file may hold.
        let file = label_files::repeated(random, (1_000, 1_024));
        let records = RECORDS_MAX - file.labels + random.index(3);
        let one = telemetry.get(..RECORD_BYTES).unwrap_or(&[0; RECORD_BYTES]).to_vec();
        telemetry = one.repeat(records);
        file
    } else {
        label_files::sound(random)
    };
    let (first, labels) = (file.first(), file.labels);
    let records = telemetry.len() / RECORD_BYTES;
    let mut buffer = if random.one_in(3) { label_files::damaged(random) } else { file.bytes };
    let length = label_files::length(random, &mut buffer);
    let room = room(random, first, labels, records);
    let rest = random.bytes(room.saturating_sub(buffer.len()));
    buffer.extend(rest);
    let _ = compare(report, &elements, &mut buffer, length, &telemetry);
}
