//! Comparisons of labelled days, byte by byte, and of their tails.

use reference::file::file_bytes;
use reference::telemetry::RECORD_BYTES;

use crate::answers::{counts, library_refused, reference_refused};
use crate::inputs;
use crate::numbers::library_elements;
use crate::random::Random;
use crate::report::{Hex, Report};
use crate::tails;

pub fn label(random: &mut Random, report: &mut Report) {
    let (elements, telemetry) = match random.below(8) {
        0 => inputs::facing_sun(random),
        1 | 2 => inputs::eclipse(random),
        _ => {
            let elements = inputs::elements(random);
            (elements, inputs::telemetry(random, &elements))
        }
    };
    let room = inputs::room(random, telemetry.len());
    let before = random.bytes(room);
    let input = (elements, Hex(&telemetry), room);

    let lent = telemetry.clone();
    let mut library_output = before.clone();
    let library = yurdelmiz::label_day(&library_elements(&elements), &lent, &mut library_output)
        .map(counts)
        .map_err(library_refused);
    let mut reference_output = before.clone();
    let reference = reference::file::label_day(&elements, &telemetry, &mut reference_output)
        .map_err(reference_refused);

    let refused = reference.is_err();
    report.outcomes(&input, library, reference);
    report.bytes(&input, "output", &library_output, &reference_output);
    report.bytes(&input, "telemetry", &lent, &telemetry);
    if refused {
        report.bytes(&input, "output after a refusal", &library_output, &before);
    }
    if library.is_ok() {
        let records = telemetry.len() / RECORD_BYTES;
        tails::of_file(report, &library_output[..file_bytes(records)]);
    }
}
