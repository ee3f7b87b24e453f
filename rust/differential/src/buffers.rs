//! Checks of what the C interface does with lent bytes: a refusal changes none, a wrong length is
//! told apart from every refusal, and nothing outside an answer is written.

use reference::file::file_bytes;
use reference::label::LABEL_BYTES;
use reference::trailer::{Counts, Form};
use yurdelmiz::ffi;

use crate::elements_files;
use crate::inputs;
use crate::label_files;
use crate::numbers::library_elements;
use crate::random::Random;
use crate::report::Report;
use crate::tails::tail_of;

/// Bytes on both sides of an answer.
const GUARD: usize = 16;

/// An answer's length: mostly the right one.
fn answer_length(random: &mut Random, right: usize) -> usize {
    match random.below(4) {
        0 => random.index(100),
        1 => right + 1 - 2 * random.index(2),
        _ => right,
    }
}

/// Calls with an answer of a random length, and checks which bytes changed.
fn check_answer(
    random: &mut Random,
    report: &mut Report,
    name: &str,
    right: usize,
    sound_inputs: bool,
    call: impl FnOnce(*mut u8, usize) -> u32,
) {
    let length = answer_length(random, right);
    let before = random.bytes(GUARD + length + GUARD);
    let mut after = before.clone();
    let status = call(after[GUARD..GUARD + length].as_mut_ptr(), length);

    let input = (name, length);
    let bad_buffer = length != right || !sound_inputs;
    report.equal(&input, "bad buffer", status == ffi::BAD_BUFFER, bad_buffer);
    if status != 0 {
        report.bytes(&input, "answer after a refusal", &after, &before);
    } else {
        report.bytes(&input, "bytes ahead", &after[..GUARD], &before[..GUARD]);
        report.bytes(&input, "bytes behind", &after[GUARD + length..], &before[GUARD + length..]);
    }
}

/// Elements' bytes, at times too many or too few.
fn element_bytes(random: &mut Random) -> (Vec<u8>, bool) {
    let mut bytes = library_elements(&inputs::elements(random)).to_bytes().to_vec();
    if random.one_in(6) {
        bytes.resize(random.index(100), 0);
    }
    let sound = bytes.len() == ffi::ELEMENTS_BYTES;
    (bytes, sound)
}

/// No labels, and bytes of others ahead of either trailer: accepted until a byte is damaged.
fn empty_file(random: &mut Random) -> Vec<u8> {
    let mut file = random.bytes(20);
    file.extend(Counts::default().trailer(random.pick(&Form::ALL)));
    if random.one_in(2) {
        let at = random.index(file.len());
        file[at] ^= 1;
    }
    file
}

/// A file without labels and nothing to add, so that the place is 0 and the result the status.
fn add_with_any_lengths(random: &mut Random, report: &mut Report) {
    let (elements, sound) = element_bytes(random);
    let mut buffer = empty_file(random);
    let size = buffer.len();
    let room = random.bytes(Form::Bytes24.bytes());
    buffer.extend(room);
    let before = buffer.clone();
    let mut status = 0;
    check_answer(random, report, "add", ffi::ADD_BYTES, sound, |answer, length| {
        // SAFETY: the slices are `elements`, `buffer`, one of no bytes, and `answer` of `length`.
        let result = unsafe {
            ffi::yurdelmiz_add(
                elements.as_ptr(),
                elements.len(),
                buffer.as_mut_ptr(),
                buffer.len(),
                size,
                [].as_ptr(),
                0,
                answer,
                length,
            )
        };
        status = result as u32;
        status
    });
    if status != 0 {
        report.bytes(&("add", status), "buffer after a refusal", &buffer, &before);
    }
}

/// A file of a few labels, whole or cut, with the room that it needs or about as much.
fn salvage_with_any_lengths(random: &mut Random, report: &mut Report) {
    let labels = random.index(3);
    let mut bytes = label_files::any_fields(random, labels).bytes;
    bytes.truncate(random.index(2 * bytes.len()));
    let kept = labels.min(bytes.len() / LABEL_BYTES);
    let room = file_bytes(kept) + random.pick(&[0, 0, 1, 30]) - random.index(2);
    let before = random.bytes(room);
    let mut output = before.clone();
    let lent = bytes.clone();
    let mut status = 0;
    check_answer(random, report, "salvage", ffi::SALVAGE_BYTES, true, |answer, length| {
        // SAFETY: the slices are `lent`, `output`, and `answer` of `length`.
        status = unsafe {
            ffi::yurdelmiz_salvage(
                lent.as_ptr(),
                lent.len(),
                output.as_mut_ptr(),
                output.len(),
                answer,
                length,
            )
        };
        status
    });
    let input = ("salvage", status, room);
    report.bytes(&input, "bytes given", &lent, &bytes);
    if status != 0 {
        report.bytes(&input, "output after a refusal", &output, &before);
    }
}

fn label_with_bad_elements(random: &mut Random, report: &mut Report) {
    let (elements, sound) = element_bytes(random);
    if sound {
        return;
    }
    let before = random.bytes(64);
    let mut output = before.clone();
    let telemetry = random.bytes(32);
    // SAFETY: the slices are `elements`, `telemetry` and `output`.
    let result = unsafe {
        ffi::yurdelmiz_label(
            elements.as_ptr(),
            elements.len(),
            telemetry.as_ptr(),
            telemetry.len(),
            output.as_mut_ptr(),
            output.len(),
        )
    };
    let input = ("label", elements.len());
    report.equal(&input, "result", result, u64::from(ffi::BAD_BUFFER));
    report.bytes(&input, "output", &output, &before);
}

pub fn lent(random: &mut Random, report: &mut Report) {
    let (e, m) = (inputs::eccentricity(random), inputs::angle(random));
    check_answer(random, report, "kepler", ffi::KEPLER_BYTES, true, |answer, length| {
        // SAFETY: `answer` is valid for `length`, here and below.
        unsafe { ffi::yurdelmiz_kepler(e, m, answer, length) }
    });

    let time = inputs::any_time(random);
    check_answer(random, report, "sun", ffi::SUN_BYTES, true, |answer, length| unsafe {
        ffi::yurdelmiz_sun(time, answer, length)
    });

    let (elements, sound) = element_bytes(random);
    check_answer(random, report, "position", ffi::POSITION_BYTES, sound, |answer, length| unsafe {
        ffi::yurdelmiz_position(elements.as_ptr(), elements.len(), time, answer, length)
    });

    let [x, y, z] = [0; 3].map(|_| random.between(-220_000_000, 220_000_000));
    let [sx, sy, sz] = [0; 3].map(|_| random.between(-1_100_000_000, 1_100_000_000));
    check_answer(random, report, "shade", ffi::SHADE_BYTES, true, |answer, length| unsafe {
        ffi::yurdelmiz_shade(x, y, z, sx, sy, sz, answer, length)
    });

    let file = empty_file(random);
    check_answer(random, report, "read", ffi::READ_BYTES, true, |answer, length| unsafe {
        // The place of a file without labels is 0, so the result is the status.
        ffi::yurdelmiz_read(file.as_ptr(), file.len(), file.len(), answer, length) as u32
    });

    add_with_any_lengths(random, report);

    let text = elements_files::text(random);
    check_answer(random, report, "elements", ffi::ELEMENTS_BYTES, true, |answer, length| unsafe {
        // The lower half of the result is the status.
        ffi::yurdelmiz_elements(text.as_ptr(), text.len(), answer, length) as u32
    });

    label_with_bad_elements(random, report);

    let file = empty_file(random);
    let (tail, size) = (tail_of(&file), file.len() as u64);
    check_answer(
        random,
        report,
        "dark test",
        ffi::DARK_TEST_BYTES,
        true,
        |answer, length| unsafe {
            ffi::yurdelmiz_dark_test(tail.as_ptr(), tail.len(), size, answer, length)
        },
    );

    salvage_with_any_lengths(random, report);
}
