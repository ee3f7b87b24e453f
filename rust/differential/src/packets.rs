//! Comparisons of packets, by the calls of the C interface and all bytes that they leave: days cut anywhere, any
//! states, rooms and lengths of the buffers, going on after a refusal; and an accepted day with the day at once.

use reference::day_bytes::{elements_of_bytes, elements_to_bytes, DAY_BYTES, ELEMENTS_BYTES};
use reference::label::LABEL_BYTES;
use reference::orbit::Elements;
use reference::packets::{Day, HELD_MAX};
use reference::telemetry::{RECORDS_MAX, RECORD_BYTES};
use reference::trailer::{Counts, Form};
use yurdelmiz::ffi;

use crate::answers::{counts, form, reference_refused, Refused};
use crate::inputs::{self, about, up_to};
use crate::lent::Lent;
use crate::numbers::library_elements;
use crate::random::Random;
use crate::report::{Hex, Report};

/// Where the state has its counts, whether it is closed, and how many bytes it holds.
const COUNTS: usize = 52;
const CLOSED: usize = 72;
const HAVE: usize = 73;

/// The labels that a call gave, or the status and place that it told.
type Outcome = Result<usize, Refused>;

const BAD_BUFFER: Refused = (ffi::BAD_BUFFER, 0);

pub fn packets(random: &mut Random, report: &mut Report) {
    match random.below(10) {
        0 => whole_day(random, report),
        1 => opening(random, report),
        _ => any_state(random, report),
    }
}

/// The two buffers that a call may change.
#[derive(Clone)]
struct Buffers {
    state: Vec<u8>,
    output: Vec<u8>,
}

/// The result of a call that gives 64 bits.
fn status_and_place(result: u64) -> Result<(), Refused> {
    match (result as u32, (result >> 32) as u32) {
        (0, 0) => Ok(()),
        told => Err(told),
    }
}

fn labels_in(state: &[u8]) -> u32 {
    state
        .get(COUNTS..COUNTS + 4)
        .map_or(0, |labels| u32::from_le_bytes(labels.try_into().expect("4 bytes")))
}

/// The library's call on the buffers.
fn by_library(report: &mut Report, buffers: &mut Buffers, packet: Option<&[u8]>) -> Outcome {
    let before = labels_in(&buffers.state);
    let (mut state, mut output) = (Lent::new(&buffers.state), Lent::new(&buffers.output));
    let (day, room) = (state.bytes(), output.bytes());
    let result = match packet {
        // SAFETY: the slices are `day`, `packet` and `room`, here and below.
        Some(packet) => unsafe {
            ffi::yurdelmiz_packet(
                day.as_mut_ptr(),
                day.len(),
                packet.as_ptr(),
                packet.len(),
                room.as_mut_ptr(),
                room.len(),
            )
        },
        None => unsafe {
            ffi::yurdelmiz_close(day.as_mut_ptr(), day.len(), room.as_mut_ptr(), room.len())
        },
    };
    buffers.state = day.to_vec();
    buffers.output = room.to_vec();
    report.equal(&"packet", "guards", state.guarded() && output.guarded(), true);
    status_and_place(result)?;
    Ok(labels_in(&buffers.state).wrapping_sub(before) as usize)
}

/// The reference's, which is no buffer but a day: its bytes are written where it is accepted, or changed.
fn by_reference(buffers: &mut Buffers, packet: Option<&[u8]>) -> Outcome {
    let Ok(bytes) = <&mut [u8; DAY_BYTES]>::try_from(&mut buffers.state[..]) else {
        return Err(BAD_BUFFER);
    };
    let before = Day::from_bytes(bytes);
    let mut day = before;
    let outcome = match packet {
        Some(packet) => day.packet(packet, &mut buffers.output),
        None => day.close(&mut buffers.output).map(|_| 0),
    };
    if outcome.is_ok() || day != before {
        *bytes = day.to_bytes();
    }
    outcome.map_err(reference_refused)
}

/// Takes a packet, or closes where there is none, by both, and compares all that they give and leave. The answer
/// is the library's, and so is what is in the buffers then.
fn call(report: &mut Report, buffers: &mut Buffers, packet: Option<&[u8]>) -> Outcome {
    let before = buffers.clone();
    let input = (Hex(&before.state), packet.map(Hex), before.output.len());
    let lent = packet.map(<[u8]>::to_vec);
    let library = by_library(report, buffers, lent.as_deref());
    let mut other = before.clone();
    let reference = by_reference(&mut other, packet);

    report.answer(kind(packet.is_some(), reference));
    report.equal(&input, "", library, reference);
    report.bytes(&input, "state", &buffers.state, &other.state);
    report.bytes(&input, "output", &buffers.output, &other.output);
    report.equal(&input, "packet", lent.as_deref(), packet);
    if library.is_err() {
        report.bytes(&input, "state after a refusal", &buffers.state, &before.state);
        report.bytes(&input, "output after a refusal", &buffers.output, &before.output);
    }
    library
}

/// What the report counts.
fn kind(packet: bool, outcome: Outcome) -> &'static str {
    match (packet, outcome) {
        (true, Ok(0)) => "packet: no label",
        (true, Ok(_)) => "packet: labels",
        (true, Err((8, _))) => "packet: refused with 8",
        (true, Err((10, _))) => "packet: refused with 10",
        (true, Err((11, _))) => "packet: refused with 11",
        (true, Err((24, _))) => "packet: refused with 24",
        (true, Err(BAD_BUFFER)) => "packet: status 255",
        (false, Ok(_)) => "close: trailer",
        (false, Err((10, _))) => "close: refused with 10",
        (false, Err((11, _))) => "close: refused with 11",
        (false, Err((24, _))) => "close: refused with 24",
        (false, Err(BAD_BUFFER)) => "close: status 255",
        _ => "another",
    }
}

/// Opens by both, over any bytes, and compares; the library's state.
fn open(report: &mut Report, elements: &[u8], before: &[u8]) -> Option<Vec<u8>> {
    let mut state = Lent::new(before);
    let day = state.bytes();
    // SAFETY: the slices are `elements` and `day`.
    let status = unsafe {
        ffi::yurdelmiz_open(elements.as_ptr(), elements.len(), day.as_mut_ptr(), day.len())
    };
    let library = day.to_vec();
    let sound = <&[u8; ELEMENTS_BYTES]>::try_from(elements).ok();
    let (told, reference) = match sound.filter(|_| before.len() == DAY_BYTES) {
        None => (ffi::BAD_BUFFER, before.to_vec()),
        Some(elements) => match Day::open(&elements_of_bytes(elements)) {
            Ok(day) => (0, day.to_bytes().to_vec()),
            Err(refusal) => (refusal.number(), before.to_vec()),
        },
    };
    report.answer(match told {
        0 => "open: a day",
        ffi::BAD_BUFFER => "open: status 255",
        16 => "open: refused with 16",
        8 => "open: refused with 8",
        _ => "open: refused with 1 to 7",
    });
    let input = (Hex(elements), before.len());
    report.equal(&input, "opened", status, told);
    report.bytes(&input, "state opened", &library, &reference);
    report.equal(&input, "guards", state.guarded(), true);
    (status == 0).then_some(library)
}

/// Mostly the right length of a buffer.
fn length(random: &mut Random, right: usize) -> usize {
    match random.below(48) {
        0 => right - 1,
        1 => right + 1,
        2 => random.index(200),
        _ => right,
    }
}

fn opening(random: &mut Random, report: &mut Report) {
    let mut elements = elements_to_bytes(&inputs::elements(random)).to_vec();
    elements.resize(length(random, ELEMENTS_BYTES), 0);
    let number = length(random, DAY_BYTES);
    let before = random.bytes(number);
    open(report, &elements, &before);
}

/// Elements and telemetry of a day, at times ragged, or with a record that is refused.
fn day(random: &mut Random) -> (Elements, Vec<u8>) {
    match random.below(6) {
        0 => inputs::facing_sun(random),
        1 | 2 => inputs::eclipse(random),
        _ => {
            let elements = inputs::elements(random);
            (elements, inputs::telemetry(random, &elements))
        }
    }
}

/// The bytes in packets cut anywhere, some of them empty.
fn cut<'a>(random: &mut Random, bytes: &'a [u8]) -> Vec<&'a [u8]> {
    let number = match random.below(4) {
        0 => random.index(3),
        1 => random.index(50),
        _ => random.index(8),
    };
    let mut cuts = vec![0, bytes.len()];
    for _ in 0..number {
        let cut = match random.below(6) {
            0 => random.pick(&cuts),
            1 => random.index(bytes.len() + 1) / RECORD_BYTES * RECORD_BYTES,
            _ => random.index(bytes.len() + 1),
        };
        cuts.push(cut);
    }
    cuts.sort_unstable();
    cuts.windows(2).map(|ends| &bytes[ends[0]..ends[1]]).collect()
}

/// Room for so many bytes: enough, a byte short or more, that of a trailer besides, or something else.
pub fn room(random: &mut Random, exact: usize) -> usize {
    match random.below(12) {
        0 => exact.saturating_sub(1),
        1 => exact.saturating_sub(LABEL_BYTES),
        2 => random.index(exact + 1),
        3 => exact + 1,
        4 => exact + Form::Bytes24.bytes(),
        5 => exact + random.index(100),
        _ => exact,
    }
}

/// How many records a packet completes.
fn completed(state: &[u8], packet: &[u8]) -> usize {
    (state.get(HAVE).map_or(0, |have| usize::from(*have)) + packet.len()) / RECORD_BYTES
}

/// A packet with any room for its labels, whether it is taken or not.
fn any_packet(random: &mut Random, report: &mut Report, state: &[u8], packet: &[u8]) {
    let exact = completed(state, packet).min(RECORDS_MAX + 2) * LABEL_BYTES;
    let room = room(random, exact);
    let mut buffers = Buffers { state: state.to_vec(), output: random.bytes(room) };
    if call(report, &mut buffers, Some(packet)).is_ok() {
        any_closing(random, report, &buffers.state);
    }
}

/// A closing with any room, and what a closed day does.
fn any_closing(random: &mut Random, report: &mut Report, state: &[u8]) {
    let room = room(random, Form::Bytes24.bytes());
    let mut buffers = Buffers { state: state.to_vec(), output: random.bytes(room) };
    if call(report, &mut buffers, None).is_ok() && random.one_in(4) {
        let number = random.index(40);
        let packet = random.bytes(number);
        let closed = call(report, &mut buffers, Some(&packet));
        report.equal(&Hex(state), "packet after closing", closed, Err((24, 0)));
        let twice = call(report, &mut buffers, None);
        report.equal(&Hex(state), "closing twice", twice, Err((24, 0)));
    }
}

/// A day from opening to closing, in packets. What is refused on the way leaves the day as it was, and it goes on
/// with the next packet: it is then the day of the packets that were taken.
fn whole_day(random: &mut Random, report: &mut Report) {
    let (elements, telemetry) = day(random);
    let before = random.bytes(DAY_BYTES);
    let Some(mut state) = open(report, &elements_to_bytes(&elements), &before) else {
        return;
    };
    let (mut taken, mut file) = (Vec::new(), Vec::new());
    for packet in cut(random, &telemetry) {
        if random.one_in(4) {
            any_packet(random, report, &state, packet);
        }
        if random.one_in(8) {
            any_closing(random, report, &state);
        }
        let exact = completed(&state, packet) * LABEL_BYTES;
        let behind = if random.one_in(2) { random.index(60) } else { 0 };
        let mut buffers = Buffers { state, output: random.bytes(exact + behind) };
        if let Ok(labels) = call(report, &mut buffers, Some(packet)) {
            taken.extend(packet);
            file.extend(&buffers.output[..labels * LABEL_BYTES]);
        }
        state = buffers.state;
    }
    let output = random.bytes(Form::Bytes24.bytes());
    let mut buffers = Buffers { state, output };
    let input = (elements, Hex(&telemetry), Hex(&taken));
    let at_once = yurdelmiz::label_to_vec(&library_elements(&elements), &taken);
    if call(report, &mut buffers, None).is_ok() {
        file.extend(&buffers.output);
        report.answer("a day closed, as at once");
        report.equal(&input, "labelled at once", at_once.is_ok(), true);
        report.bytes(&input, "the day at once", &file, &at_once.unwrap_or_default());
        let read = yurdelmiz::read(&file, file.len())
            .map(|(read, trailer)| (counts(read), form(trailer)))
            .map_err(|refused| refused.refusal.number());
        let state = buffers.state[..].try_into().map(Day::from_bytes);
        let kept = state.map(|day| (day.counts, Form::Bytes24)).map_err(|_| 0);
        report.equal(&input, "reader", read, kept);
    } else {
        report.answer("a day that ends within a record");
        report.equal(&input, "labelled at once", at_once.is_err(), true);
    }
}

/// Counts that a day may have, with so many labels.
fn some_counts(random: &mut Random, labels: u32) -> Counts {
    let training = up_to(random, labels);
    let test = up_to(random, labels - training);
    let dark = up_to(random, labels);
    let dark_test = up_to(random, test.min(dark));
    Counts { labels, training, test, dark, dark_test }
}

/// Takes one of the counts to a bound or over it.
fn damage_counts(random: &mut Random, counts: &mut Counts) {
    let Counts { labels, training, test, dark, .. } = *counts;
    match random.below(9) {
        0 => counts.labels = about(random, RECORDS_MAX as u32),
        // So that the others are over the labels.
        1 => counts.labels = up_to(random, labels),
        2 => counts.training = about(random, labels.wrapping_sub(test)),
        3 => counts.test = about(random, labels.wrapping_sub(training)),
        // A sum that wraps to what the labels allow.
        4 => counts.training = test.wrapping_neg().wrapping_add(up_to(random, labels)),
        5 => counts.dark = about(random, labels),
        6 => counts.dark_test = about(random, test),
        7 => counts.dark_test = about(random, dark),
        _ => {
            // Over one of the two that bound it, and not over the other.
            let (less, more) = (up_to(random, labels), labels);
            (counts.training, counts.dark_test) = (0, more);
            (counts.test, counts.dark) = if random.one_in(2) { (less, more) } else { (more, less) };
        }
    }
}

/// Any state, good or damaged, with a packet that goes on with the bytes it holds.
fn any_state(random: &mut Random, report: &mut Report) {
    let elements = inputs::elements(random);
    let mut telemetry = inputs::telemetry(random, &elements);
    let more = random.index(RECORD_BYTES);
    telemetry.extend(random.bytes(more));
    let number = random.index(HELD_MAX + 1).min(telemetry.len());
    let (held, packet) = telemetry.split_at(number);

    let records = (telemetry.len() / RECORD_BYTES) as i64;
    let labels = match random.below(6) {
        0 => 0,
        // About as many with the packet as a day may have.
        1 | 2 => (RECORDS_MAX as i64 - records + random.between(-1, 2)).clamp(0, 1_024),
        3 => random.between(1_020, 1_024),
        _ => random.between(0, 1_024),
    };
    let mut day = Day {
        elements,
        closed: false,
        have: number as u8,
        held: [0; HELD_MAX],
        counts: some_counts(random, labels as u32),
    };
    day.held[..number].copy_from_slice(held);
    if random.one_in(5) {
        damage_counts(random, &mut day.counts);
    }
    let mut state = day.to_bytes().to_vec();
    if random.one_in(2) {
        let at = DAY_BYTES - HELD_MAX + number;
        let behind = random.bytes(DAY_BYTES - at);
        state[at..].copy_from_slice(&behind);
    }
    match random.below(40) {
        0 => state[CLOSED] = 1,
        1 => state[CLOSED] = random.u64() as u8,
        2 => state[HAVE] = random.pick(&[14, 15, 16, 17, 31, 32, 255]),
        3 => state[HAVE] = random.u64() as u8,
        4 => {
            let at = random.index(DAY_BYTES);
            state[at] ^= 1 + random.below(255) as u8;
        }
        5 if random.one_in(4) => state = random.bytes(DAY_BYTES),
        _ => {}
    }
    let length = length(random, DAY_BYTES);
    state.resize(length, 0);

    any_packet(random, report, &state, packet);
    any_closing(random, report, &state);
    if random.one_in(4) {
        // Without the held bytes, so that most close.
        let mut state = state;
        if let Some(have) = state.get_mut(HAVE) {
            *have = 0;
        }
        any_closing(random, report, &state);
    }
}
