//! Comparisons of two days that are alike: labelled at once, by adding and in packets, both are refused alike, or have
//! the same training labels and scale figures. Both answers are the library's; in a difference the second day's is shown
//! as the reference's.

use std::fmt::Debug;
use std::ops::Range;

use reference::file::file_bytes;
use reference::label::{Side, LABEL_BYTES};
use reference::telemetry::RECORD_BYTES;
use reference::trailer::Form;
use yurdelmiz::{Counts, Day, Figures};

use crate::alike_days::Pair;
use crate::answers::{library_refused, Refused};
use crate::label_files::{self, File};
use crate::numbers::library_elements;
use crate::random::Random;
use crate::report::{Hex, Report};
use crate::{inputs, packets, scales};

/// Where a label has its side.
const SIDE: usize = 12;

/// What the report counts of a way to label.
struct Way {
    /// Accepted, with a training label, and with another label that differs.
    apart: &'static str,
    refused: &'static str,
}

const AT_ONCE: Way =
    Way { apart: "at once: other labels differ", refused: "at once: refused alike" };
const ADDING: Way = Way { apart: "adding: other labels differ", refused: "adding: refused alike" };
const PACKETS: Way =
    Way { apart: "packets: other labels differ", refused: "packets: refused alike" };

const FIGURES_REFUSED: &str = "figures: refused alike";
const LEAK: &str = "a leak on purpose";

pub fn leaks(random: &mut Random, report: &mut Report) {
    for Way { apart, refused } in [AT_ONCE, ADDING, PACKETS] {
        report.due(apart);
        report.due(refused);
    }
    report.due(FIGURES_REFUSED);
    report.due(LEAK);
    let pair = Pair::any(random);
    at_once(random, report, &pair);
    by_adding(random, report, &pair);
    in_packets(random, report, pair);
}

/// The same bytes of two days or buffers.
fn part(both: &[Vec<u8>; 2], bytes: Range<usize>) -> [&[u8]; 2] {
    both.each_ref().map(|one| &one[bytes.clone()])
}

/// Compares the answers for both days, and counts those that are refused alike. The answer is the first day's.
fn alike<T: Clone + Debug + PartialEq>(
    report: &mut Report,
    input: &dyn Debug,
    refused: &'static str,
    [one, other]: [Result<T, Refused>; 2],
) -> Result<T, Refused> {
    if one.is_err() && one == other {
        report.answer(refused);
    }
    report.outcomes(input, one.clone(), other);
    one
}

/// The counts that a call gives, and where it wrote.
type Answer = Result<(Counts, Range<usize>), yurdelmiz::Refused>;

/// Makes a call for each day, on a buffer of its own, and compares the answers, and what was not written with the bytes
/// before. The buffers, and where they were written.
fn twice(
    report: &mut Report,
    input: &dyn Debug,
    way: &Way,
    mut buffers: [Vec<u8>; 2],
    mut call: impl FnMut(usize, &mut [u8]) -> Answer,
) -> Result<([Vec<u8>; 2], Range<usize>), Refused> {
    let before = buffers.clone();
    let answers = [0, 1].map(|day| call(day, &mut buffers[day]).map_err(library_refused));
    let written = alike(report, input, way.refused, answers).map(|(_, written)| written);
    let Range { start, end } = written.clone().unwrap_or(0..0);
    for (after, before) in buffers.iter().zip(&before) {
        report.bytes(input, "bytes ahead", &after[..start], &before[..start]);
        report.bytes(input, "bytes behind", &after[end..], &before[end..]);
    }
    written.map(|written| (buffers, written))
}

/// Two buffers of the same room, with different bytes.
fn buffers(random: &mut Random, room: usize) -> [Vec<u8>; 2] {
    [(); 2].map(|()| random.bytes(room))
}

/// A file in which each label that is not on the training side keeps its side alone.
fn training_alone(sides: &[Option<Side>], file: &[u8]) -> Vec<u8> {
    let mut file = file.to_vec();
    for (label, side) in file.chunks_exact_mut(LABEL_BYTES).zip(sides) {
        if *side != Some(Side::Training) {
            label[..SIDE].fill(0);
            label[SIDE + 1..].fill(0);
        }
    }
    file
}

/// Compares the files of both days, behind any bytes: training labels, all sides, trailers, and the figures after them.
fn same_training(
    random: &mut Random,
    report: &mut Report,
    input: &dyn Debug,
    way: &Way,
    sides: &[Option<Side>],
    files: [&[u8]; 2],
) {
    let first = files[0].len().saturating_sub(file_bytes(sides.len()));
    let [one, other] = files.map(|file| training_alone(sides, &file[first..]));
    report.bytes(input, "training labels", &one, &other);
    let labels = one.chunks_exact(LABEL_BYTES).take(sides.len());
    let written: Vec<_> = labels.map(|label| Some(label[SIDE])).collect();
    let expected: Vec<_> = sides.iter().map(|side| side.map(|side| side as u8)).collect();
    report.equal(input, "sides", written, expected);
    if sides.contains(&Some(Side::Training)) && files[0][first..] != files[1][first..] {
        report.answer(way.apart);
    }
    same_figures(random, report, input, files);
}

/// Compares the figures after both files: from nothing, from an earlier file, and from any, at times refused.
fn same_figures(random: &mut Random, report: &mut Report, input: &dyn Debug, files: [&[u8]; 2]) {
    let labels = random.index(4);
    let earlier = label_files::any_fields(random, labels).bytes;
    let of_earlier = figures_after(Figures::default(), &earlier).expect("a sound file");
    let mut any = scales::good(random);
    if random.one_in(2) {
        scales::damage(random, &mut any);
    }
    for before in [Figures::default(), of_earlier, Figures::from_bytes(&any.to_bytes())] {
        let after = files.map(|file| figures_after(before, file).map(|after| after.to_bytes()));
        let _ = alike(report, &("figures", input, before), FIGURES_REFUSED, after);
    }
}

fn figures_after(mut figures: Figures, file: &[u8]) -> Result<Figures, Refused> {
    figures.add(file).map(|()| figures).map_err(library_refused)
}

/// Labels the first bytes of both days, with the same room; what was written.
fn label(
    random: &mut Random,
    report: &mut Report,
    pair: &Pair,
    way: &Way,
    bytes: usize,
    room: usize,
) -> Result<[Vec<u8>; 2], Refused> {
    let elements = library_elements(&pair.elements);
    let telemetry = part(&pair.days, 0..bytes);
    let input = (pair.shown(), bytes, room);
    let (outputs, written) = twice(report, &input, way, buffers(random, room), |day, output| {
        let counts = yurdelmiz::label_day(&elements, telemetry[day], output)?;
        Ok((counts, 0..file_bytes(bytes / RECORD_BYTES)))
    })?;
    Ok(part(&outputs, written).map(<[u8]>::to_vec))
}

fn at_once(random: &mut Random, report: &mut Report, pair: &Pair) {
    let room = inputs::room(random, pair.size());
    let Ok(files) = label(random, report, pair, &AT_ONCE, pair.size(), room) else {
        return;
    };
    let files = files.each_ref().map(|file| &file[..]);
    same_training(random, report, &pair.shown(), &AT_ONCE, &pair.sides, files);
    if random.one_in(2) {
        leak(random, report, pair.clone());
    }
}

/// A leak on purpose, which is seen: in what is compared of the files the label tells it, and no other, and the figures
/// have one valid reading less.
fn leak(random: &mut Random, report: &mut Report, mut pair: Pair) {
    let Some(place) = pair.spoil(random) else {
        return;
    };
    let elements = library_elements(&pair.elements);
    let label = |day: &Vec<u8>| yurdelmiz::label_to_vec(&elements, day).unwrap_or_default();
    let files = pair.days.each_ref().map(label);
    let [one, other] = files.each_ref().map(|file| training_alone(&pair.sides, file));
    let labels = one.chunks(LABEL_BYTES).zip(other.chunks(LABEL_BYTES)).enumerate();
    let told = labels.filter(|(_, (one, other))| one != other).map(|(place, _)| place);
    report.equal(&pair.shown(), "labels that tell", told.collect(), vec![place]);
    let [valid, fewer] =
        files.map(|file| figures_after(Figures::default(), &file).map(|figures| figures.valid));
    report.equal(&pair.shown(), "valid readings", fewer.map(|fewer| fewer + 1), valid);
    report.answer(LEAK);
}

/// Adds the rest of both days to the files of their first records, with either trailer, at the same place in buffers of
/// the same size.
fn by_adding(random: &mut Random, report: &mut Report, pair: &Pair) {
    let first = random.index(pair.sides.len() + 1);
    let cut = first * RECORD_BYTES;
    let Ok(files) = label(random, report, pair, &ADDING, cut, file_bytes(first)) else {
        return;
    };
    let (form, ahead) = (random.pick(&Form::ALL), label_files::bytes_ahead(random));
    let size = ahead + form.distance(first);
    let room = (ahead + inputs::room(random, pair.size())).max(size);
    let buffers = files.map(|file| {
        let labels = &file[..first * LABEL_BYTES];
        let mut buffer = File::of(random, form, labels, ahead).bytes;
        buffer.extend(random.bytes(room - size));
        buffer
    });
    let elements = library_elements(&pair.elements);
    let rest = part(&pair.days, cut..pair.size());
    let input = (pair.shown(), first, form, ahead, room);
    let added = twice(report, &input, &ADDING, buffers, |day, buffer| {
        let added = yurdelmiz::add(&elements, buffer, size, rest[day])?;
        Ok((added.counts, size - form.bytes()..added.size))
    });
    if let Ok((buffers, written)) = added {
        let files = part(&buffers, 0..written.end);
        same_training(random, report, &input, &ADDING, &pair.sides, files);
    }
}

/// Takes a packet of each day, or closes both where there is none, with the same room; what was written.
fn take(
    random: &mut Random,
    report: &mut Report,
    days: &mut [Day; 2],
    packets: Option<[&[u8]; 2]>,
    room: usize,
) -> Result<[Vec<u8>; 2], Refused> {
    let before = days.each_ref().map(Day::to_bytes);
    let input =
        (before.each_ref().map(|state| Hex(state)), packets.map(|both| both.map(Hex)), room);
    let taken = twice(report, &input, &PACKETS, buffers(random, room), |day, output| {
        let state = &mut days[day];
        let written = match packets {
            Some(packets) => state.packet(packets[day], output)? * LABEL_BYTES,
            None => state.close(output).map(|_| Form::Bytes24.bytes())?,
        };
        Ok((state.counts(), 0..written))
    });
    let [one, other] = days.each_ref().map(|day| (day.counts(), day.held(), day.is_closed()));
    report.equal(&input, "counts and held bytes", one, other);
    if taken.is_err() {
        let after = days.each_ref().map(Day::to_bytes);
        report.bytes(&input, "states after a refusal", &after.concat(), &before.concat());
    }
    taken.map(|(outputs, written)| part(&outputs, written).map(<[u8]>::to_vec))
}

fn append(files: &mut [Vec<u8>; 2], both: [Vec<u8>; 2]) {
    files.iter_mut().zip(both).for_each(|(file, bytes)| file.extend(bytes));
}

/// Both days in packets that are cut alike. Where one is refused, the days go on from where they were.
fn in_packets(random: &mut Random, report: &mut Report, mut pair: Pair) {
    // The elements alone decide.
    let Ok(day) = Day::open(&library_elements(&pair.elements)) else {
        return;
    };
    let mut days = [day.clone(), day];
    let mut files = [Vec::new(), Vec::new()];
    let mut taken = 0;
    while taken < pair.size() {
        let rest = pair.size() - taken;
        let some = random.index(rest + 1);
        let end = taken + random.pick(&[0, rest, some, some % 40, some % 40]);
        let exact = (end / RECORD_BYTES - taken / RECORD_BYTES) * LABEL_BYTES;
        let room = packets::room(random, exact);
        match take(random, report, &mut days, Some(part(&pair.days, taken..end)), room) {
            Ok(labels) => {
                append(&mut files, labels);
                taken = end;
            }
            Err((11, _)) if room < exact => {}
            // Without the refused record, of which nothing is held.
            Err((8, place)) if (taken..end).contains(&(place as usize * RECORD_BYTES)) => {
                pair.leave_out(place as usize);
            }
            Err(_) => break,
        }
    }
    let room = packets::room(random, Form::Bytes24.bytes());
    let closed = take(random, report, &mut days, None, room)
        .or_else(|_| take(random, report, &mut days, None, Form::Bytes24.bytes()));
    if let Ok(trailers) = closed {
        append(&mut files, trailers);
        let sides = &pair.sides[..taken / RECORD_BYTES];
        let files = part(&files, 0..files[0].len());
        same_training(random, report, &pair.shown(), &PACKETS, sides, files);
    }
}
