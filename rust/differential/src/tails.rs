//! Comparisons of the tail: any last bytes with any length, and that of a whole file with the reader.

use reference::tail::dark_test;
use yurdelmiz::{Form, LabelFile, Refusal, Refused};

use crate::label_files;
use crate::random::Random;
use crate::report::{Hex, Report};

/// The last 24 bytes of a file, or all.
pub fn tail_of(file: &[u8]) -> &[u8] {
    &file[file.len().saturating_sub(LabelFile::TAIL)..]
}

/// Up to three more or less, over the end of the numbers too.
fn near(random: &mut Random, number: u64) -> u64 {
    number.wrapping_add_signed(random.between(-3, 3))
}

/// A length that is given with a file's tail: mostly the file's own; or next to it, to a trailer's bytes or to
/// a power of two, or the same but for a bit above the lower half.
fn length(random: &mut Random, file: u64) -> u64 {
    match random.below(10) {
        0 => near(random, file),
        1 => {
            let edge = random.pick(&[0, 16, 24, 1 << 32, 1 << 63]);
            near(random, edge)
        }
        2 => file | 1 << random.between(32, 63),
        3 => random.u64() >> random.below(64),
        _ => file,
    }
}

/// How many bytes are given of a file of this length: mostly as many as a tail has; or all of a file that is
/// somewhat longer.
fn given(random: &mut Random, length: u64) -> usize {
    let right = length.min(LabelFile::TAIL as u64) as usize;
    match random.below(10) {
        0 => random.index(31),
        1 => random.pick(&[right.saturating_sub(1), right + 1, 16, LabelFile::TAIL]),
        2 if length <= 40 => length as usize,
        _ => right,
    }
}

/// The last bytes of a file, behind any others where it has fewer, and seldom ahead of others.
fn last_bytes(random: &mut Random, file: &[u8], number: usize) -> Vec<u8> {
    let mut bytes = random.bytes(number.saturating_sub(file.len()));
    bytes.extend(&file[file.len().saturating_sub(number)..]);
    if random.one_in(20) {
        let behind = 1 + random.index(16);
        bytes.extend(random.bytes(behind));
    }
    bytes
}

pub fn tail(random: &mut Random, report: &mut Report) {
    let file = label_files::any_trailer(random);
    let length = length(random, file.len() as u64);
    let number = given(random, length);
    let tail = last_bytes(random, &file, number);
    let lent = tail.clone();
    let library = yurdelmiz::dark_test(&lent, length).map_err(|refusal| (refusal.number(), 0));
    let reference = dark_test(&tail, length).map_err(|refusal| (refusal.number(), 0));
    if let Ok(figure) = reference {
        report.answer(match figure {
            None => "not held",
            Some(0) => "held, 0",
            Some(_) => "held, above 0",
        });
    }
    let input = (Hex(&tail), length);
    report.outcomes(&input, library, reference);
    report.bytes(&input, "tail", &lent, &tail);
    of_file(report, &file);
}

/// The library's tail of a whole file and its reader: 12 of one is 12 of the other; where the reader does not
/// give 12, the figure is held with a trailer of 24 bytes; and where it accepts, it is that of the labels.
pub fn of_file(report: &mut Report, file: &[u8]) {
    let tail = tail_of(file);
    let said = yurdelmiz::dark_test(tail, file.len() as u64);
    let input = (Hex(tail), file.len());
    match yurdelmiz::read(file, file.len()) {
        Err(Refused { refusal: Refusal::Trailer, .. }) => {
            report.answer("file: refused with 12");
            report.equal(&input, "refused by the reader", said, Err(Refusal::Trailer));
        }
        Err(_) => {
            report.answer("file: refused with another number");
            // The distance, in the last 4 bytes, tells the trailer.
            let distance = tail[tail.len() - 4..].try_into().expect("4 bytes");
            let held = u32::from_le_bytes(distance) % 24 == 0;
            report.equal(&input, "held", said.map(|figure| figure.is_some()), Ok(held));
        }
        Ok((counts, form)) => {
            let held = (form == Form::Bytes24).then_some(counts.dark_test);
            report.answer(match held {
                None => "file: not held",
                Some(0) => "file: held, 0",
                Some(_) => "file: held, above 0",
            });
            report.equal(&input, "count over the labels", said, Ok(held));
        }
    }
}
