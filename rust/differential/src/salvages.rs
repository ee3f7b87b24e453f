//! Comparisons of salvage: files cut and damaged anywhere, runs of about the most labels, any room; and what the
//! library wrote by its own reader.

use reference::file::file_bytes;
use reference::label::LABEL_BYTES;
use reference::telemetry::RECORDS_MAX;
use reference::trailer::Form;
use yurdelmiz::Salvaged;

use crate::answers;
use crate::label_files::{self, File};
use crate::random::Random;
use crate::report::{Hex, Report};

/// Bytes to salvage, with the labels to be kept where that is known beforehand: of a sound file with nothing in
/// front, cut or not.
fn damaged(random: &mut Random) -> (Vec<u8>, Option<usize>) {
    if random.one_in(64) {
        return (label_files::damaged(random), None);
    }
    let labels = match random.below(64) {
        0..=3 => random.between(1_022, 1_027) as usize,
        4..=9 => random.index(3),
        _ => random.index(20),
    };
    let mut file = label_files::any_fields(random, labels);
    let all = labels.min(RECORDS_MAX);
    match random.below(16) {
        0 | 1 => (file.bytes, Some(all)),
        2..=5 => {
            let cut = match random.below(4) {
                0 => LABEL_BYTES * random.index(labels + 1),
                _ => random.index(file.bytes.len() + 1),
            };
            file.bytes.truncate(cut);
            (file.bytes, Some(all.min(cut / LABEL_BYTES)))
        }
        kind => {
            damage(random, kind, &mut file);
            (file.bytes, None)
        }
    }
}

fn damage(random: &mut Random, kind: u64, file: &mut File) {
    match kind {
        6..=8 => change_byte(random, &mut file.bytes),
        9..=11 => label_files::damage_labels(random, file),
        12 => {
            let number = 1 + random.index(60);
            let ahead = random.bytes(number);
            file.bytes.splice(..0, ahead);
        }
        13 => {
            let number = random.index(100);
            let behind = match random.below(3) {
                0 => vec![0; number],
                1 => random.bytes(number),
                _ => file.bytes.clone(),
            };
            file.bytes.extend(behind);
        }
        14 => {
            // A piece that is missing, or zeros.
            let from = random.index(file.bytes.len());
            let to = from + random.index(file.bytes.len() - from + 1);
            if random.one_in(2) {
                file.bytes.drain(from..to);
            } else {
                file.bytes[from..to].fill(0);
            }
        }
        _ => {
            change_byte(random, &mut file.bytes);
            let cut = random.index(file.bytes.len() + 1);
            file.bytes.truncate(cut);
        }
    }
}

/// Changes the byte at any place to any other.
fn change_byte(random: &mut Random, bytes: &mut [u8]) {
    let at = random.index(bytes.len());
    bytes[at] ^= 1 + random.below(255) as u8;
}

/// Room for the labels kept: enough, a byte short or more, as much as a trailer of 16 bytes or all bytes given
/// would ask, or something else.
fn room(random: &mut Random, bytes: &[u8]) -> usize {
    let all = file_bytes(bytes.len() / LABEL_BYTES);
    let kept = reference::salvage::salvage(bytes, &mut vec![0; all])
        .map_or(0, |salvaged| salvaged.labels as usize);
    let exact = file_bytes(kept);
    match random.below(12) {
        0 => exact - 1,
        1 => exact - 1 - random.index(24),
        2 => Form::Bytes16.distance(kept),
        3 => random.index(exact),
        4 => exact + 1,
        5 => exact + random.index(100),
        6 => all,
        7 => all - 1,
        8 => exact + LABEL_BYTES,
        _ => exact,
    }
}

pub fn salvage(random: &mut Random, report: &mut Report) {
    let (bytes, due) = damaged(random);
    let room = room(random, &bytes);
    let before = random.bytes(room);
    let input = (Hex(&bytes), room);

    let lent = bytes.clone();
    let mut library_output = before.clone();
    let library = yurdelmiz::salvage(&lent, &mut library_output)
        .map(answers::salvaged)
        .map_err(|refusal| (refusal.number(), 0));
    let mut reference_output = before.clone();
    let reference = reference::salvage::salvage(&bytes, &mut reference_output)
        .map_err(|refusal| (refusal.number(), 0));

    if let Ok(reference::salvage::Salvaged { labels, dropped }) = reference {
        report.answer(match dropped {
            0 => "all bytes kept",
            _ if labels as usize == RECORDS_MAX => "the most labels kept, of more bytes",
            1..24 => "kept to a label that is cut",
            _ => "kept to a label that breaks a rule",
        });
    }
    report.outcomes(&input, library, reference);
    report.bytes(&input, "output", &library_output, &reference_output);
    report.bytes(&input, "bytes given", &lent, &bytes);
    match library {
        Err(_) => report.bytes(&input, "output after a refusal", &library_output, &before),
        Ok(salvaged) => {
            let size = file_bytes(salvaged.labels as usize);
            let (file, behind) = library_output.split_at(size);
            report.bytes(&input, "output behind the trailer", behind, &before[size..]);
            written(report, &bytes, file, salvaged);
            if let Some(due) = due {
                let kept = salvaged.labels as usize;
                report.equal(&input, "labels of a sound file", kept, due);
            }
        }
    }
}

/// What the library wrote of some bytes, by these bytes, by its own reader, and salvaged again.
fn written(report: &mut Report, bytes: &[u8], file: &[u8], salvaged: reference::salvage::Salvaged) {
    let reference::salvage::Salvaged { labels, dropped } = salvaged;
    let kept = labels as usize * LABEL_BYTES;
    let input = Hex(bytes);
    report.bytes(&input, "labels kept", &file[..kept], &bytes[..kept]);
    report.equal(&input, "kept and dropped", kept as u64 + dropped, bytes.len() as u64);
    let read = yurdelmiz::read(file, file.len()).map(|(counts, form)| (counts.labels, form));
    report.equal(&input, "reader", read, Ok((labels, yurdelmiz::Form::Bytes24)));
    let (again, salvaged) = yurdelmiz::salvage_to_vec(file);
    report.bytes(&input, "file salvaged again", &again, file);
    let trailer = Form::Bytes24.bytes() as u64;
    report.equal(&input, "salvaged again", salvaged, Salvaged { labels, dropped: trailer });
}
