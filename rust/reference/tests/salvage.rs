//! Salvage beyond what the vectors hold: bytes cut and damaged anywhere, the most labels, both trailers, the room.

mod common;

use common::{longest_day, telemetry, ELEMENTS, EXAMPLE_16, EXAMPLE_24};
use reference::file::{file_bytes, label_day, read};
use reference::label::{Label, LABEL_BYTES};
use reference::salvage::{salvage, Salvaged};
use reference::trailer::{Counts, Form};
use reference::Refusal;

/// What the output holds before a call.
const FILL: u8 = 0xcc;

/// The labels of a day without a trailer, and their counts.
fn labels_of(telemetry: &[u8]) -> (Vec<u8>, Counts) {
    let records = telemetry.len() / 16;
    let mut file = vec![0; file_bytes(records)];
    let counts = label_day(&ELEMENTS, telemetry, &mut file).unwrap();
    file.truncate(LABEL_BYTES * records);
    (file, counts)
}

/// Twelve labels of all sides, dark and lit ones, with a trailer of each form.
fn sound_files() -> [Vec<u8>; 2] {
    let (labels, counts) = labels_of(&telemetry((0..12).map(|record| record * 28_000)));
    let Counts { labels: all, training, test, dark, .. } = counts;
    assert!(training > 0 && test > 0 && training + test < all && 0 < dark && dark < all);
    Form::ALL.map(|form| [labels.clone(), counts.trailer(form)].concat())
}

/// The counts of labels, one by one.
fn counted(labels: &[u8]) -> Counts {
    let mut counts = Counts::default();
    for label in labels.chunks_exact(LABEL_BYTES) {
        counts.labels += 1;
        counts.training += u32::from(label[12] == 1);
        counts.test += u32::from(label[12] == 2);
        counts.dark += u32::from(label[13] == 1);
        counts.dark_test += u32::from(label[12..14] == [2, 1]);
    }
    counts
}

/// Salvages, and sees that as many labels are kept as are due, byte for byte, that a trailer of 24 bytes states
/// their counts, that what lies behind stays, and that the reader takes what was written.
#[track_caller]
fn keeps(bytes: &[u8], labels: usize) {
    let kept = &bytes[..LABEL_BYTES * labels];
    let trailer = counted(kept).trailer(Form::Bytes24);
    assert_eq!(trailer.len(), 24);
    let file = [kept, &trailer[..]].concat();
    let dropped = (bytes.len() - kept.len()) as u64;
    for behind in [0, 1, 50] {
        let mut output = vec![FILL; file.len() + behind];
        let salvaged = salvage(bytes, &mut output);
        assert_eq!(salvaged, Ok(Salvaged { labels: labels as u32, dropped }));
        assert!(output[..file.len()] == file);
        assert!(output[file.len()..].iter().all(|byte| *byte == FILL));
    }
    let read = read(&file, file.len()).unwrap();
    assert_eq!((read.counts, read.form), (counted(kept), Form::Bytes24));
    assert_eq!(read.labels().count(), labels);
}

#[test]
fn cut_at_every_byte() {
    for file in sound_files() {
        for cut in 0..=file.len() {
            keeps(&file[..cut], (cut / LABEL_BYTES).min(12));
        }
    }
}

/// The labels ahead of a damaged byte are kept, and with it those behind where its label still keeps the rules.
#[test]
fn damaged_at_every_byte() {
    let (mut broken, mut whole) = (0, 0);
    for file in sound_files() {
        for at in 0..file.len() {
            for change in [0x01, 0x02, 0x04, 0x10, 0x80, 0xff] {
                let mut bytes = file.clone();
                bytes[at] ^= change;
                let number = at / LABEL_BYTES;
                let kept = match bytes[..12 * LABEL_BYTES].chunks_exact(LABEL_BYTES).nth(number) {
                    Some(label) if Label::from_bytes(label.try_into().unwrap()).is_none() => {
                        broken += 1;
                        number
                    }
                    _ => {
                        whole += 1;
                        12
                    }
                };
                keeps(&bytes, kept);
            }
        }
    }
    assert!(broken > 500 && whole > 500, "{broken} {whole}");
}

/// Each field rule, broken in the third of five labels: two are kept, and none behind it.
#[test]
fn every_field_rule() {
    let sound = EXAMPLE_16[..24].repeat(5);
    keeps(&sound, 5);
    let too_late: i64 = 3_476_476_800;
    let too_early: i64 = -2_834_956_801;
    let beyond: i32 = (1 << 30) + 1;
    for (at, bytes) in [
        (0, &too_late.to_le_bytes()[..]),
        (0, &too_early.to_le_bytes()),
        (0, &i64::MIN.to_le_bytes()),
        (8, &16_i32.to_le_bytes()),
        (8, &65_i32.to_le_bytes()),
        (12, &[0]),
        (12, &[2]),
        (12, &[3]),
        (13, &[3]),
        (13, &[255]),
        (14, &[0]),
        (14, &[2]),
        (14, &[3]),
        (15, &[1]),
        (16, &beyond.to_le_bytes()),
        (16, &(-beyond).to_le_bytes()),
        (20, &f32::INFINITY.to_le_bytes()),
        (20, &f32::NEG_INFINITY.to_le_bytes()),
        (20, &f32::NAN.to_le_bytes()),
    ] {
        let mut damaged = sound.clone();
        damaged[2 * 24 + at..][..bytes.len()].copy_from_slice(bytes);
        keeps(&damaged, 2);
    }
    for (at, bytes) in [
        (0, &(too_late - 1).to_le_bytes()[..]),
        (0, &(too_early + 1).to_le_bytes()),
        (8, &[65, 0, 0, 0, 2]),
        (8, &[16, 0, 0, 0, 0]),
        (13, &[0]),
        (13, &[2]),
        (14, &[0, 0, 0, 0, 0, 0, 0, 0, 0, 0]),
        (14, &[2, 0, 0, 0, 0, 0, 0, 0, 0, 0]),
        (16, &(beyond - 1).to_le_bytes()),
        (16, &(1 - beyond).to_le_bytes()),
        (20, &(-0.0_f32).to_le_bytes()),
        (20, &f32::MAX.to_le_bytes()),
    ] {
        let mut other = sound.clone();
        other[2 * 24 + at..][..bytes.len()].copy_from_slice(bytes);
        keeps(&other, 5);
    }
}

/// 1,024 labels are the most, whatever stands behind them.
#[test]
fn the_most_labels() {
    let (longest, counts) = labels_of(&longest_day());
    let more = [&longest[..], &longest[..48]].concat();
    for labels in [1_023, 1_024, 1_025, 1_026] {
        for half in [0, 1, 23] {
            keeps(&more[..(LABEL_BYTES * labels + half).min(more.len())], labels.min(1_024));
        }
    }
    for form in Form::ALL {
        keeps(&[longest.clone(), counts.trailer(form)].concat(), 1_024);
    }
    // Broken within the labels, and behind the most.
    for (number, kept) in [(0, 0), (1_022, 1_022), (1_023, 1_023), (1_024, 1_024)] {
        let mut damaged = more.clone();
        damaged[LABEL_BYTES * number + 15] = 1;
        keeps(&damaged, kept);
    }
}

/// A whole file's own trailer is no label, though it may stand where one would; its counts do not matter.
#[test]
fn whole_files() {
    for file in [&EXAMPLE_16[..], &EXAMPLE_24] {
        keeps(file, 1);
        let mut other_counts = file.to_vec();
        other_counts[24..file.len() - 4].fill(7);
        keeps(&other_counts, 1);
    }
    for form in Form::ALL {
        keeps(&Counts::default().trailer(form), 0);
    }
    let mut output = EXAMPLE_24;
    assert!(salvage(&EXAMPLE_16, &mut output).is_ok());
    assert_eq!(output, EXAMPLE_24);
    // The labels of a file that follows the trailer are not those of this one.
    keeps(&[EXAMPLE_24, EXAMPLE_24].concat(), 1);
    // Bytes of others in front are no labels.
    keeps(&[&[0xbb; 24][..], &EXAMPLE_24].concat(), 0);
    keeps(&[&[0xbb][..], &EXAMPLE_24].concat(), 0);
}

#[test]
fn no_label() {
    for length in 0..LABEL_BYTES {
        keeps(&EXAMPLE_16[..length], 0);
        keeps(&vec![0; length], 0);
        keeps(&vec![0xff; length], 0);
    }
    keeps(&[0xff; 100], 0);
}

/// 24 zero bytes keep every field rule, and so does a label whose last 11 bytes became zeros.
#[test]
fn zeros() {
    keeps(&[0; 50], 2);
    for zeros in 0..=11 {
        let cut = &EXAMPLE_16[..24 - zeros];
        keeps(&[cut, &vec![0; zeros + 24]].concat(), 2);
    }
    keeps(&[&EXAMPLE_16[..12], &[0; 36]].concat(), 0);
}

/// Room for the labels kept and the trailer, and no more: exact, a byte short, and none. Of the bytes that are
/// dropped none asks for room.
#[test]
fn the_room() {
    let (labels, _) = labels_of(&telemetry([0, 60, 120]));
    let mut broken = labels.clone();
    broken[24 + 15] = 9;
    for (bytes, kept) in
        [(&labels[..], 3), (&labels[..71], 2), (&broken, 1), (&broken[..23], 0), (&[], 0)]
    {
        let exact = file_bytes(kept);
        for room in 0..exact {
            let mut output = vec![FILL; room];
            assert_eq!(salvage(bytes, &mut output), Err(Refusal::OutputLength), "{room} bytes");
            assert!(output.iter().all(|byte| *byte == FILL), "a refusal wrote");
        }
        let mut output = vec![FILL; exact];
        let salvaged = salvage(bytes, &mut output).unwrap();
        assert_eq!(salvaged.labels as usize, kept);
        keeps(bytes, kept);
    }
    let longest = labels_of(&longest_day()).0;
    let mut output = vec![FILL; file_bytes(1_024) - 1];
    assert_eq!(salvage(&longest, &mut output), Err(Refusal::OutputLength));
    assert!(output.iter().all(|byte| *byte == FILL));
}

/// What was written is a whole file: salvaged again it stays the same.
#[test]
fn salvaged_again() {
    for file in sound_files() {
        for cut in (0..file.len()).step_by(7) {
            let kept = (cut / LABEL_BYTES).min(12);
            let mut once = vec![FILL; file_bytes(kept)];
            salvage(&file[..cut], &mut once).unwrap();
            let mut again = vec![FILL; once.len()];
            let salvaged = salvage(&once, &mut again);
            assert_eq!(salvaged, Ok(Salvaged { labels: kept as u32, dropped: 24 }));
            assert_eq!(again, once);
        }
    }
}
