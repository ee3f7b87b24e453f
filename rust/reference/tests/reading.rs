//! Reading beyond what the vectors hold: lengths, both trailers and their bounds, round trip, listing.

mod common;

use common::{longest_day, telemetry, ELEMENTS, EXAMPLE_16, EXAMPLE_24};
use reference::eclipse::Shade;
use reference::file::{file_bytes, label_day, read};
use reference::label::Side;
use reference::listing::listing;
use reference::trailer::{Counts, Form};
use reference::{Refusal, Refused};

const REFUSED_12: Refused = Refused { refusal: Refusal::Trailer, place: 0 };

/// What reading says of a whole file.
fn outcome(file: &[u8]) -> Result<(Counts, Form), Refused> {
    read(file, file.len()).map(|file| (file.counts, file.form))
}

/// The longest day's file.
fn longest_file() -> Vec<u8> {
    let mut file = vec![0; file_bytes(1_024)];
    label_day(&ELEMENTS, &longest_day(), &mut file).unwrap();
    file
}

/// The bytes of a trailer.
fn words<const N: usize>(numbers: [u32; N]) -> Vec<u8> {
    numbers.into_iter().flat_map(u32::to_le_bytes).collect()
}

#[test]
fn listing_of_the_example() {
    for file in [&EXAMPLE_16[..], &EXAMPLE_24[..]] {
        assert_eq!(listing(file), "labels 1 training 1 test 0\n86400 17 1 1 1 -1 41200000\n");
    }
    assert_eq!(listing(&EXAMPLE_16[..15]), "refused 12 at 0\n");
}

/// The counts are the same, whichever of them the trailer stores.
#[test]
fn the_trailer_is_told() {
    let counts = Counts { labels: 1, training: 1, test: 0, dark: 1, dark_test: 0 };
    for ahead in [0, 1, 8, 100] {
        let with = |file: &[u8]| [vec![0; ahead], file.to_vec()].concat();
        assert_eq!(outcome(&with(&EXAMPLE_16)), Ok((counts, Form::Bytes16)));
        assert_eq!(outcome(&with(&EXAMPLE_24)), Ok((counts, Form::Bytes24)));
    }
    assert_eq!((Form::Bytes16.bytes(), Form::Bytes24.bytes()), (16, 24));
    assert_eq!(counts.trailer(Form::Bytes16), EXAMPLE_16[24..]);
    assert_eq!(counts.trailer(Form::Bytes24), EXAMPLE_24[24..]);
}

/// 0 lit, 1 dark, 2 part; every other byte is refused. Dark alone is counted as dark.
#[test]
fn shades_of_a_label() {
    let known = [Shade::Lit, Shade::Dark, Shade::Part];
    for byte in 0..=255 {
        let mut files = [EXAMPLE_16.to_vec(), EXAMPLE_24.to_vec()];
        files[1][36] = u8::from(byte == 1);
        for mut file in files {
            file[13] = byte;
            match known.get(usize::from(byte)) {
                Some(shade) => {
                    let read = read(&file, file.len()).unwrap();
                    assert_eq!(read.counts.dark, u32::from(*shade == Shade::Dark));
                    let label = read.labels().next().unwrap();
                    assert_eq!(label.shade, *shade);
                    assert_eq!(label.to_bytes(), file[..24]);
                    let line = format!("86400 17 1 {byte} 1 -1 41200000\n");
                    assert_eq!(listing(&file), format!("labels 1 training 1 test 0\n{line}"));
                }
                None => {
                    let refused = Refused { refusal: Refusal::Labels, place: 0 };
                    assert_eq!(outcome(&file), Err(refused));
                }
            }
        }
    }
}

#[test]
fn a_length_within_the_buffer_counts() {
    for file in [&EXAMPLE_16[..], &EXAMPLE_24[..]] {
        let mut buffer = file.to_vec();
        buffer.extend([0xee; 9]);
        assert!(read(&buffer, file.len()).is_ok());
        for length in [buffer.len(), buffer.len() + 1, usize::MAX] {
            assert_eq!(read(&buffer, length).unwrap_err(), REFUSED_12);
        }
    }
}

/// A trailer alone, and what is left of it when it is cut: from 23 to 16 bytes of that of 24 too, of which
/// the last 16 are no trailer.
#[test]
fn short_files() {
    for (form, bytes) in
        [(Form::Bytes16, words([0, 0, 0, 16])), (Form::Bytes24, words([0, 0, 0, 0, 0, 24]))]
    {
        assert_eq!(outcome(&bytes), Ok((Counts::default(), form)));
        for length in 0..bytes.len() {
            assert_eq!(outcome(&bytes[bytes.len() - length..]), Err(REFUSED_12), "{length} bytes");
        }
    }
}

/// A count beyond its bound is 12; within it, and not that of the labels, 13 behind the last label.
#[test]
fn bounds_of_the_counts() {
    // Two labels: training and dark, test and part.
    let mut labels = [EXAMPLE_16[..24].to_vec(), EXAMPLE_16[..24].to_vec()].concat();
    labels[24 + 8] = 65;
    labels[24 + 12] = Side::Test as u8;
    labels[24 + 13] = Shade::Part as u8;
    let counts = Counts { labels: 2, training: 1, test: 1, dark: 1, dark_test: 0 };
    let with = |trailer: Vec<u8>| outcome(&[labels.clone(), trailer].concat());
    assert_eq!(with(words([2, 1, 1, 64])), Ok((counts, Form::Bytes16)));
    assert_eq!(with(words([2, 1, 1, 1, 0, 72])), Ok((counts, Form::Bytes24)));

    let refused_13 = Err(Refused { refusal: Refusal::Labels, place: 2 });
    for (training, test, dark, dark_test, expected) in [
        (0, 1, 1, 0, refused_13),
        (1, 0, 1, 0, refused_13),
        (2, 0, 1, 0, refused_13),
        (1, 2, 1, 0, Err(REFUSED_12)),
        (2, u32::MAX, 1, 0, Err(REFUSED_12)),
        (1, 1, 0, 0, refused_13),
        (1, 1, 2, 0, refused_13),
        (1, 1, 3, 0, Err(REFUSED_12)),
        (1, 1, u32::MAX, 0, Err(REFUSED_12)),
        (1, 1, 1, 1, refused_13),
        // Over test alone, over dark alone, over both.
        (1, 1, 2, 2, Err(REFUSED_12)),
        (0, 2, 1, 2, Err(REFUSED_12)),
        (1, 1, 1, 2, Err(REFUSED_12)),
        (1, 1, 1, u32::MAX, Err(REFUSED_12)),
    ] {
        let said = with(words([2, training, test, dark, dark_test, 72]));
        assert_eq!(said, expected, "{training} {test} {dark} {dark_test}");
    }
}

/// 16 bytes with the distance of the trailer of 24, and 24 bytes with that of 16.
#[test]
fn the_distance_is_that_of_its_trailer() {
    let label = &EXAMPLE_16[..24];
    for (trailer, right) in [(words([1, 1, 0, 40]), 40_u32), (words([1, 1, 0, 1, 0, 48]), 48_u32)] {
        for distance in (0..200).chain([u32::MAX - 23, u32::MAX - 7, u32::MAX]) {
            let mut file = [label, &trailer].concat();
            let at = file.len() - 4;
            file[at..].copy_from_slice(&distance.to_le_bytes());
            assert_eq!(outcome(&file).is_ok(), distance == right, "{distance} for {right}");
        }
    }
}

/// Whether a reader that knows the trailer of 16 bytes alone lets a file's trailer pass, by document 01
/// before the counts of dark labels.
fn known_to_a_reader_of_16_bytes(file: &[u8]) -> bool {
    let Some(at) = file.len().checked_sub(16) else { return false };
    let [labels, training, test, distance] = [0, 4, 8, 12].map(|field| {
        let word = file[at + field..at + field + 4].try_into().unwrap();
        u64::from(u32::from_le_bytes(word))
    });
    labels <= 1_024
        && distance == 24 * labels + 16
        && distance <= file.len() as u64
        && training + test <= labels
}

/// No file that labelling writes passes a reader that knows 16 bytes alone.
#[test]
fn a_reader_of_16_bytes_refuses_24() {
    assert!(known_to_a_reader_of_16_bytes(&EXAMPLE_16));
    assert!(!known_to_a_reader_of_16_bytes(&EXAMPLE_24));
    let day = longest_day();
    for records in 0..=1_024 {
        let mut file = vec![0; file_bytes(records)];
        let counts = label_day(&ELEMENTS, &day[..16 * records], &mut file).unwrap();
        assert!(!known_to_a_reader_of_16_bytes(&file), "{records} records");
        let body = &file[..24 * records];
        let file = [body.to_vec(), counts.trailer(Form::Bytes16)].concat();
        assert!(known_to_a_reader_of_16_bytes(&file), "{records} records");
    }
}

/// With either trailer, and the counts are those of the labels.
#[test]
fn a_labelled_day_reads_back() {
    let with_24 = longest_file();
    let body = &with_24[..24 * 1_024];
    let counts = read(&with_24, with_24.len()).unwrap().counts;
    let with_16 = [body.to_vec(), counts.trailer(Form::Bytes16)].concat();
    for (bytes, form) in [(&with_16, Form::Bytes16), (&with_24, Form::Bytes24)] {
        let file = read(bytes, bytes.len()).unwrap();
        assert_eq!((file.counts, file.form), (counts, form));
        let count = |wanted: fn(Side, Shade) -> bool| {
            file.labels().filter(|label| wanted(label.side, label.shade)).count() as u32
        };
        assert_eq!(counts.labels, 1_024);
        assert_eq!(counts.training, count(|side, _| side == Side::Training));
        assert_eq!(counts.test, count(|side, _| side == Side::Test));
        assert_eq!(counts.dark, count(|_, shade| shade == Shade::Dark));
        assert_eq!(
            counts.dark_test,
            count(|side, shade| side == Side::Test && shade == Shade::Dark)
        );
        // Each count is of its own, so that none can stand for another.
        assert!(count(|_, shade| shade == Shade::Part) > 0);
        assert!(count(|side, _| side == Side::Withheld) > 0);
        assert!(0 < counts.dark_test && counts.dark_test < counts.dark.min(counts.test));
        for (label, bytes) in file.labels().zip(bytes.chunks_exact(24)) {
            assert_eq!(label.to_bytes(), bytes);
        }
    }
    assert_eq!(listing(&with_16), listing(&with_24));
}

/// 24 bytes a record and 24, and what lies behind them stays.
#[test]
fn room_of_labelling() {
    let day = telemetry([0, 60]);
    let mut output = vec![0x55; 80];
    assert_eq!(
        label_day(&ELEMENTS, &day, &mut output[..71]),
        Err(Refused { refusal: Refusal::OutputLength, place: 0 })
    );
    assert_eq!(output, [0x55; 80]);
    assert!(label_day(&ELEMENTS, &day, &mut output).is_ok());
    assert_eq!(output[72..], [0x55; 8]);
    assert!(read(&output, 72).is_ok());
}

#[test]
fn a_late_bad_record_leaves_the_output() {
    let day = telemetry([0, 60, common::LAST_TIME + 1]);
    let mut output = vec![0x55; 100];
    let refused = label_day(&ELEMENTS, &day, &mut output).unwrap_err();
    assert_eq!(refused, Refused { refusal: Refusal::Time, place: 2 });
    assert_eq!(output, vec![0x55; 100]);
}
