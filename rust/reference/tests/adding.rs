//! Adding telemetry to a file, beyond what the vectors hold.

mod common;

use common::{longest_day, telemetry, ELEMENTS, EXAMPLE_16, EXAMPLE_24, LAST_TIME};
use reference::file::{add, file_bytes, label_day, read, Added};
use reference::orbit::Elements;
use reference::trailer::{Counts, Form};
use reference::{Refusal, Refused};

fn labelled(telemetry: &[u8]) -> (Vec<u8>, Counts) {
    let mut file = vec![0; file_bytes(telemetry.len() / 16)];
    let counts = label_day(&ELEMENTS, telemetry, &mut file).unwrap();
    (file, counts)
}

/// The file of a day with a trailer of this form.
fn labelled_with(form: Form, telemetry: &[u8]) -> Vec<u8> {
    let (file, counts) = labelled(telemetry);
    let body = file[..file.len() - Form::Bytes24.bytes()].to_vec();
    [body, counts.trailer(form)].concat()
}

/// A file with bytes ahead of it and room behind it, and the file's length.
fn lent(ahead: usize, file: &[u8], behind: usize) -> (Vec<u8>, usize) {
    let buffer = [vec![0xbb; ahead], file.to_vec(), vec![0xcc; behind]].concat();
    (buffer, ahead + file.len())
}

/// What adding says, where it leaves the buffer as it was.
fn refused(elements: &Elements, buffer: &[u8], length: usize, telemetry: &[u8]) -> (Refusal, u32) {
    let mut lent = buffer.to_vec();
    let refused = add(elements, &mut lent, length, telemetry).unwrap_err();
    assert_eq!(lent, buffer, "a refusal wrote");
    (refused.refusal, refused.place)
}

/// Cut anywhere, with either trailer: the file of the whole day, and no other byte changed.
#[test]
fn two_parts_make_the_day() {
    let day = telemetry((0..40).map(|record| record * 2_000));
    let (whole, counts) = labelled(&day);
    for cut in 0..=40 {
        let (before, added) = day.split_at(16 * cut);
        for form in Form::ALL {
            for (ahead, behind) in [(0, 1_000), (37, 1_001)] {
                let file = labelled_with(form, before);
                let (mut buffer, length) = lent(ahead, &file, behind);
                let end = ahead + whole.len();
                let expected = [&buffer[..ahead], &whole[..], &buffer[end..]].concat();
                let answer = add(&ELEMENTS, &mut buffer, length, added);
                assert_eq!(answer, Ok(Added { counts, length: end }));
                assert!(buffer == expected, "cut at {cut}, {ahead} bytes ahead");
            }
        }
    }
}

/// The longest day in many parts, empty ones among them.
#[test]
fn many_parts_make_the_day() {
    let day = longest_day();
    let (whole, counts) = labelled(&day);
    let mut buffer = vec![0xcc; whole.len()];
    buffer[..16].copy_from_slice(&Counts::default().trailer(Form::Bytes16));
    let mut length = 16;
    let mut from = 0;
    for records in [0, 1, 0, 100, 400, 0, 522, 1, 0] {
        let part = &day[16 * from..16 * (from + records)];
        let added = add(&ELEMENTS, &mut buffer, length, part).unwrap();
        assert_eq!(added.counts.labels as usize, from + records);
        (length, from) = (added.length, from + records);
        assert_eq!(read(&buffer, length).unwrap().counts, added.counts);
    }
    assert_eq!((from, length), (1_024, whole.len()));
    assert_eq!(read(&buffer, length).unwrap().counts, counts);
    assert!(buffer == whole);
}

/// Nothing added: 16 bytes become 24, and 24 stay.
#[test]
fn nothing_added() {
    for (file, behind) in [(&EXAMPLE_16[..], 8), (&EXAMPLE_24[..], 0)] {
        let (mut buffer, length) = lent(5, file, behind + 3);
        let added = add(&ELEMENTS, &mut buffer, length, &[]).unwrap();
        assert_eq!(added.length, 5 + EXAMPLE_24.len());
        assert_eq!(buffer, lent(5, &EXAMPLE_24, 3).0);
    }
    let (buffer, length) = lent(5, &EXAMPLE_16, 7);
    assert_eq!(refused(&ELEMENTS, &buffer, length, &[]), (Refusal::OutputLength, 0));
}

/// Room for the labels of both parts from the first label on: exactly enough, and a byte short, whatever
/// stands ahead.
#[test]
fn room_for_both_parts() {
    let day = telemetry([0, 60, 120]);
    for form in Form::ALL {
        let file = labelled_with(form, &day[..32]);
        for ahead in [0, 1, 24, 500] {
            let enough = file_bytes(3) - file.len();
            let (mut buffer, length) = lent(ahead, &file, enough);
            assert_eq!(
                refused(&ELEMENTS, &buffer[..buffer.len() - 1], length, &day[32..]),
                (Refusal::OutputLength, 0)
            );
            let added = add(&ELEMENTS, &mut buffer, length, &day[32..]).unwrap();
            assert_eq!(added.length, buffer.len());
            assert!(buffer[ahead..] == labelled(&day).0);
        }
    }
}

/// 1,024 labels in all are the most, and a ragged length is refused wherever it stands.
#[test]
fn records_of_both_parts() {
    let day = longest_day();
    let mut more = day.clone();
    more.extend(telemetry([0]));
    for (before, ok) in [(0, 1_024), (1, 1_023), (1_000, 24), (1_023, 1), (1_024, 0)] {
        let file = labelled_with(Form::Bytes16, &day[..16 * before]);
        let (buffer, length) = lent(0, &file, 30_000);
        let mut lent = buffer.clone();
        let fits = &day[16 * before..];
        assert_eq!(fits.len(), 16 * ok);
        assert_eq!(add(&ELEMENTS, &mut lent, length, fits).unwrap().counts.labels, 1_024);
        let told = (Refusal::TelemetryLength, 0);
        assert_eq!(refused(&ELEMENTS, &buffer, length, &more[16 * before..]), told);
        let ragged = [fits, &[0; 15]].concat();
        assert_eq!(refused(&ELEMENTS, &buffer, length, &ragged), told);
    }
}

/// A place counts the labels of the file too.
#[test]
fn the_place_of_a_record() {
    let file = labelled(&telemetry([0, 60, 120])).0;
    let (buffer, length) = lent(9, &file, 1_000);
    for (times, place) in [
        (vec![LAST_TIME + 1], 3),
        (vec![LAST_TIME, LAST_TIME + 1], 4),
        (vec![0, 0, i64::MIN, i64::MAX], 5),
    ] {
        assert_eq!(refused(&ELEMENTS, &buffer, length, &telemetry(times)), (Refusal::Time, place));
    }
}

/// Everything wrong at once, and mended one by one: the elements, 12, 13, 10, 11, 8.
#[test]
fn order_of_the_refusals() {
    let bad_elements = Elements { eccentricity: 9_000_001, ..ELEMENTS };
    let bad_epoch = Elements { epoch: i64::MAX, ..ELEMENTS };
    let (mut file, _) = labelled(&telemetry([0, 60]));
    file[24 + 15] = 1;
    let bad_label = file.clone();
    file[24 + 15] = 0;
    let mut bad_trailer = bad_label.clone();
    bad_trailer[48] = 3;
    let mut bad_count = file.clone();
    bad_count[48 + 12] ^= 1;
    let bad_day = telemetry([0, LAST_TIME + 1]);
    let ragged = [&bad_day[..], &[0]].concat();
    let length = file.len();

    assert_eq!(refused(&bad_elements, &bad_trailer, length, &ragged), (Refusal::Eccentricity, 0));
    assert_eq!(refused(&bad_epoch, &bad_trailer, length, &ragged), (Refusal::Time, 0));
    assert_eq!(refused(&ELEMENTS, &bad_trailer, length, &ragged), (Refusal::Trailer, 0));
    assert_eq!(refused(&ELEMENTS, &file, length + 1, &ragged), (Refusal::Trailer, 0));
    assert_eq!(refused(&ELEMENTS, &bad_label, length, &ragged), (Refusal::Labels, 1));
    assert_eq!(refused(&ELEMENTS, &bad_count, length, &ragged), (Refusal::Labels, 2));
    assert_eq!(refused(&ELEMENTS, &file, length, &ragged), (Refusal::TelemetryLength, 0));
    assert_eq!(refused(&ELEMENTS, &file, length, &bad_day), (Refusal::OutputLength, 0));
    let (roomy, _) = lent(0, &file, 48);
    assert_eq!(refused(&ELEMENTS, &roomy, length, &bad_day), (Refusal::Time, 3));
}

/// A file of other elements, or with labels of others: its labels stay as they are.
#[test]
fn labels_of_the_file_stay() {
    let (mut buffer, length) = lent(0, &EXAMPLE_16, 32);
    let added = add(&ELEMENTS, &mut buffer, length, &telemetry([0])).unwrap();
    assert_eq!(added.length, buffer.len());
    assert_eq!(buffer[..24], EXAMPLE_16[..24]);
    assert_eq!(buffer[24..48], labelled(&telemetry([0])).0[..24]);
    let refused = add(&ELEMENTS, &mut buffer, length, &[]).unwrap_err();
    assert_eq!(refused, Refused { refusal: Refusal::Trailer, place: 0 }, "the length is another");
}
