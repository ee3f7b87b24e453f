//! Packets: days cut anywhere against the day at once, each refusal with what it leaves, and the bytes of the
//! state.

mod common;

use common::{day, telemetry, OSCAR_10};
use yurdelmiz::{
    ffi, label_to_vec, read, Counts, Day, Elements, Form, Label, LabelFile, Refusal, Refused,
};

/// What an output holds before a call.
const FILL: u8 = 7;

/// A second over a year behind the epoch.
const LATE: i64 = 31_622_401;

fn opened() -> Day {
    Day::open(&OSCAR_10).unwrap()
}

/// The day of a state with a piece of its bytes changed.
fn with(day: &Day, at: usize, piece: &[u8]) -> Day {
    let mut bytes = day.to_bytes();
    bytes[at..at + piece.len()].copy_from_slice(piece);
    Day::from_bytes(&bytes)
}

/// The state of a day with so many labels, none of which is counted further.
fn with_labels(labels: u32) -> Day {
    with(&opened(), 52, &labels.to_le_bytes())
}

/// Takes a packet, and sees that the labels are those that it completes, with exactly their room or more.
#[track_caller]
fn take(day: &mut Day, packet: &[u8]) -> Vec<u8> {
    let mut roomy = day.clone();
    let before = day.counts().labels;
    let completed = (usize::from(day.held()) + packet.len()) / 16;
    let labels = day.packet_to_vec(packet).unwrap();
    assert_eq!(labels.len(), completed * Label::SIZE);
    assert_eq!(day.counts().labels, before + completed as u32);
    let mut output = vec![FILL; labels.len() + 30];
    assert_eq!(roomy.packet(packet, &mut output), Ok(completed));
    assert!(output[..labels.len()] == labels);
    assert_eq!(output[labels.len()..], [FILL; 30]);
    assert_eq!(roomy, *day);
    labels
}

/// The file of a day in packets.
#[track_caller]
fn fed<'a>(packets: impl IntoIterator<Item = &'a [u8]>) -> Vec<u8> {
    let mut day = opened();
    let mut file: Vec<u8> = packets.into_iter().flat_map(|packet| take(&mut day, packet)).collect();
    let open = day.clone();
    file.extend(day.close_to_vec().unwrap());
    assert!(!open.is_closed() && day.is_closed());
    assert_eq!(day, with(&open, 72, &[1]));
    let (counts, form) = read(&file, file.len()).expect("the reader takes what is written");
    assert_eq!((counts, form), (day.counts(), Form::Bytes24));
    file
}

/// That a packet is refused, and that nothing is changed by it.
#[track_caller]
fn refuses(day: &Day, packet: &[u8], room: usize, refusal: Refusal, place: u32) {
    let mut after = day.clone();
    let mut output = vec![FILL; room];
    let refused = Err(Refused { refusal, place });
    assert_eq!(after.packet(packet, &mut output), refused);
    assert_eq!(after, *day, "a refusal changed the day");
    assert!(output.iter().all(|byte| *byte == FILL), "a refusal wrote");
}

/// The same of closing.
#[track_caller]
fn refuses_to_close(day: &Day, room: usize, refusal: Refusal) {
    let mut after = day.clone();
    let mut output = vec![FILL; room];
    assert_eq!(after.close(&mut output), Err(Refused { refusal, place: 0 }));
    assert_eq!(after, *day, "a refusal changed the day");
    assert!(output.iter().all(|byte| *byte == FILL), "a refusal wrote");
}

/// Labels of every side, some of them dark.
#[test]
fn a_day_in_packets() {
    let bytes = day();
    let file = label_to_vec(&OSCAR_10, &bytes).unwrap();
    let counts = LabelFile::read(&file).unwrap().counts();
    assert!(counts.training > 0 && counts.dark_test > 0 && counts.dark > counts.dark_test);
    for size in (1..=33).chain([100, 4_800]) {
        let packets = bytes.chunks(size).flat_map(|packet| [packet, &[]]);
        assert!(fed(packets) == file, "packets of {size} bytes");
    }
    assert_eq!(fed([]), label_to_vec(&OSCAR_10, &[]).unwrap());
}

#[test]
fn every_cut_into_two() {
    let bytes = &day()[..64];
    let file = label_to_vec(&OSCAR_10, bytes).unwrap();
    for cut in 0..=64 {
        assert_eq!(fed([&bytes[..cut], &bytes[cut..]]), file, "cut at {cut}");
    }
}

#[test]
fn what_it_tells() {
    let bytes = day();
    let mut day = opened();
    let none = Counts { labels: 0, training: 0, test: 0, dark: 0, dark_test: 0 };
    assert_eq!((day.elements(), day.counts(), day.held()), (OSCAR_10, none, 0));
    take(&mut day, &bytes[..16 * 200 + 9]);
    let file = label_to_vec(&OSCAR_10, &bytes[..16 * 200]).unwrap();
    assert_eq!(day.counts(), LabelFile::read(&file).unwrap().counts());
    assert_eq!((day.elements(), day.held(), day.is_closed()), (OSCAR_10, 9, false));
    // Kept elsewhere and taken up again, it goes on as it was.
    let mut other = Day::from_bytes(&day.to_bytes());
    assert_eq!(take(&mut other, &bytes[3_209..]), take(&mut day, &bytes[3_209..]));
    assert_eq!(other.close_to_vec(), day.close_to_vec());
}

#[test]
fn elements_are_refused_at_opening() {
    for (elements, refusal) in [
        (Elements { eccentricity: 9_000_001, ..OSCAR_10 }, Refusal::Eccentricity),
        (Elements { epoch_revolution: 100_000, ..OSCAR_10 }, Refusal::EpochRevolution),
        (
            Elements { half_mean_motion_derivative: 1_000_001, ..OSCAR_10 },
            Refusal::MeanMotionDerivative,
        ),
        (Elements { epoch: i64::MAX, ..OSCAR_10 }, Refusal::Time),
    ] {
        assert_eq!(Day::open(&elements), Err(refusal));
        let day = with(&opened(), 0, &elements.to_bytes());
        refuses(&day, &[], 0, Refusal::Day, 0);
        refuses_to_close(&day, 24, Refusal::Day);
    }
}

/// Closed twice, a packet behind it, and every byte that is neither 0 nor 1.
#[test]
fn closed_days() {
    let mut closed = opened();
    take(&mut closed, &day()[..32]);
    closed.close_to_vec().unwrap();
    for byte in 1..=255 {
        let day = with(&closed, 72, &[byte]);
        assert_eq!(day.is_closed(), byte == 1);
        for packet in [&[][..], &day.to_bytes()[..32]] {
            refuses(&day, packet, 100, Refusal::Day, 0);
        }
        refuses_to_close(&day, 24, Refusal::Day);
    }
}

#[test]
fn states_of_no_day() {
    for held in 16..=255 {
        let day = with(&opened(), 73, &[held]);
        assert_eq!(day.held(), held);
        refuses(&day, &[0; 40], 1_000, Refusal::Day, 0);
        refuses_to_close(&day, 24, Refusal::Day);
        assert!(day.clone().packet_to_vec(&[]).is_err());
    }
    let max = u32::MAX;
    for (counts, good) in [
        ([1_024, 1_000, 24, 1_024, 24], true),
        ([1_025, 0, 0, 0, 0], false),
        ([max, 0, 0, 0, 0], false),
        ([9, 4, 5, 9, 5], true),
        ([9, 5, 5, 0, 0], false),
        ([9, max, 1, 0, 0], false),
        ([9, max, max, 0, 0], false),
        ([9, 4, 5, 10, 0], false),
        ([9, 4, 5, 9, 6], false),
        ([9, 4, 5, 4, 5], false),
        ([9, 4, 5, 9, max], false),
    ] {
        let day = with(&opened(), 52, &counts.map(u32::to_le_bytes).concat());
        if good {
            assert_eq!(take(&mut day.clone(), &[1; 15]), []);
            let trailer = day.clone().close_to_vec().unwrap();
            assert_eq!(trailer[..20], counts.map(u32::to_le_bytes).concat());
        } else {
            refuses(&day, &[1; 15], 0, Refusal::Day, 0);
            refuses_to_close(&day, 24, Refusal::Day);
        }
    }
}

/// The 1,025th record, and a day that ends within one.
#[test]
fn lengths() {
    let good = telemetry(&[0; 3]);
    refuses(&with_labels(1_022), &good, 1_000, Refusal::TelemetryLength, 0);
    refuses(&with_labels(1_022), &good, 0, Refusal::TelemetryLength, 0);
    let mut day = with_labels(1_022);
    take(&mut day, &good[..47]);
    assert_eq!((day.counts().labels, day.held()), (1_024, 15));
    refuses(&day, &good[47..], 24, Refusal::TelemetryLength, 0);
    refuses_to_close(&day, 24, Refusal::TelemetryLength);
    // More records than a day has need no room for them all.
    let refused = Refused { refusal: Refusal::TelemetryLength, place: 0 };
    assert_eq!(opened().packet_to_vec(&vec![0; 1 << 22]), Err(refused));
}

#[test]
fn the_room() {
    let bytes = day();
    let mut day = opened();
    take(&mut day, &bytes[..10]);
    for room in 0..48 {
        refuses(&day, &bytes[10..40], room, Refusal::OutputLength, 0);
    }
    let mut output = [FILL; 48];
    assert_eq!(day.packet(&bytes[10..40], &mut output), Ok(2));
    assert_eq!(day.held(), 8);
    for room in 0..24 {
        refuses_to_close(&opened(), room, Refusal::OutputLength);
    }
}

/// The place counts over the whole day; the day goes on behind a record that is refused.
#[test]
fn a_refused_record() {
    let bytes = telemetry(&[0, 60, LATE, 120]);
    for cut in 0..48 {
        let mut day = opened();
        take(&mut day, &bytes[..cut]);
        refuses(&day, &bytes[cut..], 1_000, Refusal::Time, 2);
    }
    let mut day = opened();
    let mut file = take(&mut day, &bytes[..32]);
    let refused = day.packet_to_vec(&bytes[32..48]).unwrap_err();
    assert!(refused.to_string().starts_with("refused 8 at 2: "), "{refused}");
    file.extend(take(&mut day, &bytes[48..]));
    file.extend(day.close_to_vec().unwrap());
    assert_eq!(file, label_to_vec(&OSCAR_10, &telemetry(&[0, 60, 120])).unwrap());
}

/// What stands behind the bytes held does not matter; it is zeros after a packet, and stays in closing.
#[test]
fn bytes_behind_those_held() {
    let bytes = day();
    for held in 0..15 {
        let mut clean = opened();
        take(&mut clean, &bytes[..held]);
        let mut other = with(&clean, 74 + held, &vec![0xee; 15 - held]);
        assert_eq!(take(&mut other, &[]), []);
        assert_eq!(other, clean, "{held} bytes held");
    }
    let open = with(&opened(), 74, &[0xee; 15]);
    let mut day = open.clone();
    day.close_to_vec().unwrap();
    assert_eq!(day, with(&open, 72, &[1]));
}

/// A state or elements of another length are no refusal of the table, and change nothing.
#[test]
fn other_lengths() {
    let elements = OSCAR_10.to_bytes();
    let state = opened().to_bytes();
    for length in [0, 1, 88, 90, 200] {
        let before: Vec<u8> = state.iter().copied().cycle().take(length).collect();
        let (mut day, mut output) = (before.clone(), [FILL; 48]);
        // SAFETY: the slices are `elements`, `day`, a packet of no bytes and `output`.
        let told = unsafe {
            [
                ffi::yurdelmiz_open(elements.as_ptr(), 52, day.as_mut_ptr(), length).into(),
                ffi::yurdelmiz_packet(
                    day.as_mut_ptr(),
                    length,
                    [].as_ptr(),
                    0,
                    output.as_mut_ptr(),
                    48,
                ),
                ffi::yurdelmiz_close(day.as_mut_ptr(), length, output.as_mut_ptr(), 48),
            ]
        };
        assert_eq!(told, [u64::from(ffi::BAD_BUFFER); 3], "{length} bytes");
        assert_eq!((day, output), (before, [FILL; 48]));
    }
    for length in [0, 51] {
        let mut day = [FILL; ffi::DAY_BYTES];
        // SAFETY: the slices are the start of `elements`, and `day`.
        let status =
            unsafe { ffi::yurdelmiz_open(elements.as_ptr(), length, day.as_mut_ptr(), day.len()) };
        assert_eq!((status, day), (ffi::BAD_BUFFER, [FILL; ffi::DAY_BYTES]));
    }
}
